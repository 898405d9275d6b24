#!/usr/bin/env python3
"""Images that a shorter recording was written over, in place: the older recording goes on behind its end.

    trials/written_over.py [--program PROGRAM] [--shelves N] [--seed N]

Each shelf has one volume of a set with two to four files, in ASCII or EBCDIC, and behind its end the rest of an older recording
of the same volume, whose files have the same numbers. In half of the shelves some blocks of the new recording are unreadable.
The old bytes begin anywhere, so a wrong word follows the end. `survey`, `unpack` with and without `--salvage`, `extract --again`
and `salvage` may report none of the old files: what is complete has to be the new file, and if nothing is unreadable, every new
file is complete and nothing is in conflict.

Prints each wrong file with the seed of its shelf, and counts; exit status 1 if there is one.
"""
import random
import subprocess
import sys

import reels
from common import Results, arguments, folder_with
from wrong_words import SET, recoded

END = b"\xFF" * 4


def recording(rng, coded, count):
    """Files and the items of their volume, all on one."""
    while True:
        files = [reels.file_of(rng, number, " 85100") for number in range(1, count + 1)]
        volumes = reels.volumes_of(SET, files, rng, "WV")
        if len(volumes) == 1:
            return files, [recoded(coded, item) for item in volumes[0]]


def shelf(rng):
    """The files, the image, and whether all of the new recording is readable."""
    coded, count = rng.choice(["", "EBCDIC"]), rng.randint(2, 4)
    files, items = recording(rng, coded, count)
    older, old_items = recording(rng, coded, count + rng.randint(0, 2))
    reel = reels.Reel("", SET, items)
    is_whole = rng.random() < .5
    if not is_whole:
        reel.bad = {at for at, item in enumerate(items) if item.kind == "data" and rng.random() < .3}
    new = reel.image()
    if rng.random() < .5 and new.endswith(END):
        new = new[:-4]
    old = reels.Reel("", SET, old_items).image()
    return files, older, new + old[len(new):], is_whole, len(old) > len(new)


def check(trial, program, number):
    rng = random.Random(number)
    files, older, image, is_whole, is_longer = shelf(rng)
    if not is_longer:
        return 0
    with folder_with({"over.tap": image}) as folder:
        def call(*words):
            done = subprocess.run([program, *words], cwd=folder, capture_output=True, check=False)
            trial.expect(done.returncode in (0, 1, 3), f"{number}: {words}: status {done.returncode} {done.stderr[-300:]}")
            return done

        def judge(path, file_number, words):
            text = (folder / path).read_bytes()
            is_new = file_number <= len(files) and text == files[file_number - 1].text
            trial.expect(is_new, f"{number}: {words}: {path} is complete, and not the new file")
            return is_new

        survey = call("survey", "--tsv", "over.tap").stdout.decode().splitlines()
        found = {row.split("\t")[2] for row in survey if row.startswith("FILE\t")}
        trial.expect(found <= {str(file.number) for file in files}, f"{number}: files {found}")
        for options in ((), ("--salvage",)):
            into = f"u{len(options)}"
            (folder / into).mkdir()
            out = call("unpack", into, "over.tap", *options).stdout.decode()
            made = [path for path in (folder / into).iterdir() if path.suffix not in (".stage", ".salvaged", ".gaps")]
            right = [judge(f"{into}/{path.name}", int(path.name.split(".")[1]), "unpack") for path in sorted(made)]
            if is_whole:
                trial.expect(len(right) == len(files) and "CONFLICT" not in out, f"{number}: {out}")
        for file in older:
            for words in (("extract", "--again"), ("salvage",)):
                out = f"{words[0]}{file.number}"
                done = call(words[0], SET, str(file.number), out, "over.tap", *words[1:])
                if b"\nCOMPLETE" in b"\n" + done.stdout and (folder / out).exists():
                    judge(out, file.number, words[0])
                elif is_whole and file.number <= len(files):
                    trial.expect(False, f"{number}: {words}: file {file.number} is not complete: {done.stdout}")
    return 1


def main():
    options = arguments(__doc__, ("--shelves", 300, "how many"), ("--seed", 1, "of the first shelf"))
    trial, seen = Results(), 0
    for number in range(options.seed, options.seed + options.shelves):
        seen += check(trial, options.program, number)
    print(f"{seen} shelves with an older recording behind the end")
    return trial.end()


if __name__ == "__main__":
    sys.exit(main())
