#!/usr/bin/env python3
"""A collection of some 400 images, and the results of `tape survey` and `tape unpack` for it. Run manually; CI does not run it.

    ./shelf.py [--program PATH] [--seed N] [--sets N] [--keep FOLDER] [--times]

The images are made here, from docs/FORMATS.md alone: sets of files in the three formats on one to four volumes, one
or two copies of each volume, complete, cut at some byte, with blocks that are unreadable in one copy or in both, a file
whose header is unreadable, reels that are missing, two sets with one identifier, and reels that are not our volumes.
Their order is random. What can be recovered from them is calculated here too, by positions and readings.

Three commands follow: `survey`, `unpack`, and `unpack` again with the missing reels found. Each file that can be
recovered must exist, byte for byte, and no other; for each other one the missing block must be reported. The files that
`survey --tsv` lists must be those of the catalogue's description, and the volumes that `survey` lists those of the
set, with one missing volume for each run of lost reels. Of two of the other reels something is known too: one has
labels in EBCDIC, and one, whose image ends in its data, a file without HDR2: each of its blocks is a record, although
the others have second labels. Prints each wrong result, and counts; exit status 1 if there is one.

--times: `survey` against `list` of each image, `unpack` against `extract` of each file, and 10,000 names from a list.
"""

import datetime
import resource
import subprocess
import sys
import tempfile
import time
from pathlib import Path

from common import Results, arguments
from reels import formed_on, headers_of, lacking, listed_volumes, make_shelf, sections_of, truly_there, wanted


class Trial(Results):
    """The runs of the program, and the wrong results."""

    def __init__(self, options, folder):
        self.options, self.folder = options, folder

    def run(self, *words, names=None):
        text = None if names is None else "\0".join(names)
        listed = [] if names is None else ["--files-from", "-", "--null"]
        return subprocess.run([self.options.program, *words, *listed], cwd=self.folder, input=text, capture_output=True,
            text=True, check=False)


# The set of the reel without HDR2: its file, the state and the volumes that `survey` prints, and the report of `unpack`.
RT11 = "RT11A"
RT11_ROW = ["RT.DAT", "1985-04-10", "CUT", "1", RT11, "", "1:CUT;", "", "", ""]
RT11_AWAITS = "AWAITS 1 1 0 out/RT11A_.1.RT.DAT.stage"


def notices(names):
    """The lines on standard error about images that do not follow the standard, by the table in REFERENCE.md."""
    told = {"ebcdic.tap": "labels in EBCDIC", "rt11.tap": "a file has no HDR2"}
    return "".join(f"  image {at}: {told[name]}\n" for at, name in enumerate(names, 1) if name in told)


def numbers_in(text):
    """The numbers that a line is about: one, or a range."""
    ends = [int(number) for number in text.split("-")]
    return range(ends[0], ends[-1] + 1)


def date_of(day):
    """The date that the six characters of a label are."""
    first = datetime.date((1900 if day[0] == " " else 2000) + int(day[1:3]), 1, 1)
    return (first + datetime.timedelta(int(day[3:]) - 1)).isoformat()


def check_survey(trial, shelf, there, names):
    """The rows of files, each against the catalogue's description."""
    done = trial.run("survey", "--tsv", names=names)
    trial.expect((done.returncode, done.stderr) == (3, notices(names)), f"survey: status {done.returncode}, {done.stderr!r}")
    rows = [line.split("\t") for line in done.stdout.splitlines()]
    told = {(row[1], number): row for row in rows if row[0] == "FILE" for number in numbers_in(row[2])}
    for set_id, files in shelf.files.items():
        if set_id == shelf.mixed:
            trial.expect(told[set_id, 1][8] == "CONFLICT", f"survey: {told[set_id, 1]}")
            continue
        reels = [reel for reel in there if reel.set_id == set_id]
        met = {key[0] for reel in reels for key in sections_of(reel)}
        headed, formed = ({file for reel in reels for file in found(reel)} for found in (headers_of, formed_on))
        for file in files:
            row = told.get((set_id, file.number))
            trial.expect((row is None) == (file.number > max(met, default=0)), f"survey: {set_id} {file.number}: {row}")
            if row is not None:
                section = lacking(file.number, reels)
                want = ["COMPLETE", ""] if section is None else [row[5], str(section)]
                right = row[5:7] == want and (section is None) == (row[5] == "COMPLETE")
                trial.expect(right, f"survey: {set_id} {file.number}: {row}, {section}")
                day = date_of(file.day) if file.number in headed else ""
                form = [str(each) for each in file.shape] if file.number in formed else [""] * 3
                right = row[4] == day and row[10:] == form
                trial.expect(right, f"survey: {set_id} {file.number}: {row}, expected {day!r}, {form}")
    trial.expect(told[RT11, 1][3:] == RT11_ROW, f"survey: {told[RT11, 1]}")
    return len(rows)


def lines_of_volumes(text):
    """The volumes of each set in a survey in words."""
    found, set_id = {}, None
    for line in text.splitlines():
        if line.startswith("Set "):
            set_id = line[4:].split(":")[0]
        elif line.startswith("  Volumes: "):
            found[set_id] = line[11:]
        elif line.startswith(" " * 11) and set_id in found and found[set_id].endswith(","):
            found[set_id] += " " + line[11:]
    return {set_id: line.split(", ") for set_id, line in found.items()}


def check_volumes(trial, shelf, there, names):
    """The volumes of each set, with those that are missing; and the lines are at most 80 columns long."""
    done = trial.run("survey", "--all", names=names)
    trial.expect((done.returncode, done.stderr) == (3, notices(names)), f"survey: status {done.returncode}, {done.stderr!r}")
    trial.expect(all(len(line) <= 80 for line in done.stdout.partition("\nSet ")[2].splitlines()), "survey: a long line")
    told, missing, by_hand = lines_of_volumes(done.stdout), 0, 0
    for set_id in shelf.files:
        reels = [reel for reel in there if reel.set_id == set_id]
        want = listed_volumes(reels)
        trial.expect(told.pop(set_id, []) == want, f"survey: volumes of {set_id}, wanted {want}")
        missing += sum(volume.startswith("missing") for volume in want)
        if want and set_id != shelf.mixed:
            true = truly_there([reel for reel in shelf.reels if reel.set_id == set_id], lambda reel: reel in there)
            by_hand += true is not None
            trial.expect(true in (None, want), f"survey: volumes of {set_id}, wanted {want}, truly {true}")
    trial.expect(told == {RT11: [RT11]}, f"survey: other volumes: {told}")
    return f"{missing} volumes missing, {by_hand} sets of which each volume is whole or lost"


def check_unpack(trial, shelf, there, names, day):
    """The files that exist, byte for byte, and the report of each other file."""
    out = trial.folder / "out"
    before = {path.name: path.read_bytes() for path in out.iterdir()}
    done = trial.run("unpack", "out", names=names)
    right = done.stderr == notices(names) and done.returncode in (0, 3)
    trial.expect(right, f"unpack: status {done.returncode}, {done.stderr!r}")
    lines = done.stdout.splitlines()
    total = lines.pop()
    unread = [line for line in lines if line.startswith("INCOMPLETE IMAGE ")]
    trial.expect(unread and unread == lines[-len(unread):], f"unpack: the images that were not read: {unread}")
    lines = lines[:-len(unread)]
    # Only of the set that was written twice may a section follow the end of its file.
    mixed = {f"SECTION AFTER END {reel.name}" for reel in there if reel.set_id == shelf.mixed}
    after = [line for line in lines if line.startswith("SECTION AFTER END ")]
    trial.expect(set(after) <= mixed, f"unpack: {after}")
    lines = [line for line in lines if line not in after]
    trial.expect(all(line.startswith("FILE ") for line in lines), f"unpack: {done.stdout[:200]!r}")
    # A set identifier has six characters, of which the last ones may be spaces.
    lines = [("FILE", line[5:11].rstrip(), *line[12:].split(" ", 1)) for line in lines]
    lines = [(*line[:2], number, line[3]) for line in lines for number in numbers_in(line[2])]
    told = {(line[1], line[2]): line[3] for line in lines}
    trial.expect(len(told) == len(lines), "unpack: a file is reported twice")
    counts = dict.fromkeys(["complete", "exists", "awaits", "not found", "conflict"], 0)
    for set_id, files in shelf.files.items():
        reels = [reel for reel in there if reel.set_id == set_id]
        greatest = max((key[0] for reel in reels for key in sections_of(reel)), default=0)
        headers = set().union(*(headers_of(reel) for reel in reels))
        for file in files:
            line = told.pop((set_id, file.number), "")
            made = [path for path in out.glob(f"{set_id}.{file.number}.*") if path.suffix != ".stage"]
            kept = any(path.name in before for path in made)
            want = wanted(file.number, reels)
            if set_id == shelf.mixed:
                fate, right = "conflict", line == "CONFLICT" and not made
            elif file.number > greatest:
                fate, right = "not found", not line and not made
            elif file.number not in headers:
                fate, right = "not found", line == "NOT FOUND" and not made
            elif want is None:
                fate = "exists" if kept else "complete"
                right = line.startswith(fate.upper()) and [path.read_bytes() for path in made] == [file.text]
            else:
                fate, right = "awaits", line.startswith(f"AWAITS {file.number} {want[0]} {want[1]} ") and not made
            counts[fate] += 1
            trial.expect(right, f"unpack, day {day}: {set_id} {file.number}: {line!r}, {fate}, expected {want}")
    trial.expect(told == {(RT11, 1): RT11_AWAITS}, f"unpack: other lines: {told}")
    kinds = [len([line for line in lines if line[3].startswith(word)]) for word in ("COMPLETE ", "EXISTS ", "AWAITS ", "CONFLICT", "NOT FOUND")]
    want = "TOTAL {} complete {} existing {} incomplete {} in conflict {} not found 0 failed".format(*kinds)
    trial.expect(total == want, f"unpack, day {day}: {total!r}, wanted {want!r}")
    trial.expect(done.returncode == 3, f"unpack: status {done.returncode}")
    for name, content in before.items():
        if not name.endswith(".stage"):
            trial.expect((out / name).read_bytes() == content, f"unpack: {name} was written over")
    trial.expect(not list(out.glob("*.part*")), "unpack: a draft was left")
    return counts


def take_times(trial, shelf, names):
    """Seconds of `survey` and of `list`, of `unpack` and of `extract`, and the memory of 10,000 names."""

    def seconds(call):
        best = []
        for _ in range(3):
            start = time.perf_counter()
            call()
            best.append(time.perf_counter() - start)
        return min(best)

    def list_each():
        for name in names:
            trial.run("list", name)

    def unpack_all():
        for path in (trial.folder / "out").iterdir():
            path.unlink()
        trial.run("unpack", "out", names=names)

    def extract_each():
        for set_id, files in shelf.files.items():
            reels = [reel.name for reel in shelf.reels if reel.set_id == set_id]
            for file in files:
                (trial.folder / "one").unlink(missing_ok=True)
                trial.run("extract", set_id, str(file.number), "one", *reels, "--again")

    print(f"survey {seconds(lambda: trial.run('survey', names=names)):.3f} s, list of each {seconds(list_each):.3f} s")
    print(f"unpack {seconds(unpack_all):.3f} s, extract of each file from the reels of its set {seconds(extract_each):.3f} s")
    many = (names * (10_000 // len(names) + 1))[:10_000]
    for words in (["survey"], ["check"], ["unpack", "out"]):
        trial.run(*words, names=many)
        print(f"{words[0]} of 10,000 names: at most {resource.getrusage(resource.RUSAGE_CHILDREN).ru_maxrss / 1024:.1f} MB so far")


def main():
    options = arguments(__doc__, ("--seed", 1, "of the images"), ("--sets", 66, "how many sets there are"),
        ("--keep", "", "create the images in this new directory, and keep it"), ("--times", False, "measure times too"))
    with tempfile.TemporaryDirectory(prefix="tape-shelf-") as place:
        folder = Path(options.keep or f"{place}/shelf")
        (folder / "out").mkdir(parents=True)
        shelf, trial = make_shelf(options.seed, options.sets), Trial(options, folder)
        for name, content in shelf.others.items():
            (folder / name).write_bytes(content)
        there = [reel for reel in shelf.reels if not reel.lost]
        for reel in there:
            (folder / reel.name).write_bytes(reel.image())
        names = [*(reel.name for reel in there), *shelf.others]
        count = sum(map(len, shelf.files.values()))
        print(f"{len(names)} images, {len(shelf.reels) - len(there)} lost, {count} files of {len(shelf.files)} sets")
        print(f"survey: {check_survey(trial, shelf, there, names)} rows")
        print(f"survey: {check_volumes(trial, shelf, there, names)}")
        print(f"unpack: {check_unpack(trial, shelf, there, names, 1)}")
        for reel in shelf.reels:
            (folder / reel.name).write_bytes(reel.image())
        names = [*(reel.name for reel in shelf.reels), *shelf.others]
        print(f"survey with the lost reels: {check_volumes(trial, shelf, shelf.reels, names)}")
        print(f"unpack with the lost reels: {check_unpack(trial, shelf, shelf.reels, names, 2)}")
        if options.times:
            take_times(trial, shelf, names)
    return trial.end("seen")


if __name__ == "__main__":
    sys.exit(main())
