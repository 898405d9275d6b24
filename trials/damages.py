#!/usr/bin/env python3
"""A volume whose labels and marks are lost or unreadable: what `unpack` recovers of it, beside `salvage`.

    trials/damages.py [--program PROGRAM] [--step N] [--readings N] [--mentioned]

Three volumes of four files each, in formats D, F and S, are made here from docs/FORMATS.md alone. Each label and mark
is lost or unreadable, one at a time, and in pairs, of which every N-th is tried (default 5). Expected are, from what
was written:

- each file that `unpack` or `salvage` calls complete has exactly its records. If HDR2 of a file is lost with no error and
  its EOF2 is lost or unreadable, no label that can be read shows that it had any: then each block is a record;
- `unpack` has every file that `salvage` completes, and with --salvage as many records of each other one, if it names
  the file;
- every file under a name of its own is called complete in a line, and status 0 of `unpack` and `survey` means that all
  four files are there;
- after a single damage `salvage` completes each file that has all its items, if the mark before it was read.

With --mentioned, every file of which HDR1 or EOF1 is readable must be named by `unpack` and `survey`; without it, those
that are not are only counted.

--readings N: N times two or three readings of a volume with unreadable blocks (a quarter), labels and marks (3 %), some
of them truncated. `unpack` has every file that `salvage` or `extract --again` completes.

Prints each wrong result, and counts; the exit status is 1 if there is one.
"""
import itertools
import random
import re
import subprocess
import sys
from collections import Counter

from common import Results, arguments, folder_with
from make_worked_image import block, label, word
from reels import File, packed

SET = "ABC001"
NAMES = ["ALPHA", "BRAVO", "CHARLIE", "DELTA"]
SHAPES = [("D", 512, 512), ("F", 400, 40), ("S", 512, 0)]
MARK, END = word(0), word(0xFFFFFFFF)


def text_of(records):
    return b"".join(record + b"\n" for record in records)


def file_of(number, shape):
    """File `number` of a volume: a few blocks of records, which differ from those of every other file."""
    line = f"{NAMES[number - 1]} LINE {{}} OF THE FILE"
    if shape[0] == "S":
        # Some records continue in the next block.
        records = [line.format(at).encode() * (1 + at % 9) for at in range(4 + 4 * number)]
    else:
        records = [line.format(at).ljust(40 if shape[0] == "F" else 0).encode() for at in range(10 + 10 * number)]
    made = File(number, NAMES[number - 1], shape, " 85010", text_of(records))
    made.blocks = packed(shape, records)
    return made


def volume_of(files):
    """The items of a volume: what each is, the number of its file, and its bytes."""
    items = [("VOL1", 0, label(("VOL1", 4), (SET, 6), ("", 69), ("4", 1)))]
    for file in files:
        first = [("HDR1", file.first("HDR1", SET, 1, 0)), ("HDR2", file.second("HDR2")), ("mark", MARK)]
        data = [("data", block(data)) for data in file.blocks]
        last = [("mark", MARK), ("EOF1", file.first("EOF1", SET, 1, len(data))), ("EOF2", file.second("EOF2")), ("mark", MARK)]
        items += [(kind, file.number, content) for kind, content in first + data + last]
    return [*items, ("mark", 0, MARK)]


def unreadable(content):
    """An unreadable item in place of a label, a block or a mark."""
    if content == MARK:
        content = block(b"x" * 80)
    return content[:3] + bytes([content[3] | 0x80]) + content[4:-1] + bytes([content[-1] | 0x80])


def image_of(items, hits):
    """The image of a volume with these damages: for each item damaged, whether it is lost."""
    kept = (unreadable(content) if at in hits else content for at, (_, _, content) in enumerate(items) if not hits.get(at))
    return b"".join(kept) + END


class Trial:
    """The calls of a program in a directory, and what is expected of them."""

    def __init__(self, program, is_mentioned):
        self.program, self.is_mentioned = program, is_mentioned
        self.results, self.counts = Results(), Counter()

    def run(self, folder, *words):
        done = subprocess.run([self.program, *words], cwd=folder, capture_output=True, check=False)
        return done.returncode, done.stdout.decode("latin1")

    def salvaged(self, folder, number, images, said, texts):
        """The last word and the number of records of `salvage` for a file; a complete one is compared."""
        status, out = self.run(folder, "salvage", SET, str(number), f"salvaged{number}", *images)
        last, records = out.splitlines()[-1].split()
        self.results.expect((status == 0) == (last == "COMPLETE"), f"{said}: salvage {number}: {last} and status {status}")
        if last == "COMPLETE":
            self.expect_text(folder / f"salvaged{number}", texts[number], f"{said}: salvage {number}")
        return last, int(records)

    def expect_text(self, path, texts, said):
        self.results.expect(path.exists() and path.read_bytes() in texts, f"{said}: COMPLETE, but other bytes")

    def unpacked(self, folder, images, said, texts):
        """The status of `unpack`, and for each file what it says of it; complete ones are compared."""
        (folder / "u").mkdir()
        status, out = self.run(folder, "unpack", "u", *images, "--salvage")
        lines = {}
        for number, word_of, rest in re.findall(rf"^FILE {SET} (\d+) ([A-Z]+)(.*)", out, re.M):
            lines.setdefault(int(number), []).append((word_of, rest))
        for number, name in enumerate(NAMES, 1):
            path = folder / "u" / f"{SET}.{number}.{name}"
            is_complete = lines.get(number, [("", "")])[0][0] == "COMPLETE"
            self.results.expect(path.exists() == is_complete, f"{said}: {path.name} is not as in its line")
            if is_complete:
                self.expect_text(path, texts[number], f"{said}: unpack {number}")
        return status, lines

    def expect_beside(self, number, lines, salvaged, said):
        """Whether `unpack` has as much of a file that it names as `salvage`."""
        words, (last, records) = dict(lines.get(number, [])), salvaged
        if not words or "CONFLICT" in words or "NOT" in words:
            return
        has = re.match(r" (\d+)", words.get("COMPLETE", words.get("SALVAGED", "")))
        is_whole = lines[number][0][0] == "COMPLETE"
        is_behind = not is_whole and (last == "COMPLETE" or records > int(has[1] if has else 0))
        self.results.expect(not is_behind, f"{said}: unpack {number} is behind salvage: {words}, {last} {records}")
        self.counts["complete by unpack"] += is_whole

    def damage(self, files, items, hits):
        """A volume with one or two damages."""
        said = f"format {files[0].shape[0]}, " + " and ".join(
            f"{'lost' if is_lost else 'unreadable'} {items[at][0]} of file {items[at][1]} (item {at})" for at, is_lost in hits.items())
        texts = {file.number: [file.text] for file in files}
        for file in files:
            kinds = {items[at][0]: is_lost for at, is_lost in hits.items() if items[at][1] == file.number}
            if kinds.get("HDR2") and "EOF2" in kinds:
                texts[file.number] = [text_of(file.blocks)]
        with folder_with({"v.tap": image_of(items, hits)}) as folder:
            surveyed, survey = self.run(folder, "survey", "v.tap")
            status, lines = self.unpacked(folder, ["v.tap"], said, texts)
            for number in texts:
                salvaged = self.salvaged(folder, number, ["v.tap"], said, texts)
                self.counts["complete by salvage"] += salvaged[0] == "COMPLETE"
                self.expect_beside(number, lines, salvaged, said)
                if len(hits) == 1 and self.is_untouched(items, hits, number):
                    self.results.expect(salvaged[0] == "COMPLETE", f"{said}: salvage {number} is {salvaged}")
            missing = [number for number in texts if lines.get(number, [("", "")])[0][0] != "COMPLETE"]
            self.results.expect(not missing or status == 3, f"{said}: status {status} of unpack without {missing}")
            self.results.expect(not missing or surveyed == 3, f"{said}: status {surveyed} of survey without {missing}")
            self.expect_names(items, hits, lines, survey, said)

    @staticmethod
    def is_untouched(items, hits, number):
        """Whether a file has all its items, and the mark before it was read."""
        first = min(at for at, item in enumerate(items) if item[1] == number)
        return not any(items[at][1] == number or at == first - 1 for at in hits)

    def expect_names(self, items, hits, lines, survey, said):
        """Whether each file of which HDR1 or EOF1 is readable is named."""
        there = {number for at, (kind, number, _) in enumerate(items) if kind in ("HDR1", "EOF1") and at not in hits}
        named = {number for number, rows in lines.items() if rows[0][0] != "NOT"}
        shown = {int(number) for number in re.findall(r"^ {1,3}(\d+) ", survey, re.M)}
        for command, found in (("unpack", named), ("survey", shown)):
            self.counts[f"not named by {command}"] += len(there - found)
            if self.is_mentioned:
                self.results.expect(there <= found, f"{said}: {command} does not name {there - found}")

    def readings(self, rng, files, items):
        """Two or three readings of a volume, of which some are truncated."""
        texts, images = {file.number: [file.text] for file in files}, {}
        for number in range(rng.choice((2, 2, 3))):
            cut = rng.randrange(8, len(items)) if rng.random() < 0.3 else len(items)
            hits = {at: False for at, item in enumerate(items[:cut]) if rng.random() < (0.25 if item[0] == "data" else 0.03)}
            images[f"r{number}.tap"] = image_of(items[:cut], hits)
        said = f"format {files[0].shape[0]}, readings {self.counts['readings']}"
        self.counts["readings"] += 1
        with folder_with(images) as folder:
            _, lines = self.unpacked(folder, [*images], said, texts)
            for number in texts:
                self.expect_beside(number, lines, self.salvaged(folder, number, [*images], said, texts), said)
                status, _ = self.run(folder, "extract", SET, str(number), f"e{number}", *images, "--again")
                is_whole = lines.get(number, [("", "")])[0][0] == "COMPLETE"
                self.results.expect(status or is_whole, f"{said}: unpack {number} is behind extract --again")
                if status == 0:
                    self.expect_text(folder / f"e{number}", texts[number], f"{said}: extract {number}")


def main():
    options = arguments(__doc__, ("--step", 5, "how many pairs are left out for each one tried, and one"),
                        ("--readings", 20, "how many sets of readings are made of each volume"),
                        ("--mentioned", False, "expect that every file with a readable HDR1 or EOF1 is named"))
    trial, rng = Trial(options.program, options.mentioned), random.Random(1)
    for shape in SHAPES:
        files = [file_of(number, shape) for number in range(1, 5)]
        items = volume_of(files)
        singles = [(at, is_lost) for at, item in enumerate(items) if item[0] != "data" for is_lost in (True, False)]
        pairs = [(one, two) for one, two in itertools.combinations(singles, 2) if one[0] != two[0]]
        for hits in [(it,) for it in singles] + pairs[::options.step]:
            trial.damage(files, items, dict(hits))
        for _ in range(options.readings):
            trial.readings(rng, files, items)
    print(", ".join(f"{count} {what}" for what, count in sorted(trial.counts.items())))
    return trial.results.end()


if __name__ == "__main__":
    sys.exit(main())
