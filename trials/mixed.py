#!/usr/bin/env python3
"""Random shelves of copies of one set, and of several sets with one identifier: COMPLETE must not be said of a
file that none of the sets has, and nothing may be reported as a contradiction where there is none.

    trials/mixed.py [--program PROGRAM] [--shelves N] [--seed N]

The images are made here from docs/FORMATS.md alone, as those of premises.py are. Every other shelf breaks no
premise: copies of the volumes of one set, with unreadable blocks or truncated, repeated, and copies of a set
with another identifier. The others have copies of two or three sets with one identifier and different labels, each
copy with at most one of these faults: a block lost, a block twice, a mark lost, the end of another set behind a
part of its data. Some of these copies are truncated or have unreadable blocks, too.

Each shelf is read by `survey`, by `extract --again` in one call and with a stage over several calls, by `unpack`
with some of the images and then others, and by `salvage`. Prints each wrong result, and exits with 1 if there is
one. Plain `extract` reads it too, with a stage and without: it takes what it gets, so its wrong files are only counted,
with those of which no warning was given; but over a shelf that breaks no premise it may not warn.
"""
import random
import subprocess
import sys

from common import Results, arguments, folder_with
from make_worked_image import block
from premises import END, MARK, blocks_of, first_label, label, second_label, text, unreadable

ALARMS = ("conflict", "CONFLICT", "DIFFERS", "set fault", "STAGE KEPT", "DIFFERENT", "warning")


class Volumes:
    """A set with one file, each section of which is on a volume of its own."""

    def __init__(self, draw, own, number):
        self.own, self.name = own, f"FILE{number}" if draw.random() < 0.5 else "WEEKLY"
        self.date, self.size = f" 85{10 + 7 * number:03}", draw.choice((80, 160, 400, 800))
        records = [f"{own} {number} {at:04}" for at in range(1, draw.randint(4, 40))]
        self.file = b"".join(record + b"\n" for record in text(records))
        data, parts = blocks_of(records, self.size), draw.choice((1, 1, 2))
        cut = draw.randint(1, len(data) - 1) if parts == 2 and len(data) > 1 else len(data)
        self.sections = [data[:cut]] + ([data[cut:]] if cut < len(data) else [])

    def labels(self, kind, sect, count=0):
        first = first_label(f"{kind}1", self.name, sect, self.date, count).replace(b"ABC001", self.own.encode())
        return [first, second_label(f"{kind}2", self.size)]

    def items(self, sect):
        """The labels before a section's data with their mark, its data, and what stands after them."""
        data = self.sections[sect - 1]
        kind = "EOF" if sect == len(self.sections) else "EOV"
        volume = label(("VOL1", 4), (f"{self.own[:5]}{sect}", 6), ("", 69), ("4", 1))
        front = [volume, *self.labels("HDR", sect), MARK]
        return front, list(data), [MARK, *self.labels(kind, sect, len(data)), MARK, MARK + END]


def copy_of(draw, volumes, sect, others, breaks):
    """An image of one volume, and the fault of the copy."""
    front, data, rest = volumes.items(sect)
    fault = draw.choice(("", "lost", "twice", "mark 1", "mark 2", "over")) if breaks else ""
    at = draw.randrange(len(data))
    if fault == "lost":
        del data[at]
    elif fault == "twice":
        data.insert(at, data[at])
    elif fault == "mark 1":
        front.pop()
    elif fault == "mark 2":
        rest.pop(0)
    elif fault == "over" and others:
        _, other, end = draw.choice(others).items(1)
        data, rest = data[:at + 1] + other[at + 1:], end
    damage = draw.choice(("", "", "bad", "cut"))
    bad = {draw.randrange(len(data)) for _ in range(draw.randint(1, 2))} if damage == "bad" and data else set()
    items = [*front, *(unreadable(one) if n in bad else block(one) for n, one in enumerate(data)), *rest]
    if damage == "cut":
        items = items[:draw.randint(len(front), len(items) - 1)]
    return b"".join(items), f"{volumes.own} {volumes.date} {sect} {fault} {damage}"


def shelf(draw, breaks):
    """The sets, and the images with a word on each."""
    sets = [Volumes(draw, "ABC001", number) for number in range(draw.randint(2, 3) if breaks else 1)]
    shown = [*sets, *([Volumes(draw, "XYZ001", 9)] if draw.random() < 0.3 else [])]
    images = {}
    for volumes in shown:
        for sect in range(1, len(volumes.sections) + 1):
            for _ in range(draw.randint(1, 3)):
                others = [other for other in sets if other is not volumes]
                content, fault = copy_of(draw, volumes, sect, others, breaks and volumes in sets)
                images[f"i{len(images)}.tap"] = content, fault
    if draw.random() < 0.3:
        images[f"i{len(images)}.tap"] = draw.choice([*images.values()])
    return sets, images


def main():
    options = arguments(__doc__, ("--shelves", 5000, "how many"), ("--seed", 1, "of the first shelf"))
    results, completes, wrong, unwarned = Results(), 0, 0, 0
    for number in range(options.seed, options.seed + options.shelves):
        draw, breaks = random.Random(number), number % 2 == 0
        sets, images = shelf(draw, breaks)
        right, names = {one.file for one in sets}, sorted(images)
        told = f"shelf {number}: " + "; ".join(f"{name} {fault}" for name, (_, fault) in images.items())
        with folder_with({name: content for name, (content, _) in images.items()}) as folder:
            (folder / "u").mkdir()

            def call(*words):
                done = subprocess.run([options.program, *words], cwd=folder, capture_output=True, check=False)
                out = (done.stdout + done.stderr).decode(errors="replace")
                lines = [line for line in out.splitlines() if not line.startswith("TOTAL ")]
                alarms = [line for line in lines if any(alarm in line for alarm in ALARMS)]
                results.expect(breaks or not alarms, f"{told}\n  {words}: {alarms}")
                return done.returncode, out

            def whole(path, words, is_complete):
                content = (folder / path).read_bytes() if (folder / path).exists() else None
                is_right = content in right if is_complete else True
                results.expect(is_right, f"{told}\n  {words}: {path} is COMPLETE and wrong")
                return is_complete

            call("survey", *names)
            for turn in range(2):
                order = draw.sample(names, len(names))
                words = ("extract", "ABC001", "1", f"out{turn}", *order, "--again")
                completes += whole(f"out{turn}", words, call(*words)[0] == 0)
            some = draw.sample(names, draw.randint(1, len(names)))
            said = []
            for turn, order in enumerate((some, draw.sample(names, len(names)), draw.sample(names, len(names)))):
                words = ("extract", "ABC001", "1", "staged", *order, "--again", "--stage", "st")
                said.append(words)
                if call(*words)[0] == 0:
                    completes += whole("staged", said, True)
                    break
            for order in (some, draw.sample(names, draw.randint(1, len(names))), names):
                call("unpack", "u", *order)
            for path in sorted((folder / "u").iterdir()):
                if path.name.startswith("ABC001.1.") and path.suffix not in (".stage", ".salvaged", ".gaps"):
                    completes += whole(f"u/{path.name}", ("unpack", some, names), True)
            for stage in ((), ("--stage", "plain.stage")):
                status, out = call("extract", "ABC001", "1", "plain", *draw.sample(names, len(names)), *stage)
                if status == 0 and (folder / "plain").read_bytes() not in right:
                    wrong += 1
                    unwarned += "warning" not in out
            words = ("salvage", "ABC001", "1", "salvaged", *draw.sample(names, len(names)))
            status, out = call(*words)
            completes += whole("salvaged", words, status == 0)
    print(f"{completes} files were reported complete")
    print(f"plain extract: {wrong} wrong files, {unwarned} of them without a warning")
    return results.end()


if __name__ == "__main__":
    sys.exit(main())
