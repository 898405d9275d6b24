#!/usr/bin/env python3
"""Damaged SIMH images, converted with --resync by the program and read by a model.

    trials/resync.py PROGRAM IMAGES [SEED] [--plant FAULT]

A labelled tape of three files is drawn for each image from its own seed and encoded as a SIMH
image. Then some of its words are changed, bytes are changed, removed or put in, or parts are filled
with zeros. The model, written from docs/FORMATS.md, says where reading breaks off and where it
continues. `convert --resync` must create an image of each reading that has items, with exactly its
bytes, print the number of its items, name each place on standard error, and end with status 3, or 0
if nothing was lost. If no reading has items, it must end with status 1 and create nothing. An image
without damage must stay as it is, byte for byte up to its end.

Prints each wrong result with the seed of its image, and counts; exit status 1 if there is one.
--plant replaces a part of the model by a wrong one, for which there must be wrong results: FAULT is
next (the block that is found need not be followed by anything) or mark (a tape mark after the
damaged block is lost). With TMPDIR=/dev/shm it takes half of the time.
"""

import argparse
import random
import sys
import tempfile
from collections import Counter
from pathlib import Path

import containers
import tape_model as model
from common import Results
from containers import number
from tape_model import word

SEARCHED = 262_144
MOST = 99
ALONE = (0, model.GAP, model.END)
PLANTED = None


def length_in(lead):
    length = lead & 0xFFFFFF
    return None if lead & 0x7F000000 or not length else length


def whole(data, at):
    """The end of a whole block of up to 99,999 bytes, or None."""
    length = length_in(number(data, at)) if at + 4 <= len(data) else None
    if length is None or length > model.LONGEST:
        return None
    end = at + 8 + length + length % 2
    return end if end <= len(data) and data[end - 4:end] == data[at:at + 4] else None


def again(data, at):
    """Whether items begin again: a whole block, and what may follow one."""
    end = whole(data, at)
    if end is None or PLANTED == "next":
        return end is not None
    if end + 4 > len(data):
        return end == len(data)
    return number(data, end) in ALONE or whole(data, end) is not None


def reading(data, start):
    """The place at which a reading ends, the number of its items, whether it is whole, and where the next begins, or None."""
    at, items = start, 0
    while at < len(data):
        if at + 4 > len(data):
            return at, items, False, None
        lead = number(data, at)
        length, to = length_in(lead), None
        if lead == model.END:
            return at + 4, items, True, None
        if length is not None:
            end = at + 8 + length + length % 2
            if end > len(data):
                return at, items, False, None
            if data[end - 4:end] == data[at:at + 4]:
                items, at = items + 1, end
                continue
            is_mark = data[end:end + 4] == bytes(4) and PLANTED != "mark"
            if again(data, end + 4 if is_mark else end):
                to = end
        elif lead in ALONE:
            items, at = items + (lead == 0), at + 4
            continue
        if to is None:
            places_left = range(at + 1, min(len(data), at + SEARCHED))
            to = next((each for each in places_left if again(data, each)), None)
        return at, items, False, to
    return at, items, True, None


def readings(data):
    """The readings of an image: each its start, its end, the number of its items, and whether it is whole."""
    found, start = [], 0
    while start is not None and len(found) < MOST:
        end, items, is_whole, to = reading(data, start)
        found.append((start, end, items, is_whole))
        start = to
    return found


def damaged(rng, image):
    """The image with up to four wrong places, most of them at words."""
    image, words, at = bytearray(image), [], 0
    while at + 4 <= len(image):
        words.append(at)
        end = whole(image, at)
        if end:
            words.append(end - 4)
        at = end or at + 4
    for _ in range(rng.randint(0, 4)):
        at = rng.choice(words) if rng.random() < .7 else rng.randrange(len(image))
        how = rng.randrange(6)
        if how < 2:
            image[at + rng.randrange(4):at + 4] = rng.randbytes(1)
        elif how == 2:
            image[at:at + 4] = word(rng.choice([0, 80, 81, 7, 1024, 0x80000050, 0x10000002, 100_000]))
        elif how == 3:
            del image[at:at + rng.choice([1, 2, 4, 80])]
        elif how == 4:
            image[at:at] = rng.randbytes(rng.choice([1, 2, 4, 80]))
        else:
            size = rng.choice([1, 4, 16, 512])
            image[at:at + size] = bytes(max(0, min(size, len(image) - at)))
    return bytes(image)


class Trial(containers.Trial):
    def image(self, seed):
        rng = random.Random(seed)
        image = damaged(rng, containers.image_of(rng, "simh", containers.tape_of(rng)))
        if containers.kind_of(image) == "extended":
            self.told["extended"] += 1
            return
        (self.folder / "image").write_bytes(image)
        for old in self.folder.glob("out*.tap"):
            old.unlink()
        done = self.run("convert", "--resync", "--format", "simh", "out.tap", "image")
        found, told = readings(image), f"image {seed}"
        parts = [each for each in found if each[2] or each[3]]
        names = ["out.tap", *(f"out-{number}.tap" for number in range(2, len(parts) + 1))]
        made = {path.name: path.read_bytes() for path in self.folder.glob("out*.tap")}
        want = {name: image[start:end] for name, (start, end, _, _) in zip(names, parts)}
        self.expect(made == want, f"{told}: {[*made]}, expected {[*want]}; {done.stderr}")
        lines, before = [], None
        for name, (start, end, _, is_whole) in zip(names, parts):
            if before is not None:
                lines.append(f"  reading broke off at byte {before} and continued at byte {start}: {name}")
            elif start:
                lines.append(f"  reading began at byte {start}")
            before = None if is_whole else end
        lines += [f"  reading broke off at byte {before}"] if before is not None and parts else []
        got = [each for each in done.stderr.decode().splitlines() if each.startswith("  reading")]
        self.expect(got == lines, f"{told}: {got}, expected {lines}")
        self.told["readings"] += len(found)
        self.told["read" if parts else "not read"] += 1
        line = "".join(f"CONVERTED {each[2]}{' ' + name if at else ''}\n" for at, (name, each) in enumerate(zip(names, parts)))
        status = 1 if not parts else 3 if lines else 0
        self.expect(done.stdout == line.encode() and done.returncode == status, f"{told}: {done}, expected {status} {line}")


def main():
    parser = argparse.ArgumentParser(description=__doc__, formatter_class=argparse.RawDescriptionHelpFormatter)
    parser.add_argument("program")
    parser.add_argument("images", type=int)
    parser.add_argument("seed", type=int, nargs="?", default=0)
    parser.add_argument("--plant", choices=["next", "mark"])
    options = parser.parse_args()
    globals()["PLANTED"] = options.plant
    with tempfile.TemporaryDirectory(prefix="tape-") as name:
        trial = Trial(str(Path(options.program).resolve()), Path(name))
        for seed in range(options.seed, options.seed + options.images):
            trial.image(seed)
        print(", ".join(f"{count} {each}" for each, count in sorted(trial.told.items())))
        sys.exit(trial.end())


if __name__ == "__main__":
    main()
