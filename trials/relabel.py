#!/usr/bin/env python3
"""Tapes whose writers break the rules for set identifiers and numbers, read with `--join` and `--renumber`. Run manually; CI
does not run it.

    ./relabel.py [--program PATH] [--seed N] [--shelves N]

Each shelf is a set of one to five files on one to four volumes. Its writer gives each volume a set identifier of its own, or
all files the sequence number 1, or each section the number 1, or several of these, or is right. In half of the shelves items
are unreadable, words of images are wrong, images are cut, and volumes have copies.

- `unpack` with the options must give every file of an undamaged shelf, byte for byte, under the name of its place in the set;
  `salvage` and `extract --again` each file too.
- Of a damaged shelf each file that is reported as complete must be right, byte for byte. Where the labels that show what the
  writer does are lost, `--renumber` changes nothing, and says so: such files are counted apart if they are the same without it.
- If the writer is right, the output with `--renumber` must be that without it, in any order of the images.
- Whatever the writer, each command must print the same and write the same files with `--join` of identifiers that no label has.

Prints each wrong answer, and counts; the exit status is 1 if there is one.
"""

import random
import subprocess
import sys

from common import Results, arguments, files_in, folder_with
from tape_model import encoded, word

SET = "REEL01"


class Counts:
    """Wrong files of which no label shows that `--renumber` is needed."""

    hidden = 0


class Writer:
    """What a writer does: each of `own`, `one` and `again` is a rule that it breaks."""

    def __init__(self, rng):
        self.own, self.one, self.again = (rng.random() < 0.4 for _ in range(3))

    def head(self, kind, file, volume, section, count):
        name, number, _ = file
        identifier = volume if self.own else SET
        number, section = 1 if self.one else number, 1 if self.again else section
        text = f"{kind}1{name:17}{identifier:6}{section:04}{number:04}000100 85103 85103 {count:06}HOME MADE    "
        return text.encode().ljust(80)

    def second(self, kind):
        return f"{kind}2F0080000080{'':35}00".encode().ljust(80)

    def section(self, file, volume, section, blocks, is_end):
        last = "EOF" if is_end else "EOV"
        return [self.head("HDR", file, volume, section, 0), self.second("HDR"), None, *blocks, None,
                self.head(last, file, volume, section, len(blocks)), self.second(last), None]


class Shelf:
    """A set, the images of its volumes in order, and what is damaged."""

    def __init__(self, rng, is_damaged):
        self.writer, self.rng = Writer(rng), rng
        self.files = []
        for number in range(1, rng.randint(1, 5) + 1):
            blocks = [bytes(rng.choices(b"ABCDEFGHIJ 0123456789", k=800)) for _ in range(rng.randint(0, 9))]
            self.files.append((f"FILE{number}", number, blocks))
        self.volumes = self.on_volumes()
        self.images = {}
        for place, items in enumerate(self.volumes, 1):
            copies = rng.choice([1, 1, 2]) if is_damaged else rng.choice([1, 1, 1, 2])
            for copy in range(copies):
                self.images[f"{place}{'abc'[copy]}.tap"] = self.image(items, is_damaged)

    def on_volumes(self):
        """The items of each volume: a block, or None for a mark."""
        count, volumes = self.rng.randint(1, 4), []
        total = sum(len(blocks) for _, _, blocks in self.files)
        room, left, section = max(1, -(-total // count)), 0, 1
        def begin():
            volumes.append([f"VOL1REEL{len(volumes) + 1:02}".encode().ljust(79) + b"3"])
            return room
        left = begin()
        for file in self.files:
            blocks, section = file[2], 1
            while len(blocks) > left and len(volumes) < count:
                volumes[-1] += self.writer.section(file, f"REEL{len(volumes):02}", section, blocks[:left], False) + [None]
                blocks, section, left = blocks[left:], section + 1, begin()
            volumes[-1] += self.writer.section(file, f"REEL{len(volumes):02}", section, blocks, True)
            left -= len(blocks)
        volumes[-1].append(None)
        return volumes

    def image(self, items, is_damaged):
        bad = set()
        if is_damaged and self.rng.random() < 0.7:
            bad = {self.rng.randrange(len(items)) for _ in range(self.rng.choice([1, 1, 2, 3]))}
        parts = []
        for at, item in enumerate(items):
            if at in bad:
                parts.append(encoded(item or bytes(4), flag=1 << 31))
            else:
                parts.append(word(0) if item is None else encoded(item))
        if is_damaged and self.rng.random() < 0.25:
            at = self.rng.choice([at for at, item in enumerate(items) if item is not None])
            parts[at] = parts[at][:-4] + word(7 + len(parts[at]))
        if is_damaged and self.rng.random() < 0.15:
            return b"".join(parts[:self.rng.randrange(len(parts))])
        return b"".join(parts) + b"\xff" * 4

    def options(self):
        joins = [f"--join=REEL01=REEL{place:02}" for place in range(2, len(self.volumes) + 1)] if self.writer.own else []
        numbers = ["--renumber"] if self.writer.one or self.writer.again else []
        return joins + numbers


def run(program, folder, *words):
    done = subprocess.run([program, *words], cwd=folder, capture_output=True, timeout=100)
    return done.returncode, done.stdout, done.stderr


def records(file):
    """The records of a file in lines."""
    text = b"".join(file[2])
    return b"".join(text[at:at + 80] + b"\n" for at in range(0, len(text), 80))


def unpacked(program, images, *words):
    """What `unpack` prints and writes for images, in the order in which they are named."""
    with folder_with(images) as folder:
        (folder / "out").mkdir()
        done = run(program, folder, "unpack", "--no-explain", "out", *images, *words)
        return done, files_in(folder / "out")


def wanted(shelf):
    return {f"{SET}.{number}.{name}": records((name, number, blocks)) for name, number, blocks in shelf.files}


def try_files(results, program, shelf, what):
    """`salvage` and `extract --again` of each file of an undamaged shelf."""
    for file in shelf.files:
        for command in (["salvage", SET, str(file[1]), "out"], ["extract", SET, str(file[1]), "out", "--again"]):
            with folder_with(shelf.images) as folder:
                done = run(program, folder, *command, *shelf.images, *shelf.options())
                got = files_in(folder).get("out")
                results.expect(done[0] == 0 and got == records(file), (what, command, done))


def try_shelf(results, program, seed):
    rng = random.Random(seed)
    is_damaged = rng.random() < 0.5
    shelf = Shelf(rng, is_damaged)
    writer, options = shelf.writer, shelf.options()
    what = f"shelf {seed}: own {writer.own}, one {writer.one}, again {writer.again}, damaged {is_damaged}"
    done, files = unpacked(program, shelf.images, *options)
    want = wanted(shelf)
    if not is_damaged:
        results.expect(done[0] == 0 and files == want, (what, done, sorted(files), sorted(want)))
        try_files(results, program, shelf, what)
    plain, before = unpacked(program, shelf.images)
    for name, got in files.items():
        if name.endswith(".stage") or want.get(name) == got:
            results.expect(True, what)
        elif b"--renumber changes no number" in done[2] and before.get(name) == got:
            Counts.hidden += 1
        else:
            results.expect(False, (what, name, done))
    other, after = unpacked(program, shelf.images, "--join", "OTHER1=OTHER2")
    results.expect(plain[:2] == other[:2] and before == after, (what, "join of none", plain, other))
    if not (writer.own or writer.one or writer.again):
        names = rng.sample(sorted(shelf.images), len(shelf.images))
        images = {name: shelf.images[name] for name in names}
        plain, before = unpacked(program, images)
        other, after = unpacked(program, images, "--renumber")
        results.expect(plain[:2] == other[:2] and before == after, (what, "renumber of a right one", plain, other))


def main():
    options = arguments(__doc__, ("--seed", 1, "the first shelf"), ("--shelves", 400, "the number of shelves"))
    results = Results()
    for seed in range(options.seed, options.seed + options.shelves):
        try_shelf(results, options.program, seed)
    print(f"{Counts.hidden} wrong files without a label that shows it")
    return results.end()


if __name__ == "__main__":
    sys.exit(main())
