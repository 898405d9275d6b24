#!/usr/bin/env python3
"""Bags of shelves whose state is known: what their tag files answer, and two validators. Run manually; CI does not run it.

    ./bag_answers.py [--program PATH] [--shelves N] [--seed N]

On each of N shelves are three copies of a volume of twelve files, and the first of two volumes of another set, in images
with odd names. Of the files some are whole, some have to be joined, of some a block is unreadable in all copies, and of
some two good copies differ. `tape-bag --salvage` makes a bag of them. Then

- bags.py, strict_bag.py, which share no code with each other, and `sha256sum -c` with both manifests, whose `%25` is
  decoded before, must accept the bag; strict_bag.py must notice each of some changes of the first bag;
- from the tag files and the payload alone this script must find, for each file: whether it is there and whole; of which
  images (name, size and SHA-256), and of which blocks of these, its bytes were made; which blocks or sections are
  missing; which images contradict each other. It compares all this with what it wrote to the images.

Prints a line for each wrong result, and how many there were. Exit status 1 if one was wrong.
"""

import hashlib
import json
import os
import random
import re
import shutil
import subprocess
import sys

import bags
from common import HERE, Results, arguments, folder_with
from json_rows import plain
from make_worked_image import block, mark, word
from manifest import bad_block, odd_bytes
from strict_bag import broken

FATES = ("whole", "joined", "lost", "conflict")
FILES = 12


def text_of(*fields):
    text = b"".join(field.encode() if isinstance(field, str) else field for field in fields)
    assert len(text) == 80, text
    return block(text)


def heads(kind, set_id, name, section, number, count):
    """Two labels and a mark."""
    first = text_of(kind, "1", name.ljust(17), set_id, f"{section:04}{number:04}0001", "00", " 85113" * 2, " ", f"{count:06}",
                    " " * 20)
    return first + text_of(kind, "2F0080000080", b" " * 35, "00", " " * 28) + mark()


def volume(volume_id, set_id, files, bad=(), ends=b"EOF"):
    """A volume of files, given as number, name and blocks. Those at `bad`, by number and place, are unreadable."""
    pieces = [text_of("VOL1", volume_id, " " * 69, "4")]
    for number, name, blocks in files:
        pieces.append(heads(b"HDR", set_id, name, 1, number, 0))
        pieces += [bad_block(data) if (number, at) in bad else block(data) for at, data in enumerate(blocks)]
        pieces += [mark(), heads(ends, set_id, name, 1, number, len(blocks))]
    return b"".join([*pieces, mark(), word(0xFFFFFFFF)])


class Shelf:
    """The images, and what is known of their files."""

    def __init__(self, choice):
        self.choice = choice
        self.names = [odd_bytes(choice, 17) for _ in range(FILES)]
        self.blocks = [[choice.randbytes(80 * choice.randint(1, 10)) for _ in range(choice.randint(2, 6))] for _ in range(FILES)]
        self.fates = [*FATES, *(choice.choice(FATES) for _ in range(FILES - len(FATES)))]
        choice.shuffle(self.fates)
        self.other = [choice.randbytes(800) for _ in range(3)]
        self.lost = {}  # the place of the block that no copy has, by number of file
        self.images = {}
        bad, odd = self.damage()
        for copy in range(3):
            files = [(at + 1, name, odd.get((copy, at + 1), self.blocks[at])) for at, name in enumerate(self.names)]
            self.images[self.new_name()] = volume("ABC001", "ABC001", files, bad[copy])
        self.images[self.new_name()] = volume("DEF001", "DEF001", [(1, b"CONTINUED", self.other)], (), b"EOV")

    def new_name(self):
        while True:
            name = "i" + odd_bytes(self.choice, 40).decode("utf-8", "replace").replace("/", "_")
            if name not in self.images:
                return name

    def damage(self):
        """The unreadable blocks of each copy, and the other blocks of a good one."""
        bad, odd = [set(), set(), set()], {}
        for number, (fate, blocks) in enumerate(zip(self.fates, self.blocks), 1):
            places = range(len(blocks))
            if fate == "whole" and self.choice.random() < 0.5:
                bad[self.choice.randrange(3)].add((number, self.choice.choice(places)))
            elif fate == "joined":
                # Each copy lacks a block, and no block is lacking in all of them.
                first, second = self.choice.sample(places, 2)
                for copy, place in zip(self.choice.sample(range(3), 3), (first, first, second)):
                    bad[copy].add((number, place))
            elif fate == "lost":
                self.lost[number] = self.choice.choice(places)
                for copy in range(3):
                    bad[copy].add((number, self.lost[number]))
            elif fate == "conflict":
                place = self.choice.choice(places)
                odd[self.choice.randrange(3), number] = [*blocks[:place], blocks[place][:-1] + bytes([blocks[place][-1] ^ 1]), *blocks[place + 1:]]
        return bad, odd


def rows_of(path):
    return [line.split("\t") for line in path.read_text(encoding="utf-8").split("\n")[:-1]]


def block_at(image, offset):
    """The readable block whose first word is at this offset, and the offset after it."""
    length = int.from_bytes(image[offset:offset + 4], "little")
    assert 0 < length < 1 << 24, "no readable block"
    return image[offset + 4:offset + 4 + length], offset + 8 + length + length % 2


class Bag:
    """What the tag files of a bag say. Nothing else is read but the payload."""

    def __init__(self, bag):
        self.bag = bag
        head, *rows = rows_of(bag / "tape" / "files.tsv")
        self.files = {}
        for row in rows:
            row = dict(zip(head, row, strict=True))
            self.files.setdefault((row["set"], row["file"]), []).append(row)
        head, *rows = rows_of(bag / "tape" / "images.tsv")
        self.images = {row[0]: dict(zip(head, row, strict=True)) for row in rows}
        self.record = [json.loads(line) for line in (bag / "tape" / "record.jsonl").read_text(encoding="utf-8").splitlines()]
        self.survey = rows_of(bag / "tape" / "survey.tsv")

    def outcomes(self, key):
        return [row["outcome"] for row in self.files.get(key, [])]

    def path(self, key):
        return next((row["path"] for row in self.files.get(key, []) if row["path"]), None)

    def images_of(self, key):
        """The names, sizes and sums of the images of a file."""
        numbers = next((row["images"] for row in self.files[key] if row["path"]), "").split(",")
        return [(plain(self.images[number]["name"]), int(self.images[number]["bytes"]), self.images[number]["sha256"]) for number in numbers]

    def blocks(self, path):
        """For each block of a complete file, its image and its number in the run, and the offset of the run."""
        found = []
        for row in self.record:
            if row["row"] == "BLOCKS" and f"data/{row['name']}" == path:
                found.append((row["image"], row["offset"], row["block"], row["end_block"]))
        return found

    def gaps(self, path):
        """The lines of the gaps of salvaged records, and the names of their images."""
        lines = (self.bag / path.replace(".salvaged", ".gaps")).read_text(encoding="utf-8").split("\n")
        names = dict(line.split(" ", 2)[1:] for line in lines if line.startswith("FROM "))
        return [line.split(" ") for line in lines if not line.startswith("FROM ")], {number: plain(name) for number, name in names.items()}

    def conflicts(self, key):
        """The images with copies of a file that contradict each other."""
        return [tuple(map(plain, row[5:7])) for row in self.survey if row[0] == "COPIES" and tuple(row[1:3]) == key and row[-1] == "CONFLICT"]

    def sections(self, key):
        return next(row[9] for row in self.survey if row[0] == "FILE" and tuple(row[1:3]) == key)


def answers(results, shelf, bag):
    """Each question about each file, answered by the bag."""
    summed = {name: (name, len(image), hashlib.sha256(image).hexdigest()) for name, image in shelf.images.items()}
    names = list(shelf.images)
    for number, fate in enumerate(shelf.fates, 1):
        key, blocks = ("ABC001", str(number)), shelf.blocks[number - 1]
        path, told = bag.path(key), bag.outcomes(key)
        what = f"file {number}, {fate}: {told} {path}"
        if fate == "conflict":
            results.expect((told, path) == (["CONFLICT"], None), what)
            odd = [pair for pair in bag.conflicts(key)]
            differ = [{one, other} for one in names[:3] for other in names[:3] if one != other]
            results.expect(len(odd) == 1 and set(odd[0]) in differ, f"{what}: {odd}")
            one, other = (next(f for f in files_in(shelf.images[name]) if f[0] == number)[1] for name in odd[0])
            results.expect(one != other, f"{what}: these images agree")
            continue
        results.expect(told == (["AWAITS", "SALVAGED"] if fate == "lost" else ["COMPLETE"]) and path, what)
        content = (bag.bag / path).read_bytes()
        used = bag.images_of(key)
        results.expect(all(summed.get(name) == (name, size, sum) for name, size, sum in used), f"{what}: {used}")
        if fate == "lost":
            place = shelf.lost[number]
            lines, images = bag.gaps(path)
            gaps = [line[1:4] for line in lines if line[0] == "GAP"]
            results.expect(gaps == [["1", str(place), str(place)]], f"{what}: {gaps}")
            taken = [images[line[2]] for line in lines if line[0] == "SECTION"]
            results.expect(len(taken) == 1 and [name for name, _, _ in used] == taken, f"{what}: {taken} {used}")
            results.expect(content == b"".join(blocks[:place] + blocks[place + 1:]), f"{what}: other bytes")
            continue
        results.expect(content == b"".join(blocks), f"{what}: other bytes")
        made, runs = b"", bag.blocks(path)
        for image, offset, first, end in runs:
            for _ in range(first, len(blocks) if end is None else end):
                data, offset = block_at(shelf.images[image], offset)
                made += data
        results.expect(made == content, f"{what}: blocks {runs}")
        results.expect({run[0] for run in runs} == {name for name, _, _ in used}, f"{what}: images {used} {runs}")
        results.expect((len(used) > 1) == (fate == "joined"), f"{what}: {len(used)} images")
    key = ("DEF001", "1")
    path, told = bag.path(key), bag.outcomes(key)
    results.expect(told == ["AWAITS", "SALVAGED"] and (bag.bag / path).read_bytes() == b"".join(shelf.other), f"DEF001: {told}")
    results.expect(bag.sections(key) == "2:MISSING;", f"DEF001: {bag.sections(key)}")
    results.expect(["GAP", "2", "-", "-"] in [line[:4] for line in bag.gaps(path)[0]], f"DEF001: {bag.gaps(path)}")


def files_in(image):
    """The number and the blocks of each file of an image that `volume` made."""
    groups, at = [[]], 0
    while (length := int.from_bytes(image[at:at + 4], "little")) != 0xFFFFFFFF:
        size = length & 0xFFFFFF
        if length == 0:
            groups.append([])
            at += 4
        else:
            groups[-1].append(None if length >> 31 else image[at + 4:at + 4 + size])
            at += 8 + size + size % 2
    return list(enumerate(groups[1::3], 1))


def accepted(results, bag, what):
    """By both validators, and by sha256sum."""
    results.expect(not list(bags.faults(str(bag))), f"{what}: bags.py {list(bags.faults(str(bag)))}")
    results.expect(not list(broken(bag)), f"{what}: strict_bag.py {list(broken(bag))}")
    for name in ("manifest-sha256.txt", "tagmanifest-sha256.txt"):
        lines = (bag / name).read_bytes().replace(b"%25", b"%")
        done = subprocess.run(["sha256sum", "-c", "--strict", "-"], cwd=bag, input=lines, capture_output=True, check=False)
        count = done.stdout.count(b": OK\n")
        results.expect(done.returncode == 0 and count == lines.count(b"\n"), f"{what}: sha256sum {name}: {done.stdout} {done.stderr}")


def notices(results, bag):
    """What strict_bag.py must notice: otherwise its silence would mean nothing."""
    path = next(path for path in sorted((bag / "data").iterdir()) if path.stat().st_size)
    listed, info = (bag / "manifest-sha256.txt").read_bytes(), (bag / "bag-info.txt").read_bytes()
    changes = [(path, path.read_bytes() + b"x", "another sum"), (path, None, "does not exist"), (bag / "data" / "more", b"", "0 times"),
        (bag / "more.txt", b"", "0 times"), (bag / "bagit.txt", b"BagIt-Version: 0.97\n", "bagit.txt"), (bag / "bagit.txt", None, "bagit.txt"),
        (bag / "manifest-sha256.txt", None, "manifests with"), (bag / "manifest-sha256.txt", listed + listed[:listed.index(b"\n") + 1], "2 times"),
        (bag / "manifest-sha256.txt", listed.replace(b"  data/", b"  ./data/", 1), "not below"), (bag / "manifest-sha256.txt", listed[1:], "line 1 is"),
        (bag / "manifest-sha256.txt", listed.replace(b"  data/", b"  data/%41", 1), "encodes another"),
        (bag / "bag-info.txt", info.replace(b"Oxum: ", b"Oxum: 1"), "Payload-Oxum"), (bag / "bag-info.txt", info + b"no field\n", "no field"),
        (bag / "bag-info.txt", b"\xef\xbb\xbf" + info, "byte-order mark"), (bag / "fetch.txt", b"", "fetch.txt")]
    for place, content, why in changes:
        was = place.read_bytes() if place.exists() else None
        if content is None:
            place.unlink()
        else:
            place.write_bytes(content)
        results.expect(why in "\n".join(broken(bag)), f"strict_bag.py: {place.name}: {list(broken(bag))}, expected {why}")
        if was is None:
            place.unlink()
        else:
            place.write_bytes(was)


def main():
    options = arguments(__doc__, ("--shelves", 40, "shelves, each made into a bag"), ("--seed", 1, "of the choices"))
    results, choice = Results(), random.Random(options.seed)
    for at in range(options.shelves):
        shelf = Shelf(choice)
        with folder_with(shelf.images) as folder:
            bag = folder / "a bag"
            words = ["--form", "raw", "--salvage", bag.name, *shelf.images, "--", "Source-Organization=Museum", "Note=\u5b57"]
            done = subprocess.run([sys.executable, HERE.parent / "scripts" / "tape-bag", *words], cwd=folder, capture_output=True,
                check=False, env={**os.environ, "TAPE": options.program})
            results.expect(done.returncode == 3 and not re.search(rb"Traceback", done.stderr), f"shelf {at}: {done}")
            accepted(results, bag, f"shelf {at}")
            answers(results, shelf, Bag(bag))
            if at == 0:
                notices(results, bag)
            shutil.rmtree(bag)
    return results.end()


if __name__ == "__main__":
    sys.exit(main())
