#!/usr/bin/env python3
"""Two and three damaged copies of the volumes of a file, and what `tape salvage` joins of them. Run manually; CI does not
run it.

    ./joined.py [--program PATH] [--seed N] [--shelves N] [--keep]

Each file is in format F, D or S, on one to three volumes, of each of which there are one to three copies. Blocks of a copy are
unreadable, some copies are cut, and of some HDR2, the tape marks beside the data or trailer labels are unreadable. A model in
this file says which blocks are read: those that a copy has, if their number is certain in it. The output must be exactly the
records of which every block is read, and the lines FILLED must name exactly the blocks that the image in the line SECTION
lacks. The number of records must not be less than

- that of `salvage` with any one image of each volume;
- that of the stage of `extract --again` with all images, in the order given and in the reverse.

In a quarter of the shelves one block that two incomplete copies have is changed in one of them. Then nothing of that section is
joined, and a line CONFLICT names the two.

Prints each wrong answer, and counts; the exit status is 1 if there is one.
"""

import itertools
import random
import shutil
import subprocess
import sys
import tempfile
from pathlib import Path

from common import Results, arguments
from reels import Reel, file_of, volumes_of
from salvage import parts_of

SET = "JOIN01"


class Copy:
    """A copy of a volume with one section of the file: which of its blocks are readable, whether its trailer label counts
    them, and whether an item between its HDR1 and its data is unreadable."""

    def __init__(self, rng, items):
        self.reel = Reel("", SET, list(items))
        self.at = [at for at, item in enumerate(items) if item.kind == "data"]
        share = rng.choice([0.1, 0.3, 0.5, 0.8])
        self.reel.bad = {at for at in self.at if rng.random() < share}
        self.closes, length = True, len(self.at)
        if rng.random() < 0.2 and self.at:
            length = rng.randint(0, len(self.at))
            self.reel.cut = sum(len(item.spelling) for item in items[:self.at[0] + length])
            self.closes = False
        self.doubted = self.lost_head2 = False
        if self.at and rng.random() < 0.4:
            self.damage(rng)
        self.good = [at not in self.reel.bad for at in self.at[:length]]

    def damage(self, rng):
        """Makes HDR2 of a copy unreadable, or some of the tape marks and trailer labels."""
        front, end = self.at[0] - 1, self.at[-1] + 1
        if rng.random() < (0.2 if self.closes else 0.5):
            self.doubted = self.lost_head2 = True
            self.reel.bad.add(front - 1)
            return
        bad = {at for at in (front, end, end + 1, end + 2) if rng.random() < 0.4}
        self.doubted = front in bad
        self.closes = self.closes and not bad & {front, end, end + 1}
        self.reel.bad |= bad

    def is_base(self):
        """Whether other copies may complete it."""
        return self.closes or not self.doubted

    def is_numbered(self):
        """Whether it is certain which of its items is which block. HDR2 alone was no tape mark if data follow the next one."""
        return self.is_base() or self.lost_head2 and self.good[:1] == [True]

    def is_whole(self):
        return self.closes and not self.doubted and all(self.good)

    def count(self):
        """The number of its readable blocks with certain numbers."""
        if not self.is_base():
            return 0
        return sum(self.good) if self.closes else next((at for at, it in enumerate(self.good) if not it), len(self.good))


def held_by(copies):
    """The blocks of a section that are read from these copies of it."""
    length = max((len(copy.good) for copy in copies if copy.is_base()), default=0)
    copies = [copy for copy in copies if copy.is_numbered()]
    sure, found = list(copies), set()
    for at in range(length):
        having = [copy for copy in sure if at < len(copy.good) and copy.good[at]]
        if having:
            found.add(at)
        else:
            # the item at which a copy stopped being certain, unless its trailer label counts it
            sure = [copy for copy in sure if copy.closes]
    if not any(copy.closes for copy in copies):
        return {at for at in found if all(it in found for it in range(at))}
    return found


def closes_joined(copies, length):
    """Whether the section is read from a copy with a trailer label: from the one with most blocks, of equal ones from one
    with a trailer label, or from that which the others complete if it is better then, or is a whole copy."""
    best = max(copies, key=lambda copy: (copy.is_whole(), copy.count(), copy.closes))
    held, closing = held_by(copies), [copy for copy in copies if copy.closes]
    if best.is_whole() or not closing:
        return best.closes
    base = max(closing, key=lambda copy: copy.count())
    completes = len(held) == length and not base.doubted
    has_more = (len(held), base.closes) > (best.count(), best.closes)
    return base.closes if completes or has_more else best.closes


def records_of(file, sections, held, closing):
    """The records of which every block is held. One that goes on in the next section is left out if its section has no end."""
    whole, so_far, is_whole = [], b"", True
    places = [(number, at) for number, count in enumerate(sections) for at in range(count)]
    for place, data in zip(places, file.blocks):
        for begins, ends, content in parts_of((file.shape[0], file.shape[2]), data):
            is_cut = place[1] == 0 and place[0] > 0 and place[0] - 1 not in closing
            is_whole = (begins or is_whole and not is_cut) and place in held
            so_far = content if begins else so_far + content
            if ends:
                whole += [so_far] if is_whole else []
                is_whole = True
    return whole


class Shelf:
    """The copies of the volumes of one file, and their images in files."""

    def __init__(self, rng, folder, number):
        self.file = file_of(rng, 1, " 85100")
        self.volumes = volumes_of(SET, [self.file], rng, f"J{number % 1000:03}")
        self.counts = [sum(item.kind == "data" for item in items) for items in self.volumes]
        self.copies = [[Copy(rng, items) for _ in range(rng.choice([1, 2, 2, 2, 3]))] for items in self.volumes]
        self.order = [(at, copy) for at, copies in enumerate(self.copies) for copy in copies]
        rng.shuffle(self.order)
        self.conflict = self.changed(rng) if rng.random() < 0.25 else None
        self.names = [f"{at}.tap" for at in range(len(self.order))]
        for name, (_, copy) in zip(self.names, self.order):
            (folder / name).write_bytes(copy.reel.image())

    def changed(self, rng):
        """Changes a block that two incomplete copies of a section have, in one of them. Returns the section, or None."""
        for at, copies in enumerate(self.copies):
            closing = [copy for copy in copies if copy.closes]
            if any(all(copy.good) for copy in closing) or len(closing) < 2:
                continue
            shared = [it for it in range(self.counts[at]) if closing[0].good[it] and closing[1].good[it]]
            if shared:
                place = closing[1].at[rng.choice(shared)]
                item = closing[1].reel.items[place]
                spelled = bytearray(item.spelling)
                spelled[9] ^= 1
                closing[1].reel.items[place] = type(item)(bytes(spelled), "data")
                return at
        return None


def number_in(text, words):
    last = text.decode().strip().split("\n")[-1].split()
    return int(last[1]) if last and last[0] in words else None


class Trial(Results):
    def __init__(self, options, folder):
        self.program, self.folder = options.program, Path(folder)
        self.filled = self.complete = self.conflicts = self.files = 0

    def run(self, *words):
        return subprocess.run([self.program, *map(str, words)], cwd=self.folder, capture_output=True, check=False)

    def salvaged(self, names):
        """The number of records that `salvage` writes, and the run."""
        (self.folder / "out").unlink(missing_ok=True)
        done = self.run("salvage", SET, 1, "out", *names)
        return number_in(done.stdout, ("COMPLETE", "SALVAGED")) or 0, done

    def staged(self, names):
        """The number of records that `extract --again` saves or completes."""
        for name in ("again", "stage"):
            (self.folder / name).unlink(missing_ok=True)
        done = self.run("extract", SET, 1, "again", *names, "--again", "--stage", "stage")
        if done.returncode == 0:
            return number_in(done.stdout, ("COMPLETE",)) or 0
        words = self.run("stage", "stage").stdout.decode().split()
        return int(words[3]) if words[:1] == ["STAGE"] else 0


def check_lines(trial, shelf, lines, what):
    """The lines SECTION and FILLED: which blocks are taken from which image."""
    rows = [line.split() for line in lines]
    used = {int(row[1]): int(row[2]) for row in rows if row[0] == "SECTION"}
    for at, copies in enumerate(shelf.copies):
        section = at + 1
        if section not in used or at == shelf.conflict:
            continue
        base = shelf.order[used[section] - 1][1]
        filled = set()
        for row in rows:
            if row[0] == "FILLED" and int(row[1]) == section:
                source = shelf.order[int(row[2]) - 1][1]
                run = range(int(row[3]), int(row[4]) + 1)
                trial.expect(source in copies and all(it < len(source.good) and source.good[it] for it in run), f"{what}: {row}")
                filled |= set(run)
        own = {it for it, good in enumerate(base.good) if good}
        trial.expect(filled == held_by(copies) - own, f"{what}: filled {sorted(filled)} of section {section}")
        trial.filled += len(filled)


def check_shelf(trial, rng, number):
    for old in trial.folder.iterdir():
        old.unlink()
    shelf = Shelf(rng, trial.folder, number)
    count, done = trial.salvaged(shelf.names)
    got = (trial.folder / "out").read_bytes() if (trial.folder / "out").exists() else None
    lines = done.stdout.decode().splitlines()
    what = f"shelf {number} ({shelf.file.shape[0]}, {len(shelf.order)} images)"
    trial.files += 1
    if shelf.conflict is None:
        held = {(at, it) for at, copies in enumerate(shelf.copies) for it in held_by(copies)}
        named = [[copy for volume, copy in shelf.order if volume == at] for at in range(len(shelf.copies))]
        closing = {at for at, copies in enumerate(named) if closes_joined(copies, shelf.counts[at])}
        expected = b"".join(record + b"\n" for record in records_of(shelf.file, shelf.counts, held, closing))
        trial.expect(got == expected, f"{what}: {count} records\n{done.stdout.decode()}")
        is_whole = len(held) == len(shelf.file.blocks) and len(closing) == len(shelf.copies)
        trial.expect((done.returncode == 0) == is_whole, f"{what}: status {done.returncode}")
        trial.expect(not any(line.startswith("CONFLICT") for line in lines), f"{what}: a conflict")
        for names in (shelf.names, shelf.names[::-1]):
            trial.expect(trial.staged(names) <= count, f"{what}: fewer than extract --again, {count}")
    else:
        trial.conflicts += 1
        rows = [line.split() for line in lines]
        section = str(shelf.conflict + 1)
        trial.expect(any(row[:2] == ["CONFLICT", section] for row in rows), f"{what}: no conflict\n{done.stdout.decode()}")
        trial.expect(not any(row[:2] == ["FILLED", section] for row in rows), f"{what}: joined in conflict")
        trial.expect(done.returncode == 3, f"{what}: status {done.returncode}")
    trial.complete += done.returncode == 0
    check_lines(trial, shelf, lines, what)
    if shelf.conflict is None:
        groups = [[it for it, (at, _) in zip(shelf.names, shelf.order) if at == volume] for volume in range(len(shelf.volumes))]
        for names in itertools.islice(itertools.product(*groups), 6):
            single, _ = trial.salvaged(names)
            trial.expect(single <= count, f"{what}: {count} records, {single} with {' '.join(names)}")


def main():
    options = arguments(__doc__, ("--seed", 1, "of the shelves"), ("--shelves", 300, "number of shelves"), ("--keep", False, "keep the files of a wrong shelf"))
    with tempfile.TemporaryDirectory(prefix="joined-") as folder:
        trial = Trial(options, folder)
        for number in range(options.shelves):
            wrong = trial.wrong
            check_shelf(trial, random.Random(f"{options.seed} {number}"), number)
            if options.keep and trial.wrong > wrong:
                shutil.copytree(folder, f"wrong-{number}", dirs_exist_ok=True)
        print(f"{trial.files} files, {trial.complete} complete, {trial.conflicts} in conflict, {trial.filled} blocks filled")
        return trial.end()


if __name__ == "__main__":
    sys.exit(main())
