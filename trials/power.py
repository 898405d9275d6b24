"""The files that a power cut may leave of a stage, and how `tape extract --stage` continues from each. For stage.py.

Sets of volumes are made by `tape write`; copies of their reels are cut and damaged; over some days the program reads
them with a stage. calls.c records each write, cut and sync of the stage's file. For each moment of these days files
are made that a power cut could leave then: any subset of the writes and cuts since the last sync, in any order, each of
them complete or torn (at sectors, at any byte, or with other bytes in its range), and any length between. If a sync
fails, its data are left in the same way; and the run is continued with a copy of the file that the system then shows.

From each file two runs follow, one that reads no reel and one over all volumes. The result is right if

- the first run expects what was saved last, or what was just being saved;
- a reader of the stage's format, written here, finds a prefix of the file's records in it;
- the second run completes the file, byte for byte;
- what was printed as AWAITS or COMPLETE was on the disk when it was printed, and the directory was synced before;
- OUT got its name after its bytes were synced, and the directory was synced after that and before COMPLETE.

Runs that continue from such a file are recorded and cut in the same way. A power cut before the first checkpoint was
saved may leave no stage: these files are counted separately.
"""

import hashlib
import os
import random
import subprocess
from dataclasses import dataclass, field
from pathlib import Path

import fail
from noted import is_misnamed, notes, told_by

SECTOR = 512
SLOT = 128
# the number of files for each moment, if there is a choice
CHOICES = 24
NO_REEL = ["none.tap"]
# the maximum number of these files from which runs with further power cuts continue
AGAIN = 20
# a write is more often complete than torn
WAYS = ("whole", "whole", "front", "back", "sectors", "other", "mixed")


def without(image, rng):
    """A copy that is truncated at some byte, or in which up to three blocks are unreadable."""
    if rng.random() < 0.6:
        return image[:rng.randint(0, len(image))]
    copy = bytearray(image)
    blocks = [(begin, end) for begin, end in fail.places(image)[:-1] if end - begin > 4]
    for begin, end in rng.sample(blocks, min(len(blocks), rng.randint(1, 3))):
        copy[begin + 3] |= 0x80
        copy[end - 1] |= 0x80
    return bytes(copy)


@dataclass
class Plan:
    """A file of a set: its text, its volumes, and the reels of each day."""

    name: str
    text: bytes
    volumes: list
    days: list


def make_plan(options, folder, rng, number):
    """One of six kinds of sets with random records, in a directory."""
    shape, large = "FDS"[number % 3], number % 6 > 2
    block = {"F": (800, 60_000), "D": (512, 40_000), "S": (64, 9_999)}[shape][large]
    longest = {"F": (80, 20_000), "D": (508, 9_995), "S": (300, 30_000)}[shape][large]
    count = rng.randint(3, 12) if large else rng.randint(20, 60)
    lengths = [longest if shape == "F" else rng.randint(0, longest) for _ in range(count)]
    text = b"".join(bytes(rng.choices(b"ABCDEFGHIJ OC0123456789", k=length)) + b"\n" for length in lengths)
    (folder / "lines").write_bytes(text)
    capacity = 1024 + block + len(text) // rng.randint(1, 4)
    how = ["--format", shape, "--block", str(block)] + (["--record", str(longest)] if shape == "F" else [])
    words = ["write", ".", "ABC", str(capacity), "LINES=lines", *how]
    subprocess.run([options.program, *words], cwd=folder, stdout=subprocess.DEVNULL, check=True)
    volumes = sorted(path.name for path in folder.glob("ABC*.tap"))
    days = []
    for day in range(rng.randint(2, 4)):
        reels = [f"copy{day}{reel}.tap" for reel in range(rng.randint(1, 3))]
        for reel in reels:
            image = (folder / rng.choice(volumes)).read_bytes()
            (folder / reel).write_bytes(without(image, rng) if rng.random() < 0.7 else image)
        days.append(reels)
    return Plan(f"{shape}, blocks of {block}, volumes: {len(volumes)}", text, volumes, [*days, volumes])


def checkpoint_at(content, place):
    """The generation, the position and the weight of an open slot with a valid checkpoint, or None."""
    slot = content[place:place + SLOT]
    point = slot[16:96]
    numbers = [point[begin:end] for begin, end in ((15, 19), (19, 29), (29, 34), (62, 77))]
    if len(slot) < SLOT or slot[:1] != b"O" or point[:5] != b"TPCK2" or point[77:] != b"   ":
        return None
    if not all(digits.isdigit() for digits in [slot[1:16], point[11:15], *numbers]) or point[34:35] not in (b"R", b"D"):
        return None
    section, block, part, weight = map(int, numbers)
    return int(slot[1:16]), "whole" if point[34:35] == b"D" else (section, block, part), weight


def position_and_weight(content):
    """The position and the weight in the slot with the greater generation, or None twice if the file is not a stage."""
    slots = [slot for slot in (checkpoint_at(content, 0), checkpoint_at(content, SLOT)) if slot]
    return max(slots, key=lambda slot: slot[0])[1:] if len(content) >= 2 * SLOT and slots else (None, None)


def position_of(content):
    return position_and_weight(content)[0]


def records_of(content):
    """The text of the parts before the position of a stage, or None if frames are missing."""
    at, text = 2 * SLOT, []
    end = at + position_and_weight(content)[1]
    while at < end:
        size = int.from_bytes(content[at + 1:at + 5], "big")
        if at + 5 + size > min(end, len(content)):
            return None
        text += [content[at + 5:at + 5 + size], b"\n" if content[at:at + 1] in (b"0", b"3") else b""]
        at += 5 + size
    return b"".join(text)


def put(content, place, data):
    """Writes the data at an offset; any bytes between the end and the offset are a hole."""
    content.extend(bytes(max(0, place - len(content))))
    content[place:place + len(data)] = data


@dataclass
class Disk:
    """The contents of a file on the disk, those that reads return, and its changes since the last sync: writes, and cuts without data."""

    kept: bytearray
    shown: bytearray
    unsynced: list = field(default_factory=list)

    def change(self, place, data):
        self.unsynced.append((place, data))
        if data is None:
            del self.shown[place:]
        else:
            put(self.shown, place, data)

    def sync(self):
        self.kept, self.unsynced = bytearray(self.shown), []


def other_bytes(rng, disk, size):
    """Bytes that were not written there."""
    at = rng.randint(0, len(disk.shown))
    slot = bytes(disk.kept[:SLOT])
    return rng.choice([
        bytes(size), b"\xff" * size, b"O" * size, rng.randbytes(size),
        bytes(disk.shown[at:at + size]).ljust(size, b"\0"),
        # a slot with a later generation, which expects another block
        (b"999999999999998" + slot[16:35] + b"0000000001" + slot[45:]).ljust(size, b" ")[:size],
    ])


def torn(rng, disk, place, old, data, way):
    """The range of a write as a power cut may leave it, given its old bytes."""
    size, cut = len(data), rng.randint(0, len(data))
    if way == "front":
        return data[:cut] + old[cut:]
    if way == "back":
        return old[:cut] + data[cut:]
    if way == "sectors":
        bounds = [0, *range(-place % SECTOR or SECTOR, size, SECTOR), size]
        return b"".join(rng.choice((old, data))[begin:end] for begin, end in zip(bounds, bounds[1:]))
    other = other_bytes(rng, disk, size)
    mask = int.from_bytes(rng.randbytes(size), "big") if way == "mixed" else 0
    new, other = int.from_bytes(data, "big"), int.from_bytes(other, "big")
    return (new & mask | other & ~mask).to_bytes(size, "big")


def leave(rng, disk, content, change, way):
    """Makes one change to a file, completely or as a power cut may leave it."""
    place, data = change
    if data is None:
        rest = 0 if way == "whole" else rng.randint(0, max(0, len(content) - place))
        del content[place + rest:]
        content[place:] = content[place:] if way == "front" else other_bytes(rng, disk, len(content[place:]))
    elif way == "whole":
        put(content, place, data)
    else:
        end = len(content)
        old = bytes(content[place:place + len(data)])
        put(content, place, torn(rng, disk, place, old + other_bytes(rng, disk, len(data) - len(old)), data, way))
        if rng.random() < 0.3 and len(content) > end:
            del content[rng.randint(end, len(content)):]


def left_by(rng, disk, count):
    """Files that a power cut may leave now: each subset of few changes, prefixes of many, and random subsets, torn and out of order."""
    number = len(disk.unsynced)
    subsets = range(1 << number) if number <= 4 else [(1 << k) - 1 for k in {0, 1, rng.randint(2, number), number - 1, number}]
    found = set()
    random_ones = [(rng.getrandbits(number), False) for _ in range(count if number else 0)]
    for subset, plain in [(subset, True) for subset in subsets] + random_ones:
        chosen = [change for k, change in enumerate(disk.unsynced) if subset >> k & 1]
        if not plain and rng.random() < 0.3:
            rng.shuffle(chosen)
        content = bytearray(disk.kept)
        for change in chosen:
            leave(rng, disk, content, change, "whole" if plain else rng.choice(WAYS))
        found.add(bytes(content))
    return sorted(found)


@dataclass
class Trial:
    """The runs of one plan."""

    options: object
    library: Path
    folder: Path
    plan: Plan
    rng: random.Random
    judged: dict = field(default_factory=dict)
    states: int = 0
    again: int = 0
    unmade: int = 0
    wrong: int = 0

    def run(self, images, content, noted=False, refused=0):
        """The result of a run on a file, the file after it, OUT, and the records of calls.c."""
        kept, out, log = (self.folder / name for name in ("kept", "OUT", "log"))
        for path in (kept, out, log):
            path.unlink(missing_ok=True)
        if content is not None:
            kept.write_bytes(content)
        told = {"LD_PRELOAD": str(self.library), "RECORD": "kept", "RECORD_LOG": str(log), "RECORD_FAIL": str(refused)} if noted else {}
        words = [self.options.program, "extract", "ABC001", "1", "OUT", *images, "--stage", "kept"]
        done = subprocess.run(words, cwd=self.folder, env=os.environ | told, stdin=subprocess.DEVNULL, capture_output=True, check=False)
        return done, kept.read_bytes(), out.read_bytes() if out.exists() else None, notes(log)

    def fails(self, why):
        self.wrong += 1
        print(f"{self.plan.name}: {why}")

    def what_is_wrong(self, content, unmade):
        """The fault of the runs that continue from a file, if there is one, and the position of the first run. Determined once."""
        done, behind, out, _ = self.run(NO_REEL, content)
        if unmade and done.stderr == b"tape: stage fault 1\n" and len(content) <= 2 * SLOT:
            return None, None
        if done.returncode not in (0, 3) or done.stderr:
            return f"status {done.returncode}, {done.stderr!r}", None
        position = told_by(done.stdout.splitlines()[-1])
        text = records_of(behind) if position_of(behind) == position else None
        if text is None or not self.plan.text.startswith(text):
            return "the file after the first run", position
        if position == "whole" and out != self.plan.text:
            return "OUT of a stage that is whole", position
        done, _, out, _ = self.run(self.plan.volumes, behind)
        right = done.returncode == 0 and out == self.plan.text
        return (None if right else f"the second run: {done.stdout!r}, {done.stderr!r}"), position

    def judge(self, content, allowed, unmade):
        """Continues from a file that a power cut left."""
        self.states += 1
        asked = hashlib.sha256(content).digest(), unmade
        if asked not in self.judged:
            self.judged[asked] = self.what_is_wrong(content, unmade)
        why, position = self.judged[asked]
        if why:
            self.fails(why)
        elif position is None:
            self.unmade += 1
        elif position not in allowed and not (unmade and position == (1, 0, 0)):
            self.fails(f"{position} is awaited, and not one of {allowed}")

    def explore(self, content, log, count, moments=b"WTYF", again=False):
        """Makes power cuts at given moments of a run on a file; returns the file at its end, as the system shows it."""
        disk = Disk(bytearray(content), bytearray(content))
        first = position_of(content)
        named = bool(content)
        if is_misnamed(log):
            self.fails("OUT got its name too early, or COMPLETE was printed before")
        for letter, place, data in log:
            if letter == b"P":
                for position in filter(None, map(told_by, data.splitlines())):
                    if position != position_of(disk.kept) or not named:
                        self.fails(f"{position} was printed before it was durable")
            named = named or letter == b"D"
            if letter in b"WT":
                disk.change(place, data if letter == b"W" else None)
            if letter in moments:
                self.cut(disk, count, first is None and position_of(disk.kept) is None, again)
            if letter == b"Y":
                disk.sync()
        return bytes(disk.shown)

    def cut(self, disk, count, unmade, again):
        """Makes power cuts now."""
        allowed = {position_of(disk.kept), position_of(disk.shown)} - {None}
        for left in left_by(self.rng, disk, count):
            self.judge(left, allowed, unmade)
            if again and self.again < AGAIN and self.rng.random() < 0.03:
                self.again += 1
                self.resume_and_run(left, unmade)

    def resume_and_run(self, content, unmade):
        """A run on a file that a power cut left, with further power cuts."""
        done, _, _, log = self.run(self.rng.choice(self.plan.days), content, noted=True)
        if done.returncode in (0, 3):
            self.explore(content, log, CHOICES // 4)
        elif not (unmade and done.stderr == b"tape: stage fault 1\n"):
            self.fails(f"going on: status {done.returncode}, {done.stderr!r}")

    def refuse_syncs(self, day, content):
        """A day on which a sync fails: power cuts after it, and a copy of the file that the system shows."""
        for number in range(1, 100):
            done, shown, _, log = self.run(day, content, noted=True, refused=number)
            if all(letter != b"F" for letter, _, _ in log):
                return
            if done.returncode != 1 or not done.stderr:
                self.fails(f"sync {number} failed: status {done.returncode}")
            self.explore(content or b"", log, CHOICES, b"F")
            allowed = {position_of(content or b""), position_of(shown)} - {None}
            self.judge(shown, allowed, position_of(content or b"") is None)

    def live(self):
        """All days."""
        content = None
        for day in self.plan.days:
            self.refuse_syncs(day, content)
            done, behind, _, log = self.run(day, content, noted=True)
            if done.returncode not in (0, 3):
                return self.fails(f"status {done.returncode}, {done.stderr!r}")
            if self.explore(content or b"", log, CHOICES, again=True) != behind:
                return self.fails("what was noted is not what was written")
            content = behind
        return None
