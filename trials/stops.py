#!/usr/bin/env python3
"""Interrupts runs that write lists and records of what they recover, and checks what is left. Run manually; CI does
not run it. Needs strace.

    ./stops.py [--program PATH] [--kills N] [--every N] [--seed N]

`unpack --manifest --salvage` of a directory that an earlier run has filled, `extract --again --stage --provenance`, and
`salvage --provenance` are ended by SIGINT, SIGTERM and SIGKILL, each at N random instants and before every N-th system
call on files of each kind. The images are those of bag_answers.py: some files are whole, some joined, some incomplete,
some in conflict. After each interruption

- the images, files of others and an existing OUT are as before, or OUT is complete; each recovered file is whole;
- the lists have their earlier lines, each further line is right, and a record of `--provenance` is whole or absent;
- a stage has no fewer records than before.

Then the same command runs to its end. It leaves what a run without an interruption leaves, no temporary file, and lists
and records that name each file, its sum, and its blocks in the images. How often OUT of `salvage` had to be removed
first is counted, and so are the blocks whose image no record names, since the interrupted run put them into a stage.
Prints a line for each wrong result, and the counts. Exit status 1 if one was wrong.
"""

import json
import random
import re
import shutil
import signal
import subprocess
import sys
import time

from bag_answers import FILES, Shelf, block_at
from common import Results, arguments, files_in, folder_with
from manifest import MANIFEST, RECORD, digest, listed

SIGNALS = (signal.SIGINT, signal.SIGTERM, signal.SIGKILL)
CALLS = ("openat", "write", "fsync", "fdatasync", "rename", "linkat", "link", "unlink", "unlinkat", "ftruncate", "flock", "close", "lseek",
    "utimensat", "fchmod", "fchown")


class Task:
    """A command, the files before it, and what may be left of it."""

    def __init__(self, options, shelf):
        self.options, self.shelf, self.program = options, shelf, options.program
        self.ended = self.removed = self.lost = self.unnamed = self.expected = 0

    def run(self, folder, *words):
        return subprocess.run([self.program, *words], cwd=folder, capture_output=True, check=False)

    def records_of(self, folder, stage):
        """How many records a stage has, or -1 if it is none."""
        told = re.match(rb"STAGE .{6} \d+ (\d+)\n", self.run(folder, "stage", stage).stdout)
        return int(told[1]) if told else -1

    def rows(self, text):
        return [json.loads(line) for line in text.decode("utf-8").splitlines()]

    def blocks_are(self, rows, name, number):
        """Whether the last lines BLOCKS of a file lead to its blocks. Those of an unknown image are counted."""
        at = max(at for at, row in enumerate(rows) if row["row"] == "FILE" and row["name"] == name)
        blocks, place = self.shelf.blocks[number - 1], 0
        for row in rows[at + 1:]:
            if row["row"] != "BLOCKS":
                break
            end = len(blocks) if row["end_block"] is None else row["end_block"]
            if row["block"] != place:
                return False
            if row["image"] is None:
                self.unnamed += end - place
            else:
                offset = row["offset"]
                for data in blocks[place:end]:
                    seen, offset = block_at(self.shelf.images[row["image"]], offset)
                    if seen != data:
                        return False
            place = end
        return place == len(blocks)


class Unpack(Task):
    """`unpack --manifest --salvage` in a directory in which another run has unpacked one of the images."""

    def __init__(self, options, shelf):
        super().__init__(options, shelf)
        names = list(shelf.images)
        self.words = ["unpack", "d", *names, "--manifest", "--salvage", "--form", "raw"]
        mine = b"mine\n"
        with folder_with({**shelf.images, "d/mine": mine, f"d/{MANIFEST}": f"{digest(mine)}  mine\n".encode()}) as folder:
            self.run(folder, "unpack", "d", names[0], "--manifest", "--salvage", "--form", "raw")
            self.before = files_in(folder)
            self.stages = {name: self.records_of(folder, name) for name in self.before if name.endswith(".stage")}
            self.run(folder, *self.words)
            self.after = files_in(folder)
        self.lists = {f"d/{MANIFEST}", f"d/{RECORD}"}
        self.payload, rows = {}, self.rows(self.after[f"d/{RECORD}"])
        for number, fate in enumerate(shelf.fates, 1):
            if fate in ("whole", "joined"):
                name = self.name_of(number)
                self.payload[name] = number, b"".join(shelf.blocks[number - 1])
                assert self.blocks_are(rows, name[2:], number)
        self.expected = self.unnamed

    def name_of(self, number):
        start = f"d/ABC001.{number}."
        ends = (".stage", ".salvaged", ".gaps")
        return next((name for name in self.after if name.startswith(start) and not name.endswith(ends)), start)

    def wrong(self, folder):
        """What an interruption has damaged, or None."""
        left = files_in(folder)
        if any(left.get(name) != content for name, content in self.before.items() if name in self.shelf.images or name == "d/mine"):
            return "a file of others"
        for name, (_, content) in self.payload.items():
            if left.get(name, content) != content:
                return f"{name} is not whole"
        for name, count in self.stages.items():
            if name in left and self.records_of(folder, name) < count:
                return f"{name} has fewer records"
            if name not in left and name.removesuffix(".stage") not in left:
                return f"{name} is gone"
        if not all(left[name].startswith(self.before[name]) for name in self.lists):
            return "an earlier line"
        sums = listed(left[f"d/{MANIFEST}"])
        if sums is None or any(digest(left[f"d/{name}"]) != sum for name, sum in sums.items()):
            return "a line of the list"
        for row in self.rows(left[f"d/{RECORD}"]):
            if row["row"] == "FILE" and digest(left[f"d/{row['name']}"]) != row["sha256"]:
                return f"a line of the record: {row}"
        return None

    def again(self, folder):
        """What is wrong after the command has run again, or None."""
        done, left = self.run(folder, *self.words), files_in(folder)
        names = {name for name in left if name.startswith("d/")} - self.lists
        due = {name for name in self.after if name.startswith("d/")} - self.lists
        if done.returncode != 3 or names != due:
            return f"status {done.returncode} {done.stderr}, files {names ^ due}"
        other = [name for name in due if left[name] != self.after[name]]
        if other:
            return f"other bytes: {other}"
        if listed(left[f"d/{MANIFEST}"]) != listed(self.after[f"d/{MANIFEST}"]):
            return "the list is not whole"
        rows = self.rows(left[f"d/{RECORD}"])
        for name, (number, content) in self.payload.items():
            told = [row for row in rows if row["row"] == "FILE" and f"d/{row['name']}" == name]
            if not told or told[-1]["sha256"] != digest(content) or not self.blocks_are(rows, name[2:], number):
                return f"the record of {name}"
        return self.wrong(folder)


class Extract(Task):
    """`extract --again --provenance` of a joined file, with a stage that has some of it, over an existing OUT."""

    def __init__(self, options, shelf):
        super().__init__(options, shelf)
        names = list(shelf.images)
        self.number = shelf.fates.index("joined") + 1
        self.content = b"".join(shelf.blocks[self.number - 1])
        words = ["extract", "ABC001", str(self.number), "out", "--again", "--form", "raw", "--stage", "s"]
        self.words = [*words, *names, "--provenance", "p"]
        with folder_with({**shelf.images, "out": b"kept"}) as folder:
            self.run(folder, *words, names[0])
            self.before = files_in(folder)
            self.count = self.records_of(folder, "s")
            self.run(folder, *self.words)
            assert self.blocks_are(self.rows((folder / "p").read_bytes()), "out", self.number)
            self.expected = self.unnamed

    def wrong(self, folder):
        left = files_in(folder)
        if any(left.get(name) != content for name, content in self.shelf.images.items()):
            return "an image"
        if left.get("out") not in (b"kept", self.content):
            return f"OUT: {left.get('out', b'none')[:20]}"
        if self.records_of(folder, "s") < self.count:
            return "the stage"
        return self.record_is_wrong(left, "p")

    def record_is_wrong(self, left, name):
        if name not in left:
            return None
        rows = self.rows(left[name])
        is_right = rows[0]["sha256"] == digest(self.content) and left["out"] == self.content and self.blocks_are(rows, "out", self.number)
        return None if is_right else "the record"

    def again(self, folder):
        record = "p2" if (folder / "p").exists() else "p"
        done = self.run(folder, *self.words[:-1], record)
        left = files_in(folder)
        if (done.returncode, left.get("out"), record in left) != (0, self.content, True):
            return f"{done}"
        if left.keys() - self.before.keys() - {"p", "p2"}:
            return f"left: {left.keys() - self.before.keys()}"
        return self.record_is_wrong(left, record)


class Salvage(Task):
    """`salvage --provenance` of a file of which a block is lost, to a new OUT."""

    def __init__(self, options, shelf):
        super().__init__(options, shelf)
        self.number, self.place = next(iter(shelf.lost.items()))
        blocks = shelf.blocks[self.number - 1]
        self.content = b"".join(blocks[:self.place] + blocks[self.place + 1:])
        self.words = ["salvage", "ABC001", str(self.number), "out", *shelf.images, "--form", "raw", "--provenance", "p"]
        self.before = dict(shelf.images)

    def wrong(self, folder):
        left = files_in(folder)
        if any(left.get(name) != content for name, content in self.shelf.images.items()):
            return "an image"
        if left.get("out", self.content) != self.content:
            return "OUT is not whole"
        if "p" in left:
            rows = self.rows(left["p"])
            gap = f"GAP 1 {self.place} {self.place} "
            if left.get("out") is None or rows[0]["sha256"] != digest(self.content) or not any(row.get("line", "").startswith(gap) for row in rows):
                return "the record"
        return None

    def again(self, folder):
        if (folder / "out").exists():
            kept = files_in(folder)
            if self.run(folder, *self.words).returncode != 1 or files_in(folder) != kept:
                return "an existing OUT is not refused"
            self.removed += 1
            for name in ("out", "p"):
                (folder / name).unlink(missing_ok=True)
        done, left = self.run(folder, *self.words), files_in(folder)
        if done.returncode != 3 or left.keys() != self.before.keys() | {"out", "p"}:
            return f"{done} {left.keys() ^ self.before.keys()}"
        return self.wrong(folder)


def check(results, task, what, stop):
    """Interrupts the command by `stop`, and checks what is left, and what is after another run."""
    with folder_with(task.before) as folder:
        stop(folder)
        results.expect(not (wrong := task.wrong(folder)), f"{what}: {wrong}")
        task.unnamed = 0
        results.expect(not (wrong := task.again(folder)), f"{what}, then again: {wrong}")
        task.lost += max(0, task.unnamed - task.expected)


def at_random(task, number, took):
    """Ends the command after a random part of the time that it takes."""
    def stop(folder):
        process = subprocess.Popen([task.program, *task.words], cwd=folder, stdout=subprocess.DEVNULL, stderr=subprocess.DEVNULL)
        time.sleep(task.options.random.uniform(0, took))
        process.send_signal(SIGNALS[number % 3])
        task.ended += process.wait() < 0
    return stop


def strace(task, folder, *words):
    words = ["strace", "-q", "-o", "log.strace", *words, "-e", f"trace={','.join(CALLS)}", task.program, *task.words]
    done = subprocess.run(words, cwd=folder, capture_output=True, check=False)
    text = (folder / "log.strace").read_text(errors="replace")
    (folder / "log.strace").unlink()
    return done, text


def before_calls(options, results, task):
    """Ends the command before every N-th system call of each kind."""
    with folder_with(task.before) as folder:
        _, text = strace(task, folder)
    counts = {call: len(re.findall(rf"^{call}\(", text, re.M)) for call in CALLS}
    for call, count in counts.items():
        for number in range(1, count + 1, options.every):
            name = SIGNALS[(number // options.every) % 3].name
            rule = f"inject={call}:signal={name}:when={number}"

            def stop(folder, rule=rule):
                task.ended += strace(task, folder, "-e", rule)[0].returncode < 0

            check(results, task, f"{task.words[0]}, {name} at {call} {number}", stop)
    return sum(-(-count // options.every) for count in counts.values())


def main():
    options = arguments(__doc__, ("--kills", 60, "of each command, at random instants"), ("--every", 1, "calls of a kind"),
        ("--seed", 1, "of the choices"))
    if shutil.which("strace") is None:
        sys.exit("strace is not installed")
    # The children of a job in the background of a shell would ignore it.
    signal.signal(signal.SIGINT, signal.default_int_handler)
    options.random = random.Random(options.seed)
    results, shelf = Results(), Shelf(options.random)
    assert len(shelf.fates) == FILES
    for kind in (Unpack, Extract, Salvage):
        task = kind(options, shelf)
        begun = time.monotonic()
        with folder_with(task.before) as folder:
            task.run(folder, *task.words)
        took = time.monotonic() - begun
        for number in range(options.kills):
            check(results, task, f"{task.words[0]}, {number}", at_random(task, number, 1.2 * took))
        calls = before_calls(options, results, task)
        print(f"{task.words[0]}: {options.kills} random instants, {calls} calls, {task.ended} runs ended; OUT had to be removed "
            f"{task.removed} times; {task.lost} blocks of an unknown image", flush=True)
    return results.end()


if __name__ == "__main__":
    sys.exit(main())
