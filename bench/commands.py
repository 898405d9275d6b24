#!/usr/bin/env python3
"""Times `tape list`, `write`, `extract`, its `--stage`, and `check` on 1 GB. Run manually; CI does not run it.

    ./commands.py [--program PATH] [--folder FOLDER] [--memory FOLDER] [--count N] [--runs N] [--instructions]
                  [COMMAND]..

COMMAND is list, write, extract, stage or check; the default is all of them.

list: the first image of format F, against lister.c, the same without its lines, and `cat`, with output to /dev/null and to a file in memory;
the two listings are compared byte by byte.
write: lines of 80 characters to images, against write_lines.c; the images are compared byte by byte.
extract: these lines out of the images again, against extract.c; the lines are compared byte by byte.
stage: extract with --stage and a new stage, against extract without; both write to one directory.
check: the images, against `tape list` of each of them; the output goes to /dev/null.

Timed output is written to a directory in memory (/dev/shm), and removed. The lines and images that
extract and check read are in a temporary directory (under TMPDIR), or in --folder, where they are kept
for reuse; each is read once first, so that it is in the system's cache.

With --instructions each program runs once more under valgrind, which counts its instructions: this takes
some fifty times as long, so use a small --count. Times vary on a busy machine, these figures do not.
"""

import filecmp
import os
import shutil
import subprocess
import sys
import tempfile
from pathlib import Path

from timing import HERE, build, in_turn, print_head, print_load, print_rows, read_once
sys.path.insert(0, str(HERE.parent / "trials"))
from common import arguments  # noqa: E402

RECORD = 80
CAPACITY = "1000000000"
# format, block length, and the record length if it is specified
SHAPES = (("F", "8192", "80"), ("F", "80", "80"), ("D", "8192", "0"), ("D", "84", "0"), ("S", "8192", "0"), ("S", "80", "0"))


class Bench:
    """The directories and the programs."""

    def __init__(self, options, build_folder, folder, memory):
        self.options, self.build, self.folder, self.memory = options, build_folder, folder, memory
        self.lines = folder / f"lines_{options.count}"

    def has(self, command):
        """Whether this command was requested."""
        return not self.options.commands or command in self.options.commands

    def images(self, shape):
        return sorted((self.folder / f"images_{'_'.join(shape)}_{self.options.count}").glob("*.tap"))

    def time(self, front, base, commands, before=None, outputs=None):
        outputs = outputs or dict.fromkeys(commands, os.devnull)
        options = self.options
        print_rows(front, base, in_turn(self.build, commands, outputs, options.runs, before, options.instructions))

    def with_tape(self, words, others):
        return {f"`tape {words[0]}`": [self.options.program, *words]} | others


def make_lines(path, count):
    letters = bytes(ord("A") + i % 26 for i in range(26 + RECORD))
    period = b"".join(letters[i:i + RECORD] + b"\n" for i in range(26))
    with open(path, "wb") as out:
        for _ in range(count // 26):
            out.write(period)
        out.write(period[: count % 26 * (RECORD + 1)])


def make_images(bench, shape):
    """The images that extract and check read, by the C writer."""
    if not bench.images(shape):
        folder = bench.folder / f"images_{'_'.join(shape)}_{bench.options.count}"
        folder.mkdir(exist_ok=True)
        words = [bench.build / "write_lines", folder, "ABC", CAPACITY, *shape, f"LINES={bench.lines}"]
        subprocess.run(words, check=True, stdout=subprocess.DEVNULL)
    for image in bench.images(shape):
        read_once(image)


def drop_images(bench, shape):
    if not bench.options.folder:
        shutil.rmtree(bench.images(shape)[0].parent)


def front(command, shape):
    return [command, shape[0], shape[1]]


# ---- list ----


def time_list(bench, shape):
    if shape[0] != "F":
        return
    image = bench.images(shape)[0]
    others = {"C lister": [bench.build / "lister", image]}
    commands = bench.with_tape(["list", image], others)
    walks = {"C lister, silent": [bench.build / "lister", "--silent", image], "`cat` to a pipe": ["sh", "-c", 'cat "$1" | wc -c', "sh", image]}
    bench.time(front("list, /dev/null", shape), "C lister", commands | walks)
    outputs = {name: bench.memory / str(at) for at, name in enumerate(commands)}
    bench.time(front("list, file in memory", shape), "C lister", commands, outputs=outputs)
    if not all(filecmp.cmp(bench.memory / "0", path, shallow=False) for path in outputs.values()):
        sys.exit(f"list {shape}: the listings differ")
    empty(bench.memory)


# ---- write ----


def write_words(bench, shape):
    form, block, record = shape
    named = [] if record == "0" else ["--record", record]
    return ["write", bench.memory, "ABC", CAPACITY, f"LINES={bench.lines}", "--format", form, "--block", block, *named]


def compare_images(bench, shape):
    written = sorted(bench.memory.glob("*.tap"))
    expected = bench.images(shape)
    if [path.name for path in written] != [path.name for path in expected] or not all(
        filecmp.cmp(one, other, shallow=False) for one, other in zip(written, expected)
    ):
        sys.exit(f"write {shape}: the images differ")


def empty(folder):
    for path in folder.iterdir():
        path.unlink()


def time_write(bench, shape):
    others = {"C": [bench.build / "write_lines", bench.memory, "ABC", CAPACITY, *shape, f"LINES={bench.lines}"]}
    commands = bench.with_tape(write_words(bench, shape), others)
    bench.time(front("write", shape), "C", commands, lambda: empty(bench.memory))
    for command in commands.values():
        empty(bench.memory)
        subprocess.run(command, check=True, stdout=subprocess.DEVNULL)
        compare_images(bench, shape)
    empty(bench.memory)


# ---- extract ----


def time_lines(bench, shape, base, commands):
    """Times programs that write the lines, and compares what they wrote."""
    bench.time(front("extract", shape), base, commands, lambda: empty(bench.memory))
    for command in commands.values():
        empty(bench.memory)
        subprocess.run(command, check=True, stdout=subprocess.DEVNULL)
        if not filecmp.cmp(bench.memory / "out", bench.lines, shallow=False):
            sys.exit(f"extract {shape}: the lines differ")
    empty(bench.memory)


def time_extract(bench, shape):
    out = bench.memory / "out"
    words = ["ABC001", "1", out, *bench.images(shape)]
    commands = bench.with_tape(["extract", *words], {"C": [bench.build / "extract", *words]})
    time_lines(bench, shape, "C", commands)


# ---- stage ----


def time_stage(bench, shape):
    out, stage = bench.memory / "out", bench.memory / "stage"
    words = [bench.options.program, "extract", "ABC001", "1", out, *bench.images(shape)]
    commands = {"`tape extract --stage`": [*words, "--stage", stage], "`tape extract`": words}
    time_lines(bench, shape, "`tape extract`", commands)


# ---- check ----


def time_check(bench, shape):
    images = bench.images(shape)
    program = bench.options.program
    commands = {
        "`tape check`": [program, "check", *images],
        "`tape list` of each": ["sh", "-c", 'for image; do "$0" list "$image" || exit; done', program, *images],
    }
    bench.time(front("check", shape), "`tape list` of each", commands)


def time_all(bench):
    if not bench.lines.exists():
        make_lines(bench.lines, bench.options.count)
    read_once(bench.lines)
    parts = {"list": time_list, "write": time_write, "extract": time_extract, "stage": time_stage, "check": time_check}
    asked = [command for command in parts if bench.has(command)]
    print_load()
    print_head(["Command", "Format", "Block"], bench.options.instructions)
    for shape in SHAPES:
        make_images(bench, shape)
        for command in asked:
            parts[command](bench, shape)
        drop_images(bench, shape)
    print("\nThe ratio is the time over that of C, of `tape extract` or of `tape list`. What was written is the same, byte for byte.")


def main():
    options = arguments(__doc__, ("--folder", "", "where the lines and the images are kept"),
        ("--memory", "/dev/shm", "where the programs write"), ("--count", 12_500_000, "how many lines of 80 characters"),
        ("--runs", 5, "how often each program runs"), ("--instructions", False, "count instructions too, by valgrind"),
        ("commands", [], "list, write, extract, stage, check"))
    with tempfile.TemporaryDirectory(prefix="tape-bench-") as temporary:
        build_folder = Path(temporary)
        build(build_folder, ("lister", "write_lines", "extract", "measure"))
        folder = Path(options.folder or build_folder)
        folder.mkdir(parents=True, exist_ok=True)
        with tempfile.TemporaryDirectory(prefix="tape-bench-", dir=options.memory) as memory:
            time_all(Bench(options, build_folder, folder.resolve(), Path(memory)))


if __name__ == "__main__":
    main()
