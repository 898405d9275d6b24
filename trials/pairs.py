#!/usr/bin/env python3
"""Runs the built program twice at the same time on the same files, and judges the result.
Run manually before a release; CI does not run it.

    ./pairs.py [--program PATH] [--rounds N] [--seed N]

The files must be those that the two runs, or one of them, would leave one after the other: the files of
each run that ends with status 0 exist completely; a run that ends otherwise changed no existing file. Prints
each wrong result, and a table of the pairs. The exit status is 1 if one was wrong.
"""

import random
import subprocess
import sys
import time
from dataclasses import dataclass

from common import arguments, files_in, folder_with
from fail import LINES, ONE, TWO, mark, volume_label, word

BLANK = volume_label("ABC001") + mark() + mark() + word(0xFFFFFFFF)
OTHER = b"another\n" * 4000
EXTRACT = ["extract", "ABC001", "1", "OUT", "one.tap", "two.tap"]


@dataclass
class Pair:
    """Two runs, the files that exist before, and the file that each run creates, with its bytes."""

    name: str
    files: dict
    first: list
    second: list
    made: str
    # the bytes of that file after the first and the second run
    contents: tuple
    # whether both may succeed
    both: bool
    # a word that only one of them may print: that it created the file
    once: str = ""


def alone(program, words, files, made):
    """The bytes of the file that a run creates alone."""
    with folder_with(files) as folder:
        (folder / "d").mkdir()
        subprocess.run([program, *words], cwd=folder, capture_output=True, check=True)
        return (folder / made).read_bytes()


def pairs(program):
    reels = {"one.tap": ONE, "two.tap": TWO}
    inputs = {"a": LINES, "b": OTHER}
    write_a = ["write", ".", "ABC", "200000", "A=a"]
    write_b = ["write", ".", "ABC", "200000", "B=b"]
    unpack = ["unpack", "d", "one.tap", "two.tap"]
    rows = [
        ("write, on a blank volume", inputs | {"ABC001.tap": BLANK}, write_a, write_b, "ABC001.tap", False),
        ("write, in an empty DIR", inputs, write_a, write_b, "ABC001.tap", False),
        ("init and write", inputs, ["init", ".", "ABC", "1"], write_a, "ABC001.tap", True),
        # the second may begin when the first has ended, and then replaces OUT
        ("extract, one OUT", reels, EXTRACT, [*EXTRACT, "--form", "raw"], "OUT", True),
        ("extract, existing OUT", reels | {"OUT": b"old\n"}, EXTRACT, [*EXTRACT, "--form", "raw"], "OUT", True),
        ("extract, one stage", reels, [*EXTRACT, "--stage", "s"], [*EXTRACT, "--stage", "s"], "OUT", True),
        ("unpack, one DIR", reels, unpack, [*unpack, "--form", "raw"], "d/ABC001.1.PAYROLL", True),
    ]
    return [
        Pair(name, files, first, second, made, tuple(alone(program, words, files, made) for words in (first, second)), both,
            "COMPLETE" if first[0] == "unpack" else "")
        for name, files, first, second, made, both in rows
    ]


def judge(pair, done, files):
    """The fault, if there is one."""
    ended = [status == 0 for status, _, _ in done]
    found = files.get(pair.made)
    if all(ended) and not pair.both:
        return "both ended with success"
    if pair.once and sum(pair.once in out for _, out, _ in done) > 1:
        return f"both made {pair.made}"
    if any(ended) and found not in [content for content, is_done in zip(pair.contents, ended) if is_done]:
        return f"{pair.made} is of no call that ended with success"
    for status, out, err in done:
        if status not in (0, 1, 3) or (status == 1 and not err.startswith("tape: ")):
            return f"status {status}, {err!r}"
    if not any(ended) and found not in (None, b"", pair.files.get(pair.made)):
        return f"{pair.made} was changed, and no call ended with success"
    left = [name for name in files if ".tape-" in name]
    return f"{left} left" if left else None


def run_pair(program, pair, pause):
    with folder_with(pair.files, "/dev/shm") as folder:
        (folder / "d").mkdir()
        started = []
        for words in (pair.first, pair.second):
            started.append(subprocess.Popen([program, *words], cwd=folder, stdout=subprocess.PIPE, stderr=subprocess.PIPE, text=True))
            time.sleep(pause)
        done = []
        for process in started:
            out, err = process.communicate(timeout=60)
            done.append((process.returncode, out, err))
        return done, files_in(folder)


def main():
    options = arguments(__doc__, ("--rounds", 250, "how often each pair runs"), ("--seed", 1, "of the pauses"))
    program, chance = options.program, random.Random(options.seed)
    wrong = 0
    print("| Pair | Rounds | Both | One | None | Wrong |\n|---|---|---|---|---|---|")
    for pair in pairs(program):
        counts, bad = [0, 0, 0], 0
        for _ in range(options.rounds):
            done, files = run_pair(program, pair, chance.choice((0, 0, chance.random() / 500)))
            counts[2 - sum(status == 0 for status, _, _ in done)] += 1
            why = judge(pair, done, files)
            if why:
                bad += 1
                print(f"{pair.name}: {why}: {done}")
        print(f"| {pair.name} | {options.rounds} | {' | '.join(map(str, counts))} | {bad} |")
        wrong += bad
    return wrong != 0


if __name__ == "__main__":
    sys.exit(main())
