#!/usr/bin/env python3
"""Calls the built program with each set of its standard streams closed, and judges the result.
Run manually before a release; CI does not run it.

    ./streams.py [--program PATH]

Twenty calls are made with each of the seven sets of closed streams. A closed stream must behave like
one on which every read and write fails: the exit status and all files must be those of a call with a
directory as standard input, and /dev/full as standard output and standard error, in place of the
closed streams. Prints each wrong result, and how many calls there were. Exit status 1 if one was
wrong.
"""

import itertools
import os
import subprocess
import sys

from common import Results, arguments, files_in, folder_with
from fail import LINES, ONE, TWO, stage_of

CLOSED = [set(numbers) for count in (1, 2, 3) for numbers in itertools.combinations((0, 1, 2), count)]
STAND_INS = {0: ("/", os.O_RDONLY), 1: ("/dev/full", os.O_WRONLY), 2: ("/dev/full", os.O_WRONLY)}


def calls(program):
    """Arguments, and the files that exist before."""
    reels = {"one.tap": ONE, "two.tap": TWO}
    kept = {"kept.stage": stage_of(program)}
    names = {"names": b"one.tap\ntwo.tap\n"}
    old = {"OUT": b"older\n"}
    extract = ["extract", "ABC001", "1", "OUT"]
    return [
        (["--help"], {}),
        (["--version"], {}),
        (["lost"], {}),
        (["list"], {}),
        (["list", "one.tap"], reels),
        (["list", "lost.tap", "--explain"], reels),
        (["check", "one.tap", "two.tap"], reels),
        (["check", "--files-from", "names"], reels | names),
        (["check", "--files-from", "-"], reels),
        (["survey", "one.tap", "two.tap"], reels),
        (["survey", "one.tap", "--tsv"], reels),
        ([*extract, "one.tap", "two.tap"], reels | old),
        ([*extract, "one.tap"], reels),
        ([*extract, "two.tap", "one.tap", "--again"], reels | old),
        ([*extract, "one.tap", "one.tap", "--stage", "new.stage"], reels),
        ([*extract, "two.tap", "--stage", "kept.stage"], reels | kept),
        (["stage", "kept.stage", "OUT"], kept),
        (["unpack", ".", "two.tap", "one.tap"], reels),
        (["init", ".", "ABC", "3"], {}),
        (["write", ".", "ABC", "100000", "PAYROLL=lines"], {"lines": LINES}),
    ]


def run(program, words, files, closed, stand_ins):
    """The status and the files of a run whose streams are closed or replaced."""

    def prepare():
        for number in closed:
            os.close(number)
            if stand_ins:
                path, flags = STAND_INS[number]
                assert os.open(path, flags) == number
                os.set_inheritable(number, True)

    with folder_with(files) as folder:
        done = subprocess.run(
            [program, *words], cwd=folder, stdin=subprocess.DEVNULL, stdout=subprocess.DEVNULL,
            stderr=subprocess.DEVNULL, preexec_fn=prepare, check=False, timeout=60,
        )
        return done.returncode, files_in(folder)


def main():
    program, results = arguments(__doc__).program, Results()
    for words, files in calls(program):
        for closed in CLOSED:
            answer, right = (run(program, words, files, closed, stand_ins) for stand_ins in (False, True))
            changed = [name for name in right[1].keys() | answer[1].keys() if right[1].get(name) != answer[1].get(name)]
            results.expect(answer == right,
                f"{' '.join(words)}, {sorted(closed)} closed: status {answer[0]}, not {right[0]}; files {changed}")
    return results.end("calls")


if __name__ == "__main__":
    sys.exit(main())
