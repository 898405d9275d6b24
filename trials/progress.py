#!/usr/bin/env python3
"""Runs the built program with and without a terminal, and judges the line that shows progress.
Run manually before a release; CI does not run it.

    ./progress.py [--program PATH] [--megabytes N]

Each command reads images that together take longer than half a second: an image of N MB (default 1000)
under several names, or a pipe that delivers an image slowly. It runs with both streams on one terminal,
with standard error alone on a terminal, and with no terminal. With a terminal, the line must appear in
each run and be removed before each other line, so that what a terminal of 80 columns shows at the end are
the lines that a run without a terminal prints. Without one, standard error must be empty, or closed, or
full, and the results the same. Prints each wrong result, and how many runs there were. Exit status 1 if
one was wrong.
"""

import os
import pty
import re
import subprocess
import sys
import threading
import time
from pathlib import Path

from common import Results, arguments, folder_with
from make_worked_image import block, first_label, mark, second_label, volume_label, word

BLOCK = 8192
SHOWN = re.compile(rb"image \d+ of \d+: \d+ MB")


def image(path, megabytes):
    """A volume with one file of format F, in blocks of 8,192 bytes."""
    blocks = megabytes * 1_000_000 // (BLOCK + 8)
    one = block(b"x" * BLOCK)
    second = [second_label(kind).replace(b"F0080000080", b"F0819200080") for kind in ("HDR2", "EOF2")]
    with open(path, "wb") as out:
        out.write(volume_label("ABC001") + first_label("HDR1", 0) + second[0] + mark())
        for _ in range(blocks // 64):
            out.write(one * 64)
        out.write(one * (blocks % 64) + mark() + first_label("EOF1", blocks % 1_000_000) + second[1] + mark() * 2 + word(0xFFFFFFFF))


def screen(data):
    """The lines that a terminal shows after it got these bytes: a carriage return starts a line again."""
    lines = []
    for line in data.replace(b"\r\n", b"\n").split(b"\n"):
        cells = []
        at = 0
        for byte in line:
            if byte == 13:
                at = 0
            else:
                cells[at:at + 1] = [byte]
                at += 1
        lines.append(bytes(cells).rstrip())
    return lines


def read_all(descriptor):
    got = b""
    while True:
        try:
            part = os.read(descriptor, 65536)
        except OSError:
            return got
        if not part:
            return got
        got += part


def run(program, words, folder, out, err, feed):
    """The status and what each stream got; `out` and `err` are 'tty', 'pipe', 'full' or 'closed'."""
    for path in Path(folder).glob("OUT*"):
        path.unlink()
    ours, theirs = pty.openpty()
    reader, writer = os.pipe()
    full = os.open("/dev/full", os.O_WRONLY)
    kinds = {"tty": theirs, "pipe": writer, "full": full, "closed": full}
    closing = (lambda: os.close(2)) if err == "closed" else None
    fed = None
    if feed:
        fed = threading.Thread(target=feed_slowly, args=(feed,), daemon=True)
        fed.start()
    got = {}
    takers = [threading.Thread(target=lambda k, d: got.__setitem__(k, read_all(d)), args=pair)
              for pair in (("tty", ours), ("pipe", reader))]
    for taker in takers:
        taker.start()
    child = subprocess.Popen([program, *words], cwd=folder, stdin=subprocess.DEVNULL, stdout=kinds[out],
                             stderr=kinds[err], preexec_fn=closing)
    for descriptor in (theirs, writer, full):
        os.close(descriptor)
    status = child.wait()
    for taker in takers:
        taker.join()
    os.close(ours)
    os.close(reader)
    if fed:
        fed.join()
    return status, got


def feed_slowly(paths):
    """Writes an image to a pipe, with a pause of a second in the middle."""
    source, pipe = paths
    data = Path(source).read_bytes()
    with open(pipe, "wb", buffering=0) as out:
        out.write(data[:2_000_000])
        time.sleep(1.2)
        out.write(data[2_000_000:])


def main():
    given, results = arguments(__doc__, ("--megabytes", 1000, "the size of the large image")), Results()
    program = given.program
    with folder_with() as folder:
        big = Path(folder, "a.tap")
        image(big, given.megabytes)
        for name in "bcdef":
            os.link(big, Path(folder, f"{name}.tap"))
        os.mkfifo(Path(folder, "slow"))
        Path(folder, "out").mkdir()
        names = [f"{name}.tap" for name in "abcdef"]
        image(Path(folder, "small.tap"), 4)
        slow = (Path(folder, "small.tap"), Path(folder, "slow"))
        calls = [
            (["list", "slow"], slow), (["check", "slow"], slow), (["survey", "lost", "slow"], slow),
            (["check", *names], None), (["survey", *names], None), (["compare", *names], None),
            (["merge", "OUT.tap", *names[:3]], None), (["extract", "ABC001", "1", "OUT", *names, "--again"], None),
            (["salvage", "ABC001", "1", "OUT", *names], None), (["unpack", "out", "--list", *names], None),
        ]
        for words, feed in calls:
            plain = run(program, words, folder, "pipe", "full", feed)
            lines = screen(plain[1]["pipe"])
            for out, err in (("tty", "tty"), ("pipe", "tty"), ("pipe", "pipe"), ("pipe", "closed")):
                status, got = run(program, words, folder, out, err, feed)
                told = []
                if status != plain[0]:
                    told.append(f"status {status} in place of {plain[0]}")
                if err == "tty" and not SHOWN.search(got["tty"]):
                    told.append("no progress on the terminal")
                if screen(got[out]) != lines:
                    told.append(f"{out} shows {screen(got[out])} in place of {lines}")
                if err == "tty" and out == "pipe" and screen(got["tty"]) != [b""]:
                    told.append(f"the terminal shows {screen(got['tty'])} in the end")
                if err != "tty" and got["tty"]:
                    told.append("something on a terminal that is not used")
                results.expect(not told, f"{' '.join(words)}, output {out}, errors {err}: {'; '.join(told)}")
    return results.end("runs")


if __name__ == "__main__":
    sys.exit(main())
