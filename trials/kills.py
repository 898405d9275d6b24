#!/usr/bin/env python3
"""Stops `tape write` at random instants, at its writes and syncs and on full disks, and checks what remains.
Run manually; CI does not run it. The full disks are file systems in memory, which need root.

    ./kills.py [--program PATH] [--kills N] [--refusals N] [--disks N] [--seed N]

Each time every volume that was begun except the last must be complete: its image ends with two tape
marks and an end-of-medium marker, `tape check` calls its section GOOD, and its data blocks, joined to
those of the volumes before it, are a prefix of the input. A full disk or a refusal must end with status
1 and one line, file fault 4; after a full disk no volume may remain.
Then 9,999 inputs and 256 volumes are written with 64 open files, and the maximum memory of each run is
printed beside that of one input and one volume. Prints a line for each wrong result and a table; exit
status 1 if there was one.
"""

import os
import random
import resource
import subprocess
import sys
import time

from common import HERE, arguments, folder_with, library
from fail import KINDS
from make_worked_image import block, mark, word
from salvage import BAD, MARK, items_of
sys.path.insert(0, str(HERE.parent / "bench"))
from timing import build  # noqa: E402

RECORDS = 30_000
SHAPE = ["--format", "F", "--block", "800", "--record", "80", "--form", "raw"]
FULL = "tape: file fault 4\n"
FILES = 64


def data(image):
    """The data blocks of a complete image with one section, joined, or None if it is incomplete."""
    found = items_of(image)
    encoded = b"".join(mark() if it is MARK else block(it) for it in found if it is not BAD) + word(0xFFFFFFFF)
    if encoded != image or found[-2:] != [MARK, MARK]:
        return None
    first = found.index(MARK)
    return b"".join(found[first + 1:found.index(MARK, first + 1)])


def what_is_wrong(options, folder, content):
    """The fault of the existing volumes, if there is one, and the number of volumes that have certainly ended."""
    images = sorted(folder.glob("KIL*.tap"))
    if [image.name for image in images] != [f"KIL{number:03}.tap" for number in range(1, len(images) + 1)]:
        return "a volume is missing", 0
    ended, joined = images[:-1], b""
    for image in ended:
        blocks = data(image.read_bytes())
        if blocks is None:
            return f"{image.name} is not whole", 0
        joined += blocks
    if content[: len(joined)] != joined:
        return "the data blocks are no front of the input", 0
    if ended:
        told = subprocess.run([options.program, "check", *[str(image) for image in ended]], capture_output=True, text=True, check=False)
        good = [line for line in told.stdout.splitlines() if line.startswith("SECTION") and line.endswith(" GOOD")]
        if len(good) != len(ended):
            return f"check calls {len(good)} of {len(ended)} sections GOOD", 0
    return None, len(ended)


def words(options, capacity, *files):
    return [options.program, "write", ".", "KIL", str(capacity), *files]


def tell(options, counts, case, wrong, ended):
    counts[0] += 1
    counts[1] += ended
    if wrong:
        counts[2] += 1
        print(f"{case}: {wrong}")


def kill_at_random(options, content):
    """The numbers of killed runs, of volumes that had ended, and of runs with a wrong result."""
    counts, took = [0, 0, 0], None
    while counts[0] < options.kills:
        with folder_with({"records": content}) as folder:
            line = words(options, options.capacity, "RECORDS=records", *SHAPE)
            began = time.monotonic()
            process = subprocess.Popen(line, cwd=folder, stdout=subprocess.DEVNULL, stderr=subprocess.DEVNULL)
            if took is not None:
                time.sleep(options.random.uniform(0, took))
                process.kill()
            process.wait()
            if took is None:
                took = time.monotonic() - began
            elif process.returncode < 0:
                tell(options, counts, f"killed, {counts[0]}", *what_is_wrong(options, folder, content))
    return counts


def refuse_each(options, content):
    """The same for refused writes and syncs, each alone and with all later ones of its kind."""
    counts = [0, 0, 0]
    with folder_with() as folder:
        preload = library(folder)
        of_kind = dict(zip(KINDS, refuse(options, content, preload, "", [0, 0, 0]), strict=False))
        for _ in range(options.refusals):
            kind, later = options.random.choice("wy"), options.random.choice(("", "+"))
            refuse(options, content, preload, f"{kind}{options.random.randint(1, of_kind[kind])}{later}", counts)
    return counts


def refuse(options, content, preload, refusal, counts):
    with folder_with({"records": content}) as folder:
        told = os.environ | {"LD_PRELOAD": str(preload), "FAIL": refusal, "FAIL_COUNTS": str(folder / "counts")}
        line = words(options, options.capacity, "RECORDS=records", *SHAPE)
        done = subprocess.run(line, cwd=folder, env=told, capture_output=True, text=True, check=False)
        wrong, ended = what_is_wrong(options, folder, content)
        if done.returncode == 1 and done.stderr not in (FULL, ""):
            wrong = f"status {done.returncode}, {done.stderr!r}"
        tell(options, counts, f"refused {refusal}", wrong, ended)
        return [int(count) for count in (folder / "counts").read_text().split()]


def fill_disks(options, content):
    """The same for disks of many sizes that are too small."""
    counts = [0, 0, 0]
    with folder_with({"records": content}) as folder:
        source, disk = folder / "records", folder / "disk"
        disk.mkdir()
        for _ in range(options.disks):
            size = options.random.randrange(16, len(content) // 1024)
            subprocess.run(["mount", "-t", "tmpfs", "-o", f"size={size}k", "tape-kills", str(disk)], check=True)
            try:
                line = words(options, options.capacity, f"RECORDS={source}", *SHAPE)
                done = subprocess.run(line, cwd=disk, capture_output=True, text=True, check=False)
                wrong, ended = what_is_wrong(options, disk, content)
                if list(disk.glob("KIL*.tap")):
                    wrong = "an image remains"
                if (done.returncode, done.stderr) != (1, FULL):
                    wrong = f"status {done.returncode}, {done.stderr!r}"
                tell(options, counts, f"a disk of {size} KB", wrong, ended)
            finally:
                subprocess.run(["umount", str(disk)], check=True)
    return counts


def memory(measure, folder, line):
    """The maximum memory of a run with 64 open files, in KB, or nothing if it failed."""
    report = folder / "report"
    told = subprocess.run([measure, report, *line], cwd=folder, stdout=subprocess.DEVNULL, stderr=subprocess.PIPE, check=False,
        preexec_fn=lambda: resource.setrlimit(resource.RLIMIT_NOFILE, (FILES, FILES))).stderr
    *_, kilobytes, status = report.read_text().split()
    if status != "0":
        print(f"{' '.join(line[:6])}: status {status}, {told!r}")
        return None
    return int(kilobytes)


def many(options, measure):
    """The maximum memory of runs with one input and one volume, with 9,999 inputs, and with 256 volumes."""
    answers = []
    for inputs, records, capacity in ((1, 10, 4_000_000), (9_999, 1, 100_000_000), (1, 256 * 20, 2_500)):
        with folder_with({f"f{number}": b"7" * 80 * records for number in range(inputs)}) as folder:
            files = [f"F{number}=f{number}" for number in range(inputs)]
            answers.append(memory(measure, folder, words(options, capacity, *files, *SHAPE)))
            answers.append(len(list(folder.glob("KIL*.tap"))))
    return answers


def main():
    options = arguments(__doc__, ("--kills", 200, "how often it is killed"), ("--refusals", 200, "how many writes and syncs are refused"),
        ("--disks", 40, "how many full disks there are"), ("--capacity", 60_000, "the capacity of a volume"), ("--seed", 1, "of all that is random"))
    options.random = random.Random(options.seed)
    content = b"".join(b"%07d" % number + b"x" * 73 for number in range(RECORDS))
    failed = 0
    print("| | runs | volumes ended | wrong |\n|---|---|---|---|")
    for name, step in (("killed", kill_at_random), ("refused", refuse_each), ("full disks", fill_disks)):
        counts = step(options, content)
        failed += counts[2]
        print(f"| {name} | " + " | ".join(str(count) for count in counts) + " |", flush=True)
    with folder_with() as folder:
        build(folder, ["measure"])
        small, one, inputs, of_inputs, volumes, of_volumes = many(options, folder / "measure")
    print(f"one input, {one} volume: {small} KB; 9,999 inputs, {of_inputs} volumes: {inputs} KB; {of_volumes} volumes: {volumes} KB")
    return 1 if failed or None in (small, inputs, volumes) else 0


if __name__ == "__main__":
    sys.exit(main())
