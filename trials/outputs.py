#!/usr/bin/env python3
"""The records of single outputs: `extract --again --provenance` and `salvage --provenance`, judged by Python.
Run manually; CI does not run it.

    ./outputs.py [--program PATH] [--shelves N] [--seed N]

On each of N shelves are two or three damaged copies of a volume of eight files, in images with odd names. Each file
is recovered by `extract`, with and without a stage, also on two days, and by `salvage`. Each line must have the keys
of docs/JSON.md and, if Python's jsonschema is installed, the form that docs/json.schema.json describes. The sums and
sizes are those of the output and of the images. The blocks that are named, read from the images by manifest.py, are
those of the output; of `salvage` without those in the lines `GAP`, and with the lines that it printed. A file of
`--provenance` that exists is not changed, and nothing is recovered then.

Prints a line for each wrong result, and how many there were. Exit status 1 if one was wrong.
"""

import json
import random
import sys

from common import Results, arguments, folder_with
from json_rows import keys_in, validator
from manifest import blocks_in, digest, odd_bytes, offsets_in, printed, recorded_blocks, rows_in, run, volume

FILES = 8


def rows_of(folder, name):
    path = folder / name
    return [json.loads(line) for line in path.read_text().splitlines()] if path.exists() else []


def check_rows(results, images, content, rows):
    """The form of each line, and the sums and sizes."""
    keys, is_valid = keys_in("The record of unpack"), validator("record")
    for row in rows:
        results.expect(list(row) == ["row", *keys[row["row"]]] and is_valid(row), f"form of {row}")
        if row["row"] == "IMAGE":
            image = images[row["image"]]
            results.expect((row["size"], row["sha256"]) == (len(image), digest(image)), f"{row}")
        elif row["row"] in ("FILE", "SALVAGED"):
            results.expect((row["size"], row["sha256"]) == (len(content), digest(content)), f"{row}")
    used = {row["image"] for row in rows if row["row"] == "BLOCKS" and row["image"] is not None}
    results.expect(used == {row["image"] for row in rows if row["row"] == "IMAGE"}, f"images of {rows}")


def stage_of(out):
    """The stage of an output, by the name that manifest.py expects."""
    return ["--stage", f"{out}.stage"]


def content_of(folder, name):
    path = folder / name
    return path.read_bytes() if path.exists() else None


def check_extracted(options, results, folder, images, number, file):
    """A file by `extract`: without a stage, and with one on two days."""
    identifier, blocks = file
    days = [["0.out", [], sorted(images)], ["1.out", stage_of("1.out"), sorted(images)[:1]],
        ["1.out", stage_of("1.out"), sorted(images)]]
    groups = []
    for day, (out, stage, named) in enumerate(days):
        if (folder / out).exists():
            continue
        words = ["extract", "ABC001", str(number), out, *named, "--again", "--form", "raw", *stage, "--provenance", f"{day}.jsonl"]
        done = run(options, folder, *words)
        rows, content = rows_of(folder, f"{day}.jsonl"), content_of(folder, out)
        results.expect(done.returncode == (3 if content is None else 0), f"{words} {done}")
        results.expect(bool(rows) == (content is not None or bool(stage)), f"{words}: {len(rows)} lines")
        check_rows(results, images, content, rows)
        found = rows_in("".join(json.dumps(row) + "\n" for row in rows).encode())[1] if rows else []
        for row, runs in found:
            groups = [*groups, (row, runs)] if stage else [(row, runs)]
            results.expect((row["set"], row["identifier"]) == ("ABC001", printed(identifier)), f"{row}")
            try:
                got = recorded_blocks(groups, len(groups) - 1, images)
            except (AssertionError, StopIteration) as error:
                results.expect(False, f"{words}: {row} {error!r}")
                continue
            if row["row"] == "FILE":
                results.expect(b"".join(got) == content == b"".join(blocks), f"blocks of {row}")
            else:
                results.expect(got == blocks[:row["block"]], f"blocks of {row}")
        if not stage:
            groups = []


def check_salvaged(options, results, folder, images, number):
    """A file by `salvage`: the blocks that are named and not missing are those of the output."""
    words = ["salvage", "ABC001", str(number), "2.out", *sorted(images), "--form", "raw", "--provenance", "3.jsonl"]
    done = run(options, folder, *words)
    rows, content = rows_of(folder, "3.jsonl"), content_of(folder, "2.out")
    results.expect(done.returncode in (0, 3) and content is not None and rows, f"{words} {done}")
    check_rows(results, images, content, rows)
    lines = [row["line"] for row in rows if row["row"] == "LINE"]
    results.expect(lines == done.stdout.decode().splitlines(), f"lines of {rows}")
    results.expect(rows[0]["row"] == ("FILE" if done.returncode == 0 else "SALVAGED"), f"{rows[0]}")
    missing = set()
    for line in lines:
        if line.startswith("GAP 1 "):
            first, last = map(int, line.split()[2:4])
            missing |= set(range(first, last + 1))
    got, place = [], 0
    for row in rows:
        if row["row"] != "BLOCKS":
            continue
        image, end = images[row["image"]], row["end_block"]
        results.expect((row["section"], row["block"], row["end_section"]) == (1, place, 1), f"{row}")
        readable = [block for block in blocks_in(image)[number][place:end]]
        results.expect(row["offset"] == next(iter(offsets_in(image)[number][place:end]), None) or readable[:1] == [None], f"{row}")
        got += [block for at, block in enumerate(readable, place) if at not in missing]
        place = end
    results.expect(None not in got and b"".join(got) == content, f"blocks of {rows}")


def check_refused(options, results, folder, images):
    """An existing file is kept."""
    (folder / "kept.jsonl").write_bytes(b"mine")
    for words in (["extract", "ABC001", "1", "x.out", "--again"], ["salvage", "ABC001", "1", "x.out"]):
        done = run(options, folder, *words, *sorted(images), "--provenance", "kept.jsonl")
        left = (folder / "kept.jsonl").read_bytes(), (folder / "x.out").exists()
        results.expect(done.returncode == 1 and left == (b"mine", False), f"{words} {done}")


def shelf(options, results):
    choice, images = options.random, {}
    files = [(odd_bytes(choice, 17), [choice.randbytes(800) for _ in range(choice.randint(0, 6))]) for _ in range(FILES)]
    while len(images) < choice.randint(2, 3):
        name = odd_bytes(choice, 60).decode("utf-8", "replace").replace("/", "_")
        bad = {(file, choice.randrange(6)) for file in range(1, FILES + 1) for _ in range(2) if choice.random() < 0.7}
        images["t" + name] = volume(files, bad)
    for number, file in enumerate(files, 1):
        with folder_with(images) as folder:
            check_extracted(options, results, folder, images, number, file)
            check_salvaged(options, results, folder, images, number)
            check_refused(options, results, folder, images)


def main():
    options = arguments(__doc__, ("--shelves", 50, "shelves of damaged images"), ("--seed", 1, "of the choices"))
    options.random = random.Random(options.seed)
    results = Results()
    for _ in range(options.shelves):
        shelf(options, results)
    return results.end()


if __name__ == "__main__":
    sys.exit(main())
