#!/usr/bin/env python3
"""Compares the C library and its Python module with the program. Run manually; CI does not run it.

    ./c_library.py [--program PATH] [--library PATH] [--images N] [--seed N]

The images are those of compare.py that were written for one rule each, and N damaged copies of the worked
image: bytes changed, removed, doubled, exchanged, and the image cut off. For each image the module must give
the lines and the fault of `tape list`, the offset and size of each item as `tape list --offsets` prints them,
and, for it and the image before it, the rows and the answer of `tape survey --tsv`, unless the program names a
rule of the normal form; walk.c, a program in C, must give the same items and lines with buffers that are too
short. At last the processor time in which 15,000 items are listed. The library is built by `rt lib` in crates/tape_c, and linked as its README.md says.
"""

import os
import random
import subprocess
import sys
import time
from pathlib import Path

from common import HERE, Results, arguments, folder_with
from compare import odd_images
from make_worked_image import block, image, mark, word

CRATE = HERE.parent / "crates" / "tape_c"
END = word(0xFFFFFFFF)


def damaged(whole, chance):
    """A copy of the image with one to four kinds of damage."""
    data = bytearray(whole)
    for _ in range(chance.randint(1, 4)):
        at, far = sorted(chance.randrange(len(data) + 1) for _ in range(2))
        far = min(far, at + chance.choice((1, 4, 90, 2000)))
        what = chance.randrange(6)
        if what == 0:
            del data[at:]
        elif what == 1:
            del data[at:far]
        elif what == 2:
            data[at:at] = data[at:far]
        elif what == 3:
            for place in range(at, far):
                data[place] = chance.randrange(256)
        elif what == 4 and data:
            data[at % len(data)] = chance.choice(b"\0\x01 0129AFSZ\x80\xff")
        elif what == 5:
            # a digit or a letter of a label
            place = data.find(chance.choice((b"HDR1", b"EOF1", b"HDR2", b"VOL1", b"EOF2")))
            if 0 <= place < len(data) - 80:
                data[place + chance.randrange(80)] = chance.choice(b"0123456789ABCDF ")
        if not data:
            break
    return bytes(data)


def outcome(options, words, folder):
    done = subprocess.run([options.program, *words], cwd=folder, capture_output=True, check=False)
    return done.stdout.decode("ascii"), done.stderr.decode(), done.returncode


def listed(tape, data):
    """What the program must print for the image, by the module."""
    lines = []
    try:
        for line in tape.Image(data).lines():
            lines.append(line + "\n")
    except tape.ImageError as error:
        return "".join(lines), f"tape: image fault {error.number} at {error.place}\n", 1
    return "".join(lines), "", 0


def entries(tape, data):
    """The kind, end and size of each item, and the fault; a bad block has no size."""
    items = []
    try:
        for item in tape.Image(data):
            size = 4 if item.kind is tape.Kind.MARK else 8 + item.length + item.length % 2
            items.append((item.kind is tape.Kind.BAD or size, item.place + size))
    except tape.ImageError as error:
        return items, (error.number, error.place)
    return items, None


def shown(text, errors):
    """The same, as the program prints it."""
    rows = [line.split(" ", 3) for line in text.splitlines()]
    items = [(it[3] == "BAD" or int(it[1]), int(it[0]) + int(it[1])) for it in rows if it[2] != "END"]
    found = errors.split()
    return items, (int(found[3]), int(found[5])) if found else None


def walked(walk, folder, data):
    """The items and the lines that walk.c prints, and its status."""
    (folder / "image").write_bytes(data)
    done = subprocess.run([walk, "image"], cwd=folder, capture_output=True, check=False)
    before, end, after = done.stdout.decode("latin-1").partition("end ")
    rows = [line.split() for line in before.splitlines()]
    items = [(it[1] == "2" or (4 if it[1] == "3" else 8 + int(it[2]) + int(it[2]) % 2), int(it[0]), it[1], int(it[2]))
             for it in rows]
    return items, end + after.partition("\n")[0], after.partition("\n")[2], done.returncode


def check(tape, options, walk, folder, results, name, pair):
    for number, data in enumerate(pair, 1):
        (folder / str(number)).write_bytes(data)
    data = pair[1]
    theirs = outcome(options, ["list", "2"], folder)
    results.expect(listed(tape, data) == theirs, f"{name}: list, {theirs[1:]}")
    placed = outcome(options, ["list", "--offsets", "2"], folder)
    ours = entries(tape, data)
    results.expect(ours == shown(placed[0], placed[1]), f"{name}: items, {ours}")
    items, end, lines, status = walked(walk, folder, data)
    sizes = [(bad, place + (4 if kind == "3" else 8 + length + length % 2)) for bad, place, kind, length in items]
    fault = ours[1] or (0, None)
    results.expect((sizes, lines, status) == (ours[0], theirs[0], int(fault[0] != 0))
                   and end.startswith(f"end {fault[0]} at {'' if fault[1] is None else fault[1]}"), f"{name}: walk.c, {end}")
    rows, errors, status = outcome(options, ["survey", "--tsv", "1", "2"], folder)
    survey = tape.survey(pair)
    # The library applies no rule of the normal form; the program names each that it applied.
    if not errors:
        results.expect((survey.text, survey.complete) == (rows, status == 0) and status in (0, 3),
                       f"{name}: survey, status {status}")


def main():
    options = arguments(__doc__,
        ("--library", "", "the shared object; otherwise it is linked from crates/tape_c/out/libtape_c.a"),
        ("--images", 1000, "how many damaged images"), ("--seed", 1, "for the damage"))
    results, chance, whole = Results(), random.Random(options.seed), image()
    with folder_with() as folder:
        library = Path(options.library).resolve() if options.library else folder / "libtape_c.so"
        if not options.library:
            page = subprocess.run(["rt", "doc"], capture_output=True, text=True, check=True).stdout.strip()
            subprocess.run(["cc", "-shared", "-o", library, "-Wl,--whole-archive", CRATE / "out" / "libtape_c.a",
                            "-Wl,--no-whole-archive", Path(page).parent / "c" / "liblibc_c.a"], check=True)
        os.environ["TAPE_LIBRARY"] = str(library)
        sys.path.insert(0, str(CRATE / "python"))
        import tape
        walk = folder / "walk"
        subprocess.run(["cc", "-std=c99", "-Wall", "-Wextra", "-pedantic", "-O2", "-I", CRATE / "include", "-o", walk,
                        HERE / "walk.c", library, f"-Wl,-rpath,{library.parent}"], check=True)
        cases = [("the worked image", whole)] + list(odd_images().items())
        cases += [(f"image {n}", damaged(whole, chance)) for n in range(options.images)]
        before = whole
        for name, data in cases:
            check(tape, options, walk, folder, results, name, (before, data))
            before = data
        many = (block(b"x" * 8000) * 99 + mark()) * 150 + END
        begun = time.process_time()
        count = sum(1 for _ in tape.Image(many))
        taken = time.process_time() - begun
        results.expect(count == 15000 and taken <= 0.3, f"{count} items in {taken:.2f} s")
        print(f"{count} items, {len(many)} bytes: {taken:.2f} s")
    return results.end("results")


if __name__ == "__main__":
    sys.exit(main())
