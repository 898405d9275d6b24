#!/usr/bin/env python3
"""Compares `tape list` with the plain C lister on unusual images. Run manually; CI does not run it.

    ./compare.py [--program PATH] [--every N]

The images are the worked image cut at each length, the same with each byte changed in turn, and some
written for one rule each: gaps, bad blocks, blocks of odd and of extreme lengths, reserved length
words, bytes after the end-of-medium marker, labels with unusual fields. Both programs get each image
on a pipe. They must print the same, on both streams, and end with the same status. --every N takes
only each N-th of the cut and changed images.
"""

import subprocess
import sys

from common import CRATE, HERE, Results, arguments, folder_with
from make_worked_image import block, image, mark, second_label, word

END = word(0xFFFFFFFF)
GAP = word(0xFFFFFFFE)


def cut_images(whole):
    return {f"cut to {n}": whole[:n] for n in range(len(whole) + 1)}


def changed_images(whole):
    def changed(place, byte):
        return whole[:place] + bytes([byte]) + whole[place + 1:]

    return {
        f"byte {place} is {byte:#04x}": changed(place, byte)
        for place in range(len(whole))
        for byte in {0x00, 0x20, 0x30, 0x7F, 0x80, 0xFF, whole[place] ^ 1}
        if byte != whole[place]
    }


def long_block(length, flag=0):
    data = b"y" * length + b"\x01" * (length % 2)
    return word(length | flag) + data + word(length | flag)


def odd_images():
    labels = [bytearray(second_label("HDR2")[4:84]) for _ in range(6)]
    labels[0][50:52] = b"  "
    labels[1][50:52] = b" 0"
    labels[2][4:5] = b"U"
    labels[3][10:15] = b"00000"
    labels[4][4:15] = b"D0000000000"
    labels[5][15:50] = b"\xff" * 35
    fields = "HDR1\x01\x7f~ \xe9            ABC0010001000100010000000000000 000000"
    first = fields.encode("latin-1").ljust(80)
    images = {
        "nothing": b"",
        "the end word alone": END,
        "bytes after the end-of-medium marker": END + b"\x01",
        "gaps between all": GAP + mark() + GAP + GAP + block(b"abc") + GAP + END,
        "a gap at the end": mark() + GAP,
        "a bad block": long_block(3, 0x80000000) + END,
        "a bad block cut": long_block(3, 0x80000000)[:-1],
        "a bad block whose words differ": word(0x80000002) + b"ab" + word(2),
        "the longest block": long_block(99999) + END,
        "a longer block": long_block(100000) + END,
        "a much longer block": long_block(300001) + END,
        "a much longer block cut": long_block(300001)[:200000],
        "the pad byte is not looked at": word(1) + b"a\xff" + word(1) + END,
        "labels": b"".join(block(bytes(label)) for label in labels) + block(first) + END,
        "79 and 81 bytes": block(first[:79]) + block(first + b" ") + END,
        "other labels": b"".join(block(name + b" " * 76) for name in (b"UVL1", b"HDR3", b"VOL2", b"EOF3", b"vol1")) + END,
    }
    for number in (0x01000000, 0x10000001, 0x7FFFFFFF, 0x80000000, 0x81000001, 0xFFFEFFFF, 0xFFFFFFFD):
        images[f"word {number:#010x}"] = mark() + word(number) + END
    return images


def outcome(command, data):
    done = subprocess.run(command, input=data, capture_output=True, check=False)
    return done.stdout, done.stderr, done.returncode


def main():
    options = arguments(__doc__, ("--every", 1, "take each N-th of the cut and changed images"))
    whole = image()
    if (CRATE / "stdin").read_bytes() != whole:
        sys.exit(f"{CRATE}/stdin is not the worked image")
    many = list(cut_images(whole).items()) + list(changed_images(whole).items())
    cases = many[:: options.every] + list(odd_images().items())
    results = Results()
    with folder_with() as folder:
        lister = folder / "lister"
        subprocess.run(["cc", "-O2", "-Wall", "-o", lister, HERE.parent / "bench" / "lister.c"], check=True)
        for name, data in cases:
            ours, theirs = outcome([options.program, "list"], data), outcome([lister], data)
            results.expect(ours == theirs,
                f"{name}: tape list {ours[1:]}, C lister {theirs[1:]}, the same lines: {ours[0] == theirs[0]}")
    return results.end("images")


if __name__ == "__main__":
    sys.exit(main())
