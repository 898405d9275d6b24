#!/usr/bin/env python3
"""Writes the worked image, byte for byte from the description of the format.

The volume ABC001 contains one file, PAYROLL, with 25 records of 80 bytes in blocks
of at most 800 bytes, record format F. Record number i is i in four digits and 76
spaces. The image has 2,484 bytes; docs/FORMATS.md lists its offsets.

    ./make_worked_image.py > FILE

The script uses no program of this repository, since the programs are tested on
these bytes.
"""

import struct
import sys

END_OF_MEDIUM = 0xFFFFFFFF


def word(number):
    return struct.pack("<I", number)


def mark():
    return word(0)


def block(data):
    pad = b"\0" * (len(data) % 2)
    return word(len(data)) + data + pad + word(len(data))


def label(*pieces):
    """A label block: (text, width) pairs, each filled with spaces on the right."""
    text = "".join(text.ljust(width) for text, width in pieces)
    assert len(text) == 80, text
    return block(text.encode("ascii"))


def volume_label(volume):
    return label(("VOL1", 4), (volume, 6), ("", 1), ("", 13), ("", 13), ("", 14), ("", 28), ("4", 1))


def first_label(identifier, blocks):
    return label(
        (identifier, 4), ("PAYROLL", 17), ("ABC001", 6), ("0001", 4), ("0001", 4),
        ("0001", 4), ("00", 2), (" 00000", 6), (" 00000", 6), ("", 1),
        (f"{blocks:06}", 6), ("", 13), ("", 7),
    )


def second_label(identifier):
    return label((identifier, 4), ("F", 1), ("00800", 5), ("00080", 5), ("", 35), ("00", 2), ("", 28))


def image():
    records = [f"{i:04}".encode("ascii") + b" " * 76 for i in range(1, 26)]
    blocks = [b"".join(records[i:i + 10]) for i in range(0, 25, 10)]
    return b"".join(
        [volume_label("ABC001"), first_label("HDR1", 0), second_label("HDR2"), mark()]
        + [block(data) for data in blocks]
        + [mark(), first_label("EOF1", len(blocks)), second_label("EOF2"), mark()]
        + [mark(), word(END_OF_MEDIUM)]
    )


if __name__ == "__main__":
    data = image()
    assert len(data) == 2484, len(data)
    sys.stdout.buffer.write(data)
