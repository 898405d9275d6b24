#!/usr/bin/env python3
"""A simulated tape drive for scripts.py: `mt` and `dd`, which are links to this file.

The device is a directory: `tape` has a line for each item of the reel, a tape mark or the block in hexadecimal
digits; `faults` has lines `unreadable N`, and `slips` if a damaged block counts as two when it is skipped; `at` has
the number of items before the head.
"""

import sys
from pathlib import Path


class Drive:
    """The reel and the head."""

    def __init__(self, device):
        self.place = Path(device, "at")
        self.items = Path(device, "tape").read_text().split("\n")[:-1]
        faults = Path(device, "faults").read_text().split("\n")
        self.unreadable = {int(line.split()[1]) - 1 for line in faults if line.startswith("unreadable")}
        self.slips = "slips" in faults
        self.at = int(self.place.read_text())

    def leave(self, status):
        self.place.write_text(str(self.at))
        sys.exit(status)

    def wind(self, order, count):
        if order == "rewind":
            self.at = 0
        for _ in range(count if order == "fsf" else 0):
            while self.at < len(self.items) and self.items[self.at] != "mark":
                self.at += 1
            self.at += 1
        for _ in range(count if order == "fsr" else 0):
            if self.at >= len(self.items) or self.items[self.at] == "mark":
                self.at += 1
                self.leave(2)
            self.at += 2 if self.slips and self.at in self.unreadable else 1
        self.leave(0 if self.at <= len(self.items) else 2)

    def read(self, out, size):
        """One block; of a tape mark, no bytes."""
        item = self.items[self.at] if self.at < len(self.items) else ""
        data = b"" if item in ("", "mark") else bytes.fromhex(item)
        is_bad = self.at in self.unreadable or item == "" or len(data) > size
        self.at += 1
        Path(out).write_bytes(data[:len(data) // 2] if is_bad else data)
        self.leave(1 if is_bad else 0)


def main():
    if Path(sys.argv[0]).name == "mt":
        _, device, order, *count = sys.argv[1:]
        Drive(device).wind(order, int(count[0]) if count else 1)
    words = dict(word.split("=", 1) for word in sys.argv[1:])
    assert words.pop("count") == "1"
    Drive(words["if"]).read(words["of"], int(words["bs"]))


if __name__ == "__main__":
    main()
