#!/usr/bin/env python3
"""Runs the built program as whole.txt says, and compares exit status, both streams, files and opened files.
Run manually; CI does not run it. Needs strace.

    ./whole.py [--program PATH] [--other PATH]

With --other each call is also made with that program, in a directory of its own: everything must be the same.
The calls share a directory, in which each file has a name of its own; `list` gets an image of one mark on standard
input. The images are written here from the format descriptions. Prints each wrong result, and the counts; exit status 1
if there was one.
"""

import re
import shlex
import subprocess
import sys
from contextlib import contextmanager
from pathlib import Path

from common import HERE, Results, arguments, files_in, folder_with
from fail import volume
from make_worked_image import block, image, label, mark, volume_label, word

END = mark() + word(0xFFFFFFFF)


def section(number, name, set_id, second, blocks):
    """A section that ends its file: its labels, with these fields in the second ones, and its blocks."""
    def labels(kind, count):
        first = f"{kind}1{name:17}{set_id}0001{number:04}000100 00000 00000 {count:06}"
        return label((first, 80)) + label((f"{kind}2{second}", 80)) + mark()
    return labels("HDR", 0) + b"".join(blocks) + mark() + labels("EOF", len(blocks))


def volume_with(name, set_id, second, blocks):
    """A volume with one file."""
    return volume_label(set_id) + section(1, name, set_id, second, blocks) + END


SPANNED = [block(b"100180123456789ABC"), block(b"20018DEFGHIJKLMNOP"), block(b"30009QRST^^^^^^^^^")]
S_18 = f"S0001800000{'':35}00"
SPAN = volume_with("SPAN", "STG001", S_18, SPANNED)
UNREADABLE = SPANNED[0].replace(b"\x12\0\0\0", b"\x12\0\0\x80")
STAGE = (
    b"O000000000000001TPCK2STG00100010001000000000000000R00 0000000                 000000000000000" + b" " * 35
    + b"O000000000000002TPCK2STG00100010001000000000200000R11S0000000SPAN             000000000000036" + b" " * 35
    + b"1\0\0\0\x0d0123456789ABC2\0\0\0\x0dDEFGHIJKLMNOP"
)
LONG = b"L" * 1_999
D_40 = f"D0004000030{'':35}03"
TWO = (
    volume_label("TWO001") + section(1, "ONE", "TWO001", D_40, [block(b"   0006AB0007CDE".ljust(40, b"^"))])
    + section(2, "TWO", "TWO001", D_40, [block(b"   0005F".ljust(40, b"^"))]) + END
)
FIRST, SECOND = volume(1, False, range(1, 26)), volume(2, True, [])
PUT = {
    "shown.tap": image()[:2288], "heap1.tap": image(), "heap2.tap": image()[:2288], "seen1.tap": image(),
    **{f"{name}1.tap": FIRST for name in ("whole", "last", "open", "shut")},
    **{f"{name}2.tap": SECOND for name in ("whole", "last", "open", "shut")},
    "whole.names": b"nowhere.tap\n\nwhole1.tap", "whole.nulls": b"nowhere.tap\0whole2.tap\0", "heap.names": b"heap1.tap\n",
    "open.names": b"lost.tap\n\nopen1.tap", "open.nulls": b"open1.tap\0\0open2.tap\0lost.tap\0", "empty.names": b"\n\n",
    "stg_front.tap": SPAN[:SPAN.index(SPANNED[2])], "stg_damaged.tap": SPAN.replace(SPANNED[0], UNREADABLE),
    "full/ABC001.1.PAYROLL.stage": b"noise",
    "one.txt": b"AB\nCDE\n", "two.txt": b"F\n", "a=b.txt": b"G\n", "nil.txt": b"", "span.bin": b"9" * 290,
    "long.txt": (LONG + b"\n") * 12,
}
# what files contain after the calls that whole.txt gives them to
HELD = {
    "stg.stage": STAGE, "stg_front.txt": b"", "stg.txt": b"0123456789ABCDEFGHIJKLMNOPQRST\n",
    "stg_raw.txt": b"0123456789ABCDEFGHIJKLMNOPQRST", "full/ABC001.1.PAYROLL.stage": b"noise",
    "TWO001.tap": TWO, "EQL001.tap": volume_with("E", "EQL001", f"D0204802048{'':35}00", [block(b"0005G".ljust(18, b"^"))]),
    "one_again.bin": b"ABCDE", "two_again.txt": b"F\n", "nil_again.txt": b"", "nil_behind.txt": b"",
    "INT011.tap": volume_label("INT011") + mark() + END,
    "LNG001.tap": volume_with("LONG", "LNG001", f"D2000009999{'':35}00", [block((b"2003" + LONG) * count) for count in (9, 3)]),
    "long_again.txt": PUT["long.txt"],
}
OPEN = re.compile(r'openat\(AT_FDCWD, "([^/"][^"]*)".* = (-?)')


def opened(log):
    """The relative paths that a run opened, each followed by a question mark if that failed."""
    found = (OPEN.match(line) for line in log.read_text().splitlines())
    return " ".join(it[1].removeprefix("./") + "?" * (it[2] != "") for it in found if it)


class Answer:
    """What a program answers to a call in a directory."""

    def __init__(self, program, folder, line):
        words, self.to = line.replace("LOST", "lost.tap " * 255).partition(" > ")[::2]
        log = folder.with_suffix(".log")
        strace = ["strace", "-o", str(log), "-e", "trace=openat"]
        if " FUL " in line:
            strace += ["-P", f"{folder}/FUL001.tap", "-e", "trace=write", "-e", "inject=write:error=ENOSPC"]
        with open(self.to or log, "wb") as to:
            done = subprocess.run([*strace, program, *shlex.split(words)], cwd=folder, input=END,
                stdout=to if self.to else subprocess.PIPE, stderr=subprocess.PIPE, check=False)
        self.status, self.out, self.err = done.returncode, done.stdout or b"", done.stderr
        self.opened, self.files = opened(log), files_in(folder)
        log.unlink()

    def said(self):
        """The lines of both streams, as whole.txt has them."""
        return [*self.out.decode().splitlines(), *(f"! {it}".rstrip() for it in self.err.decode().splitlines())]


@contextmanager
def prepared():
    """A directory with the files that the calls need."""
    with folder_with(PUT) as folder:
        (folder / "nil_link.txt").symlink_to("nil_behind.txt")
        for name in ("heap", "seen"):
            (folder / name).mkdir()
        yield folder


def main():
    options, results = arguments(__doc__, ("--other", "", "another build of the same sources, whose answers must be the same")), Results()
    other = options.other and str(Path(options.other).resolve(strict=True))
    with prepared() as folder, prepared() as another:
        for row in (HERE / "whole.txt").read_text().split("\n$ ")[1:]:
            line, *lines = row.rstrip("\n").split("\n")
            answer = Answer(options.program, folder, line)
            said = answer.said()
            text = [it for it in lines if it[:2] not in ("> ", "@ ", "# ") and it != ">"]
            if text and text[0] == "...":
                text, said = text[1:], said[2 - len(text):]
            if text:
                results.expect([*said, f"[{answer.status}]"] == text, f"{line}: {said}, status {answer.status}")
            for due in (it[1:].strip() for it in lines if it[:1] == ">"):
                results.expect(answer.opened == due, f"{line}: opened {answer.opened}")
            for name in (it[2:] for it in lines if it[:2] == "@ "):
                results.expect(answer.files.get(name) == HELD[name], f"{line}: {name} is another")
            if other:
                second = Answer(other, another, line)
                results.expect(vars(second) == vars(answer), f"{line}: {other}: {second.said()}, status {second.status}, or other files")
    return results.end()


if __name__ == "__main__":
    sys.exit(main())
