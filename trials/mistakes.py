#!/usr/bin/env python3
"""The mistakes of docs/MISTAKES.md that were seen in other programs. Run manually; CI does not run it.

    ./mistakes.py [--program PATH] [--into DIR]

Makes the inputs of the first table, in DIR if it is given: copies of the sample image that end too early or are
changed, volumes written by `tape`, and both in AWS format. What `tape` prints of them, and its exit status, must be
what the table says. Then the commands of the table are run with `mtdump`, `pdp11` (Debian: simh) and `hetget` (Debian:
hercules) that are installed; what they print is shown, not judged: a newer version may be right.

Prints each wrong result of `tape`, and the counts. Exit status 1 if something was wrong.
"""

import shutil
import struct
import subprocess
from pathlib import Path

from common import CRATE, Results, arguments, folder_with

END = 0xFFFFFFFF

# The TM11 of the simulator reads a record into memory, and stops when it has finished.
READS = "012737 170000 172524 012737 010000 172526 012737 060003 172522 105737 172522 100375 0"


def word(n):
    return struct.pack("<I", n)


def aws(tap):
    """An image in AWS format with the items of a .tap image."""
    at, before, out = 0, 0, b""
    while (n := struct.unpack_from("<I", tap, at)[0]) != END:
        out += struct.pack("<HHBB", n, before, 0xA0 if n else 0x40, 0) + tap[at + 4:at + 4 + n]
        at, before = at + (8 + n + n % 2 if n else 4), n
    return out


def run(folder, *words):
    done = subprocess.run(words, cwd=folder, capture_output=True, check=False)
    return done.returncode, (done.stdout + done.stderr).decode(errors="replace")


def make_inputs(program, folder):
    reel = (CRATE / "stdin").read_bytes()
    files = {"reel": reel,
             "cut": reel[:2288],      # ends before the trailing length of item 7
             "short": reel[:1885],    # ends in the leading length of item 7
             "differ": reel[:1072] + word(808) + reel[1076:],      # item 5: lengths 800 and 808
             "reserved": reel[:268] + word(0x70000320) + reel[272:],
             "gap": reel[:268] + word(0xFFFFFFFE) * 4 + reel[268:]}
    for name, content in files.items():
        (folder / f"{name}.tap").write_bytes(content)
    (folder / "in.txt").write_text("".join(f"record number {n:06} of the file\n" for n in range(1, 61)))
    for words in (("DAT", "2000", "DATA=in.txt", "--format", "F", "--record", "32", "--block", "320"),
                  ("VAR", "100000", "DATA=in.txt", "--format", "D"), ("SPN", "100000", "DATA=in.txt", "--format", "S")):
        run(folder, program, "write", ".", *words)
    for name in ("DAT001", "DAT002", "VAR001", "SPN001"):
        (folder / f"{name}.aws").write_bytes(aws((folder / f"{name}.tap").read_bytes()))
    whole = aws(reel)
    (folder / "part.aws").write_bytes(whole[:1700])     # ends in the second data block
    (folder / "back.aws").write_bytes(whole[:1072] + struct.pack("<H", 808) + whole[1074:])


def judge(program, folder, results):
    """What `tape` says of the inputs."""
    for name, fault in (("cut", "1 at 1884"), ("short", "1 at 1884"), ("differ", "2 at 268"), ("reserved", "3 at 268")):
        got = run(folder, program, "list", f"{name}.tap")
        results.expect(got[0] == 1 and got[1].endswith(f"tape: image fault {fault}\n"), f"list {name}.tap: {got}")
    got = run(folder, program, "list", "gap.tap")
    results.expect(got[0] == 0 and got[1].startswith("000001") and "000012" in got[1] and "000013" not in got[1], f"gap: {got}")
    for name, volume, status, last in (("cut", "ABC001", 3, "AWAITS 1 1 2"), ("DAT001", "DAT001", 3, "AWAITS 1 2 0"),
                                       ("DAT002", "DAT001", 3, "REEL 1 LATER SECTION\nAWAITS 1 1 0"),
                                       ("VAR001", "VAR001", 0, "COMPLETE 60"), ("SPN001", "SPN001", 0, "COMPLETE 60")):
        got = run(folder, program, "extract", volume, "1", f"{name}.txt", f"{name}.tap")
        results.expect(got[0] == status and got[1].endswith(f"{last}\n"), f"extract {name}.tap: {got}")
        results.expect((folder / f"{name}.txt").exists() == (status == 0), f"OUT of {name}.tap")


def show(folder, *words):
    """What another program prints, its exit status, and the size of what it wrote, if it is installed."""
    if shutil.which(words[0]):
        status, text = run(folder, *words)
        size = (folder / "out").stat().st_size if (folder / "out").exists() else "no"
        (folder / "out").unlink(missing_ok=True)
        print(f"$ {' '.join(words)}\n{text.rstrip()}\n[status {status}, {size} bytes in out]")


def show_others(folder):
    for name in ("cut", "short", "differ", "reserved", "gap"):
        show(folder, "mtdump", f"{name}.tap")
    for name in ("back", "part", "DAT001", "DAT002", "VAR001", "SPN001"):
        show(folder, "hetget", f"{name}.aws", "out", "1")
    for name, count in (("cut", 7), ("differ", 5)):
        steps = [f"attach -r tm0 {name}.tap", *(f"d {0o2000 + 2 * at:o} {it}" for at, it in enumerate(READS.split())),
                 *["d pc 2000", "go"] * count, "ex 17772520,17772522,17772524", "quit"]
        (folder / "read.ini").write_text("\n".join(steps) + "\n")
        show(folder, "pdp11", "read.ini")


def main():
    options = arguments(__doc__, ("--into", "", "a new directory for the inputs, which stays"))
    results = Results()
    with folder_with() as folder:
        if options.into:
            folder = Path(options.into).resolve()
            folder.mkdir()
        make_inputs(options.program, folder)
        judge(options.program, folder, results)
        show_others(folder)
    return results.end()


if __name__ == "__main__":
    raise SystemExit(main())
