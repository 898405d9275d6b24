#!/usr/bin/env python3
"""The recipes of RECIPES.md for a map of an image, for the rows of a survey, and for records and their lengths. Run
manually; CI does not run it.

    ./recipes.py [--program PATH] [--seed N] [--cases N]

The lines are taken from the page. The images are made here, and the expected values are this trial's own records:

- the map for ddrescue: the state of each byte of damaged images, and of one with more than 2,147,483,647 bytes. If
  `ddrescuelog` is installed, it must accept the map and count the same bytes as rescued.
- rows with names and identifiers that begin with a quotation mark, as Python, SQLite (if it is installed) and
  `docs/page.py` read them.
- records of any bytes in formats F, D and S, on several volumes, as Python splits the output in the form counted.
- the same records translated by `--text` of `extract`, `extract --again`, `salvage` and `unpack` in each form, as
  Python's codecs translate them from code page 037 to ISO 8859-1.

Prints each wrong result, what is not installed, and the counts. Exit status 1 if something was wrong.
"""

import html
import os
import re
import shutil
import subprocess
import sys

from common import HERE, arguments, folder_with
from make_worked_image import word
from reels import File, packed, volumes_of
from scripts import END, Trial, bad, encoded, items_of

RECIPES = (HERE.parent / "docs" / "RECIPES.md").read_text(encoding="utf-8")


def recipe(heading, start):
    """The indented lines of a section of RECIPES.md that begin with these words, and those that follow them."""
    section = RECIPES.split(f"\n## {heading}\n")[1].split("\n## ")[0]
    lines = section.split("\n")
    first = next(at for at, line in enumerate(lines) if line.startswith(f"    {start}"))
    last = next(at for at in range(first, len(lines)) if not lines[at].startswith("    "))
    return [line[4:] for line in lines[first:last]]


def try_maps(trial):
    rng, folder = trial.rng, trial.folder
    command = recipe("All bad places", "$ for f in bad.tap cut.tap")[0][2:].replace("bad.tap cut.tap", "this.tap")
    command = command.replace("../$f.map", "$f.map")
    gap, has_log = word(0xFFFFFFFE), trial.tool("ddrescuelog")
    for case in range(trial.options.cases):
        content, states = b"", ""
        for item in items_of(rng, [1, 2, 80, 81], 9):
            for _ in range(rng.choice([0, 0, 0, 1, 2])):
                content, states = content + gap, states + "gggg"
            is_bad = item is not None and rng.random() < .4
            spelling = bad(item) if is_bad else encoded(item)
            content, states = content + spelling, states + ("-" if is_bad else "+") * len(spelling)
        way = rng.choice(["marked", "physical", "cut", "fault", "more"])
        if way in ("marked", "more"):
            content, states = content + END, states + "++++"
        if way == "more":
            content, states = content + bytes(9), states + "?" * 9
        if way == "fault":
            content, states = content + b"\x50\0\0\0" + bytes(90), states + "?" * 94
        if way == "cut":
            ends = [0]
            place = 0
            while place < len(content):
                length = int.from_bytes(content[place:place + 3], "little")
                lone = content[place:place + 4] in (gap, word(0))
                place += 4 if lone else 8 + length + length % 2
                ends.append(place)
            size = rng.randint(1, len(content))
            read = max(end for end in ends if end <= size)
            content, states = content[:size], states[:read] + "?" * (size - read)
        (folder / "this.tap").write_bytes(content)
        done = trial.run("bash", "-c", command)
        lines = [line.split(" ") for line in done.stdout.decode().split("\n")[1:-1]]
        drawn, place, is_joined = "", 0, True
        for start, size, state in lines:
            is_joined &= int(start) == place and int(size) > 0
            place += int(size)
            drawn += state * int(size)
        right = len(drawn) == len(states) and all(due in (seen, "g") for due, seen in zip(states, drawn))
        trial.expect(done.returncode == 0 and is_joined and right, f"map {case}, {way}: {lines}, {states}")
        if has_log:
            said = trial.run("ddrescuelog", "-t", "this.tap.map")
            rescued = re.search(r"rescued: +(\d+) B", said.stdout.decode())
            trial.expect(said.returncode == 0 and rescued and int(rescued[1]) == drawn.count("+"), f"map {case}: {said}")
    # Numbers of more than 31 bits: a listing of a large image, from a program that prints nothing else.
    (folder / "listing").mkdir()
    (folder / "listing" / "tape").write_text("#!/bin/sh\necho 0 3000000000 000001 BLOCK 00001\necho 3000000000 1000000001 000002 BAD\n")
    (folder / "listing" / "tape").chmod(0o755)
    with open(folder / "this.tap", "wb") as out:
        out.truncate(4_100_000_002)
    done = trial.run("bash", "-c", f"PATH={folder}/listing:$PATH; {command}")
    due = b"0 ? 1\n0 3000000000 +\n3000000000 1000000001 -\n4000000001 100000001 ?\n"
    trial.expect(done.stdout == due, f"map of a large image: {done}")
    (folder / "this.tap").unlink()


def try_rows(trial):
    """Names that begin with a quotation mark."""
    rng, folder = trial.rng, trial.folder
    (folder / "rows").mkdir()
    files = []
    for number, name in enumerate(['"QUOTED" NAME', '"OPEN', 'A "B', '"'], 1):
        made = File(number, name, ("D", 80, 80), " 85100")
        made.blocks = packed(made.shape, [b"x"])
        files.append(made)
    content = b"".join(item.spelling for volume in volumes_of("QUO001", files, rng, "QUO0") for item in volume) + END
    names = ['"odd.tap', '"a" b.tap', "tab\there.tap", "back\\s.tap", "line\nfeed", 'plain.tap"']
    for name in names:
        (folder / "rows" / name).write_bytes(content)
    escaped = [name.replace("\\", "\\\\").replace("\t", "\\u0009").replace("\n", "\\u000A") for name in names]
    done = subprocess.run([trial.options.program, "survey", "--tsv", "--", *names], cwd=folder / "rows", capture_output=True,
        check=False)
    (folder / "rows" / "rows.tsv").write_bytes(done.stdout)
    scope, here = {}, os.getcwd()
    os.chdir(folder / "rows")
    exec("\n".join(recipe("Rows in Python and SQLite", "import csv")), scope)  # pylint: disable=exec-used
    os.chdir(here)
    rows = scope["rows"]
    trial.expect([row[1] for row in rows if row[0] == "IMAGE"] == escaped, f"rows: names in Python: {rows}")
    trial.expect([row[3] for row in rows if row[0] == "FILE"] == [file.name for file in files], f"rows: identifiers in Python: {rows}")
    widths = {"IMAGE": 12, "SECTION": 8, "FILE": 13, "COPIES": 8}
    trial.expect(all(len(row) >= widths[row[0]] for row in rows), f"rows: {rows}")
    if trial.tool("sqlite3"):
        lines = recipe("Rows in Python and SQLite", ".mode ascii")
        of_files = [line for line in done.stdout.splitlines(True) if line.startswith(b"FILE\t")]
        (folder / "rows" / "FILE.tsv").write_bytes(b"".join(of_files))
        columns = ", ".join(f"c{at}" for at in range(13))
        words = [f"CREATE TABLE f({columns});", *lines, ".import FILE.tsv f", ".mode list", "SELECT c3 FROM f;"]
        told = subprocess.run(["sqlite3", ":memory:"], cwd=folder / "rows", input="\n".join(words) + "\n", capture_output=True,
            text=True, check=False)
        trial.expect(told.stdout.split("\n")[:-1] == [file.name for file in files], f"rows: SQLite: {told}")
    page = subprocess.run([HERE.parent / "docs" / "page.py", *names], cwd=folder / "rows", capture_output=True, check=False, text=True,
        env={**os.environ, "TAPE": trial.options.program})
    shown = [html.unescape(it) for it in re.findall(r"<h2>(.*?)</h2>", page.stdout, re.S)]
    trial.expect(shown == [*names, "Files"], f"rows: names on the page: {shown}")
    shown = [html.unescape(it) for it in re.findall(r"<tr><td>QUO001</td><td>\d</td><td>(.*?)</td>", page.stdout)]
    trial.expect(shown == [file.name for file in files], f"rows: identifiers on the page: {shown}")


def try_counted(trial):
    """Records of any bytes and lengths, also of none."""
    rng, folder = trial.rng, trial.folder
    lines = recipe("Records and their lengths", "records, at = ")
    (folder / "counted").mkdir()
    for case in range(trial.options.cases):
        shape = rng.choice([("F", 400, 40), ("D", 400, 400), ("S", 80, 0)])
        sizes = {"F": [40], "D": [0, 1, 9, 300, 396], "S": [0, 1, 70, 75, 76, 255, 256, 5000, 20000]}[shape[0]]
        records = [rng.randbytes(rng.choice(sizes)) for _ in range(rng.randint(0, 9))]
        made = File(1, "COUNTED", shape, " 85100")
        made.blocks = packed(shape, records)
        names = []
        for number, volume in enumerate(volumes_of("CNT001", [made], rng, "CNT0")):
            names.append(f"{number}.tap")
            (folder / "counted" / names[-1]).write_bytes(b"".join(item.spelling for item in volume) + END)
        out = folder / "counted" / f"out{case}"
        words = ["extract", "--form", "counted", "CNT001", "1", out.name, *names]
        done = subprocess.run([trial.options.program, *words], cwd=folder / "counted", capture_output=True, check=False)
        scope = {"data": out.read_bytes() if done.returncode == 0 else b"\0"}
        exec("\n".join(lines), scope)  # pylint: disable=exec-used
        lengths = [len(record) for record in records], [len(record) for record in scope["records"]]
        trial.expect(scope["records"] == records, f"records {case}, {shape}: {done}, {lengths}")
        try_translated(trial, folder / "counted", names, records, f"{case}, {shape}")


def try_translated(trial, folder, names, records, case):
    """The records of a file, translated."""
    records = [record.decode("cp037").encode("latin-1") for record in records]
    dues = {"lines": b"".join(record + b"\n" for record in records), "raw": b"".join(records),
            "counted": b"".join(len(record).to_bytes(4, "big") + record for record in records)}
    for form, due in dues.items():
        for words in (["extract"], ["extract", "--again"], ["salvage"], ["unpack"]):
            out = folder / "translated"
            shutil.rmtree(out, ignore_errors=True)
            out.mkdir()
            place = ["CNT001", "1", out / "CNT001.1.COUNTED"] if words != ["unpack"] else [out]
            done = subprocess.run([trial.options.program, *words, "--text", "--form", form, *place, *names], cwd=folder,
                capture_output=True, check=False)
            found = {path.name: path.read_bytes() for path in out.iterdir()}
            trial.expect(found == {"CNT001.1.COUNTED": due}, f"translated {case}, {words} {form}: {done}, {found}, {due}")


def main():
    options = arguments(__doc__, ("--seed", 1, "of the images"), ("--cases", 60, "of maps, and of files"))
    with folder_with() as folder:
        trial = Trial(options, folder)
        try_maps(trial)
        try_rows(trial)
        try_counted(trial)
    return trial.end()


if __name__ == "__main__":
    sys.exit(main())
