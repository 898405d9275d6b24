#!/usr/bin/env python3
"""Draws a collection: an HTML page of images, to standard output.

    docs/page.py IMAGE... >page.html

A package installs this as tape-page. For each image there is a strip of squares, one for each item or,
on a long image, one for several items with the colour of the worst. A bar below the squares of a file
section shows that the section is damaged, or that its copies differ. Then a table of the files has the
state of each section that was found, and what is missing. Names of images may contain any bytes.

It runs `tape survey --json` and `tape list --offsets`; TAPE names another program. docs/page.html is the
page of three images, which docs/examples.sh draws again and compares.
"""
import collections
import html
import json
import os
import re
import subprocess
import sys
import tempfile

TAPE = os.environ.get("TAPE", "tape")
PER_ROW, ROWS, STEP = 100, 20, 10

# What an item is drawn as, and what the bar below it says of its section; the worst last.
KINDS = ("block", "mark", "label", "bad", "end")
STATES = ("", "GOOD", "CUT", "COUNT", "BAD", "CONFLICT")
WORDS = {"CUT": "truncated", "COUNT": "wrong block count", "BAD": "unreadable blocks",
         "CONFLICT": "its copies differ"}

STYLE = """
body { font: 15px/1.45 Georgia, serif; max-width: 66em; margin: 2em auto; color: #222 }
h2 { margin: 1.6em 0 .2em; font-size: 1.1em; overflow-wrap: anywhere }
p { margin: .2em 0 }
table { border-collapse: collapse; margin: .4em 0 }
th, td { padding: .1em .9em .1em 0; text-align: left; vertical-align: top; font-weight: normal }
th { color: #666 }
svg { display: block; margin: .3em 0 }
.block { fill: #7fb685 } .mark { fill: #555 } .label { fill: #2b6ca3 } .bad { fill: #c0392b }
.end { fill: #fff; stroke: #c0392b; stroke-width: 2 }
rect.CUT, rect.COUNT, rect.BAD { fill: #e69f00 } rect.CONFLICT { fill: #8e44ad }
.COMPLETE, .GOOD, .WHOLE { background: #e3f1e5 }
.BAD, .COUNT, .CUT, .PARTIAL { background: #f9e6c8 }
.MISSING, .NOT { background: #f6d5d1 }
.CONFLICT { background: #e8d9f1 }
td svg { display: inline; margin: 0 .4em 0 0 }
p span, td span { padding: 0 .4em; margin-right: .3em }
"""

LEGEND = (("block", "block"), ("label", "label"), ("mark", "tape mark"), ("bad", "unreadable block"),
          ("end", "the image ends here with an error"), ("BAD", "damaged section"),
          ("CONFLICT", "section whose copies differ"))


def output_of(*arguments, text=b""):
    """What the program prints to standard output, its error line, and its exit status."""
    try:
        done = subprocess.run([TAPE, *arguments], input=text, capture_output=True, check=False)
    except OSError as error:
        sys.exit(f"page.py: {TAPE}: {error.strerror}")
    return *(each.decode("utf-8", "replace") for each in (done.stdout, done.stderr)), done.returncode


def rows_of(paths):
    """The rows of the survey of these images, by kind, each as a dictionary of texts."""
    names = "".join(path + "\0" for path in paths)
    out, err, status = output_of("survey", "--json", "--files-from", "-", "--null", text=names.encode())
    if status not in (0, 3):
        sys.exit(f"page.py: tape survey failed: {err.strip()}")
    rows = collections.defaultdict(list)
    for line in out.split("\n")[:-1]:
        row = json.loads(line)
        row["conflict"] = "CONFLICT" if row.get("conflict") else None
        rows[row["row"]].append({key: "" if value is None else str(value) for key, value in row.items()})
    return rows


def key_of(row):
    return row["set"].strip(), row["file"], row["section"]


def items_of(path):
    """The items of an image: for each its kind, its description, and the key of its section, if any."""
    out, err, _ = output_of("list", "--offsets", "--", path)
    key, before = None, ""
    for line in out.split("\n")[:-1]:
        place, size, number, text = line.split(" ", 3)
        if number == "END":
            return
        word = text.split(" ", 1)[0]
        if word == "HDR1":
            key = text[23:29].strip(), str(int(text[35:39])), str(int(text[30:34]))
        elif word == "VOL1" or word == before == "MARK":
            key = None
        kind = {"BLOCK": "block", "MARK": "mark", "BAD": "bad"}.get(word, "label")
        yield kind, f"item {int(number)}, at byte {place}, {size} bytes: {text.rstrip()}", key
        before = word
    if fault := re.match(r"tape: (.*)", err):
        yield "end", fault[1], key


def square(at, kind, title, side=STEP - 1):
    x, y = at % PER_ROW * STEP, at // PER_ROW * (STEP + 6)
    return (f'<rect x="{x}" y="{y}" width="{side}" height="{side + 2}" class="{kind}">'
            f"<title>{html.escape(title)}</title></rect>")


def bar(at, state):
    x, y = at % PER_ROW * STEP, at // PER_ROW * (STEP + 6) + STEP + 2
    return (f'<rect x="{x}" y="{y}" width="{STEP}" height="3" class="{state}">'
            f"<title>{WORDS[state]}</title></rect>")


def strip(items, states):
    """The squares of an image, and the bars of its sections that are damaged or in conflict."""
    each = max(1, -(-len(items) // (PER_ROW * ROWS)))
    out = []
    for at, first in enumerate(range(0, len(items), each)):
        group = items[first:first + each]
        kind, title, _ = max(group, key=lambda item: KINDS.index(item[0]))
        state = max((states.get(key, "") for _, _, key in group), key=STATES.index)
        out.append(square(at, kind, title))
        if state in WORDS:
            out.append(bar(at, state))
    rows = max(1, -(-len(items) // (each * PER_ROW)))
    note = f"<p>A square is {each} items.</p>\n" if each > 1 else ""
    size = f'width="{PER_ROW * STEP}" height="{rows * (STEP + 6)}"'
    return f"{note}<svg {size}>\n" + "\n".join(out) + "\n</svg>"


def image(name, path, row, conflicts):
    """The part of an image: its name, what the survey says of it, and its strip."""
    state = row["state"]
    sections = rows_of([path])["SECTION"] if state not in ("WHOLE", "NOT OPENED") else []
    states = {key_of(section): section["state"] for section in sections}
    states |= {key: "CONFLICT" for key in conflicts if states.get(key, "GOOD") == "GOOD"}
    items = list(items_of(path)) if state != "NOT OPENED" else []
    about = f'<span class="{state.split()[0]}">{state.lower()}</span>{html.escape(row["words"])}'
    return (f"<h2>{html.escape(name)}</h2>\n<p>{about}</p>\n" + (strip(items, states) if items else ""))


def cell(state, text):
    return f'<span class="{state}">{html.escape(text)}</span>'


def form_of(row):
    """The record format, and the lengths of a record and of a block, if they are known."""
    return f'{row["format"]},\u00a0{row["record"]}\u00a0in\u00a0{row["block"]}' if row["format"] else ""


def missing_of(row):
    """The numbers of a file's missing sections: of the first one, if the row has no list of them."""
    listed = re.findall(r"([-0-9]+):MISSING", row["sections"])
    return listed or ([row["section"]] if row["state"] == "MISSING" else [])


def file_row(rows, sections, copies, uncounted):
    """The row of a file: its sections, what is missing, and its conflicts."""
    first, words = rows[0], {key: ", blocks not counted" for key in uncounted}
    cells = [cell(s["state"], f'{s["section"]} {s["state"]} on {s["volume"]}{words.get(key_of(s), "")}')
             for s in sections]
    for row in rows:
        for number in missing_of(row):
            is_first = number.split("-")[0] == row["section"]
            after = f', after {row["volume"]}' if is_first and row["volume"] else ""
            cells.append(cell("MISSING", f"{number} MISSING{after}"))
    for row in copies:
        cells.append(cell("CONFLICT",
                          f'{row["section"]} CONFLICT: {row["name"]} and {row["other"]} differ'))
    if first["conflict"] and not copies:
        cells.append(cell("CONFLICT", "labels of different files have this number"))
    state = first["conflict"] or first["state"]
    columns = [*(html.escape(text) for text in (
        first["set"], first["file"], first["identifier"], first["created"], form_of(first))),
        cell(state, state), "".join(cells)]
    return "<tr>" + "".join(f"<td>{column}</td>" for column in columns) + "</tr>"


def page(names, paths):
    """The lines of the page of images with these names, which are read at these paths."""
    rows = rows_of(paths)
    shown = dict(zip(paths, names))
    conflicts = [row for row in rows["COPIES"] if row["result"] == "CONFLICT"]
    uncounted = [key_of(row) for row in rows["UNCOUNTED"]]
    for row in conflicts:
        row.update((column, shown.get(row[column], row[column])) for column in ("name", "other"))
    yield '<!DOCTYPE html>\n<html lang="en">\n<meta charset="utf-8">\n<title>Tape images</title>'
    yield f"<style>{STYLE}</style>\n<h1>Tape images</h1>\n<table><tr>"
    for kind, text in LEGEND:
        yield f'<td><svg width="14" height="14">{square(0, kind, text, 10)}</svg>{text}</td>'
    yield "</tr></table>"
    for name, path, row in zip(names, paths, rows["IMAGE"]):
        yield image(name, path, row, [key_of(each) for each in conflicts])
    files = collections.defaultdict(list)
    for row in rows["FILE"]:
        files[row["set"], row["file"]].append(row)
    yield "<h2>Files</h2>\n<table>\n<tr>" + "".join(f"<th>{word}</th>" for word in (
        "set", "file", "identifier", "created", "records", "state", "sections")) + "</tr>"
    for file, each in files.items():
        sections, copies = ([row for row in some if (row["set"], row["file"]) == file]
                            for some in (rows["SECTION"], conflicts))
        sections = sorted(sections, key=lambda row: int(row["section"]))
        yield file_row(each, sections, copies, uncounted)
    yield "</table>\n</html>"


def main(arguments):
    # Names that the program does not accept, such as bytes that are not UTF-8, get links with others.
    names = [os.fsencode(each).decode("utf-8", "backslashreplace") for each in arguments]
    sys.stdout.reconfigure(encoding="utf-8", errors="backslashreplace")
    with tempfile.TemporaryDirectory() as folder:
        paths = [os.path.join(folder, str(number)) for number in range(len(arguments))]
        for path, each in zip(paths, arguments):
            os.symlink(os.path.abspath(each), path)
        for part in page(names, paths):
            print(part)


if __name__ == "__main__":
    if sys.argv[1:] in ([], ["-h"], ["--help"]):
        print(__doc__.strip())
        sys.exit(0 if sys.argv[1:] else 2)
    main(sys.argv[1:])
