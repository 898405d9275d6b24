#!/usr/bin/env python3
"""Lines of JSON of odd names and identifiers, as Python's json reads them. Run manually; CI does not run it.

    ./json_rows.py [--program PATH] [--images N] [--damaged N] [--seed N]

Writes N images whose names and identifiers contain quotation marks, backslashes, control characters, DEL, invisible
characters, and characters of one to four bytes, and copies of some of them, which agree or differ. Some have padding after
their record, which rows PADDED must name. Each line that
`survey --json`, `list --json` and `compare --json` print must be an object of the keys of docs/JSON.md, in their
order. Its values must be the cells of the same row of `survey --tsv`, `list --offsets` and `compare`, and the names
and identifiers those that were written. So must those of N damaged copies of the worked image, except for the
identifiers. Python's csv reads the same cells from the TSV, as docs/REFERENCE.md says. `show --raw` returns the labels
of each image, and `show` their identifiers. If Python's jsonschema is installed, each object must have the form that docs/json.schema.json describes.

Prints each wrong result, what is not installed, and the counts. Exit status 1 if something was wrong.
"""

import csv
import json
import os
import random
import re
import subprocess
import sys

try:
    import jsonschema
except ImportError:
    jsonschema = None

from c_library import damaged
from common import HERE, Results, arguments, folder_with
from make_worked_image import block, image, mark, word

END = word(0xFFFFFFFF)
PAGE = (HERE.parent / "docs" / "JSON.md").read_text(encoding="utf-8")
# Characters of names. A name has no NUL and no slash.
ODD = [*map(chr, range(1, 32)), *'"\\\x7f\x80\x85\x9f\xad \t\n;:,{}[]%u', "\u061c", "\u200b", "\u200f", "\u2028", "\u202e",
       "\u2060", "\u206f", "\ufeff", "\ufffd", "\ufffe", "\ud7ff", "\ue000", "ä", "字", "😀", "\U0010ffff"]
GIVEN = ['"odd.tap', "'", '"', "\\", "\\\\", "\\u0041", "\\\\u0041", "\\u", "\\n", "\n", "\t", "\x7f", "a\tb", "a\nb", " ", "-",
         "-a", "null", "{}", "odd\\", "\\\"", "ä\\ü.tap", "MARKED x", "FAULT 1 1 x", "1 2", "字" * 80]


def keys_in(heading):
    """The keys of each kind of rows, as docs/JSON.md lists them."""
    section = PAGE.split(f"\n## {heading}\n")[1].split("\n## ")[0]
    rows = re.findall(r"^- ((?:`[A-Z0-9]+`(?:, )?)+): ((?:`\w+`(?:, )?)*)", section, re.M)
    return {word: re.findall(r"`(\w+)`", keys) for words, keys in rows for word in re.findall(r"\w+", words)}


def validator(command):
    """Whether an object is a line of this command, by the schema."""
    if jsonschema is None:
        return lambda row: True
    schema = json.loads((HERE.parent / "docs" / "json.schema.json").read_text(encoding="utf-8"))
    return jsonschema.Draft202012Validator({**schema, "anyOf": [{"$ref": f"#/$defs/{command}"}]}).is_valid


def label(*fields):
    """A label of fields of bytes."""
    text = b"".join(bytes(each) for each in fields)
    assert len(text) == 80, text
    return block(text)


class Reel:
    """An image with one file of one section."""

    def __init__(self, chance, number):
        self.volume, self.owner = (odd_bytes(chance, n) for n in (6, 14))
        self.set = b"%04d" % number + odd_bytes(chance, 2)
        self.file, self.system = (odd_bytes(chance, n) for n in (17, 13))
        self.block = chance.randbytes(chance.randint(1, 99)) or b"x"
        padding = chance.choice([b"", b"", b"\0", b" "]) * chance.randint(1, 9)
        self.padding = padding[:len(self.block) - 1]

    @property
    def padded(self):
        """The padding that a row PADDED says: none where the only record may be padding too."""
        if self.padding:
            return {0: "NUL", 32: "SPACE"}[self.padding[0]] if self.block.strip(self.padding[:1]) else None
        return None if self.block.strip(b"^") else "CIRCUMFLEX"

    def image(self, block_of=None):
        data = block_of or self.block
        head = lambda kind, count: label(kind, self.file, self.set, b"00010001000100 00000 00000 ", b"%06d" % count,
                                         self.system, b" " * 7)
        lengths = len(data + self.padding), len(data)
        second = lambda kind: label(kind, b"F%05d%05d" % lengths, b" " * 35, b"00", b" " * 28)
        return (label(b"VOL1", self.volume, b" " * 27, self.owner, b" " * 28, b"4") + head(b"HDR1", 0) + second(b"HDR2")
                + mark() + block(data + self.padding) + mark() + head(b"EOF1", 1) + second(b"EOF2") + mark() + mark() + END)


def odd_bytes(chance, width):
    """An identifier: letters, or any bytes."""
    kind = chance.randrange(3)
    some = [b"ABC 0", b'"\\\',;{}\t\n\x7f AZ', bytes(range(256))][kind]
    return bytes(chance.choice(some) for _ in range(width))


def shown(identifier):
    """An identifier as lists show it: spaces at its end left out, and a question mark for what is not printable."""
    return re.sub(rb"[^ -~]", b"?", identifier.rstrip(b" ")).decode()


def odd_name(chance):
    name = "".join(chance.choice(ODD) for _ in range(chance.randint(1, 40)))
    return name if name not in (".", "..") else "x"


def plain(text):
    """The name that the program prints as this text."""
    return re.sub(r"\\(?:u([0-9A-F]{4})|(\\))", lambda it: it[2] or chr(int(it[1], 16)), text)


def value_in(cell, key):
    """The value of a cell of a column."""
    if key in ("eof", "conflict"):
        return cell != ""
    if key == "name" or key == "other" and cell:
        return plain(cell)
    if cell == "":
        return None
    numbers = ("file section copies blocks items files bad block record offset size item length prefix image alone count")
    return int(cell) if key in numbers.split() and cell.isdigit() else cell


class Trial(Results):
    def __init__(self, options, folder):
        self.options, self.folder = options, folder
        self.is_valid = {command: validator(command) for command in ("survey", "list", "compare")}

    def run(self, *words, text=b""):
        done = subprocess.run([self.options.program, *words], input=text, capture_output=True, cwd=self.folder, check=False)
        return done.stdout, done.stderr, done.returncode

    def pair(self, words, plain_words, text=b""):
        """The objects and the lines of two runs, which must end alike."""
        out, err, status = self.run(*words, text=text)
        lines, plain_err, plain_status = self.run(*plain_words, text=text)
        self.expect((err, status) == (plain_err, plain_status), f"{words}: {status} {err}, not {plain_status} {plain_err}")
        rows, lines = out.decode().split("\n"), lines.decode().split("\n")
        self.expect(rows.pop() == "" and lines.pop() == "", f"{words}: the last line has no end")
        self.expect(len(rows) == len(lines), f"{words}: {len(rows)} lines of JSON, not {len(lines)}")
        rows = [json.loads(row) for row in rows]
        for row in rows:
            self.expect(self.is_valid[words[0]](row), f"{words}: {row} does not fit the schema")
        return rows, lines

    def same(self, row, keys, cells, line):
        """A row has these keys, in this order, and these cells as their values."""
        want = dict(zip(keys, (value_in(cell, key) for key, cell in zip(keys, cells))))
        self.expect(len(keys) == len(cells) and list(row.items()) == list(want.items()), f"{line!r}: {row}, not {want}")

    def read_by_csv(self, lines):
        """Python's csv finds the cells of these lines of the TSV."""
        read = csv.reader(lines, delimiter="\t", quoting=csv.QUOTE_NONE, strict=True)
        for line, row in zip(lines, read, strict=True):
            self.expect(row == line.split("\t"), f"csv reads {row}, not {line!r}")

    def show(self, name, reel):
        """`show` returns the first two labels, and prints their identifiers."""
        labels = [text[4:84] for text in (reel.image()[:88], reel.image()[88:176])]
        for number, text in enumerate(labels, 1):
            out, err, status = self.run("show", "--raw", "./" + name, str(number))
            self.expect((out, err, status) == (text, b"", 0), f"show --raw {name!r} {number}: {status} {err} {out}")
        out, err, status = self.run("show", "./" + name, "1", "2")
        seen = "".join("\\\\" if byte == 92 else chr(byte) if 32 <= byte < 127 else f"\\x{byte:02X}" for byte in reel.file)
        line = f'   5-21  file identifier         "{seen}"\n'
        self.expect(line in out.decode() and (err, status) == (b"", 0), f"show {name!r}: {status} {err} {out}")

    def damaged(self, chance):
        whole, before = image(), None
        for number in range(self.options.damaged):
            name = f"\\{number}.tap"
            (self.folder / name).write_bytes(damaged(whole, chance))
            self.list(name, None)
            if before:
                self.compare(before, name)
                rows, lines = self.pair(("survey", "--json", before, name), ("survey", "--tsv", before, name))
                for row, line in zip(rows, lines):
                    word, *cells = line.split("\t")
                    self.same(row, ["row", *keys_in("survey")[word]], [word, *cells], line)
            before = name

    def survey(self, shelf):
        keys = keys_in("survey")
        names = list(shelf)
        text = "".join(name + "\0" for name in names).encode()
        rows, lines = self.pair(("survey", "--json", "--files-from", "-", "--null"),
                                ("survey", "--tsv", "--files-from", "-", "--null"), text)
        self.read_by_csv(lines)
        for row, line in zip(rows, lines):
            word, *cells = line.split("\t")
            self.same(row, ["row", *keys.get(word, [])], [word, *cells], line)
        images = [row for row in rows if row["row"] == "IMAGE"]
        self.expect([row["name"] for row in images] == names, "the names of images are others")
        for row, reel in zip(images, shelf.values()):
            have = [row[key] or "" for key in ("volume", "set", "system", "owner")]
            want = [shown(field) for field in (reel.volume, reel.set, reel.system, reel.owner)]
            self.expect(have == want, f"{row}: not {want}")
        files = {row["set"]: row["identifier"] or "" for row in rows if row["row"] == "FILE"}
        for reel in shelf.values():
            self.expect(files.get(shown(reel.set)) == shown(reel.file), f"{reel.file}: {files.get(shown(reel.set))}")
        have = {(row["set"], row["file"], row["padding"]) for row in rows if row["row"] == "PADDED"}
        want = {(shown(reel.set), 1, reel.padded) for reel in shelf.values() if reel.padded}
        self.expect(have == want, f"padding of {have ^ want}")
        for row in rows:
            if row["row"] == "COPIES":
                self.expect({row["name"], row["other"]} <= {*names, None}, f"{row}: not a name")
        return sum(row["row"] == "COPIES" for row in rows)

    def list(self, name, reel):
        keys = keys_in("list")
        rows, lines = self.pair(("list", "--json", "./" + name), ("list", "--offsets", "./" + name))
        for row, line in zip(rows, lines):
            offset, size, *rest = line.split(" ", 2)
            item, rest = ("", rest[0]) if rest[0].startswith("END") else rest[0].split(" ", 1)
            word, _, rest = rest.partition(" ")
            cells = rest.split(" ") if rest else []
            if word in ("HDR1", "EOF1", "EOV1"):
                cells = [rest[:17].rstrip(" "), rest[18:24].rstrip(" "), *rest[25:].split(" ")]
            if word == "VOL1":
                cells = [rest.rstrip(" ")]
            self.same(row, ["offset", "size", "item", "row", *keys[word]], [offset, size, item, word, *cells], line)
        if reel is None:
            return
        found = {row["row"]: row for row in rows}
        want = [shown(field) for field in (reel.volume, reel.file, reel.set)]
        have = [found["VOL1"]["volume"], found["HDR1"]["identifier"], found["HDR1"]["set"]]
        self.expect([each or "" for each in have] == want, f"{have}, not {want}")

    def compare(self, one, other):
        keys = keys_in("compare")
        names = ("./" + one, "./" + other)
        rows, lines = self.pair(("compare", "--json", *names), ("compare", *names))
        for row, line in zip(rows, lines):
            form = {"IMAGE": r"IMAGE (\d+) (\d+) (\d+) (FAULT \d+ \d+|\S+) (.*)",
                    "MERGED": r"MERGED (\d+) (\d+) (\d+) (\S+)(?: COUNT (\d+))?", "DIFFER": r"DIFFER (\d+)",
                    "HAS": r"HAS (\d+) (\S) (?:(BLOCK) (\d+)|(MARK|BAD)()) (\d+) (.*)"}[line.split(" ")[0]]
            cells = [cell or "" for cell in re.fullmatch(form, line).groups()]
            if line.startswith("HAS"):
                cells[2:6] = [cells[2] or cells[4], cells[3]]
            self.same(row, ["row", *keys[row["row"]]], [row["row"], *cells], line)
            if "name" in row:
                self.expect(row["name"] == names[row["image"] - 1], f"{row}: the name is another")


def main():
    if jsonschema is None:
        print("not tried: jsonschema is not installed")
    options = arguments(__doc__, ("--images", 1000, "the number of images"),
                        ("--damaged", 300, "the number of damaged images"), ("--seed", 1, "the random seed"))
    chance = random.Random(options.seed)
    names = [*GIVEN]
    while len(names) < options.images:
        name = odd_name(chance)
        if name not in names and len(os.fsencode(name)) < 240 and "/" not in name:
            names.append(name)
    shelf = {name: Reel(chance, number) for number, name in enumerate(names)}
    with folder_with({name: reel.image() for name, reel in shelf.items()}) as folder:
        trial = Trial(options, folder)
        trial.expect(trial.survey(shelf) == 0, "copies without any")
        trial.damaged(chance)
        for name, reel in shelf.items():
            trial.list(name, reel)
            trial.show(name, reel)
        copies = {}
        for name in names[::7]:
            data = shelf[name].block
            changed = chance.choice([None, bytes([data[0] ^ 1]) + data[1:]])
            content = shelf[name].image(changed)
            content = chance.choice([content, content, content[:-4], content[:chance.randint(1, 500)]])
            (folder / (name + "\\2")).write_bytes(content)
            copies[name + "\\2"] = name
            trial.compare(name, name + "\\2")
        pairs = ["./" + each for pair in copies.items() for each in pair][:200]
        rows, _ = trial.pair(("survey", "--json", *pairs), ("survey", "--tsv", *pairs))
        trial.expect(any(row["row"] == "COPIES" and row["other"] for row in rows), "no copies differ")
        for row in rows:
            if row["row"] == "COPIES" and row["other"]:
                trial.expect({row["name"], row["other"]} <= {*pairs}, f"{row}: not a name")
    return trial.end()


if __name__ == "__main__":
    sys.exit(main())
