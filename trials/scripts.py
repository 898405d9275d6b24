#!/usr/bin/env python3
"""The scripts in scripts/. Run manually before a release; CI does not run it.

    ./scripts.py [--program PATH] [--seed N] [--cases N] [--sets N] [--only PART]

All images are made here, from the descriptions of the formats, and all expected values are this trial's own records:

- `aws2tap`: the .tap image of the same items, byte for byte; what is not a complete AWS image is refused by name, and
  nothing is created. If Hercules is installed, its `hetupd` compresses the images, and decompresses them again.
- `tape-reread` and `tape-patch`: a simulated drive (drive.py) has the undamaged reel, and may fail or lose count.
- `tape-bag`: the files of a shelf of damaged reels (reels.py), their images, and the rules of RFC 8493 (bags.py).

Prints each wrong result, what is not installed, and the counts. Exit status 1 if something was wrong.
"""

import bz2
import gzip
import hashlib
import os
import random
import re
import shutil
import struct
import subprocess
import sys
import zlib
from pathlib import Path

from bags import faults
from common import HERE, Results, arguments, files_in, folder_with
from make_worked_image import block, image, word
from reels import make_shelf, sections_of, wanted

SCRIPTS = HERE.parent / "scripts"
UNREADABLE = bytes([1, 0, 0, 0x80, 0, 0, 1, 0, 0, 0x80])
END = word(0xFFFFFFFF)


def encoded(item):
    """An item of a .tap image: a block, or None for a tape mark."""
    return word(0) if item is None else block(item)


def aws(items, rng, longest=65535):
    """The chunks of an AWS image, each a header and its data."""
    chunks, before = [], 0
    for item in items:
        if item is None:
            parts, flags = [b""], [0x40]
        else:
            parts, rest = [], item
            while rest:
                size = rng.choice([longest, longest, rng.randint(1, longest)])
                parts, rest = [*parts, rest[:size]], rest[size:]
            flags = [0x80 * (at == 0) | 0x20 * (at == len(parts) - 1) for at in range(len(parts))]
        for part, flag in zip(parts, flags):
            chunks.append((struct.pack("<HHBB", len(part), before, flag, 0), part))
            before = len(part)
    return chunks


def joined(chunks):
    return b"".join(header + data for header, data in chunks)


def items_of(rng, lengths, most=12):
    return [None if rng.random() < .3 else rng.randbytes(rng.choice(lengths)) for _ in range(rng.randint(1, most))]


class Trial(Results):
    """The runs of the scripts, in a directory in which `bin` has them and the program."""

    def __init__(self, options, folder):
        self.options, self.folder, self.rng = options, folder, random.Random(options.seed)
        (folder / "bin").mkdir()
        (folder / "bin" / "tape").symlink_to(options.program)
        for script in SCRIPTS.iterdir():
            (folder / "bin" / script.name).symlink_to(script)
        self.path = f"{folder}/bin:{os.environ['PATH']}"

    def run(self, *words, drive=False, **how):
        path = f"{self.folder}/drive:{self.path}" if drive else self.path
        return subprocess.run([str(word) for word in words], cwd=self.folder, capture_output=True, check=False,
            env={**os.environ, "PATH": path}, **how)

    def refused(self, words, why, status=1, name="OUT.tap"):
        """The call fails for this reason, and creates nothing."""
        before = files_in(self.folder)
        done = self.run(*words)
        said = done.stderr.decode()
        self.expect((done.returncode, done.stdout) == (status, b""), f"{words}: status {done.returncode}, {said!r}")
        self.expect(re.search(why, said) and "Traceback" not in said, f"{words}: {said!r}, expected {why!r}")
        self.expect(files_in(self.folder) == before and not (self.folder / name).exists(), f"{words}: left something")

    def tool(self, name):
        if shutil.which(name) is None:
            print(f"not tried: {name} is not installed")
            return False
        return True


def converted(trial, content, items, what):
    """`aws2tap` converts the content to exactly these items."""
    (trial.folder / "in.aws").write_bytes(content)
    done, out = trial.run("aws2tap", "in.aws", "OUT.tap"), trial.folder / "OUT.tap"
    blocks = [item for item in items if item is not None]
    said = f"{len(blocks)} blocks, {len(items) - len(blocks)} tape marks\n".encode()
    note = any(len(item) > 99_999 for item in blocks)
    trial.expect((done.returncode, done.stdout, bool(done.stderr)) == (0, said, note), f"{what}: {done}")
    seen = out.read_bytes() if out.exists() else b""
    trial.expect(seen == b"".join(map(encoded, items)) + END, f"{what}: the items differ")
    out.unlink(missing_ok=True)


def refused_image(trial, content, why):
    (trial.folder / "in.aws").write_bytes(content)
    trial.refused(["aws2tap", "in.aws", "OUT.tap"], why)


def try_aws(trial):
    rng, folder = trial.rng, trial.folder
    for case in range(trial.options.cases):
        items = items_of(rng, [1, 2, 3, 80, 81, 2048, 65535, 65536, 70000, 99_999, 100_000, 200_001])
        converted(trial, joined(aws(items, rng)), items, f"aws {case}")
    chunks = aws([b"x" * 30, None, b"y" * 31, b"z" * 7, None, None], rng, 12)
    content, complete, done, held = joined(chunks), {}, [], b""
    place = 0
    for header, data in chunks:  # the items of which all bytes are before a place
        place, held = place + len(header) + len(data), held + data
        if header[4] & 0x60:
            done, held = [*done, None if header[4] & 0x40 else held], b""
            complete[place] = done
    for size in range(1, len(content)):
        if size in complete:
            converted(trial, content[:size], complete[size], f"aws cut at {size}")
        else:
            refused_image(trial, content[:size], "truncated")
    refused_image(trial, b"", "is empty")
    for at, (header, data) in enumerate(chunks):
        def changed(length=None, before=None, flags=None, more=None):
            fields = struct.unpack("<HHBB", header)
            new = [was if now is None else now for was, now in zip(fields, (length, before, flags, more))]
            return joined([*chunks[:at], (struct.pack("<HHBB", *new), data), *chunks[at + 1:]])

        before, flags = struct.unpack("<HHBB", header)[1:3]
        refused_image(trial, changed(before=before + 1), f"gives {before + 1} as the length")
        for flag in (1, 2):
            refused_image(trial, changed(flags=flags | flag), "HET.*hetupd -d")
        refused_image(trial, changed(more=0x80), "HET.*hetupd -d")
        refused_image(trial, changed(flags=flags | 0x10), "unknown flags")
        refused_image(trial, changed(more=1), "unknown flags")
        refused_image(trial, changed(flags=flags ^ 0x80), "does not continue")
    refused_image(trial, joined([(struct.pack("<HHBB", 0, 0, 0xA0, 0), b"")]), "empty")
    refused_image(trial, joined(aws([bytes(257 * 65535)], rng)), "longer than 16777215")
    packers = [("gzip", gzip.compress), ("bzip2", bz2.compress)]
    for name, packer in packers:
        refused_image(trial, packer(content), f"compressed with {name}")
    for simh in (image(), word(0) * 2 + image(), block(b"\xa0\0" + b"a" * 9) + word(0), image()[:100]):
        refused_image(trial, simh, "a .tap image already")
    packed_data = zlib.compress(b"x" * 80)
    refused_image(trial, struct.pack("<HHBB", len(packed_data), 0, 0xA1, 0) + packed_data, "HET.*hetupd -d")
    refused_image(trial, b"PROGRAM TEXT\n" * 9, "not an AWS image")
    (folder / "in.aws").write_bytes(content)
    (folder / "kept.tap").write_bytes(b"kept")
    trial.refused(["aws2tap", "in.aws", "kept.tap"], "already exists; it was not changed")
    trial.refused(["aws2tap", "in.aws", "in.aws"], "already exists; it was not changed")
    trial.refused(["aws2tap", "none.aws", "OUT.tap"], "none.aws: No such file")
    trial.refused(["aws2tap", "in.aws", "none/OUT.tap"], "none/OUT.tap: No such file")
    trial.refused(["aws2tap", "in.aws"], "usage: aws2tap IN OUT", 2)
    trial.refused(["aws2tap", "in.aws", "/dev/full"], "already exists")
    if trial.tool("hetupd"):
        for option in ("-z", "-b"):
            items = [rng.choice([bytes(60_000), rng.randbytes(999), None, b"\0"]) for _ in range(20)] + [bytes(80)]
            (folder / "plain.aws").write_bytes(joined(aws(items, rng)))
            trial.run("hetupd", option, "plain.aws", "packed.het")
            refused_image(trial, (folder / "packed.het").read_bytes(), "HET.*hetupd -d")
            trial.run("hetupd", "-d", "packed.het", "again.aws")
            converted(trial, (folder / "again.aws").read_bytes(), items, f"hetupd {option}")


def bad(item):
    """A block that was recorded as unreadable."""
    spelling = bytearray(block(item))
    spelling[3] |= 0x80
    spelling[-1] |= 0x80
    return bytes(spelling)


def set_drive(trial, items, unreadable=(), slips=False):
    device = trial.folder / "my reel"
    device.mkdir(exist_ok=True)
    (device / "tape").write_text("".join("mark\n" if item is None else item.hex() + "\n" for item in items))
    lines = [f"unreadable {number}" for number in unreadable] + ["slips"] * slips
    (device / "faults").write_text("\n".join(lines))
    (device / "at").write_text("0")
    return device.name


def reread(trial, items, lost, cut, unreadable, slips, what):
    """Reads the lost blocks again. Returns the status, and the merged image or None."""
    spelled = b"".join(bad(item) if number in lost else encoded(item) for number, item in enumerate(items, 1))
    name = trial.rng.choice(["bad.tap", "a reel's \"$HOME\".tap", "-x.tap"])
    (trial.folder / name).write_bytes(spelled + (b"\1" if cut else END))
    device = set_drive(trial, items, unreadable, slips)
    shutil.rmtree(trial.folder / "new place", ignore_errors=True)
    made = trial.run("tape-reread", "--", name, device, "new place")
    trial.expect((made.returncode, made.stderr) == (0, b""), f"{what}: {made}")
    before = files_in(trial.folder)
    done = trial.run("sh", "-s", drive=True, input=made.stdout)
    trial.expect(done.returncode in (0, 3), f"{what}: {done}")
    others = {path: text for path, text in files_in(trial.folder).items() if not path.startswith(("new place/", "my reel/at"))}
    trial.expect(others == {path: text for path, text in before.items() if path != "my reel/at"}, f"{what}: other files changed")
    merged = trial.folder / "new place" / "merged.tap"
    return done.returncode, merged.read_bytes() if merged.exists() else None, done


def try_reread(trial):
    rng, folder = trial.rng, trial.folder
    (folder / "drive").mkdir()
    for name in ("mt", "dd"):
        (folder / "drive" / name).symlink_to(HERE / "drive.py")
    caught = 0
    for case in range(trial.options.cases):
        items = items_of(rng, [1, 80, 81, 400, 2048], 30) + [b"last one"]
        blocks = [number for number, item in enumerate(items, 1) if item is not None]
        lost = set(rng.sample(blocks, rng.randint(1, min(4, len(blocks)))))
        cut, unreadable = rng.random() < .3, {number for number in lost if rng.random() < .3}
        status, merged, done = reread(trial, items, lost, cut, unreadable, False, f"reread {case}")
        want = b"".join(UNREADABLE if number in unreadable else encoded(item) for number, item in enumerate(items, 1))
        if unreadable == lost and merged is None:
            trial.expect(status == 3, f"reread {case}: {done}")
            continue
        trial.expect(merged == want + (b"" if cut else END), f"reread {case}: merged differs: {done}")
        trial.expect(status == (3 if cut or unreadable else 0), f"reread {case}: {done}")
    # A drive that counts a damaged block twice: the block after the next one must not get into its place.
    for case in range(trial.options.cases):
        size = rng.randint(5, 12)
        items = [bytes([number]) * rng.choice([80, 81]) for number in range(size)] + [None, None]
        first = rng.randint(1, size - 3)
        second = rng.randint(first + 2, size - 1)
        status, merged, done = reread(trial, items, {first, second}, False, {first}, True, f"slip {case}")
        want = b"".join(UNREADABLE if number == first else encoded(item) for number, item in enumerate(items, 1))
        is_right = merged == want + END  # if nothing was read at a wrong place
        trial.expect(status == 3 and (merged is None or is_right), f"slip {case}: {done}")
        caught += b"DIFFER" in done.stdout
    trial.expect(caught > 0, "no slip was caught")
    (folder / "good.tap").write_bytes(image())
    (folder / "cut.tap").write_bytes(image()[:1000])
    (folder / "bad.tap").write_bytes(image()[:264] + bad(b"a") + END)
    trial.refused(["tape-reread", "good.tap", "dev"], "good.tap has no unreadable block$")
    trial.refused(["tape-reread", "cut.tap", "dev"], "no unreadable block .*image fault 1 at 268")
    trial.refused(["tape-reread", "none.tap", "dev"], "none.tap: tape: file fault 2")
    trial.refused(["tape-reread", "good.tap"], "usage: tape-reread", 2)
    made = trial.run("tape-reread", "bad.tap", set_drive(trial, [b"a"]), "new place").stdout
    before = files_in(folder)
    done = trial.run("sh", "-s", drive=True, input=made)
    trial.expect(done.returncode == 1 and files_in(folder) == before, f"a directory that exists: {done}")
    (folder / "block").write_bytes(b"a" * 80)
    (folder / "long").write_bytes(bytes(100_000))
    for words, why in ((["0=block"], "no item 0: it has 4"), (["5=block"], "no item 5"), (["1=none"], "none: No such file"),
            (["1=/dev/null"], "/dev/null is empty"), (["1=long"], "long is longer"), (["block"], "block is not N=FILE"),
            (["-1=block"], "usage"), (["1=block", "01=block"], "named twice")):
        trial.refused(["tape-patch", "bad.tap", "OUT.tap", *words], why, 2 if why == "usage" else 1)
    # The patch says nothing about the end: a fault at the end of the image stays one.
    (folder / "a").write_bytes(b"a")
    for at, (end, word_of_end) in enumerate(((b"\1", b"CUT"), (b"", b"PHYSICAL"), (END, b"MARKED"))):
        line, status = b"MERGED 4 0 4 " + word_of_end, 3 * (word_of_end == b"CUT")
        (folder / "end.tap").write_bytes(image()[:264] + bad(b"a") + end)
        trial.run("tape-patch", "end.tap", f"patch{at}.tap", "4=a")
        done = trial.run("tape", "merge", f"merged{at}.tap", "end.tap", f"patch{at}.tap")
        trial.expect((done.stdout.splitlines()[-1:], done.returncode) == ([line], status), f"the end of a patch: {done}")
    trial.refused(["tape-patch", "bad.tap", "good.tap", "1=block"], "already exists")
    trial.refused(["tape-patch", "none.tap", "OUT.tap", "1=block"], "none.tap: tape: file fault 2")
    trial.refused(["tape-patch", "bad.tap"], "usage: tape-patch", 2)


def file_name(set_id, file):
    """The name that REFERENCE.md gives to a recovered file."""
    name = re.sub(r'[%"*/:<>?\\|]', lambda it: f"%{ord(it[0]):02X}", file.name)
    name = name[:-1] + "%2E" if name.endswith(".") else name
    return f"{set_id}.{file.number}.{name}"


def first_whole(file, reels):
    """For each section the first reel on which it is whole, or None if one is whole on none of them."""
    taken, section = [], 1
    while True:
        for reel in reels:
            it = sections_of(reel).get((file, section))
            if it and all(it["blocks"]) and it["trailer"]:
                break
        else:
            return None
        taken += [reel] * (reel not in taken)
        if it["trailer"] == "EOF":
            return taken
        section += 1


def try_bag(trial, salvage):
    """A bag of the whole shelf."""
    folder, bag = trial.folder, trial.folder / "a bag"
    shelf = make_shelf(trial.options.seed, trial.options.sets)
    there = [reel for reel in shelf.reels if not reel.lost]
    contents = {**{reel.name: reel.image() for reel in there}, **shelf.others}
    for name, content in contents.items():
        (folder / name).write_bytes(content)
    names = [*contents, "none.tap"]
    before = files_in(folder)
    done = trial.run("tape-bag", *["--salvage"] * salvage, bag.name, *names, "--", "Source-Organization=Museum: X", "Contact=")
    trial.expect((done.returncode, done.stderr) == (3, b""), f"bag: {done.returncode}, {done.stderr}")
    trial.expect({**files_in(folder), **before} == files_in(folder), "bag: other files changed")
    trial.expect(not list(faults(bag)), f"bag: {list(faults(bag))}")
    rows = [line.split("\t") for line in (bag / "tape" / "files.tsv").read_text().split("\n")[:-1]]
    trial.expect(rows.pop(0) == ["path", "set", "file", "outcome", "records", "images"], "bag: columns of files.tsv")
    complete = {row[0]: row for row in rows if row[3] == "COMPLETE"}
    counts, others = [0, 0], {}
    for set_id, files in shelf.files.items():
        reels = [reel for reel in there if reel.set_id == set_id]
        for file in files:
            path = f"data/{file_name(set_id, file)}"
            if set_id == shelf.mixed or wanted(file.number, reels) is not None:
                trial.expect(path not in complete and not (bag / path).exists(), f"bag: {path} is there")
                others[set_id, str(file.number)] = reels
                continue
            known = first_whole(file.number, reels)
            row = [path, set_id, str(file.number), "COMPLETE", str(file.text.count(b"\n"))]
            *told, images = complete.pop(path, [""])
            trial.expect(told == row, f"bag: wanted {row}")
            taken = [names[int(image) - 1] for image in images.split(",") if image]
            if known:
                trial.expect(taken == [reel.name for reel in known], f"bag: {path}, {taken}")
            else:
                # Some section is whole on no reel, so two or more gave its blocks.
                trial.expect(len(taken) > 1 and set(taken) <= {reel.name for reel in reels}, f"bag: {path}, {taken}")
            counts[known is None] += 1
            trial.expect((bag / path).read_bytes() == file.text, f"bag: {path} differs")
    trial.expect(not complete, f"bag: {complete}")
    payload = set(files_in(bag / "data"))
    for path, set_id, number, outcome, _, images in rows:
        if outcome == "SALVAGED":
            name = path[len("data/"):]
            payload -= {name, name[:-len("salvaged")] + "gaps"}
            taken = [names[int(image) - 1] for image in images.split(",") if images]
            held = {reel.name for reel in others.get((set_id, number), []) if any(item.file == int(number) for item in reel.items)}
            # Of the reels that belong to none of the sets only this one has a file.
            held |= {"rt11.tap"} if set_id == "RT11A" else set()
            trial.expect(salvage and (bag / path).exists() and set(taken) <= held, f"bag: {path}, {taken}, {held}")
        elif outcome != "COMPLETE":
            trial.expect((path, images) == ("", "") and outcome in ("AWAITS", "CONFLICT", "NOT FOUND"), f"bag: {path} {outcome}")
    trial.expect(len(payload) == sum(counts), f"bag: {len(payload)} files, not {sum(counts)}")
    rows = [["image", "name", "bytes", "sha256"], *([str(at), name, str(len(contents[name])), hashlib.sha256(contents[name]).hexdigest()]
        if name in contents else [str(at), name, "", ""] for at, name in enumerate(names, 1))]
    told = [line.split("\t") for line in (bag / "tape" / "images.tsv").read_text().split("\n")[:-1]]
    trial.expect(told == rows, "bag: images.tsv")
    info = (bag / "bag-info.txt").read_text().split("\n")
    trial.expect(info[:2] == ["Source-Organization: Museum: X", "Contact: "], f"bag: {info}")
    print(f"bag: {counts[0]} complete files with images, {counts[1]} that were joined, {len(others)} others")
    return bag, names


def try_bags(trial):
    folder = trial.folder
    for salvage in (True, False):
        bag, names = try_bag(trial, salvage)
        kept = files_in(bag)
        trial.refused(["tape-bag", bag.name, *names], "already exists; it was not changed", name="x")
        trial.expect(files_in(bag) == kept, "bag: an existing one was changed")
        if salvage:
            shutil.rmtree(bag)
    # bags.py notices what is wrong with a bag: otherwise its silence would mean nothing.
    path = next(iter(sorted(files_in(bag / "data"))))
    manifest, info = (bag / "manifest-sha256.txt").read_text(), (bag / "bag-info.txt").read_text()
    for place, content, why in ((f"data/{path}", b"other", "has another sum"), (f"data/{path}", None, "No such file"),
            ("data/more", b"", "data/more is not listed"), ("more.txt", b"", "more.txt is not listed"),
            ("bagit.txt", b"BagIt-Version: 0.97\n", "no declaration"), ("manifest-sha256.txt", None, "no payload manifest"),
            ("manifest-sha256.txt", manifest.replace("  ", " ../", 1), "leads out"), ("tape/images.tsv", b"", "has another sum"),
            ("bag-info.txt", info.replace("Oxum: ", "Oxum: 1"), "Payload-Oxum"), ("manifest-sha256.txt", manifest * 2, "listed twice")):
        was = (bag / place).read_bytes() if (bag / place).exists() else None
        if content is None:
            (bag / place).unlink()
        else:
            (bag / place).write_bytes(content.encode() if isinstance(content, str) else content)
        trial.expect(why in "\n".join(faults(bag)), f"bags.py: {place}: {list(faults(bag))}, expected {why}")
        if was is None:
            (bag / place).unlink()
        else:
            (bag / place).write_bytes(was)
    trial.expect(not list(faults(bag)), "bags.py: the bag is as before")
    (folder / "one.tap").write_bytes(image())
    trial.refused(["tape-bag", "OUT.tap", "none.tap"], "no file was recovered", 3)
    trial.refused(["tape-bag", "OUT.tap", "one.tap", "no UTF-8 \udcff.tap"], "not valid UTF-8")
    for words, why in ((["one.tap", "--", "A:B=x"], "'A:B=x' is not FIELD=VALUE"), (["one.tap", "--", "A"], "not FIELD"),
            (["one.tap", "--", "A=x\ny"], "not FIELD"), (["one.tap", "--", " A=x"], "not FIELD"),
            (["one.tap", "--", "payload-oxum=1.1"], "is written by tape-bag"), ([], "usage: tape-bag"),
            (["one.tap", "--form", "blocks"], "invalid choice")):
        trial.refused(["tape-bag", "OUT.tap", *words], why, 2)
    done = trial.run("tape-bag", "--form", "raw", "raw bag", "one.tap")
    text = b"".join(f"{number:04}".encode() + b" " * 76 for number in range(1, 26))
    trial.expect(done.returncode == 0 and files_in(folder / "raw bag" / "data") == {"ABC001.1.PAYROLL": text}, f"raw: {done}")
    trial.expect("data/ABC001.1.PAYROLL\tABC001\t1\tCOMPLETE\t25\t1\n" in (folder / "raw bag/tape/files.tsv").read_text(), "raw: its image")
    trial.expect(not list(faults(folder / "raw bag")), "raw: rules of BagIt")


def main():
    options = arguments(__doc__, ("--seed", 3, "of the images"), ("--cases", 60, "of each kind"), ("--sets", 12, "of the shelf"),
        ("--only", "", "one part: aws, reread or bags"))
    with folder_with() as folder:
        trial = Trial(options, folder)
        for part in (try_aws, try_reread, try_bags):
            if options.only in part.__name__:
                part(trial)
    return trial.end()


if __name__ == "__main__":
    sys.exit(main())
