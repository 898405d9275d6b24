#!/usr/bin/env python3
"""Lists of checksums and records: `unpack --manifest` and `--verify`, judged by `sha256sum` and by Python.
Run manually; CI does not run it.

    ./manifest.py [--program PATH] [--names N] [--shelves N] [--kills N] [--refusals N] [--seed N]

- On each of N shelves, N / 25 damaged images with odd names and identifiers are unpacked, some of them a day. The
  blocks that MANIFEST.jsonl names, read from its images by this script, are those of each file, and are at the
  offsets that it has; its sums and sizes are those of files and images, its identifiers those of the labels, and its
  keys those of docs/JSON.md. If Python's jsonschema is installed, each line must have the form that
  docs/json.schema.json describes. `--verify` agrees with the images, finds each that was changed, was removed or is
  not named, and each file that was changed together with its sum; it changes nothing.
- On N shelves of files of text and of other bytes in the formats F, D and S, `--form auto` gives each file the form
  that this script finds, also a file that was recovered on several days, or of which labels are lost.
- Files with N odd identifiers are unpacked in two runs: the list has a line for each complete file and no
  other, `sha256sum -c --strict` accepts it, and `--verify` agrees.
- `sha256sum` lists files with N odd names, of which some are changed or removed then: `--verify` finds the
  same files as `sha256sum -c`, and `--manifest` keeps each line, byte for byte.
- Runs that extend a list and a record are killed at N random instants, and with each system call refused in turn,
  by calls.c (or N of these calls, if N is not 0). Then each is the earlier one, or has all its lines, and a right line for each further file. A run with
  status 0 has complete ones, and so has the next run.

Prints a line for each wrong result, and how many there were. Exit status 1 if one was wrong.
"""

import errno
import functools
import hashlib
import json
import os
import random
import re
import subprocess
import sys
import time

from common import Results, arguments, files_in, folder_with, library
from fail import ERRORS, KINDS
from json_rows import keys_in, plain, validator
from make_worked_image import block, label, mark, second_label, volume_label, word

MANIFEST = "MANIFEST.sha256"
RECORD = "MANIFEST.jsonl"
LINE = re.compile(rb"([0-9a-f]{64})  ([^\n\\]+)\n")


def first_label(kind, identifier, number, blocks):
    """HDR1 or EOF1 of a file, which may have any bytes as its identifier."""
    rest = label((kind, 4), ("", 17), ("ABC001", 6), ("0001", 4), (f"{number:04}", 4), ("0001", 4), ("00", 2),
        (" 00000", 6), (" 00000", 6), ("", 1), (f"{blocks:06}", 6), ("", 13), ("", 7))
    return rest[:8] + identifier.ljust(17)[:17] + rest[25:]


def bad_block(data):
    """An unreadable block."""
    return word(len(data) | 0x80000000) + data + word(len(data) | 0x80000000)


def volume(files, bad=()):
    """A volume with these files, given as identifiers and blocks of 800 bytes, some of which, by number of file and
    block, are unreadable."""
    pieces = [volume_label("ABC001")]
    for number, (identifier, blocks) in enumerate(files, 1):
        pieces += [first_label("HDR1", identifier, number, 0), second_label("HDR2"), mark()]
        pieces += [bad_block(data) if (number, place) in bad else block(data) for place, data in enumerate(blocks)]
        pieces += [mark(), first_label("EOF1", identifier, number, len(blocks)), second_label("EOF2"), mark()]
    return b"".join([*pieces, mark(), word(0xFFFFFFFF)])


def odd_bytes(choice, most):
    """Bytes of a name: often those that some program treats in its own way."""
    odd = b"\\ \n\r\t%*?'\"$`-=;&|<>()[]{}~#!\x7f\xc3\xa9\xe2\x80\xae" + b"AZaz09._"
    return bytes(choice.choice(odd) if choice.random() < 0.8 else choice.randrange(1, 256) for _ in range(choice.randint(1, most)))


def run(options, folder, *words):
    return subprocess.run([options.program, *words], cwd=folder, capture_output=True, check=False)


def digest(content):
    return hashlib.sha256(content).hexdigest()


def listed(text):
    """The names and sums in a list without escapes, or nothing if it has other lines."""
    found = LINE.findall(text)
    return {name.decode(): sum.decode() for sum, name in found} if LINE.sub(b"", text) == b"" else None


def agrees(folder):
    """Whether `sha256sum` accepts the list of a directory."""
    words = ["sha256sum", "-c", "--strict", "--quiet", MANIFEST]
    return subprocess.run(words, cwd=folder, capture_output=True, check=False).returncode == 0


@functools.cache
def blocks_in(image):
    """The blocks of each file of an image as `volume` makes them, and None for those that are unreadable."""
    groups, place = [[]], 0
    while (length := int.from_bytes(image[place:place + 4], "little")) != 0xFFFFFFFF:
        size = length & 0xFFFFFF
        if length == 0:
            groups.append([])
        else:
            groups[-1].append(None if length >> 31 else image[place + 4:place + 4 + size])
        place += 8 + size if length else 4
    return dict(enumerate(groups[1::3], 1))


@functools.cache
def offsets_in(image):
    """The offsets of the blocks of each file of an image as `volume` makes them."""
    groups, place = [[]], 0
    while (length := int.from_bytes(image[place:place + 4], "little")) != 0xFFFFFFFF:
        if length == 0:
            groups.append([])
        else:
            groups[-1].append(place)
        size = length & 0xFFFFFF
        place += 8 + size + size % 2 if length else 4
    return dict(enumerate(groups[1::3], 1))


def printed(field):
    """A field of a label as lines show it, or None if it is blank."""
    return "".join(chr(byte) if 32 <= byte < 127 else "?" for byte in field).rstrip(" ") or None


def rows_in(text):
    """The lines of a record, and for each file or stage its line and those of its blocks, the last ones last."""
    rows, groups = [json.loads(line) for line in text.decode().splitlines()], []
    for row in rows:
        if row["row"] in ("FILE", "AWAITS"):
            groups.append((row, []))
        elif row["row"] == "BLOCKS":
            groups[-1][1].append(row)
    return rows, groups


def recorded_blocks(groups, at, images):
    """The blocks of the file or stage of group `at`: those of the images, or those that the stage had before."""
    row, runs = groups[at]
    number, found = row["file"], []
    for run in runs:
        assert run["name"] == row["name"] and (run["section"], run["block"], run["part"]) == (1, len(found), 0), run
        end = run["end_block"]
        if run["image"] is None:
            stage = row["name"].removesuffix(".stage") + ".stage"
            before = next(at for at in range(at - 1, -1, -1) if groups[at][0]["name"] == stage)
            found += recorded_blocks(groups, before, images)[:end]
            assert len(found) == end or end is None, run
            assert run["offset"] is None, run
        else:
            assert run["offset"] == next(iter(offsets_in(images[run["image"]])[number][len(found):end]), None), run
            found += blocks_in(images[run["image"]])[number][len(found):end]
        assert None not in found, run
    return found


def record_odd_names(options, results):
    """Damaged copies of one volume of odd names, in images with odd names, some of which are there on each day."""
    choice = options.random
    identifiers = [odd_bytes(choice, 17) for _ in range(30)]
    files = [(name, [choice.randbytes(800) for _ in range(choice.randint(0, 6))]) for name in identifiers]
    images = {}
    while len(images) < options.names // 25:
        name = odd_bytes(choice, 60).decode("utf-8", "replace").replace("/", "_")
        bad = {(file, choice.randrange(6)) for file in range(1, 31) if choice.random() < 0.7}
        images["t" + name] = volume(files, bad)
    with folder_with(images) as folder:
        (folder / "d").mkdir()
        before = b""
        for day in range(12):
            named = choice.sample(sorted(images), choice.randint(1, 3)) if day < 11 else sorted(images)
            words = ["--salvage"] if choice.random() < 0.2 else []
            done = run(options, folder, "unpack", "d", *named, "--manifest", "--form", "raw", *words)
            results.expect(done.returncode in (0, 3), f"record: {done.returncode} {done.stderr!r}")
            text = (folder / "d" / RECORD).read_bytes()
            results.expect(text.startswith(before), "record: a line is lost")
            before = text
        rows, groups = rows_in(before)
        keys, is_valid = keys_in("The record of unpack"), validator("record")
        for row in rows:
            results.expect(list(row) == ["row", *keys[row["row"]]] and is_valid(row), f"record: form of {row}")
            if row["row"] == "IMAGE":
                image = images[row["image"]]
                results.expect((row["size"], row["sha256"]) == (len(image), digest(image)), f"record: {row}")
        left = files_in(folder / "d")
        for at, (row, _) in enumerate(groups):
            name, blocks = files[row["file"] - 1]
            results.expect((row["set"], row["identifier"]) == ("ABC001", printed(name)), f"record: {row}")
            try:
                found = recorded_blocks(groups, at, images)
            except (AssertionError, StopIteration) as error:
                results.expect(False, f"record: {row} {error}")
                continue
            if row["row"] == "FILE":
                content = left[row["name"]]
                results.expect(b"".join(found) == content == b"".join(blocks), f"record: blocks of {row}")
                results.expect((row["size"], row["sha256"]) == (len(content), digest(content)), f"record: {row}")
            else:
                results.expect(found == blocks[:row["block"]], f"record: blocks of {row}")
        complete = {row["name"] for row, _ in groups if row["row"] == "FILE"}
        results.expect(complete == set(listed(left[MANIFEST])), "record: files")
        verify_images(options, results, folder, rows, len(complete) == len(files))


def verify_images(options, results, folder, rows, is_whole):
    """`--verify` with images, on a directory that agrees with them, and with one change after another."""
    choice, before = options.random, files_in(folder)
    used = sorted({row["image"] for row in rows if row["row"] == "IMAGE"})
    names = [name for name in before if "/" not in name]

    def verify(names, wanted, what):
        done = run(options, folder, "unpack", "--verify", "d", *names)
        told = [plain(line) for line in done.stdout.decode().splitlines() if line.startswith("IMAGE")]
        results.expect(told == wanted, f"verify, {what}: {told}, not {wanted}")
        return done

    done = verify(names, [], "all")
    results.expect(done.returncode == (0 if is_whole else 3), f"verify: {done.returncode} {done.stdout!r} {done.stderr!r}")
    results.expect(b" 0 differ 0 missing 0 not read" in done.stdout and b"DIFFERENT" not in done.stdout, f"verify: {done.stdout!r}")
    results.expect(files_in(folder) == before, "verify: something was written")
    for name in choice.sample(used, min(2, len(used))):
        left = [other for other in names if other != name] or ["lost.tap"]
        results.expect(verify(left, [f"IMAGE MISSING {name}"], "not named").returncode == 3, "verify: status")
        (folder / name).write_bytes(before[name][:-1] + b"\xfe")
        results.expect(verify(names, [f"IMAGE DIFFERS {name}"], "changed").returncode == 3, "verify: status")
        (folder / name).unlink()
        results.expect(verify(names, [f"IMAGE NOT READ {name}"], "removed").returncode == 3, "verify: status")
        (folder / "moved.tap").write_bytes(before[name])
        verify([*left, "moved.tap"], [], "renamed")
        (folder / "moved.tap").rename(folder / name)
    full = [name for name in listed(before[f"d/{MANIFEST}"]) if before[f"d/{name}"]]
    if is_whole and full:
        name = choice.choice(full)
        changed = bytes([before[f"d/{name}"][0] ^ 1]) + before[f"d/{name}"][1:]
        (folder / "d" / name).write_bytes(changed)
        text = before[f"d/{MANIFEST}"].replace(digest(before[f"d/{name}"]).encode() + b"  " + name.encode() + b"\n",
                                               digest(changed).encode() + b"  " + name.encode() + b"\n")
        (folder / "d" / MANIFEST).write_bytes(text)
        done = verify(names, [], "a changed file")
        found = [plain(line) for line in done.stdout.decode().splitlines() if " DIFFERENT " in line]
        is_found = len(found) == 1 and found[0].endswith(f" DIFFERENT d/{name}")
        results.expect(done.returncode == 3 and is_found, f"verify: a changed file: {done.stdout!r}")


TEXT = bytes([9, 12, *range(32, 127)])


def recorded_file(choice, number):
    """A file in a random format: its letter, record length, records and blocks of up to 800 bytes."""
    letter, length = choice.choice("FDS"), choice.choice((1, 7, 80))
    records = [bytes(choice.choices(TEXT, k=length if letter == "F" else choice.randint(0, 90))) for _ in range(choice.randint(0, 60))]
    if records and choice.random() < 0.5:
        at = choice.randrange(len(records))
        odd = bytes([choice.choice([10, 0, 13, 27, 127, 128, 255, *range(256)])])
        records[at] = odd + records[at][1:] if records[at] or letter == "F" else odd
    heads = {"F": lambda text: text, "D": lambda text: b"%04d" % (len(text) + 4) + text, "S": lambda text: b"0%04d" % (len(text) + 5) + text}
    blocks = [b""]
    for record in map(heads[letter], records):
        if len(blocks[-1]) + len(record) > 800:
            blocks.append(b"")
        blocks[-1] += record
    # A block of fewer than 18 bytes is filled with circumflexes, which are no text of the records.
    return letter, length if letter == "F" else 90 + len(heads[letter](b"")), records, [text.ljust(18, b"^") if letter != "F" else text for text in blocks if text]


def second(kind, letter, length):
    return label((kind, 4), (letter, 1), ("00800", 5), (f"{length if letter != 'S' else 0:05}", 5), ("", 35), ("00", 2), ("", 28))


def mixed_volume(files, bad, lost):
    """A volume of files in several formats, some blocks of which are unreadable, and some of whose HDR1 are lost."""
    pieces = [volume_label("ABC001")]
    for number, (letter, length, _, blocks) in enumerate(files, 1):
        first = first_label("HDR1", b"FILE%d" % number, number, 0)
        pieces += [bad_block(first[4:84]) if number in lost else first, second("HDR2", letter, length), mark()]
        pieces += [bad_block(text + b"^" * (len(text) % 2)) if (number, place) in bad else block(text) for place, text in enumerate(blocks)]
        pieces += [mark(), first_label("EOF1", b"FILE%d" % number, number, len(blocks)), second("EOF2", letter, length), mark()]
    return b"".join([*pieces, mark(), word(0xFFFFFFFF)])


def choose_forms(options, results):
    """`--form auto` over several days, with damaged copies, and then against the images."""
    choice = options.random
    files = [recorded_file(choice, number) for number in range(1, 13)]
    images = {}
    for copy in range(3):
        bad = {(number, place) for number in range(1, 13) for place in range(9) if choice.random() < 0.15}
        images[f"{copy}.tap"] = mixed_volume(files, bad, {number for number in range(1, 13) if choice.random() < 0.1})
    images["3.tap"] = mixed_volume(files, set(), {choice.randint(1, 12)})
    wanted = {}
    for number, (_, _, records, _) in enumerate(files, 1):
        is_text = all(byte in TEXT for byte in b"".join(records))
        content = b"".join(record + b"\n" * is_text for record in records)
        wanted[f"ABC001.{number}.FILE{number}"] = content, "lines" if is_text else "raw"
    with folder_with(images) as folder:
        (folder / "d").mkdir()
        for day in range(4):
            names = choice.sample(sorted(images), choice.randint(1, 2)) if day < 3 else sorted(images)
            words = ["--salvage"] if choice.random() < 0.3 else []
            listed_forms = run(options, folder, "unpack", "d", *names, "--form", "auto", "--list").stdout.decode()
            for form, name in re.findall(r" READY (?:(\w+) )?d/(\S+)$", listed_forms, re.M):
                results.expect(form == wanted[name][1], f"auto: READY {form} {name}")
            done = run(options, folder, "unpack", "d", *names, "--form", "auto", "--manifest", *words)
            results.expect(done.returncode in (0, 3), f"auto: {done.returncode} {done.stderr!r}")
            for form, name in re.findall(r" COMPLETE \d+ (?:(\w+) )?d/(\S+)$", done.stdout.decode(), re.M):
                results.expect(form == wanted[name][1], f"auto: COMPLETE {form} {name}")
        results.expect(done.returncode == 0 or b" AWAITS " not in done.stdout, f"auto: {done.stdout!r}")
        left = files_in(folder / "d")
        for name, (content, form) in wanted.items():
            results.expect(left.get(name) in (content, None), f"auto: {name} is not {form}")
        told = {row["name"]: row["form"] for row in rows_in(left[RECORD])[0] if row["row"] == "FILE"}
        results.expect(told == {name: wanted[name][1] for name in told}, "auto: forms in the record")
        results.expect(told.keys() == left.keys() & wanted.keys(), "auto: files in the record")
        for form in ("lines", "raw", "auto"):
            done = run(options, folder, "unpack", "--verify", "d", *sorted(images), "--form", form)
            results.expect(b"DIFFERENT" not in done.stdout and b" 0 differ 0 missing" in done.stdout, f"auto: --verify: {done.stdout!r}")
        done = run(options, folder, "unpack", "d", *sorted(images), "--form", "auto")
        results.expect(done.stdout.count(b" EXISTS ") == len(told) and files_in(folder / "d") == left, f"auto: again {done.stdout!r}")


def unpack_odd_names(options, results):
    choice = options.random
    names = [odd_bytes(choice, 17) for _ in range(options.names)]
    files = [(name, [choice.randbytes(800) for _ in range(choice.randint(0, 3))]) for name in names]
    with folder_with({"one.tap": volume(files)}) as folder:
        (folder / "d").mkdir()
        half = [word for number in range(1, len(files) // 2) for word in ("--file", str(number))]
        for words in (["--form", "raw", *half], ["--form", "raw"], ["--form", "raw"]):
            done = run(options, folder, "unpack", "d", "one.tap", "--manifest", *words)
            results.expect(done.returncode == 0, f"names: {done.returncode} {done.stderr!r}")
        left = files_in(folder / "d")
        text, (rows, groups) = left.pop(MANIFEST), rows_in(left.pop(RECORD))
        # A file whose name is a number that was asked for comes earlier.
        groups.sort(key=lambda group: group[0]["file"])
        told = [(row["name"], row["identifier"], row["sha256"]) for row, _ in groups]
        wanted = {name: digest(content) for name, content in left.items()}
        results.expect({name: sum for name, _, sum in told} == wanted and len(told) == len(wanted), "names: the record")
        results.expect([name for _, name, _ in told] == [printed(name) for name, _ in files], "names: identifiers")
        results.expect(len(rows) == 2 * len(files) + 1, "names: lines of the record")
        results.expect(listed(text) == {name: digest(content) for name, content in left.items()}, "names: the list")
        results.expect(len(left) == len(files), f"names: {len(left)} of {len(files)} files")
        wanted = sorted(digest(b"".join(blocks)) for _, blocks in files)
        results.expect(sorted(map(digest, left.values())) == wanted, "names: the contents")
        results.expect(agrees(folder / "d"), "names: sha256sum")
        done = run(options, folder, "unpack", "--verify", "d")
        told = f"TOTAL {len(files)} agree 0 differ 0 missing 0 not read\n"
        results.expect((done.returncode, done.stdout.decode()) == (0, told), f"names: {done.stdout!r}")


def read_lists_of_others(options, results):
    choice = options.random
    names = {odd_bytes(choice, 40).decode("utf-8", "replace").replace("/", "_") for _ in range(options.names)}
    names = sorted(names - {".", "..", "-", MANIFEST})  # sha256sum reads standard input for "-"
    with folder_with({"one.tap": volume([(b"ONE", [b"x" * 800])])}) as folder:
        place = folder / "d"
        place.mkdir()
        for name in names:
            (place / name).write_bytes(choice.randbytes(choice.randint(0, 9000)))
        text = subprocess.run(["sha256sum", "--", *names], cwd=place, capture_output=True, check=True).stdout
        (place / MANIFEST).write_bytes(text)
        told = run(options, folder, "unpack", "--verify", "d")
        results.expect(told.returncode == 0, f"others: {told.returncode} {told.stdout!r} {told.stderr!r}")
        done = run(options, folder, "unpack", "d", "one.tap", "--manifest", "--form", "raw")
        line = f"{digest(b'x' * 800)}  ABC001.1.ONE\n".encode()
        results.expect((done.returncode, (place / MANIFEST).read_bytes()) == (0, text + line), "others: the list")
        counts = [len(names) + 1, 0, 0]
        for name in names:
            change = choice.choice(("", "", "differ", "missing"))
            if change == "differ":
                (place / name).write_bytes((place / name).read_bytes() + b"x")
            elif change == "missing":
                (place / name).unlink()
            if change:
                counts[0] -= 1
                counts[1 if change == "differ" else 2] += 1
        told = run(options, folder, "unpack", "--verify", "d").stdout.decode().splitlines()
        total = "TOTAL {} agree {} differ {} missing 0 not read".format(*counts)
        results.expect(told[-1] == total and len(told) == counts[1] + counts[2] + 1, f"others: {told[-1]}, not {total}")
        seen = subprocess.run(["sha256sum", "-c", "--strict", "--quiet", MANIFEST], cwd=place, capture_output=True, check=False)
        failed = [line for line in seen.stdout.splitlines() if b": FAILED" in line]
        results.expect(len(failed) == counts[1] + counts[2], f"others: sha256sum finds {len(failed)}")


OLD = {"ABC001.1.ONE": b"x" * 1600, "odd name": b"mine"}
MINE = b'{"row":"MINE"}\n'


def begun(count, blocks):
    """A directory in which one file of the images is listed, and another one by somebody else."""
    files = [(b"ONE", [b"x" * 800] * 2)]
    files += [(b"FILE%d" % number, [b"%06d" % number + b" " * 794] * blocks) for number in range(2, count + 1)]
    text = "".join(f"{digest(content)}  {name}\n" for name, content in OLD.items()).encode()
    return {"one.tap": volume(files), f"d/{MANIFEST}": text, f"d/{RECORD}": MINE} | {f"d/{name}": content for name, content in OLD.items()}


WORDS = ["unpack", "d", "one.tap", "--manifest", "--form", "raw"]


def what_is_wrong(folder, old, is_whole):
    """Why the list of a directory is wrong, or None."""
    left = files_in(folder / "d")
    text, record = left.pop(MANIFEST, b""), left.pop(RECORD, b"")
    if not text.startswith(old):
        return "an earlier line is lost"
    recorded = {row["name"]: row["sha256"] for row, _ in rows_in(record)[1] if row["row"] == "FILE"}
    if not record.startswith(MINE) or any(name not in left or digest(left[name]) != sum for name, sum in recorded.items()):
        return "the record is wrong"
    sums = listed(text)
    if sums is None:
        return "a line is none"
    if any(name not in left or digest(left[name]) != sum for name, sum in sums.items()):
        return "a line is wrong"
    kept = {name for name in left if not name.startswith(".tape-") and not name.endswith(".stage")}
    if is_whole and (sums.keys() != kept or recorded.keys() | {"odd name"} != kept):
        return "a file has no line"
    return None


def stop_at_random(options, results):
    files, took = begun(40, 30), None
    for number in range(options.kills + 1):
        with folder_with(files) as folder:
            start = time.monotonic()
            process = subprocess.Popen([options.program, *WORDS], cwd=folder, stdout=subprocess.DEVNULL)
            if took is not None:
                time.sleep(options.random.uniform(0, took))
                process.kill()
            process.wait()
            took = took or time.monotonic() - start
            wrong = what_is_wrong(folder, files[f"d/{MANIFEST}"], process.returncode == 0)
            results.expect(not wrong, f"killed, {number}: {wrong}")
            again_is_whole(options, results, folder, files, f"killed, {number}")


def again_is_whole(options, results, folder, files, name):
    done = run(options, folder, *WORDS)
    wrong = what_is_wrong(folder, files[f"d/{MANIFEST}"], True)
    results.expect(done.returncode == 0 and not wrong, f"{name}, then again: {done.returncode}, {wrong}")


def refuse_each(options, results):
    files = begun(3, 2)
    with folder_with() as other:
        preload, counts = library(other), other / "counts"

        def attempt(refusal):
            with folder_with(files) as folder:
                told = os.environ | {"LD_PRELOAD": str(preload), "FAIL": refusal, "FAIL_COUNTS": str(counts)}
                done = subprocess.run([options.program, *WORDS], cwd=folder, env=told, capture_output=True, check=False)
                wrong = what_is_wrong(folder, files[f"d/{MANIFEST}"], done.returncode == 0)
                results.expect(not wrong, f"refused {refusal}: {wrong}, status {done.returncode} {done.stdout!r} {done.stderr!r}")
                again_is_whole(options, results, folder, files, f"refused {refusal}")

        attempt("")
        refusals = [f"{kind}{refusal}{later}:{error}"
                    for kind, number in zip(KINDS, counts.read_text().split(), strict=False)
                    for refusal in range(1, int(number) + 1)
                    for error in ERRORS[kind]
                    for later in (("", "+") if error != errno.EINTR else ("",))]
        if 0 < options.refusals < len(refusals):
            refusals = options.random.sample(refusals, options.refusals)
        for refusal in refusals:
            attempt(refusal)


def main():
    options = arguments(__doc__, ("--names", 1000, "odd names"), ("--shelves", 25, "shelves of damaged images"),
        ("--kills", 100, "runs that are killed"), ("--refusals", 0, "refused calls, all if 0"), ("--seed", 1, "of the choices"))
    options.random = random.Random(options.seed)
    results = Results()
    for _ in range(options.shelves):
        record_odd_names(options, results)
        choose_forms(options, results)
    unpack_odd_names(options, results)
    read_lists_of_others(options, results)
    stop_at_random(options, results)
    refuse_each(options, results)
    return results.end()


if __name__ == "__main__":
    sys.exit(main())
