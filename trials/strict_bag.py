#!/usr/bin/env python3
"""Checks a bag by RFC 8493 (BagIt 1.0) once more, and prints each rule that it breaks. For bag_answers.py.

    ./strict_bag.py BAG

It was written from the RFC alone, byte by byte, and shares no code with scripts/tape-bag and with bags.py. It also
reports what the RFC only recommends: tag manifests that leave out a tag file or use other algorithms, and names that
differ only in case or are reserved on other systems. Exit status 1 if a rule is broken.
"""

import datetime
import hashlib
import sys
import unicodedata
from pathlib import Path

# Section 2.4: the algorithms that a 1.0 implementation knows, and the bytes of a sum.
ALGORITHMS = {b"md5": 16, b"sha1": 20, b"sha224": 28, b"sha256": 32, b"sha384": 48, b"sha512": 64}
RESERVED = {"con", "prn", "aux", "nul", *(f"{name}{number}" for name in ("com", "lpt") for number in range(1, 10))}
ONCE = ("bagging-date", "bag-size", "payload-oxum", "bag-group-identifier", "bag-count")


def split_lines(content):
    """The lines of a tag file, which may end in LF, CR or CR LF (section 2.3)."""
    lines, line, before = [], bytearray(), None
    for byte in content:
        if byte == 10 and before == 13:
            pass
        elif byte in (10, 13):
            lines.append(bytes(line))
            line.clear()
        else:
            line.append(byte)
        before = byte
    return lines + ([bytes(line)] if line else [])


def in_utf_8(content):
    """Whether the bytes are UTF-8 without a byte-order mark (section 2.1.1)."""
    try:
        return not content.decode("utf-8").startswith("\ufeff")
    except UnicodeDecodeError:
        return False


def decoded(path):
    """The path that a line of a manifest means, or None: only %, LF and CR are encoded (section 2.1.3)."""
    made, at = bytearray(), 0
    while at < len(path):
        if path[at] == 37:
            byte = {b"25": 37, b"0A": 10, b"0D": 13}.get(path[at + 1:at + 3].upper())
            if byte is None:
                return None
            made.append(byte)
            at += 3
        else:
            made.append(path[at])
            at += 1
    return bytes(made)


def declaration(content):
    """Section 2.1.1: two lines in this order, and no other text."""
    if split_lines(content) != [b"BagIt-Version: 1.0", b"Tag-File-Character-Encoding: UTF-8"]:
        yield f"bagit.txt: {content!r}"


def entries(name, content, length):
    """The sums and paths of a manifest; a text instead for each line that is none (section 2.1.3)."""
    for number, line in enumerate(split_lines(content), 1):
        at = min((place for place in (line.find(b" "), line.find(b"\t")) if place >= 0), default=0)
        path = line[at:].lstrip(b" \t")
        path = path[1:] if path.startswith(b"*") else path
        try:
            checksum = bytes.fromhex(line[:at].decode("ascii"))
        except ValueError:
            checksum = b""
        if len(checksum) != length or b" " in line[:at] or not path:
            yield f"{name}: line {number} is {line!r}"
        elif decoded(path) is None:
            yield f"{name}: line {number} encodes another character: {path!r}"
        else:
            yield checksum, decoded(path).decode("utf-8")


def manifest(bag, name, content, payload, tags):
    """A payload manifest, or a tag manifest (section 2.2.1)."""
    kind, _, algorithm = name.removesuffix(".txt").partition("-")
    length = ALGORITHMS.get(algorithm.encode())
    if length is None:
        yield f"{name}: an unknown algorithm"
        return
    seen = []
    for entry in entries(name, content, length):
        if isinstance(entry, str):
            yield entry
            continue
        checksum, path = entry
        seen.append(path)
        parts = path.split("/")
        if path.startswith(("/", "~")) or {"", ".", ".."} & set(parts):
            yield f"{name}: {path!r} is not below the bag"
        elif (parts[0] == "data") != (kind == "manifest") or parts[0].startswith("tagmanifest-"):
            yield f"{name}: {path!r} belongs into another manifest"
        elif not (bag / path).is_file():
            yield f"{name}: {path!r} does not exist"
        elif hashlib.new(algorithm, (bag / path).read_bytes()).digest() != checksum:
            yield f"{name}: {path!r} has another sum"
    due = payload if kind == "manifest" else tags
    yield from (f"{name}: {path!r} is listed {seen.count(path)} times" for path in sorted(due | set(seen)) if seen.count(path) != 1)


def information(content, payload_size, payload_count):
    """Section 2.2.2: labels, values, folded lines, and the values of reserved labels."""
    fields = []
    for line in split_lines(content):
        label, colon, value = line.partition(b":")
        if line[:1] in (b" ", b"\t") and fields:
            fields[-1][1] += line
        elif not colon or not label or label != label.strip() or value[:1] not in (b" ", b"\t"):
            yield f"bag-info.txt: {line!r}"
        else:
            fields.append([label.decode("utf-8").lower(), value[1:]])
    labels = [label for label, _ in fields]
    yield from (f"bag-info.txt: {label} more than once" for label in ONCE if labels.count(label) > 1)
    for label, value in fields:
        if label == "payload-oxum" and value != f"{payload_size}.{payload_count}".encode():
            yield f"bag-info.txt: Payload-Oxum {value!r}, not {payload_size}.{payload_count}"
        if label == "bagging-date":
            try:
                datetime.date.fromisoformat(value.decode("ascii"))
            except ValueError:
                yield f"bag-info.txt: Bagging-Date {value!r}"


def names(paths):
    """Section 6.1: names that other systems hold for the same, or do not allow."""
    folded = {}
    for path in sorted(paths):
        other = folded.setdefault(unicodedata.normalize("NFC", path).casefold(), path)
        if other != path:
            yield f"{other!r} and {path!r} differ only in case or form"
        for part in path.split("/"):
            if part.split(".")[0].lower() in RESERVED or part.endswith((" ", ".")) or set('<>:"\\|?*') & set(part):
                yield f"{path!r} cannot be a name on Windows"


def broken(bag):
    """Yields the rules that a bag breaks."""
    bag = Path(bag)
    found = sorted(path for path in bag.rglob("*") if not path.is_dir())
    yield from (f"{path} is no regular file" for path in found if path.is_symlink() or not path.is_file())
    below = {path.relative_to(bag).as_posix() for path in found}
    payload = {path for path in below if path.startswith("data/")}
    in_base = {path: (bag / path).read_bytes() for path in below - payload if "/" not in path}
    manifests = sorted(name for name in in_base if name.startswith(("manifest-", "tagmanifest-")) and name.endswith(".txt"))
    for name in ("bagit.txt", "bag-info.txt", *manifests):
        if not in_utf_8(in_base.get(name, b"")):
            yield f"{name}: not UTF-8, or with a byte-order mark"
            return
    yield from declaration(in_base.get("bagit.txt", b""))
    if not (bag / "data").is_dir():
        yield "data is no directory"
    kinds = [{name.partition("-")[2] for name in manifests if name.startswith(kind)} for kind in ("manifest-", "tagmanifest-")]
    if not kinds[0] or kinds[0] != kinds[1]:
        yield f"manifests with {kinds[0]}, tag manifests with {kinds[1]}"
    tags = {path for path in below - payload if not path.startswith("tagmanifest-")}
    for name in manifests:
        yield from manifest(bag, name, in_base[name], payload, tags)
    if "fetch.txt" in in_base:
        yield "fetch.txt: this bag should be complete"
    size = sum((bag / path).stat().st_size for path in payload)
    yield from information(in_base.get("bag-info.txt", b""), size, len(payload))
    yield from names(below)


def main(bag):
    found = list(broken(bag))
    print("\n".join([*found, f"{bag}: {len(found)} rules broken"]))
    return bool(found)


if __name__ == "__main__":
    if len(sys.argv) != 2 or sys.argv[1].startswith("-"):
        print(__doc__.strip())
        sys.exit(0 if sys.argv[1:] in (["-h"], ["--help"]) else 2)
    sys.exit(main(sys.argv[1]))
