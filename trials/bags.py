#!/usr/bin/env python3
"""Checks a bag by the rules of RFC 8493 (BagIt 1.0), and prints each that it breaks. For scripts.py.

    ./bags.py BAG

It is written from the RFC alone, and shares no code with scripts/tape-bag. Exit status 1 if a rule is broken.
"""

import hashlib
import os
import re
import sys

DECLARATION = re.compile(rb"BagIt-Version: 1\.0(\r\n|\r|\n)Tag-File-Character-Encoding: UTF-8(\r\n|\r|\n)?")
LINE = re.compile(r"([0-9A-Fa-f]+)[ \t]+\*?([^ \t*].*)")
FIELD = re.compile(r"([^:\s](?:[^:]*[^:\s])?):[ \t](.*)")
LENGTHS = {"md5": 32, "sha1": 40, "sha256": 64, "sha512": 128}


def lines_of(path):
    """The lines of a tag file, which end with LF, CR or CRLF; it is UTF-8 without a byte-order mark."""
    with open(path, "rb") as file:
        text = file.read().decode("utf-8")
    if text.startswith("\ufeff"):
        raise ValueError("a byte-order mark")
    lines = re.split("\r\n|\r|\n", text)
    return lines[:-1] if lines[-1] == "" else lines


def files_below(bag, folder):
    return {os.path.relpath(os.path.join(root, name), bag).replace(os.sep, "/")
        for root, _, names in os.walk(os.path.join(bag, folder)) for name in names}


def entries(bag, name):
    """Yields for each line of a manifest its sum and path, and a fault or None."""
    length = LENGTHS.get(re.search(r"manifest-(\w+)\.txt", name)[1])
    for line in lines_of(os.path.join(bag, name)):
        found = LINE.fullmatch(line)
        if length is None or not found or len(found[1]) != length:
            yield "", "", f"{name}: {line!r} is no line of a manifest"
            continue
        path = re.sub("%(0A|0D|25)", lambda it: bytes.fromhex(it[1]).decode(), found[2], flags=re.I)
        unsafe = path.startswith(("/", "~")) or ".." in path.split("/")
        yield found[1].lower(), path, f"{name}: {path} leads out of the bag" if unsafe else None


def faults_of_manifest(bag, name, payload):
    """The broken rules of a manifest, and of the sums in it."""
    is_of_tags, listed = name.startswith("tagmanifest"), []
    for checksum, path, fault in entries(bag, name):
        if fault:
            yield fault
            continue
        listed.append(path)
        if path.startswith("data/") == is_of_tags or is_of_tags and path.startswith("tagmanifest-"):
            yield f"{name}: {path} does not belong there"
        try:
            with open(os.path.join(bag, path), "rb") as file:
                seen = hashlib.new(re.search(r"-(\w+)\.", name)[1], file.read()).hexdigest()
        except OSError as error:
            yield f"{name}: {path}: {error.strerror}"
            continue
        if seen != checksum:
            yield f"{name}: {path} has another sum"
    if len(listed) != len(set(listed)):
        yield f"{name}: a path is listed twice"
    if is_of_tags:
        # The RFC only recommends this one.
        tags = files_below(bag, ".") - payload - {path for path in os.listdir(bag) if path.startswith("tagmanifest-")}
        yield from (f"{name}: {path} is not listed" for path in sorted(tags - set(listed)))
    else:
        yield from (f"{name}: {path} is not listed" for path in sorted(payload - set(listed)))


def faults_of_info(bag, payload):
    fields = [FIELD.fullmatch(line) for line in lines_of(os.path.join(bag, "bag-info.txt"))]
    if None in fields:
        yield "bag-info.txt: a line is not LABEL: VALUE"
    sums = [field[2] for field in fields if field and field[1].lower() == "payload-oxum"]
    size = sum(os.path.getsize(os.path.join(bag, path)) for path in payload)
    if len(sums) > 1 or sums and sums[0] != f"{size}.{len(payload)}":
        yield f"bag-info.txt: Payload-Oxum {sums}, not {size}.{len(payload)}"


def faults(bag):
    """Yields the rules that a bag breaks."""
    try:
        with open(os.path.join(bag, "bagit.txt"), "rb") as file:
            if not DECLARATION.fullmatch(file.read()):
                yield "bagit.txt: no declaration of BagIt 1.0"
    except OSError:
        yield "bagit.txt: missing"
    if not os.path.isdir(os.path.join(bag, "data")):
        yield "data: missing"
    payload = files_below(bag, "data")
    manifests = [name for name in os.listdir(bag) if re.fullmatch(r"(tag)?manifest-\w+\.txt", name)]
    if not any(name.startswith("manifest-") for name in manifests):
        yield "no payload manifest"
    for name in sorted(manifests):
        yield from faults_of_manifest(bag, name, payload)
    if os.path.exists(os.path.join(bag, "bag-info.txt")):
        yield from faults_of_info(bag, payload)


def main(bag):
    found = list(faults(bag))
    print("\n".join([*found, f"{bag}: {len(found)} rules broken"]))
    return bool(found)


if __name__ == "__main__":
    if len(sys.argv) != 2 or sys.argv[1].startswith("-"):
        print(__doc__.strip())
        sys.exit(0 if sys.argv[1:] in (["-h"], ["--help"]) else 2)
    sys.exit(main(sys.argv[1]))
