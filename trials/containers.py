#!/usr/bin/env python3
"""Images of other formats, whole and mutated, converted by the program and read by a model.

    trials/containers.py PROGRAM IMAGES [SEED] [--plant FAULT]

A labelled tape of three files, with blocks of even and odd length, unreadable blocks and gaps, is
drawn for each image from its own seed and encoded as AWS (some blocks in several chunks), E11,
SIMH's extended format (with descriptions, private records, markers, half gaps and bad records of
length 0) or plain SIMH. Half of the images then get up to three mutations: bytes or words are
changed, removed or put in, or the image is cut.

The model, written from docs/FORMATS.md, recognises the format and reads the items. Where it reads
an image to its end, `convert` must create an image of exactly these items, as tape_model.py reads
it, and print their number; where it does not, `convert` must end with status 1 and an image fault,
and create nothing. An image of another kind is never converted. `survey --tsv` and `unpack` of
whole images must give the same rows and files as of the SIMH image, byte for byte.

Prints each wrong result with the seed of its image, and counts; exit status 1 if there is one.
--plant replaces a part of the model by a wrong one, for which there must be wrong results: FAULT is
pad, mark, half or bad. With TMPDIR=/dev/shm it takes half of the time.
"""

import argparse
import random
import shutil
import subprocess
import sys
import tempfile
from collections import Counter
from pathlib import Path

import tape_model as model
from common import Results
from tape_model import BAD, MARK, encoded, word

FRONT = 36_864
AWS_BEGIN, AWS_MARK, AWS_END = 0x80, 0x40, 0x20
BAD_WORD, HALF_GAP = 0x80000000, 0xFFFEFFFF


def number(data, at, size=4):
    return int.from_bytes(data[at:at + size], "little")


# ---- the kind of an image, by its first bytes

def whole_block(data, at, pad=True):
    """The end of a block whose two words are equal, or None."""
    lead = number(data, at)
    length = lead & 0xFFFFFF
    if at + 4 > len(data) or lead & 0x7F000000 or not length:
        return None
    end = at + 4 + length + (length % 2 if pad else 0)
    return end + 4 if end + 4 <= len(data) and number(data, end) == lead else None


def is_extended(data, at):
    lead = number(data, at)
    kind, length = lead >> 28, lead & 0x0FFFFFFF
    if at + 4 > len(data):
        return False
    end = at + 4 + length + length % 2
    if kind not in (0, 7, 15) and end + 4 <= len(data) and number(data, end) == lead:
        return True
    if lead != model.END and (kind in (7, 15) or lead == BAD_WORD):
        marked = at + 8 if at + 8 <= len(data) and number(data, at + 4) == 0 else at + 4
        return bool(whole_block(data, at + 4) or whole_block(data, marked))
    return False


def is_aws(data):
    def header(at, before):
        length, flags = number(data, at, 2), number(data, at + 4, 2)
        low = flags % 4
        fits = flags == AWS_MARK if not length else low < 3 and flags - low in (0xA0, 0x80, 0x20, 0)
        return at + 6 <= len(data) and number(data, at + 2, 2) == before and fits
    length = number(data, 0, 2)
    is_label = data[6:10] in (b"VOL1", b"\xe5\xd6\xd3\xf1")
    if not header(0, 0) or not (header(6 + length, length) or is_label):
        return False
    at, before = 0, 0
    while header(at, before):
        if data[at + 4] % 4:
            return False
        at, before = at + 6 + number(data, at, 2), number(data, at, 2)
    return True


def is_text_copy(data, at):
    return bool(whole_block(data[at:].replace(b"\r\n", b"\n"), 0))


def kind_of(image):
    """The format of an image that is converted, or None."""
    data, at, blocks = image[:FRONT], 0, 0
    while at + 4 <= len(data):
        if number(data, at) in (0, model.GAP):
            at += 4
        elif whole_block(data, at):
            at, blocks = whole_block(data, at), blocks + 1
        else:
            break
    if number(data, at) % 2 and whole_block(data, at, pad=False):
        return "e11"
    if is_extended(data, at):
        return "extended"
    if is_text_copy(data, at) or blocks:
        return "simh"
    if data[:4] in (b"\x13\0\0\0", b"\x13\0\0\1", b"\x13\0\0\2", b"\x13\0\0\3"):
        return None
    if is_aws(data):
        return "aws"
    # Nothing but marks, or damaged in its first block.
    return "simh"


# ---- the items of an image: None at its end if it cannot be read to its end

def e11_items(data):
    at = 0
    while at < len(data):
        lead = number(data, at)
        if lead == model.END and at + 4 <= len(data):
            return
        length = lead & 0xFFFFFF
        size = 4 if lead in (0, model.GAP) else 8 + length
        if at + size > len(data) or size > 4 and (
                not length or lead & 0x7F000000 or number(data, at + size - 4) != lead):
            yield None
            return
        if size > 4:
            yield from block(lead, data[at + 4:at + 4 + length])
        elif not lead:
            yield MARK
        at += size


def block(lead, content):
    yield BAD if lead >> 31 or len(content) > model.LONGEST else ("block", content)


def extended_items(data):
    at = 0
    while at < len(data):
        lead = number(data, at)
        if at + 4 > len(data):
            yield None
            return
        kind, length = lead >> 28, lead & 0x0FFFFFFF
        if lead == model.END:
            return
        if lead == BAD_WORD:
            yield BAD
            at += 8 if data[at + 4:at + 8] == word(BAD_WORD) else 4
        elif lead == HALF_GAP:
            at += 2 if data[at + 4:at + 6] == b"\xff\xff" else 4
        elif lead in (0, model.GAP) or kind in (7, 15):
            if not lead:
                yield MARK
            at += 4
        else:
            end = at + 8 + length + length % 2
            is_long = kind in (0, 8) and length > 0xFFFFFF
            if is_long or end > len(data) or number(data, end - 4) != lead:
                yield None
                return
            if kind in (0, 8):
                yield from block(lead, data[at + 4:at + 4 + length])
            at = end


def aws_items(data):
    at, before, block_bytes = 0, 0, None  # the bytes of a block that continues
    while at < len(data):
        length, previous, flags = (number(data, at + each, 2) for each in (0, 2, 4))
        if block_bytes is None and data[at:at + 6] == bytes(6):
            return
        begins = AWS_BEGIN if block_bytes is None else 0
        is_mark = flags == AWS_MARK and not length and block_bytes is None
        is_chunk = flags & ~AWS_END == begins and length
        if at + 6 + length > len(data) or previous != before or not (is_mark or is_chunk):
            yield None
            return
        at, before = at + 6 + length, length
        if is_mark:
            yield MARK
            continue
        block_bytes = (block_bytes or b"") + data[at - length:at]
        if flags & AWS_END:
            yield BAD if len(block_bytes) > model.LONGEST else ("block", block_bytes)
            block_bytes = None
    if block_bytes is not None:
        yield None


def items_in(kind, data):
    """The items, or None if the image cannot be read to its end. A SIMH image may be extended."""
    items = list({"e11": e11_items, "aws": aws_items}.get(kind, extended_items)(data))
    return None if None in items else items


# ---- the bytes of the SIMH image

def simh_image(image):
    """The SIMH image of an image, as docs/FORMATS.md has it; an image of another kind as it is."""
    kind, out, at, before = kind_of(image), bytearray(), 0, 0
    if kind in (None, "simh"):
        return image
    while at is not None:
        if len(image) - at < (6 if kind == "aws" else 4):
            return bytes(out + bytes(at < len(image)))
        part, at, before = encoding(kind, image, at, before)
        out += part
    return bytes(out)


def encoding(kind, data, at, before):
    """What stands for an encoding, where the next one is, and the length of the last AWS chunk."""
    if kind == "aws":
        return aws_encoding(data, at, before)
    lead, size = number(data, at), data[at:at + 4]
    length, rest = lead & 0xFFFFFF, data[at + 4:]
    if lead in (0, model.GAP):
        return size, at + 4, 0
    if length and not lead & 0x7F000000:
        pad = bytes(length % 2) if kind == "e11" else b""
        end = length + (length % 2 if kind == "extended" else 0)
        return size + rest[:end] + pad + rest[end:end + 4], at + 4 + len(rest[:end + 4]), 0
    if kind == "e11" or lead == model.END:
        return size, None, 0
    if lead == BAD_WORD:
        return encoded(b"\0", flag=BAD_WORD), at + (8 if rest[:4] == size else 4), 0
    if lead == HALF_GAP:
        return b"", at + (2 if rest[:2] == b"\xff\xff" else 4), 0
    if lead >> 28 in (7, 15):
        return b"", at + 4, 0
    end = (lead & 0x0FFFFFFF) + lead % 2
    if lead >> 28 in (0, 8) or rest[end:end + 4] != size:
        return size, None, 0
    return b"", at + 8 + end, 0


def aws_encoding(data, at, before):
    """What stands for a mark or a block, where the next header is, and the length of the chunk."""
    if data[at:at + 6] == bytes(6):
        return b"", None, 0
    content, begins, first = b"", AWS_BEGIN, at
    while len(data) - at >= 6:
        length, previous, flags = (number(data, at + each, 2) for each in (0, 2, 4))
        if previous == before and begins and flags == AWS_MARK and not length:
            return word(0), at + 6, 0
        if previous != before or flags & ~AWS_END != begins or not length:
            return word(0x7FFFFFFF), None, 0
        chunk = data[at + 6:at + 6 + length]
        content += chunk
        if at == first and flags & AWS_END:
            part = word(length) + chunk + bytes(length % 2) + word(length)
            return part, at + 6 + len(chunk), length
        if len(chunk) < length:
            break
        at, before, begins = at + 6 + length, length, 0
        if flags & AWS_END:
            count = len(content)
            is_long = count > model.LONGEST
            return encoded(b"\0", flag=BAD_WORD) if is_long else encoded(content), at, length
    return b"\0", None, 0


# ---- images

def chunks_of(rng, content, before):
    """An AWS block, some in several chunks, and the length of the last."""
    out, left = bytearray(), content
    while left or not out:
        most = rng.randint(1, len(left)) if left and rng.random() < .3 else len(left)
        flags = (0 if out else AWS_BEGIN) | (AWS_END if most == len(left) else 0)
        chunk = left[:most]
        out += bytes([*most.to_bytes(2, "little"), *before.to_bytes(2, "little"), flags, 0]) + chunk
        left, before = left[most:], most
    return out, before


def tape_of(rng):
    """A volume of three files, as pairs of a kind and bytes; some of its blocks are unreadable."""
    def label(text):
        return "block", text.ljust(80).encode()
    items = [label("VOL1CONT01".ljust(79) + "3")]
    for at in range(1, 4):
        content = [rng.randbytes(rng.choice([3, 18, 40, 61, 255, 1024])) for _ in range(rng.randint(0, 5))]
        for kind, count in (("HDR", 0), ("EOF", len(content))):
            numbers = f"{'FILE ' + str(at):17}CONT010001{at:04}000100 26001 99365 {count:06}"
            items += [label(f"{kind}1{numbers}"), label(f"{kind}2U0200000000".ljust(50) + "00")]
            if kind == "HDR":
                items += [MARK, *(("bad" if rng.random() < .05 else "block", each) for each in content)]
            items.append(MARK)
    return items + [MARK]


def extra(rng):
    """Something of the extended format between two items, that is no item or a bad one."""
    content = rng.randbytes(rng.choice([1, 2, 9, 60]))
    record = encoded(content, flag=rng.choice([1, 2, 6, 9, 14]) << 28)
    marker = word(rng.choice([0x70000001, 0x7FFFFFFF, 0xF0000001]))
    half = word(HALF_GAP) + rng.choice([b"", b"\xff\xff", b"\xff\xff" + word(model.GAP)])
    return rng.choice([record, record, marker, half, word(BAD_WORD), word(BAD_WORD) * 2])


def image_of(rng, kind, items):
    out, before = bytearray(), 0
    for name, content in items:
        length = len(content or b"")
        if kind == "aws":
            if length:
                part, before = chunks_of(rng, content, before)
            else:
                part, before = bytes([0, 0, *before.to_bytes(2, "little"), AWS_MARK, 0]), 0
            out += part
            continue
        if kind == "extended" and rng.random() < .2:
            out += extra(rng)
        if rng.random() < .1:
            out += word(model.GAP) * rng.randint(1, 3)
        pad = b"" if kind == "e11" else rng.choice([b"\0", b"\xff"])
        out += encoded(content, pad, 0x80000000 if name == "bad" else 0) if length else word(0)
    if kind != "aws" and rng.random() < .5:
        out += word(model.END) + rng.choice([b"", b"behind"])
    return bytes(out + bytes(rng.choice([0, 0, 512])))


def mutated(rng, image):
    image = bytearray(image)
    for _ in range(rng.randint(1, 3)):
        at = rng.randrange(len(image) + 1)
        if rng.random() < .5:  # at a word, as often as in data
            at = rng.choice([0, 4, 6, 84, 86, 88, 92, 172, 174, 180, min(at, len(image))])
        how = rng.randrange(6)
        if how == 0:
            image[at:at + 1] = rng.randbytes(1)
        elif how == 1:
            image[at:at + 4] = word(rng.choice([0, BAD_WORD, HALF_GAP, model.GAP, 0x10000002, 80, 0x70000000]))
        elif how == 2:
            del image[at:at + rng.choice([1, 2, 4, 6])]
        elif how == 3:
            image[at:at] = rng.randbytes(rng.choice([1, 2, 4, 6]))
        elif how == 4:
            image[at:at] = extra(rng)
        else:
            del image[at:]
    return bytes(image)


# ---- the trial

class Trial(Results):
    def __init__(self, program, folder):
        self.program, self.folder, self.told = program, folder, Counter()

    def run(self, *words):
        return subprocess.run([self.program, *words], cwd=self.folder, capture_output=True, check=False)

    def image(self, seed):
        rng = random.Random(seed)
        kind = rng.choice(["aws", "e11", "extended", "simh"])
        items = tape_of(rng)
        if kind == "aws":
            items = [("block" if name == "bad" else name, content) for name, content in items]
        image = image_of(rng, kind, items)
        is_whole = rng.random() < .5
        image = image if is_whole else mutated(rng, image)
        found = kind_of(image)
        want = items_in(found, image) if found else None
        (self.folder / "image").write_bytes(image)
        out = self.folder / "out.tap"
        out.unlink(missing_ok=True)
        done = self.run("convert", "out.tap", "image")
        told = f"image {seed} ({kind}, as {found})"
        self.told[f"{found} {'whole' if want is not None else 'damaged'}"] += 1
        if want is None:
            is_fault = done.returncode == 1 and b"image fault" in done.stderr and not out.exists()
            self.expect(is_fault, f"{told}: status {done.returncode}, {done.stdout}, {done.stderr}")
            return
        got = model.items_of(out.read_bytes())[0] if out.exists() else None
        self.expect(got == want, f"{told}: {len(got or [])} items, expected {len(want)}; {done.stderr}")
        line = f"CONVERTED {len(want)}\n".encode()
        self.expect(done.stdout == line and done.returncode == 0, f"{told}: {done.stdout}, {done.stderr}")
        if is_whole and found == kind and seed % 8 == 0:
            self.same(told)

    def same(self, told):
        """What is read of the image is what is read of its SIMH image."""
        results = []
        for name in ("image", "out.tap"):
            rows = self.run("survey", "--tsv", name).stdout.replace(name.encode(), b"NAME")
            folder = self.folder / "files"
            folder.mkdir()
            lines = self.run("unpack", "--form", "raw", "files", name).stdout
            files = {each.name: each.read_bytes() for each in folder.iterdir()}
            self.told["files"] += sum(not each.endswith(".stage") for each in files)
            shutil.rmtree(folder)
            results.append((rows, lines.replace(name.encode(), b"NAME"), files))
        self.expect(results[0] == results[1], f"{told}: survey or unpack differ: {results}")


def plant(fault):
    """Makes the model wrong."""
    if fault == "pad":  # E11 with pad bytes
        globals()["e11_items"] = extended_items
    elif fault == "mark":  # another flag of tape marks
        globals()["AWS_MARK"] = 0x60
    elif fault == "half":  # half gaps are markers
        globals()["HALF_GAP"] = 0xFFFDFFFF
    elif fault == "bad":  # bad records of length 0 are none
        globals()["BAD_WORD"] = 0x80000001


def main():
    parser = argparse.ArgumentParser(description=__doc__, formatter_class=argparse.RawDescriptionHelpFormatter)
    parser.add_argument("program")
    parser.add_argument("images", type=int)
    parser.add_argument("seed", type=int, nargs="?", default=0)
    parser.add_argument("--plant", choices=["pad", "mark", "half", "bad"])
    options = parser.parse_args()
    plant(options.plant)
    with tempfile.TemporaryDirectory(prefix="tape-") as name:
        trial = Trial(str(Path(options.program).resolve()), Path(name))
        for seed in range(options.seed, options.seed + options.images):
            trial.image(seed)
        print(", ".join(f"{count} {each}" for each, count in sorted(trial.told.items())))
        sys.exit(trial.end())


if __name__ == "__main__":
    main()
