#!/usr/bin/env python3
"""Damaged sets, and the files that `tape salvage` recovers from them. Run manually; CI does not run it.

    ./salvage.py [--program PATH] [--seed N] [--sets N] [--keep FOLDER] [--hand] [--times]

Each set is made here from docs/FORMATS.md alone: files in the three formats on one to four volumes, each volume on one
or two images. Blocks, labels and tape marks are made unreadable, images are cut at any byte, left out, and shuffled;
blocks are lost or doubled, so that the count of a trailer label is wrong; one character of a block is changed, so that
two complete copies differ; images of other sets are among them.

A model in this file, written from 'Salvaging' in docs/FORMATS.md and the lines in docs/REFERENCE.md, determines the expected files and
lines. For each file the output must be equal byte for byte, and so must the lines and the exit status. The model has
two parts that do not depend on each other: the lines are made block by block, and the output is also calculated from
the records that the set was made of, as those of which every block was read. If `tape extract --again` completes a file
from the same images, and no volume has two of them, `salvage` must report COMPLETE with the same bytes.

--hand: images that plain `extract` does not read (formats U, V and VBS, no HDR2), written by hand;
unreadable labels and tape marks, and copies that differ, with lines written by hand.
--times: a reel of 200 MB, `salvage` against `extract`.

Prints each wrong answer, and counts; the exit status is 1 if there is one.
"""

import hashlib
import random
import resource
import shutil
import struct
import subprocess
import sys
import tempfile
import time
from dataclasses import replace
from pathlib import Path

from common import Results, arguments
from containers import simh_image
from reels import File, Item, Reel, block, file_of, label, strangers, volumes_of, word

MARK, BAD = "mark", "bad"
UNREADABLE = struct.pack("<I", 1 << 31 | 1) + b"\0\0" + struct.pack("<I", 1 << 31 | 1)


# ---- reading an image

def reading_of(image):
    """The items of an image: a block's bytes, MARK or BAD; and None, or the number and the offset of the fault at which
    they end."""
    found, at = [], 0
    while at < len(image):
        word_at = image[at:at + 4]
        if len(word_at) < 4:
            return found, (1, at)
        head = struct.unpack("<I", word_at)[0]
        if head == 0xFFFFFFFF:
            return found, None
        if head == 0:
            found.append(MARK)
            at += 4
            continue
        size = head & 0xFFFFFF
        if head >> 24 not in (0, 0x80) or size == 0:
            return found, (3, at)
        end = at + 4 + size + size % 2
        if end + 4 > len(image):
            return found, (1, at)
        if image[end:end + 4] != word_at:
            return found, (2, at)
        found.append(BAD if head >> 31 else image[at + 4:at + 4 + size])
        at = end + 4
    return found, None


def items_of(image):
    """The items of an image. They end at the end marker, or at a fault."""
    return reading_of(image)[0]


def spelled(image):
    """The bytes of each item of an image, and those after them."""
    made, at = [], 0
    for item in items_of(image):
        size = 0 if item is MARK else struct.unpack_from("<I", image, at)[0] & 0xFFFFFF
        end = at + (4 if item is MARK else 8 + size + size % 2)
        made.append(image[at:end])
        at = end
    return made, image[at:]


def is_block(item):
    return isinstance(item, bytes)


def digits(text):
    return int(text) if text.isdigit() else None


def is_label(item, names):
    return is_block(item) and len(item) == 80 and item[:4] in names


def first_label(item, names):
    """The set identifier, file, section and block count of an HDR1, EOF1 or EOV1."""
    if not is_label(item, names):
        return None
    section, file, count = digits(item[27:31]), digits(item[31:35]), digits(item[54:60])
    if not section or not file or count is None:
        return None
    return {
        "name": item[:4], "set": item[21:27], "section": section, "file": file, "count": count,
        "identifier": item[4:21], "written": (item[41:47], item[35:39]),
    }


def form_in(item, names=(b"HDR2",)):
    """The format and the record length in a second label of one of these names."""
    if not is_block(item) or item[:4] not in names or item[4:5] not in b"FDSUV":
        return None
    return chr(item[4]), int(item[10:15].strip() or 0)


def is_further(item):
    """Whether an item is a header label that may follow HDR2."""
    is_label = is_block(item) and len(item) == 80
    return is_label and (item[:3] == b"UHL" or item[:3] == b"HDR" and item[3:4] in b"3456789")


def may_be_own(item, head):
    """Whether an item is a first trailer label without another section or file number: in ASCII or EBCDIC, with padding of up
    to 40 bytes or without."""
    if not is_block(item):
        return False
    item = item[:80] if 80 < len(item) <= 120 and len(set(item[80:])) == 1 else item
    for text in item, item.decode("cp037").encode("latin-1"):
        numbers = ((text[27:31], head["section"]), (text[31:35], head["file"]))
        if len(item) == 80 and text[:4] in (b"EOF1", b"EOV1") and all(
                not field.isdigit() or int(field) in (0, number) for field, number in numbers):
            return True
    return False


def own_items(section, item):
    """How many data items are certainly not the last ones of another section, whose trailer label may be the item after the
    mark behind them; None if it is no such label."""
    if not is_label(item, (b"EOF1", b"EOV1")) or may_be_own(item, section.head):
        return None
    count = int(item[54:60]) if item[54:60].isdigit() else 0
    return max(0, len(section.data) - count) if count else 0


LABELS = (b"VOL1", b"HDR1", b"HDR2", b"EOF1", b"EOF2", b"EOV1", b"EOV2")


class Section:
    """A section found on an image."""

    def __init__(self, head, image):
        self.head, self.image, self.form, self.data, self.doubt, self.closing = head, image, None, [], None, None
        self.is_without_second = self.is_doubted = self.is_alone = self.is_unnamed = False

    def possible(self):
        """How many of its data items may be its blocks."""
        if self.closing:
            return len(self.data)
        trailers = [at for at, item in enumerate(self.data) if may_be_own(item, self.head)]
        return min([len(self.data), *trailers[:1]])

    def believed(self):
        return self.possible() if self.closing or self.doubt is None else min(self.possible(), self.doubt)

    def is_base(self):
        """Whether other copies may complete it: no item before its data may be the tape mark, or its trailer label ends it."""
        return bool(self.closing) or not self.is_doubted

    def is_numbered(self):
        """Whether it may complete others: also if an unreadable item is the only one before the mark that is no header label,
        and a block that is no label follows the mark."""
        first = self.data[0] if self.data else BAD
        return self.is_base() or self.is_alone and is_block(first) and not is_label(first, LABELS)

    def recording(self):
        return self.head["identifier"], self.head["written"]

    def is_named(self):
        return not self.closing or all(self.closing[it] == self.head[it] for it in ("identifier", "written"))

    def labels(self, known):
        return self.head["identifier"], self.form or known

    def miscount(self):
        counted = self.closing and self.closing["count"] != len(self.data) % 1_000_000
        return self.closing["count"] if counted else None

    def is_counted(self):
        return bool(self.closing) and self.miscount() is None

    def closes_otherwise(self, other):
        """Whether both close, but not with as many blocks, or not both as the end of the file."""
        ends = [it.closing and (len(it.data), it.closing["name"]) for it in (self, other)]
        return None not in ends and ends[0] != ends[1]

    def is_unlike(self, other):
        """Whether both count their blocks and contradict each other."""
        are_read = not any(it.is_unnamed or BAD in it.data for it in (self, other))
        differs = self.closes_otherwise(other) or are_read and self.data != other.data
        return self.is_counted() and other.is_counted() and differs

    def is_complete(self):
        return bool(self.closing) and self.doubt is None and self.miscount() is None

    def rank(self):
        good = sum(is_block(item) for item in self.data) if self.closing else self.believed()
        return self.is_complete(), good, bool(self.closing)


def notices(images):
    """The lines on standard error about images that do not follow the standard, by the table in REFERENCE.md. The images here
    have labels in EBCDIC, or an HDR1 with something else than HDR2 after it, and no unreadable label."""
    lines = []
    for number, image in enumerate(images, 1):
        items = [] if image is None else items_of(image)
        if items and is_block(items[0]) and items[0][:4] == "VOL1".encode("cp037"):
            lines.append(f"  image {number}: labels in EBCDIC\n")
        if any(first_label(item, (b"HDR1",)) and (after is MARK or is_further(after)) for item, after in zip(items, items[1:])):
            lines.append(f"  image {number}: a file has no HDR2\n")
    return "".join(lines).encode()


def next_mark(items, at):
    while at < len(items) and items[at] is not MARK:
        at += 1
    return at


def sections_on(items, image):
    """The sections of an image, as the description of the report says: by the marks, and past unreadable items."""
    found, at, marks, is_next = [], 0, 0, False
    while at < len(items):
        item = items[at]
        at += 1
        if item is MARK:
            marks += 1
            if is_next or marks > 2:
                break
            continue
        is_next = False
        if marks == 2:
            if item is BAD:
                continue
            if item[:4] not in (b"EOF1", b"EOV1", b"EOF2", b"EOV2"):
                break
            marks = 0
            continue
        head = first_label(item, (b"HDR1",))
        if not head and marks == 1:
            at, section = unnamed_at(items, at - 1, image)
            found += [section] if section else []
            is_next = section is not None and at <= len(items) and items[at - 1] is MARK
        marks = 0
        if not head:
            continue
        section = Section(head, image)
        begin = next_mark(items, at)
        if begin == len(items) and begin == at:
            break
        found.append(section)
        labels = items[at:begin]
        section.form = form_in(labels[0]) if labels else None
        section.is_without_second = is_further(labels[0]) if labels else begin < len(items)
        end = next_mark(items, begin + 1)
        section.data, section.start = items[begin + 1:end], begin + 1
        unread = [number for number, it in enumerate(section.data) if it is BAD]
        section.is_doubted = BAD in labels
        section.is_alone = sum(not (is_further(it) or is_label(it, (b"HDR2",))) for it in labels) == 1
        section.doubt = 0 if BAD in labels else unread[0] if unread else None
        if end + 1 >= len(items):
            break
        trailer = first_label(items[end + 1], (b"EOF1", b"EOV1"))
        at = end + 1
        if trailer and (trailer["section"], trailer["file"]) == (head["section"], head["file"]):
            at = close(section, trailer, items, at)
            is_next = at <= len(items) and items[at - 1] is MARK
        else:
            certain = [it for it in (section.doubt, own_items(section, items[at])) if it is not None]
            section.doubt = min(certain, default=None)
    return found


def close(section, trailer, items, at):
    """Closes a section with the label at an index. Returns the index after the item that ends its labels."""
    section.closing = trailer
    while at < len(items) and is_block(items[at]):
        section.form = section.form or form_in(items[at], (b"EOF2", b"EOV2"))
        at += 1
    return at + 1


def unnamed_at(items, first, image):
    """A section whose HDR1 was not read: its data begin here, after a tape mark, and the label after the next mark counts
    exactly these items. Returns the index at which the search continues, and the section or None."""
    end = next_mark(items, first)
    data = items[first:end]
    if any(first_label(item, (b"HDR1",)) for item in data):
        return first + 1, None
    trailer = first_label(items[end + 1], (b"EOF1", b"EOV1")) if end + 1 < len(items) else None
    if not trailer or trailer["count"] != len(data) % 1_000_000:
        return end, None
    section = Section(trailer, image)
    section.data, section.doubt, section.start, section.is_doubted = data, 0, first, True
    section.is_unnamed = True
    return close(section, trailer, items, end + 1), section


# ---- joined copies

def joinable(copies):
    """The copies of a section that may complete each other, with the one first that the others complete."""
    numbered = [it for it in copies if it.possible() and it.miscount() is None and it.is_named()]
    # A copy that only completes others is not the one that they complete, even if it has the most data items.
    bases = [it for it in numbered if it.is_base()]
    if not bases:
        return []
    base = max(bases, key=lambda it: (bool(it.closing), it.rank() if it.closing else (it.possible(),), -it.image))
    alike = [it for it in numbered if it is not base and it.recording() == base.recording()
        and (None in (it.form, base.form) or it.form == base.form)]
    return [base, *alike] if alike else []


def contradiction(copies):
    """The first two copies that close otherwise, or have another block with a number; None if there are none. And for each
    block of the first copy the copy that has it first, or None."""
    base, found = copies[0], []
    sure = [it for it in copies if it.is_numbered()]
    for copy in copies[1:]:
        if copy.closes_otherwise(base):
            return (base, copy), []
    for at in range(base.possible() if base.is_base() else 0):
        having = [it for it in sure if at < it.possible() and is_block(it.data[at])]
        for copy in having[1:]:
            if copy.data[at] != having[0].data[at]:
                return (having[0], copy), []
        found.append(having[0] if having else None)
        if not having:
            sure = [it for it in sure if it.closing]
            if base not in sure:
                break
    return None, found


def joined_with(images, set_id, file):
    """The images with the blocks that they take from each other, and the lines about these."""
    made, lines, firsts = [None if it is None else spelled(it) for it in images], [], {}
    for number, image in enumerate(images):
        for section in [] if image is None else sections_on(items_of(image), number):
            if (section.head["set"], section.head["file"]) == (set_id.ljust(6).encode(), file):
                firsts.setdefault((section.head["section"], number), section)
    old = [it and list(it[0]) for it in made]
    for number in range(1, max((it for it, _ in firsts), default=0) + 1):
        own = [it for (section, _), it in firsts.items() if section == number]
        best = max(own, key=lambda it: (it.rank(), -it.image), default=None)
        copies = joinable(own) if own else []
        if not copies or best.closing and best.miscount() is None and BAD not in best.data:
            continue
        differ, found = contradiction(copies)
        if differ and not (differ[0] is best and differ[1].closes_otherwise(best)):
            lines.append(f"CONFLICT {number} {differ[0].image + 1} {differ[1].image + 1}")
        is_whole = found and copies[0].closing and not copies[0].is_doubted and None not in found
        held = sum(it is not None for it in found)
        if not is_whole and (False, held, bool(copies[0].closing)) <= best.rank():
            continue
        run = None
        for at, copy in enumerate([*found, None]):
            taken = copy if copy is not None and copy is not copies[0] else None
            if run and (taken is None or taken.image != run[0]):
                lines.append(f"FILLED {number} {run[0] + 1} {run[1]} {at - 1}")
                run = None
            if taken:
                run = run or (taken.image, at)
                made[copies[0].image][0][copies[0].start + at] = old[taken.image][taken.start + at]
    return [it and b"".join([*it[0], it[1]]) for it in made], lines


# ---- recovered data

def parts_of(form, data):
    """The parts of a block: whether each begins and ends a record, and its bytes."""
    letter, length = form
    at = 0
    while at < len(data):
        if letter == "U":
            yield True, True, data
            return
        if letter == "V":
            at = at or 4
            size, span = struct.unpack_from(">HB", data, at)
            yield span in (0, 1), span in (0, 2), data[at + 4:at + size]
            at += size
            continue
        if letter == "F":
            if at + length > len(data):
                return
            yield True, True, data[at:at + length]
            at += length
        elif data[at:at + 1] == b"^":
            return
        elif letter == "D":
            size = int(data[at:at + 4])
            yield True, True, data[at + 4:at + size]
            at += size
        else:
            size = int(data[at + 1:at + 5])
            yield data[at:at + 1] in b"01", data[at:at + 1] in b"03", data[at + 5:at + size]
            at += size


def broken_at(data, begun):
    """The offset of the segment of a block of format S that does not continue the parts before it, or None."""
    at = 0
    while at < len(data) and data[at:at + 1] != b"^":
        if (data[at:at + 1] in b"23") != begun:
            return at
        begun = data[at:at + 1] in b"12"
        at += int(data[at + 1:at + 5])
    return None


class Recovered:
    """The records and lines so far."""

    def __init__(self):
        self.records, self.open, self.torn, self.lines, self.missing = [], None, False, [], False
        self.had, self.cuts = set(), set()

    def tear(self, section, number):
        if self.open is not None:
            self.lines.append(f"TORN {section} {number} {len(self.records)}")
        self.open, self.torn, self.missing = None, True, True

    def take(self, section, number, form, data):
        parts = [(True, True, data)] if form is None else list(parts_of(form, data))
        if self.torn and form and form[0] == "S" and data[:1] in (b"2", b"3"):
            self.lines.append(f"TORN {section} {number} {len(self.records)}")
        if self.torn and form and form[0] == "V" and data[6] in (2, 3):
            self.lines.append(f"TORN {section} {number} {len(self.records)}")
        broken = None
        if form and form[0] == "S":
            broken = broken_at(data, data[:1] in (b"2", b"3") if self.torn else self.open is not None)
            if broken is not None:
                parts = list(parts_of(form, data[:broken]))
        for begins, ends, content in parts:
            if self.torn and not begins:
                continue
            self.torn = False
            self.open = (self.open or b"") + content
            if ends:
                self.records.append(self.open)
                self.open = None
        if broken is not None:
            self.tear(section, number)
            self.lines.append(f"REFUSED {section} {number} 6 {broken} {len(self.records)}")

    def gap(self, section, first, last):
        if first is not None:
            self.lines.append(f"GAP {section} {first} {last} {len(self.records)}")


def recovered(images, set_id, file, blocks):
    """The expected data of a file from some images; None represents an image that cannot be opened."""
    made, sections = Recovered(), []
    images, made.lines = joined_with(images, set_id, file)
    for number, image in enumerate(images):
        if image is None:
            made.lines.append(f"IMAGE {number + 1} NOT OPENED")
            continue
        fault = reading_of(image)[1]
        if fault:
            made.lines.append(f"IMAGE {number + 1} FAULT {fault[0]} {fault[1]}")
        own = {}
        for section in sections_on(items_of(image), number):
            if (section.head["set"], section.head["file"]) == (set_id.ljust(6).encode(), file):
                own.setdefault(section.head["section"], section)
                sections.append(section)
        for section in own.values():
            section.is_first = True
    without = ("U", 0) if any(it.is_without_second for it in sections) else None
    known = next((it.form for it in sections if it.form), without)
    last, goes_on = max((it.head["section"] for it in sections), default=0), True
    bests = {}
    for number in range(1, last + 1):
        copies = [it for it in sections if it.head["section"] == number]
        firsts = [it for it in copies if hasattr(it, "is_first")]
        bests[number] = max(firsts, key=lambda it: (it.rank(), -it.image), default=None)
        for copy in copies:
            best = bests[number]
            if copy.is_unlike(best) or last > 1 and copy.recording() != best.recording():
                made.lines.append(f"CONFLICT {number} {best.image + 1} {copy.image + 1}")
                made.missing = True
        first = next((bests[it] for it in range(1, number + 1) if bests[it]), None)
        best = bests[number]
        if first and best and (best.labels(known) != first.labels(known) or not best.is_named()):
            made.lines.append(f"LABELS DIFFER {number} {best.image + 1} {first.image + 1}")
            made.missing = True
    for number in range(1, last + 1):
        copy = bests[number]
        goes_on = False
        if not copy:
            made.tear(number, 0)
            made.lines.append(f"GAP {number} - - {len(made.records)}")
            continue
        form = None if blocks else copy.form or known
        if form is None and not blocks:
            made.tear(number, 0)
            made.lines.append(f"NO FORM {number} {len(made.records)}")
            continue
        made.lines.append(f"SECTION {number} {copy.image + 1} {len(copy.data)}")
        first = None
        for at, item in enumerate(copy.data[:copy.believed()]):
            if item is BAD:
                made.tear(number, at)
                first = at if first is None else first
                continue
            made.gap(number, first, at - 1)
            first = None
            made.take(number, at, form, item)
            made.had.add((number, at))
        if not copy.closing:
            made.cuts.add(number)
            made.tear(number, copy.believed())
            made.lines.append(f"GAP {number} {copy.believed()} - {len(made.records)}")
            if copy.believed() < len(copy.data):
                made.lines.append(f"UNSURE {number} {copy.believed()} {len(copy.data) - 1}")
            continue
        made.gap(number, first, len(copy.data) - 1)
        if copy.miscount() is not None:
            made.missing = True
            made.lines.append(f"COUNT {number} {copy.miscount()} {len(copy.data)}")
        if copy.closing["name"] == b"EOF1":
            if made.open is not None:
                made.tear(number, len(copy.data))
            break
        goes_on = True
    else:
        if goes_on:
            made.tear(last + 1, 0)
            made.lines.append(f"GAP {last + 1} - - {len(made.records)}")
    made.lines.append(f"{'SALVAGED' if made.missing else 'COMPLETE'} {len(made.records)}")
    return made


def records_with(file, places, made):
    """The records of the file of which every block was read. If the end of a section was not read, further blocks may
    follow, so a record that continues in the next section is not included."""
    whole, so_far, is_whole = [], b"", True
    for number, data in enumerate(file.blocks):
        begins_section = number > 0 and places[number][0] != places[number - 1][0]
        is_cut = begins_section and places[number - 1][0] in made.cuts
        for begins, ends, content in parts_of((file.shape[0], file.shape[2]), data):
            is_whole = (begins or is_whole and not is_cut) and places[number] in made.had
            is_cut = False
            so_far = content if begins else so_far + content
            if ends:
                whole += [so_far] if is_whole else []
                is_whole = True
    return whole


# ---- damage

def damaged_image(rng, reel, way):
    """An image of a volume, damaged in a given way, and whether blocks are lost, doubled or changed on it."""
    items = list(reel.items)
    data = [at for at, item in enumerate(items) if item.kind == "data"]
    miscounts = False
    if way == "changed" and data:
        # A character of a record: not one of the digits before it, and not a circumflex after the last one.
        at = rng.choice(data)
        spelled = bytearray(items[at].spelling)
        letters = [place for place in range(4, len(spelled) - 4) if chr(spelled[place]).isalpha()]
        if letters:
            spelled[rng.choice(letters)] ^= 1
            items[at] = replace(items[at], spelling=bytes(spelled))
            miscounts = True
    if way == "count" and data:
        at = rng.choice(data)
        items[at:at + 1] = [] if rng.random() < 0.5 else [items[at], items[at]]
        miscounts = True
    copy = Reel(reel.name, reel.set_id, items)
    if way in ("data", "both"):
        copy.bad |= set(rng.sample(data, min(len(data), rng.choice([1, 1, 2, 3, 6]))))
    if way == "first":
        firsts = [at for at, item in enumerate(items) if b"HDR1" in item.spelling[:12]]
        copy.bad |= set(firsts if rng.random() < 0.3 else rng.sample(firsts, min(len(firsts), 1)))
        others = data if rng.random() < 0.7 else range(len(items))
        copy.bad |= set(rng.sample(others, min(len(others), rng.choice([0, 0, 1, 2]))))
    if way in ("any", "both"):
        copy.bad |= set(rng.sample(range(len(items)), min(len(items), rng.choice([1, 1, 2, 3]))))
    if way == "run" and data:
        first = rng.choice(data)
        copy.bad |= {at for at in range(first, min(first + rng.randint(2, 12), len(items))) if at in data}
    for at in sorted(copy.bad):
        # A tape mark recorded with an error has no length; a drive that could not recognize an item writes a bad block.
        if items[at].kind == "mark" and rng.random() < 0.8:
            items[at] = Item(UNREADABLE, "mark")
            copy.bad.discard(at)
    if way == "cut":
        copy.cut = rng.randint(0, sum(len(item.spelling) for item in items))
    return copy.image(), miscounts


WAYS = ["whole", "whole", "data", "data", "run", "any", "both", "cut", "count", "changed", "first", "first"]


class Trial(Results):
    """The runs of the program, and the wrong results."""

    def __init__(self, options, folder):
        self.options, self.folder, self.states = options, Path(folder), {}

    def run(self, *words):
        return subprocess.run([self.options.program, *map(str, words)], cwd=self.folder, capture_output=True, check=False)


def check_file(trial, set_id, number, images, names, form):
    """One file of a set, salvaged from some images."""
    expected = recovered(images, set_id, number, form == "blocks")
    out = trial.folder / "out"
    out.unlink(missing_ok=True)
    done = trial.run("salvage", set_id, number, "out", *names, "--form", form)
    end = b"\n" if form == "lines" else b""
    text = b"".join(record + end for record in expected.records)
    lines = "".join(line + "\n" for line in expected.lines)
    status = 3 if expected.missing else 0
    got = out.read_bytes() if out.exists() else None
    what = f"{set_id} {number} {form} {' '.join(names)}:"
    right = (done.returncode, done.stderr) == (status, notices(images))
    trial.expect(right, f"{what} status {done.returncode}, expected {status}, {done.stderr!r}")
    trial.expect(done.stdout.decode() == lines, f"{what} lines\n{done.stdout.decode()}expected\n{lines}")
    trial.expect(got == text, f"{what} {got and len(got)} bytes of output, expected {len(text)}")
    trial.states[status] = trial.states.get(status, 0) + 1
    return expected, got, status


def check_unpacked(trial, set_id, images, names):
    """What `unpack --salvage` writes for the files of a set that these images do not complete, in two runs."""
    folder = trial.folder / "unpacked"
    folder.mkdir()
    for _ in range(2):
        lines = trial.run("unpack", "unpacked", *names, "--salvage").stdout.decode().splitlines()
        lines = [line for line in lines if " SECTION DIFFERS " not in line]
        found = {path.name for path in folder.iterdir() if path.suffix in (".salvaged", ".gaps")}
        for line, second in zip(lines, lines[1:] + [""]):
            # A set identifier has six characters, of which the last ones may be spaces.
            name, (number, state) = line[5:11].rstrip(), line[12:].split()[:2] if line.startswith("FILE ") else ("", "")
            if state != "AWAITS":
                continue
            path = line[line.index("unpacked/"):].removesuffix(".stage")
            report = (trial.folder / f"{path}.gaps").read_bytes()
            records = (trial.folder / f"{path}.salvaged").read_bytes()
            found -= {f"{Path(path).name}.gaps", f"{Path(path).name}.salvaged"}
            front, _, sums = report[:-1].rpartition(b"\n")
            taken = [it.split(" ", 2)[2] for it in front.decode().split("\n") if it.startswith("FROM ")]
            own = {reel for reel, image in zip(names, images) if image is not None
                and any(it.head["set"] == name.ljust(6).encode() for it in sections_on(items_of(image), 0)[:1])}
            expected = recovered([images[names.index(it)] for it in taken], name, int(number), False)
            text = b"".join(record + b"\n" for record in expected.records)
            wanted = [f"FROM {at} {it}" for at, it in enumerate(taken, 1)] + expected.lines
            what = f"unpack --salvage {name} {number} {' '.join(names)}:"
            trial.expect(own <= set(taken), f"{what} {own} are not among {taken}")
            trial.expect(records == text, f"{what} {len(records)} bytes, expected {len(text)}")
            trial.expect(front.decode().split("\n") == wanted, f"{what} {front.decode()}\nexpected {wanted}")
            trial.expect(sums.decode().split() == ["SUMS", hashlib.sha256(records).hexdigest(), hashlib.sha256(front + b"\n").hexdigest()], f"{what} {sums}")
            trial.expect(second == f"FILE {name:6} {number} {expected.lines[-1]} {path}.salvaged", f"{what} {second}")
        trial.expect(not found, f"unpack --salvage {' '.join(names)}: {found} have no line")
    shutil.rmtree(folder)


def check_set(trial, rng, number):
    """A set, damaged, and each of its files."""
    set_id = f"SET{number % 1000:03}"
    files = [file_of(rng, at, f" 85{rng.randint(1, 365):03}") for at in range(1, rng.randint(1, 3) + 1)]
    volumes = volumes_of(set_id, files, rng, f"V{number % 1000:03}")
    images, names, is_single, miscounts = [], [], True, False
    for at, items in enumerate(volumes, 1):
        if len(volumes) > 1 and rng.random() < 0.1:
            continue
        count = 2 if rng.random() < 0.3 else 1
        is_single = is_single and count == 1
        differ = count == 2 and rng.random() < 0.3
        for copy in range(count):
            way = ["changed", "whole"][copy] if differ else rng.choice(WAYS)
            image, is_wrong = damaged_image(rng, Reel("", set_id, items), way)
            images.append(image)
            names.append(f"{at}{'ab'[copy]}.tap")
            miscounts = miscounts or is_wrong
    others = strangers(rng)
    if rng.random() < 0.3:
        name = rng.choice(sorted(others))
        images.append(others[name])
        names.append(name)
    if rng.random() < 0.1 or not images:
        images.append(None)
        names.append("not there.tap")
    order = list(range(len(images)))
    rng.shuffle(order)
    images, names = [images[at] for at in order], [names[at] for at in order]
    for name, image in zip(names, images):
        if image is not None:
            (trial.folder / name).write_bytes(image)
    # An unreadable block of length 0 may make an image one of the extended format.
    images = [image and simh_image(image) for image in images]
    for file in files:
        form = rng.choice(["lines", "lines", "lines", "raw", "blocks"])
        expected, got, status = check_file(trial, set_id, file.number, images, names, form)
        places = [(item.section, item.number) for items in volumes for item in items if item.kind == "data" and item.file == file.number]
        if form != "blocks" and not miscounts:
            whole = records_with(file, places, expected)
            trial.expect(whole == expected.records, f"{set_id} {file.number}: the records of the file with all blocks are others")
        if form == "lines" and is_single:
            (trial.folder / "again").unlink(missing_ok=True)
            done = trial.run("extract", set_id, file.number, "again", *names, "--again")
            if done.returncode == 0:
                trial.expect(status == 0 and (trial.folder / "again").read_bytes() == got, f"{set_id} {file.number}: extract completes it")
        if form == "lines" and status == 0 and not miscounts:
            trial.expect(got == file.text, f"{set_id} {file.number}: COMPLETE, and not the file")
    if number % 3 == 0:
        check_unpacked(trial, set_id, images, names)
    for name, image in zip(names, images):
        if image is not None:
            (trial.folder / name).unlink()


# ---- written by hand

def by_hand(trial):
    """Images in formats that plain `extract` does not read, and without HDR2: their blocks and their records."""
    def volume(letters, blocks, has_second, standard="4"):
        items = [label(("VOL1", 4), ("HAND01", 6), ("", 69), (standard, 1))]
        file = File(1, "BY.HAND", (letters, 4096, 0), " 85100")
        second = [file.second("HDR2")[:]] if has_second else []
        items += [file.first("HDR1", "HAND01", 1, 0), *second, word(0)]
        items += [block(data) for data in blocks]
        ends = [file.second("EOF2")] if has_second else []
        items += [word(0), file.first("EOF1", "HAND01", 1, len(blocks)), *ends, word(0), word(0)]
        return items

    def counted(text):
        return struct.pack(">HH", len(text) + 4, 0) + text

    def variable(*records):
        body = b"".join(counted(record) for record in records)
        return struct.pack(">HH", len(body) + 4, 0) + body

    rng = random.Random(7)
    texts = [bytes(rng.choices(range(256), k=rng.randint(1, 900))) for _ in range(12)]
    spanned = [struct.pack(">HH", 4 + 4 + 20, 0) + struct.pack(">HBB", 4 + 20, flag, 0) + texts[at][:20].ljust(20)
        for at, flag in enumerate([1, 3, 2, 0])]
    kinds = {
        "U": (texts, True),
        "V": ([variable(*texts[at:at + 3]) for at in range(0, 12, 3)], True),
        "VBS": (spanned, True),
        "no HDR2": ([text.ljust(512, b"\0")[:512] for text in texts], False),
    }
    for kind, (blocks, has_second) in kinds.items():
        items = volume(kind[0], blocks, has_second, "3" if not has_second else "4")
        for damage in (None, 1, len(blocks) - 1):
            made = list(items)
            if damage is not None:
                at = items.index(block(blocks[damage]))
                made[at] = bytes([*made[at][:3], made[at][3] | 0x80, *made[at][4:-1], made[at][-1] | 0x80])
            image = b"".join(made)
            (trial.folder / "hand.tap").write_bytes(image)
            expected, got, status = check_file(trial, "HAND01", 1, [image], ["hand.tap"], "blocks")
            left = b"".join(data for at, data in enumerate(blocks) if at != damage)
            trial.expect(got == left and status == (0 if damage is None else 3), f"{kind}: the blocks are others")
            expected, got, status = check_file(trial, "HAND01", 1, [image], ["hand.tap"], "lines")
            trial.expect(status == (0 if damage is None else 3), f"{kind}: records, status {status}")
            extracted = trial.run("extract", "HAND01", 1, "extracted", "hand.tap")
            trial.expect(extracted.returncode == 3, f"{kind}: extract ends with {extracted.returncode}")


def traps(trial):
    """Unreadable labels and marks, with expected lines written by hand."""
    first, second = File(1, "FIRST", ("F", 160, 80), " 85100"), File(2, "SECOND", ("F", 160, 80), " 85100")
    vol, mark, bad = label(("VOL1", 4), ("TRAPS1", 6), ("", 69), ("4", 1)), word(0), UNREADABLE
    a, b, c = (bytes([letter]) * 160 for letter in b"abc")

    def head(file):
        return [file.first("HDR1", "TRAPS1", 1, 0), file.second("HDR2"), mark]

    def tail(file, count):
        return [mark, file.first("EOF1", "TRAPS1", 1, count), file.second("EOF2"), mark]

    whole = [*head(first), block(a), block(b), *tail(first, 2)]
    lost = [bad, *head(first)[1:], block(a), block(b), *tail(first, 2)]
    uncounted = [tail(first, 2)[1].replace(b"000002", b"      "), tail(first, 2)[2], mark, mark]
    rows = [
        ("no mark after the data, and no count", [vol, *head(first), block(a), block(b), *uncounted], 1,
            ["SECTION 1 1 4", "GAP 1 2 - 4", "UNSURE 1 2 3", "SALVAGED 4"], a + b),
        ("no mark before the data, and no count", [vol, *head(first)[:2], block(a), block(b), mark, *uncounted], 1,
            ["SECTION 1 1 2", "GAP 1 0 - 0", "UNSURE 1 0 1", "SALVAGED 0"], b""),
        ("recorded over: the last two blocks may be of the second file", [vol, *head(first), block(a), block(b), block(c),
            *tail(second, 2), mark], 1, ["SECTION 1 1 3", "GAP 1 1 - 2", "UNSURE 1 1 2", "SALVAGED 2"], a),
        ("all is readable", [vol, *whole, mark], 1, ["SECTION 1 1 2", "COMPLETE 4"], a + b),
        ("the mark after the data", [vol, *head(first), block(a), block(b), bad, *tail(first, 2)[1:], mark], 1,
            ["SECTION 1 1 5", "GAP 1 2 - 4", "UNSURE 1 2 4", "SALVAGED 4"], a + b),
        ("the mark before the data", [vol, *head(first)[:2], bad, block(a), block(b), *tail(first, 2), mark], 1,
            ["SECTION 1 1 2", "GAP 1 0 - 0", "UNSURE 1 0 1", "SALVAGED 0"], b""),
        ("an empty section's HDR1", [vol, bad, *head(first)[1:], *tail(first, 0), *head(second), block(c), *tail(second, 1), mark], 2,
            ["SECTION 1 1 1", "COMPLETE 2"], c),
        ("an empty section's HDR1: it is not found", [vol, bad, *head(first)[1:], *tail(first, 0), mark], 1,
            ["GAP 1 - - 0", "SALVAGED 0"], b""),
        ("an older recording after the end", [vol, *head(second), block(c), *tail(second, 1), mark, *whole, mark], 1,
            ["GAP 1 - - 0", "SALVAGED 0"], b""),
        ("HDR1", [vol, *lost, mark], 1, ["SECTION 1 1 2", "COMPLETE 4"], a + b),
        ("VOL1, HDR1 and HDR2", [bad, bad, bad, mark, block(a), block(b), *tail(first, 2), mark], 1,
            ["SECTION 1 1 2", "COMPLETE 4"], a + b),
        ("HDR1 and a block", [vol, *lost[:3], block(a), bad, *tail(first, 2), mark], 1,
            ["SECTION 1 1 2", "GAP 1 1 1 2", "SALVAGED 2"], a),
        ("HDR1, and no second mark", [vol, *lost[:5], bad, *lost[6:], mark], 1, ["GAP 1 - - 0", "SALVAGED 0"], b""),
        ("HDR1 and the mark after it", [vol, bad, *head(first)[1:2], bad, *lost[3:], mark], 1, ["GAP 1 - - 0", "SALVAGED 0"], b""),
        ("HDR1, the mark after it, and the EOF2 before", [vol, *head(second), block(c), *tail(second, 1)[:2], bad, mark,
            bad, *head(first)[1:2], bad, *lost[3:], mark], 1, ["GAP 1 - - 0", "SALVAGED 0"], b""),
        ("HDR1, and the label counts one block more", [vol, *lost[:5], *tail(first, 3), mark], 1, ["GAP 1 - - 0", "SALVAGED 0"], b""),
        ("HDR1 of the second file", [vol, *whole, bad, *head(second)[1:], block(c), *tail(second, 1), mark], 2,
            ["SECTION 1 1 1", "COMPLETE 2"], c),
        ("HDR1 of the first file, for the second", [vol, *lost, *head(second), block(c), *tail(second, 1), mark], 2,
            ["SECTION 1 1 1", "COMPLETE 2"], c),
        ("HDR1, EOF2, and HDR1 of the second file", [vol, *lost[:7], bad, mark, bad, *head(second)[1:], block(c), *tail(second, 1), mark], 2,
            ["SECTION 1 1 1", "COMPLETE 2"], c),
        ("HDR1, HDR2 and EOF2", [vol, bad, bad, mark, *lost[3:7], bad, mark, mark], 1, ["NO FORM 1 0", "SALVAGED 0"], b""),
    ]
    for what, items, file, lines, text in rows:
        (trial.folder / "trap.tap").write_bytes(b"".join(items))
        expected, got, status = check_file(trial, "TRAPS1", file, [b"".join(items)], ["trap.tap"], "raw")
        trial.expect((expected.lines, got) == (lines, text), f"{what}: the model has {expected.lines}, written are {got and len(got)} bytes")


def conflicts(trial):
    """Several copies of one section, with expected lines written by hand."""
    file = File(1, "FIRST", ("F", 160, 80), " 85100")
    vol, mark = label(("VOL1", 4), ("CONFL1", 6), ("", 69), ("4", 1)), word(0)
    a, b, c = (bytes([letter]) * 160 for letter in b"abc")

    def image(*data, count=None):
        made = [vol, file.first("HDR1", "CONFL1", 1, 0), file.second("HDR2"), mark]
        made += [UNREADABLE if it is None else block(it) for it in data]
        count = len(data) if count is None else count
        return b"".join([*made, mark, file.first("EOF1", "CONFL1", 1, count), file.second("EOF2"), mark, mark])

    rows = [
        ("the same twice", [image(a, b), image(a, b)], ["SECTION 1 1 2", "COMPLETE 4"], a + b),
        ("a block differs", [image(a, b), image(a, c)], ["CONFLICT 1 1 2", "SECTION 1 1 2", "SALVAGED 4"], a + b),
        ("the order of blocks differs", [image(a, b), image(b, a)], ["CONFLICT 1 1 2", "SECTION 1 1 2", "SALVAGED 4"], a + b),
        ("two of four differ", [image(a, b), image(a, c), image(a, b), image(c, b)],
            ["CONFLICT 1 1 2", "CONFLICT 1 1 4", "SECTION 1 1 2", "SALVAGED 4"], a + b),
        ("one more block, with its count", [image(a, b), image(a, b, c)], ["CONFLICT 1 2 1", "SECTION 1 2 3", "SALVAGED 6"], a + b + c),
        ("an unreadable block, and another one differs", [image(a, None), image(c, b)], ["SECTION 1 2 2", "COMPLETE 4"], c + b),
        ("a wrong count, and a block differs", [image(a, b), image(a, c, count=1)], ["SECTION 1 1 2", "COMPLETE 4"], a + b),
        ("none is complete", [image(a, None), image(c, None)],
            ["CONFLICT 1 1 2", "SECTION 1 1 2", "GAP 1 1 1 2", "SALVAGED 2"], a),
        ("they complete each other", [image(a, None), image(None, b)],
            ["FILLED 1 2 1 1", "SECTION 1 1 2", "COMPLETE 4"], a + b),
        ("three complete each other", [image(a, None, None), image(a, None, c), image(None, b, None)],
            ["FILLED 1 3 1 1", "SECTION 1 2 3", "COMPLETE 6"], a + b + c),
        ("a block that none has", [image(a, None, None), image(None, None, c)],
            ["FILLED 1 2 2 2", "SECTION 1 1 3", "GAP 1 1 1 2", "SALVAGED 4"], a + c),
        ("the count of one is wrong", [image(a, None), image(None, b, count=3)],
            ["SECTION 1 1 2", "GAP 1 1 1 2", "SALVAGED 2"], a),
        ("different counts, and none is complete", [image(a, None), image(a, None, c)],
            ["CONFLICT 1 2 1", "SECTION 1 2 3", "GAP 1 1 1 2", "SALVAGED 4"], a + c),
    ]
    for what, images, lines, text in rows:
        names = [f"{at}.tap" for at in range(len(images))]
        for name, content in zip(names, images):
            (trial.folder / name).write_bytes(content)
        expected, got, status = check_file(trial, "CONFL1", 1, images, names, "raw")
        trial.expect((expected.lines, got) == (lines, text), f"{what}: the model has {expected.lines}, written are {got and len(got)} bytes")


# ---- times

def times(trial):
    """A reel of 200 MB with every 50th block unreadable, and `extract` of the complete reel."""
    file = File(1, "LARGE", ("F", 32720, 80), " 85100")
    data = block(bytes(range(48, 58)) * 3272)
    bad = bytes([*data[:3], data[3] | 0x80, *data[4:-1], data[-1] | 0x80])
    count = 6_112
    head = label(("VOL1", 4), ("LARGE1", 6), ("", 69), ("4", 1)) + file.first("HDR1", "LARGE1", 1, 0) + file.second("HDR2") + word(0)
    tail = word(0) + file.first("EOF1", "LARGE1", 1, count) + file.second("EOF2") + word(0) * 2
    (trial.folder / "whole.tap").write_bytes(head + data * count + tail)
    (trial.folder / "bad.tap").write_bytes(head + b"".join(bad if at % 50 == 49 else data for at in range(count)) + tail)
    (trial.folder / "gap.tap").write_bytes(head + b"".join(bad if 2_000 <= at < 5_000 else data for at in range(count)) + tail)
    for words in (["extract", "LARGE1", "1", "out", "whole.tap"], ["salvage", "LARGE1", "1", "out", "whole.tap"],
            ["salvage", "LARGE1", "1", "out", "bad.tap"], ["salvage", "LARGE1", "1", "out", "gap.tap"]):
        best = None
        for _ in range(3):
            (trial.folder / "out").unlink(missing_ok=True)
            before = resource.getrusage(resource.RUSAGE_CHILDREN)
            began = time.monotonic()
            done = trial.run(*words)
            after = resource.getrusage(resource.RUSAGE_CHILDREN)
            took = (after.ru_utime + after.ru_stime - before.ru_utime - before.ru_stime, time.monotonic() - began)
            best = took if best is None or took < best else best
        print(f"{' '.join(words)}: CPU {best[0]:.2f} s, wall {best[1]:.2f} s, status {done.returncode}, {done.stdout.count(b'GAP')} gaps")


def main():
    options = arguments(__doc__, ("--seed", 1, "of the sets"), ("--sets", 500, "how many there are"),
        ("--keep", "", "keep the images in this directory"), ("--hand", False, "images written by hand"), ("--times", False, "measure times"))
    with tempfile.TemporaryDirectory() as made:
        trial = Trial(options, options.keep or made)
        if options.hand:
            by_hand(trial)
            traps(trial)
            conflicts(trial)
        elif options.times:
            times(trial)
        else:
            for number in range(options.sets):
                check_set(trial, random.Random(options.seed * 1_000_000 + number), number)
        print(f"by status {trial.states}")
        return trial.end("answers")


if __name__ == "__main__":
    sys.exit(main())
