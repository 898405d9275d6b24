"""What `survey`, `unpack` and `extract --again` find, from docs/REFERENCE.md alone.

For formats_model.py and normal_model.py.
"""

from collections import Counter, defaultdict

import tape_model as model
from read_model import Reader, Volume
from salvage_model import Salvage

CAPITALS = b"ABCDEFGHIJKLMNOPQRSTUVWXYZ0123456789"
ESCAPED = b'%"*/:<>?\\|'


def printed(text):
    """An identifier in full width."""
    return "".join(chr(each) if 0x20 <= each <= 0x7E else "?" for each in text)


def path_of(set_id, file, name):
    """The name of a file of `unpack`."""
    def escaped(text, is_allowed):
        return "".join(chr(each) if is_allowed(each) else f"%{each:02X}" for each in text)

    capital = "_".join(escaped(word, lambda each: each in CAPITALS) for word in set_id.split(b" "))
    made = escaped(name.rstrip(b" "), lambda each: 0x20 <= each <= 0x7E and each not in ESCAPED)
    made = made or "%20"
    return f"{capital}.{file}." + (made[:-1] + "%2E" if made.endswith(".") else made)


def one_by_one(lines):
    """The lines of `unpack`, those about a range of numbers as one line for each number."""
    made = []
    for line in lines:
        numbers, rest = (line[12:].split(" ", 1) + [""])[:2]
        if line.startswith("FILE ") and "-" in numbers:
            first, last = map(int, numbers.split("-"))
            made += [f"{line[:12]}{number} {rest}" for number in range(first, last + 1)]
        else:
            made.append(line)
    return made


def is_in_form(section):
    """Whether the blocks of a section are in the format of its HDR2, if it is GOOD. In a later
    section of a file, a record may be unfinished before the first block."""
    shape = model.ABSENT if section["shape"] is None else section["shape"]
    if section["state"] != "GOOD" or not isinstance(shape, tuple):
        return True
    begun = {False} if section["section"] == 1 else {False, True}
    for block in section["blocks"]:
        inside, ends = model.content(shape, block), set()
        for each in begun:
            parts, fault, _ = model.parts_of(shape, inside, each)
            ends |= set() if fault else {model.begins_record(parts[-1][0]) if parts else each}
        begun = ends
    return bool(begun) and not (section["eof"] and begun == {True})


class Survey:
    """The files on some images, each in normal form."""

    def __init__(self, images):
        self.volumes = [Volume(data) for data in images]
        self.sections, self.names = {}, {}
        self.open = ()  # the set, the image that `unpack` reads on, and the next item
        self.found, self.heads, self.forms = (defaultdict(list) for _ in range(3))
        self.begin, self.of_set = defaultdict(list), defaultdict(list)
        for at, volume in enumerate(self.volumes):
            self.add(at, volume)
        most = {}
        for set_id, file, _ in self.sections:
            most[set_id] = max(file, most.get(set_id, 0))
        # the set and number of each file, set by set; those without a label too
        self.files = dict.fromkeys(
            (set_id, file) for set_id, last in most.items() for file in range(1, last + 1))

    def add(self, at, volume):
        """The sections and labels of an image."""
        self.of_set[volume.set].append(at)
        for section in volume.sections:
            each = section | {"at": at}
            key = each["set"], each["file"], each["section"]
            self.found[key[:2]].append(each)
            if self.sections.setdefault(key, each)["state"] != "GOOD" and each["state"] == "GOOD":
                self.sections[key] = each
        for each in volume.first_labels:
            self.begin[each["set"], each["file"], each["section"]].append(at)
        for head, form in volume.forms:
            self.forms[head["set"], head["file"]].append((head["section"], form))
        for each in volume.named:
            self.names.setdefault((each["set"], each["file"]), each["name"])
        for head, each in [*zip(volume.named, volume.named), *volume.closing]:
            self.heads[head["set"], head["file"]].append(each)

    def section_rows(self):
        """The columns of the rows SECTION."""
        return [[printed(each["set"]).rstrip(), str(each["file"]), str(each["section"]),
                 printed(each["volume"]).rstrip(), str(len(each["blocks"])), each["state"],
                 "EOF" if each["eof"] else ""] for each in self.sections.values()]

    def padded_rows(self):
        """The columns of the rows PADDED, in any order."""
        found = {}
        for each in sum((volume.sections for volume in self.volumes), []):
            key = each["set"], each["file"]
            shape = model.ABSENT if each["shape"] is None else each["shape"]
            is_good = each["state"] == "GOOD"
            is_read = isinstance(shape, tuple) and (is_good or each["state"] == "BAD")
            if is_read and not found.get(key):
                readable = [block for block in each["blocks"] if block is not None]
                found[key] = model.padding_of(shape, readable, each["eof"] and is_good)
        return sorted([printed(set_id).rstrip(), str(file), padding]
                      for (set_id, file), padding in found.items() if padding)

    def is_complete(self, set_id, file):
        """Whether each section of a file is GOOD on an image."""
        for at in range(1, 10000):
            each = self.sections.get((set_id, file, at), {"state": "CUT"})
            if each["state"] != "GOOD" or each["eof"]:
                return each["state"] == "GOOD"
        return False

    def is_wide(self, set_id, file):
        """Whether a file is read in the wider reading: the survey lists it, and no HDR2 is lost."""
        is_listed = (set_id, file) in self.files and (set_id, file) in self.names
        return is_listed and not self.is_lost(set_id, file)

    def is_lost(self, set_id, file):
        """Whether an HDR2 of a file is lost."""
        found = self.found[set_id, file]
        shapes = [each["shape"] for each in found]
        has_trailer = any(each["has_second_trailer"] for each in found)
        is_doubted = any("is_doubted" in each for each in found)
        is_bare = any(each.get("is_bare") for each in found)
        return None in shapes and (any(shapes) or has_trailer or is_doubted and not is_bare)

    def in_conflict(self, set_id, file):
        """Whether labels of different files have this number, or copies of a section differ."""
        heads = self.heads[set_id, file]
        good = [each for each in self.found[set_id, file] if each["state"] == "GOOD"]
        days = {(each["section"], each["day"], each["gen"]) for each in heads}
        data = {(each["section"], tuple(each["blocks"]), each["eof"]) for each in good}
        forms = set(self.forms[set_id, file])
        counts = [Counter(section for section, *_ in each) for each in (days, data, forms)]
        is_other = len({each["name"] for each in heads}) > 1
        return is_other or any(count > 1 for each in counts for count in each.values())

    def images_in_conflict(self):
        """The numbers, from 0, of the images with GOOD copies of which others differ."""
        copies = defaultdict(list)
        for each in sum(self.found.values(), []):
            if each["state"] == "GOOD":
                copies[each["set"], each["file"], each["section"]].append(each)
        return {each["at"] for group in copies.values() for each in group
                if any(other[key] != each[key] for other in group for key in ("blocks", "eof"))}

    def order(self, set_id, file, strangers):
        """The numbers, from 0, of the images as `--again` reads them.

        First are those on which section 1, 2, .. begins, up to one that begins on none.
        """
        order, section = {}, 1
        while (set_id, file, section) in self.begin:
            order |= dict.fromkeys(self.begin[set_id, file, section])
            section += 1
        others = range(len(self.volumes)) if strangers else self.of_set[set_id]
        return [*(order | dict.fromkeys(others))]

    def is_readable(self, set_id, file):
        """Whether the HDR2 of a file is not lost on each image, and each GOOD copy of its sections
        is in the format of its HDR2. An unsupported HDR2 counts only if no other one was read."""
        found = self.found[set_id, file]
        shapes = [each["shape"] for each in found]
        is_wrong = any(each and not isinstance(each, tuple) for each in shapes)
        is_known = any(isinstance(each, tuple) for each in shapes) or (
            None in shapes and not is_wrong)
        is_found = any(shapes) or not self.is_lost(set_id, file)
        return is_known and is_found and all(map(is_in_form, found))

    def reader(self, set_id, file):
        """A reader of a file. If the file is not complete, its reader is wary."""
        is_whole = self.is_complete(set_id, file) and self.is_readable(set_id, file)
        is_wide, is_wary = self.is_wide(set_id, file), not is_whole
        return Reader(set_id, file, is_wide, is_wary)

    def again(self, set_id, file, strangers):
        """Reads a file until a pass recovers nothing new: the reader, the lines of `extract`."""
        reader, lines, before = self.reader(set_id, file), [], None
        volumes = [self.volumes[at] for at in self.order(set_id, file, strangers)]
        while not reader.done and reader.position != before:
            before = reader.position
            for volume in volumes:
                lines += [] if reader.done else [f"REEL {len(lines) + 1} {reader.reel(volume)}"]
        return reader, lines

    def unpacked(self, set_id, file):
        """Reads a file as `unpack` does: each section where it is GOOD first, or else in passes."""
        reader, at, answer = self.reader(set_id, file), 1, "SECTION DONE"
        is_whole = self.is_complete(set_id, file)
        while is_whole and answer == "SECTION DONE":
            section = self.sections[set_id, file, at]
            image, at = section["at"], at + 1
            is_ahead = self.open[:2] == (set_id, image) and self.open[2] <= section["from"]
            answer = reader.reel(self.volumes[image], self.open[2] if is_ahead else None)
            # an image stays open only after a section that was read to its end
            is_open = reader.done or answer == "SECTION DONE"
            self.open = (set_id, image, reader.end) if is_open else ()
        return reader if reader.done else self.again(set_id, file, False)[0]

    def salvaged(self, reader):
        """Whether `salvage` completes what a reader read of a file; the reader then has all of it.

        It reads the images whose first section belongs to the set of the file, on which a section
        of the file begins, or that have no label of a set. The labels of the file must be those of
        one file.
        """
        key = reader.set, reader.file
        begin = sum((found for each, found in self.begin.items() if each[:2] == key), [])
        numbers = sorted({*self.of_set[reader.set], *self.of_set[b""], *begin})
        salvage = Salvage([self.volumes[at].items for at in numbers], *key)
        parts, is_one = salvage.parts(), salvage.is_one_file() and not self.in_conflict(*key)
        if parts is None or not is_one or parts[:len(reader.parts)] != reader.parts:
            return False
        reader.parts, reader.done = parts, True
        return True

    def left_out(self, reader):
        """The numbers, from 0, of the images with a copy of the missing section from which a wary
        reader took nothing."""
        key, is_wary = (reader.set, reader.file), reader.is_wary and not reader.done
        return [at for at in self.order(*key, False)
                if is_wary and any(each[:3] == (*key, reader.section)
                                   for each in self.volumes[at].left_out)]

    def last_line(self, reader):
        if reader.done:
            return f"COMPLETE {len(model.joined(reader.parts))}"
        return f"AWAITS {reader.file} {reader.section} {reader.block}"
