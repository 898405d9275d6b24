"""A file as `salvage` recovers it, if it recovers all of it, from docs/FORMATS.md alone.

For formats_model.py and normal_model.py. The items are those of images in normal form.
"""

import tape_model as model

FIRST, SECOND = ("EOF1", "EOV1"), ("EOF2", "EOV2")
EBCDIC = [kind.encode("cp037") for kind in FIRST + SECOND]


def block_of(item):
    return item[1] if item[0] == "block" else b""


def label_of(item, kinds):
    """The fields of a first label of one of these kinds, or None."""
    block = block_of(item)
    fields = model.first_label(block) if model.kind_of(block) in kinds else 0
    return fields | {"kind": model.kind_of(block)} if isinstance(fields, dict) else None


def shape_of(item, kinds):
    """The shape that a second label of one of these kinds says, or None."""
    block = block_of(item)
    shape = model.second_label(block, True) if model.kind_of(block) in kinds else 0
    return shape if isinstance(shape, tuple) else None


def mark_from(items, at):
    while at < len(items) and items[at][0] != "mark":
        at += 1
    return at


def is_header(item):
    return model.kind_of(block_of(item)) == "HDR2" or model.is_further_header(block_of(item))


def unpadded(block):
    """The label in a block with padding: up to 40 bytes after it, all of them the same."""
    rest = block[80:]
    return block[:80] if rest and len(rest) <= 40 and len(set(rest)) == 1 else block


def may_be_own(block, head):
    """Whether a block of 80 bytes is a first trailer label without another section or file number,
    in ASCII or EBCDIC."""
    for text in block, block.decode("cp037").encode("latin-1"):
        numbers = text[27:31], text[31:35]
        if len(block) == 80 and text[:4].decode("latin-1") in FIRST and all(
                not field.isdigit() or int(field) in (0, head[key])
                for field, key in zip(numbers, ("section", "file"))):
            return True
    return False


def is_trailer(item):
    """Whether an item reads as a trailer label in ASCII or EBCDIC, with padding or without."""
    block = unpadded(block_of(item))
    return model.kind_of(block) in FIRST + SECOND or len(block) == 80 and block[:4] in EBCDIC


class Section:
    """A section found on an image, of which the data begin at this item."""

    def __init__(self, head, image, begin):
        self.head, self.image, self.shape, self.begin = head, image, None, begin
        self.labels, self.data = [], []
        self.trailer, self.is_absent, self.is_doubtful = None, False, False
        self.other = None

    def close(self, trailer, items, at):
        """Closes the section with the label at an index: the index after the mark behind it."""
        self.trailer, end = trailer, at
        while end < len(items) and items[end][0] == "block":
            self.shape = self.shape or shape_of(items[end], SECOND)
            end += 1
        if end < len(items) and items[end][0] == "bad":
            self.is_absent = False  # it may be an EOF2
        return end + 1

    @property
    def has_count(self):
        return bool(self.trailer) and self.trailer["count"] == len(self.data) % 1000000

    @property
    def may_have_labels(self):
        """Whether labels may be among its data: it does not close, and a block reads as a trailer
        label, the trailer label of another section follows the data, or an item before the data is
        no header label; one may be unreadable."""
        others = sum(not is_header(item) for item in self.labels)
        is_unsure = others > any(kind == "bad" for kind, _ in self.labels)
        return not self.trailer and bool(self.data) and (
            is_unsure or self.other is not None or any(map(is_trailer, self.data)))

    @property
    def is_left_out(self):
        """Whether a wary reader takes nothing from it: labels may be among its data, or it has an
        unreadable block and a wrong block count other than 0."""
        is_miscounted = self.trailer and not self.has_count and self.trailer["count"]
        return self.may_have_labels or bool(is_miscounted) and any(
            kind == "bad" for kind, _ in self.data)

    @property
    def is_complete(self):
        return self.has_count and not self.is_doubtful

    @property
    def rank(self):
        good = sum(kind == "block" for kind, _ in self.data)
        return (self.is_complete, good, True) if self.trailer else (False, self.believed(), False)

    def believed(self):
        """The number of blocks that are taken of a section that does not close: if it is followed
        by another section's trailer label, not the last ones, as many as that counts."""
        count = len(self.data)
        most = count if self.other is None else max(0, count - self.other) if self.other else 0
        for at, item in enumerate(self.data):
            if item[0] == "bad" or may_be_own(unpadded(block_of(item)), self.head):
                return min(at, most)
        return 0 if self.is_doubtful and not self.data else most


def is_same(label, head):
    return all(label[key] == head[key] for key in ("section", "file"))


class Search:
    """The search for sections on an image, by the marks and past unreadable items."""

    def __init__(self, items, image):
        self.items, self.image, self.found, self.marks, self.is_next = items, image, [], 0, False
        at = 0
        while at is not None and at < len(items):
            at = self.step(at, items[at])

    def step(self, at, item):
        """The index at which the search goes on, or None at the end of the volume."""
        if item[0] == "mark":
            self.marks += 1
            return None if self.is_next or self.marks > 2 else at + 1
        self.is_next = False
        if self.marks == 2 and item[0] == "bad":
            return at + 1
        if self.marks == 2:
            is_trailer = model.kind_of(block_of(item)) in FIRST + SECOND
            self.marks = 0
            return at + 1 if is_trailer else None
        head, marks, self.marks = label_of(item, ("HDR1",)), self.marks, 0
        if head:
            return self.section(head, at + 1)
        return self.unnamed(at) if marks == 1 else at + 1

    def closed(self, section, trailer, at):
        end = section.close(trailer, self.items, at)
        self.is_next = end <= len(self.items) and self.items[end - 1][0] == "mark"
        return end

    def section(self, head, at):
        """A section from the item after its HDR1 on."""
        begin = mark_from(self.items, at)
        section = Section(head, self.image, begin + 1)
        if begin == len(self.items) == at:
            return None
        self.found.append(section)
        labels = section.labels = self.items[at:begin]
        section.shape = shape_of(labels[0], ("HDR2",)) if labels else None
        has_mark = begin < len(self.items)
        section.is_absent = model.is_further_header(block_of(labels[0])) if labels else has_mark
        end = mark_from(self.items, begin + 1)
        section.data = self.items[begin + 1:end]
        section.is_doubtful = any(kind == "bad" for kind, _ in labels + section.data)
        if end + 1 >= len(self.items):
            return None
        trailer = label_of(self.items[end + 1], FIRST)
        if trailer and is_same(trailer, head):
            return self.closed(section, trailer, end + 1)
        block = block_of(self.items[end + 1])
        if model.kind_of(block) in FIRST and not may_be_own(block, head):
            section.other = model.number(block, 55, 60) or 0
        return end + 1

    def unnamed(self, first):
        """A section whose HDR1 was not read: its data may begin here."""
        end = mark_from(self.items, first)
        data = self.items[first:end]
        if any(label_of(item, ("HDR1",)) for item in data):
            return first + 1
        trailer = label_of(self.items[end + 1], FIRST) if end + 1 < len(self.items) else None
        if not trailer or trailer["count"] != len(data) % 1000000:
            return end
        section = Section(trailer, self.image, first)
        section.data, section.is_doubtful = data, True
        self.found.append(section)
        return self.closed(section, trailer, end + 1)


class Salvage:
    """The sections of a file on some images, given by their items."""

    def __init__(self, images, set_id, file):
        found = sum((Search(items, at).found for at, items in enumerate(images)), [])
        self.images, self.set, self.file = images, set_id, file
        self.sections = [each for each in found
                         if (each.head["set"], each.head["file"]) == (set_id, file)]
        shapes = [each.shape for each in self.sections if each.shape]
        is_absent = any(each.is_absent for each in self.sections)
        self.known = shapes[0] if shapes else model.ABSENT if is_absent else None

    def best(self, number):
        """The copy of a section that is taken; None if others contradict it."""
        copies, firsts = [each for each in self.sections if each.head["section"] == number], {}
        for each in copies:
            firsts.setdefault(each.image, each)
        best = max(firsts.values(), key=lambda it: (it.rank, -it.image), default=None)
        is_other = [self.names(each.head) != self.names(best.head) or (
            each.is_complete and best.is_complete and each.data != best.data) for each in copies]
        is_own = best and best.trailer and self.names(best.trailer) == self.names(best.head)
        return best if is_own and not any(is_other) else None

    @staticmethod
    def names(label):
        return label["name"], label["day"], label["gen"]

    def is_one_file(self):
        """Whether its labels are those of one file: first labels with one identifier, in a section
        with one date and generation; and second labels that can be read and are the same, but a
        trailer's may be unreadable or without lengths. If none can be read, nothing unreadable
        follows a first label."""
        seen, names, is_doubted, is_wrong = [], set(), False, False
        for item, after in sum((list(zip(items, items[1:] + [model.MARK]))
                                for items in self.images), []):
            own = label_of(item, ("HDR1", *FIRST))
            if own and (own["set"], own["file"]) == (self.set, self.file):
                names.add((own["name"], own["section"], own["day"], own["gen"]))
                kind = model.kind_of(block_of(after))
                shape = shape_of(after, ("HDR2", *SECOND))
                is_doubted |= after[0] == "bad" or kind in SECOND and not shape
                is_wrong |= kind == "HDR2" and not shape
                if shape:
                    size = model.number(after[1], 6, 10) or 0
                    has_lengths = kind == "HDR2" or size or shape[1]
                    seen.append((shape[0], shape[2], (size, shape[1]) if has_lengths else None))
        is_one = len({name for name, *_ in names}) == 1 and not is_wrong
        is_one &= len({section for _, section, *_ in names}) == len(names)
        sizes = {lengths for *_, lengths in seen if lengths}
        is_same = len({each[:2] for each in seen}) == 1 and len(sizes) < 2
        return is_one and (is_same if seen else not is_doubted)

    def form(self, section):
        letter, length, offset = section.shape or self.known or ("", 0, 0)
        return section.head["name"], letter, length if letter == "F" else 0, offset

    def parts(self):
        """The parts of the file, or None if `salvage` does not call it complete."""
        parts, number, first = [], 1, self.best(1)
        while True:
            best = self.best(number)
            if not best or not self.form(best)[1] or self.form(best) != self.form(first):
                return None
            if not best.has_count or any(kind == "bad" for kind, _ in best.data):
                return None
            for _, block in best.data:
                begun = bool(parts) and model.begins_record(parts[-1][0])
                shape = self.form(best)[1:]
                more, fault, _ = model.parts_of(shape, model.content(shape, block), begun)
                if fault:
                    return None
                parts += more
            if best.trailer["kind"] == "EOF1":
                return None if parts and model.begins_record(parts[-1][0]) else parts
            number += 1
