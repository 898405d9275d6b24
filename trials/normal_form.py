"""The normal form of tapes, from docs/FORMATS.md. For formats_model.py and normal_model.py."""

import tape_model as model
from tape_model import first_label, kind_of, second_label

EBCDIC = bytes(range(256)).decode("cp037").encode("latin-1")
RULES = {
    "ebcdic": "labels in EBCDIC",
    "padded": "labels with padding",
    "volume": "no volume label",
    "second": "a file has no HDR2",
    "numbers": "numbers in HDR2 begin with blanks or NULs",
    "file": "a file has no number in HDR1",
    "count": "a file has no block count",
    "before": "something before the first file is ignored",
    "after": "something after the end of the volume is ignored",
}
NO_VOLUME = b"VOL1".ljust(80)
KINDS = ("VOL1", "HDR1", "HDR2", "EOV1", "EOV2", "EOF1", "EOF2")
MOST, SHORTEST, LONGEST = 64, 14, 120
ITEMS = ("mark", "gap", "bad", "block")
# the ways in which labels are written: whether they are in EBCDIC, and whether they have padding
CODES = [(False, False), (True, False), (False, True), (True, True)]


def unpadded(block):
    """The 80 characters of a label, without the padding behind them; any other block as it is."""
    is_padded = 80 <= len(block) <= LONGEST and len(set(block[80:])) < 2
    return block[:80] if is_padded else block


def seems_label(label):
    """Whether a block seems to be a label that is not known: three capital letters and a digit."""
    begins = label[:3].isalpha() and label[:3].isupper() and label[3:4].isdigit()
    return len(label) == 80 and begins and kind_of(label) not in KINDS


def in_ascii(code, block):
    is_ebcdic, has_padding = code
    label = unpadded(block) if has_padding else block
    return label.translate(EBCDIC) if is_ebcdic and len(label) == 80 else label


def begins_tape(block):
    """The code in which a block is a VOL1 or HDR1, and that label; or None twice."""
    for code in CODES:
        label = in_ascii(code, block)
        if kind_of(label) in ("VOL1", "HDR1"):
            return code, label
    return None, None


def with_zeros(field):
    rest = field.lstrip(b" \0")
    return b"0" * (len(field) - len(rest)) + rest


def filled(label):
    """An HDR2 whose lengths and offset begin with zeros instead of blanks and NULs."""
    lengths = with_zeros(label[5:10]) + with_zeros(label[10:15])
    return label[:5] + lengths + label[15:50] + with_zeros(label[50:52]) + label[52:]


def is_dummy(label):
    return kind_of(label) == "HDR1" and not label[4:].strip(b"0")


def numbered(label, file):
    """An HDR1, EOF1 or EOV1 with the numbers of section 1 of a file where it has none."""
    numbers = [with_zeros(label[at:at + 4]) for at in (27, 31)]
    numbers = [each if each != b"0000" else b"%04d" % own for each, own in zip(numbers, (1, file))]
    return label[:27] + b"".join(numbers) + label[35:]


class Normal:
    """The normal form of a tape, item by item; `rules` are those that were applied, `uncounted` the
    sections whose trailer labels have no block count: set, file and section of their HDR1.

    Each place of a tape is a method. It returns what replaces the item, or None if it stays.
    """

    def __init__(self):
        self.place, self.code, self.dropped, self.rules = "start", CODES[0], 0, set()
        self.file, self.is_filled, self.blocks, self.counts = 0, False, None, False
        self.head, self.uncounted = None, []

    def step(self, item):
        kind, block = item
        label = in_ascii(self.code, block) if kind == "block" else b""
        given = getattr(self, self.place)(kind, block, label)
        return [item] if given is None else given

    def over(self, *_):
        self.place = "over"

    def left(self, place):
        """Leaves the rest unchanged; but labels in EBCDIC or with padding are still looked for,
        from `place` on."""
        self.place = "over" if self.code == CODES[0] else place
        self.file, self.is_filled, self.blocks = 9999, False, None

    def other(self, label):
        """A block that is not the label expected there: an HDR1, or data."""
        self.left("data")
        if self.place == "over" or kind_of(label) != "HDR1":
            return None
        self.place = "second"
        return [("block", self.header(label))]

    def drop(self, rule):
        """Leaves an item out, unless there were too many."""
        self.dropped += 1
        if self.dropped > MOST and rule == "before":
            return self.over()
        self.rules.add(rule)
        return []

    def start(self, kind, block, _):
        code, label = begins_tape(block) if kind == "block" else (None, None)
        if code:
            self.code, self.dropped = code, 0
            has_volume = kind_of(label) == "VOL1"
            self.place = "labels" if has_volume else "second"
            self.rules |= {"ebcdic"} if code[0] else set()
            self.rules |= {"padded"} if code[1] else set()
            self.rules |= set() if has_volume else {"volume"}
            if has_volume:
                return [("block", label)]
            return [("block", NO_VOLUME), ("block", self.header(label))]
        if kind == "bad" or (kind == "block" and len(block) >= SHORTEST):
            return self.over()
        return self.drop("before")

    def labels(self, kind, _, label):
        if kind == "bad":
            return self.left("headers")
        if kind == "mark":
            self.place = "blank"
            return None
        if model.is_volume_label(label):
            return [("block", label)]
        if kind_of(label) != "HDR1" or is_dummy(label):
            return self.drop("before")
        self.place = "second"
        return [("block", self.header(label))]

    def header(self, label):
        """An HDR1, with the numbers of the next file if it can be read only then."""
        self.blocks = 0
        better, fields = numbered(label, self.file + 1), first_label(label)
        self.is_filled = not isinstance(fields, dict) and self.file < 9999 and (
            not is_dummy(label) and isinstance(first_label(better), dict))
        if self.is_filled:
            label, fields = better, first_label(better)
            self.rules.add("file")
        self.head = fields if isinstance(fields, dict) else None
        if self.head:
            self.file = fields["file"]
        return label

    def blank(self, kind, _, label):
        if kind != "mark":
            return self.left("trailer") if kind == "bad" else self.other(label)
        self.place = "ended"
        return None

    def second(self, kind, _, label):
        if kind == "bad":
            return self.left("headers")
        if kind == "mark" or model.is_further_header(label):
            self.place = "data" if kind == "mark" else "headers"
            self.rules.add("second")
            return None if kind == "mark" else [("block", label)]
        if kind_of(label) != "HDR2":
            return self.other(label)
        self.place = "headers"
        return [("block", self.with_numbers(label))]

    def with_numbers(self, label):
        """An HDR2, with its numbers filled if the strict reading, or else the wider one, accepts
        it only then."""
        better = filled(label)
        for is_wide in (False, True):
            if isinstance(second_label(label, is_wide), tuple):
                return label
            if isinstance(second_label(better, is_wide), tuple):
                self.rules.add("numbers")
                return better
        return label

    def headers(self, kind, _, label):
        if kind == "bad":
            return self.left("headers")
        if kind == "mark":
            self.place = "data"
            return None
        is_header = kind_of(label) == "HDR2" or model.is_further_header(label) or seems_label(label)
        return [("block", label)] if is_header or self.code == CODES[0] else self.other(label)

    def data(self, kind, *_):
        self.place = "trailer" if kind == "mark" else "data"
        if kind == "bad" or self.blocks is None:
            self.blocks = None
        elif kind == "block":
            self.blocks += 1

    def trailer(self, kind, _, label):
        if kind != "block":
            return self.left("trailer")
        if kind_of(label) not in ("EOF1", "EOV1"):
            return self.other(label)
        self.place = "trailers"
        return [("block", self.trailing(label))]

    def trailing(self, label):
        """An EOF1 or EOV1, with the numbers of its HDR1 and a block count if it can be read only
        then, or with a block count if it counts none, as no label before it does."""
        fields = first_label(label)
        if isinstance(fields, dict) and (fields["count"] or self.counts or self.blocks is None):
            self.counts |= fields["count"] > 0
            return label
        better = numbered(label, self.file) if self.is_filled else label
        count = with_zeros(label[54:60])
        if count == b"000000" and self.blocks is not None:
            count = b"%06d" % (self.blocks % 10**6)
        better = better if self.blocks is None else better[:54] + count + better[60:]
        if not isinstance(first_label(better), dict):
            return label
        if better[54:60] != label[54:60]:
            self.rules.add("count")
            if not label[54:60].strip(b" \x000"):
                head = self.head or first_label(better)
                self.uncounted.append((head["set"], head["file"], head["section"]))
        return better

    def trailers(self, kind, _, label):
        if kind == "bad":
            return self.left("trailers")
        if kind == "mark":
            self.place = "next"
            return None
        is_lost = self.code != CODES[0] and kind_of(label) == "HDR1"
        return self.other(label) if is_lost else [("block", label)]

    def next(self, kind, _, label):
        if kind == "bad":
            return self.left("headers")
        if kind != "mark" and kind_of(label) != "HDR1":
            return self.other(label)
        self.place = "ended" if kind == "mark" else "second"
        return None if kind == "mark" else [("block", self.header(label))]

    def ended(self, kind, block, _):
        if kind == "block" and begins_tape(block)[0]:
            return self.over()
        return self.drop("after")


def is_complete(data, at, kind, end):
    """Whether the encoding of an item ends in the image, with the word with which it begins."""
    return kind in ("mark", "gap") or (end <= len(data) and model.is_same_word(data, at, end))


def normal_form(data, is_further=False):
    """An image in normal form, the rules that were applied, and the sections that are not counted.
    All is kept from a fault on. A further reading of an image ends before the first HDR1 whose
    numbers are filled in."""
    machine, made, at, named = Normal(), bytearray(), 0, set()
    while machine.place != "over":
        kind, length, end = model.head_at(data, at)
        is_right = kind in ITEMS and is_complete(data, at, kind, end)
        is_label = kind == "block" and 80 <= length <= LONGEST and machine.place != "data"
        if kind not in ITEMS or (is_label and not is_right):
            break
        # of a block that is cut off only the length matters: it is no label
        block = data[at + 4:at + 4 + length].ljust(length) if kind == "block" else None
        given = [(kind, block)] if kind == "gap" else machine.step((kind, block))
        if is_further and "file" in machine.rules:
            return bytes(made), named, machine.uncounted
        if given and not is_right:
            break
        if not given and end > len(data):
            return bytes(made) + b"\0", machine.rules, machine.uncounted
        named = set(machine.rules) if given else named
        for each in given:
            made += data[at:end] if each == (kind, block) else model.encoded(each[1])
        at = end
    return bytes(made) + data[at:], machine.rules, machine.uncounted
