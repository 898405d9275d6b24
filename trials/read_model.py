"""The sections of an image, and the reading of a file, from docs/FORMATS.md alone.

For formats_model.py and normal_model.py.
"""

from functools import cached_property

import tape_model as model
from salvage_model import Search

TRAILERS, NUMBERS = ("EOF1", "EOV1"), ("section", "file")


class Volume:
    """What is found on an image in normal form, also after items out of the order of a volume.

    Each place of a volume is a method. It returns the next place, or None for an item out of order.
    """

    def __init__(self, data):
        self.items, self.stop = model.items_of(data)
        self.place, self.sections, self.first_labels, self.closing = "volume", [], [], []
        self.identifier = self.owner = self.system = self.set = b""
        self.has_wrong_second = self.is_astray = False
        self.named = []  # each HDR1, and each trailer label without one
        self.forms = []  # each HDR1 with an HDR2 that can be read, and what that says
        for self.at, (kind, block) in enumerate(self.items):
            place = getattr(self, self.place)(kind, block or b"")
            if place is None:
                self.is_astray = True
                place = self.past(self.place, kind, block or b"")
            self.place = place

    @property
    def is_read(self):
        """Whether it is a volume up to its end, with nothing after it."""
        is_ended = self.place == "ended" and not self.is_astray
        return is_ended and not self.stop.startswith("FAULT") and not self.has_wrong_second

    @property
    def is_whole(self):
        return self.is_read and all(each["state"] == "GOOD" for each in self.sections)

    @cached_property
    def left_out(self):
        """The sections from which a wary reader takes nothing, with the item that begins their
        data. Of several copies of a section the first counts."""
        copies = {}
        for each in Search(self.items, 0).found:
            copies.setdefault(tuple(map(each.head.get, ("set", "file", "section"))), each)
        return {(*key, each.begin) for key, each in copies.items() if each.is_left_out}

    def past(self, place, kind, block):
        """The place after an item out of order."""
        self.identifier = self.identifier or b"(none)"
        if place in ("ended", "over"):
            return "over"
        if kind == "mark":
            return "next"
        if kind == "bad" and place in ("second", "headers"):
            self.open["is_spoilt"] = True
            if place == "second":
                self.open["shape"] = False  # neither read nor absent
            return "headers"
        if kind == "block" and place == "second":
            self.sections.append(self.open | {"volume": self.identifier, "shape": False})
            if model.kind_of(block) == "HDR1" and self.next(kind, block):
                self.open["is_spoilt"] = True
                return "second"
        elif kind == "block" and model.kind_of(block) == "HDR1":
            return self.next(kind, block) or "labels"
        elif model.kind_of(block) in TRAILERS and place in ("labels", "next", "blank"):
            fields = model.first_label(block)
            if not isinstance(fields, int):
                self.named.append(fields)
                self.sections.append(fields | {
                    "volume": self.identifier, "blocks": [], "state": "CUT", "eof": False,
                    "shape": False, "has_second_trailer": False, "from": self.at})
        return "labels"

    def volume(self, kind, block):
        if kind != "block" or model.kind_of(block) != "VOL1":
            return None
        self.identifier, self.owner = block[4:10], block[37:51]
        return "labels"

    def labels(self, kind, block):
        if kind == "mark":
            return "blank"
        return "labels" if model.is_volume_label(block) else self.next(kind, block)

    def blank(self, kind, _):
        return "ended" if kind == "mark" else None

    def next(self, kind, block):
        if kind == "mark":
            return "ended"
        fields = model.first_label(block) if model.kind_of(block) == "HDR1" else 0
        if isinstance(fields, int):
            return None
        if not self.first_labels:
            self.set, self.system = fields["set"], block[60:73]
        self.first_labels.append(fields)
        self.named.append(fields)
        self.open = fields | {"blocks": [], "state": "CUT", "eof": False, "shape": None,
                              "has_second_trailer": False, "from": self.at}
        return "second"

    def second(self, kind, block):
        if kind == "block" and model.kind_of(block) == "HDR2":
            shape = model.second_label(block, True)
            self.has_wrong_second |= isinstance(shape, int)
            self.open["shape"] = shape
            if isinstance(shape, tuple):
                self.forms.append((self.open, (shape, model.number(block, 6, 10) or 0)))
            return "headers"
        is_absent = kind == "mark" or model.is_further_header(block)
        return self.headers(kind, block) if is_absent else None

    def headers(self, kind, _):
        if kind == "mark":
            self.sections.append(self.open | {"volume": self.identifier})
        return {"mark": "data", "block": "headers", "bad": None}[kind]

    def data(self, kind, block):
        if kind == "mark":
            return "trailer"
        self.sections[-1]["blocks"].append(block if kind == "block" else None)
        return "data"

    def trailer(self, _, block):
        section = self.sections[-1]
        fields = model.first_label(block) if model.kind_of(block) in TRAILERS else 0
        if isinstance(fields, int) or any(fields[key] != section[key] for key in NUMBERS):
            return None
        is_right = fields["count"] == len(section["blocks"]) % 1000000
        is_bad = None in section["blocks"] or "is_spoilt" in section
        section["eof"], section["count"] = model.kind_of(block) == "EOF1", fields["count"]
        section["state"] = "COUNT" if not is_right else "BAD" if is_bad else "GOOD"
        self.closing.append((section, fields))
        return "trailers"

    def trailers(self, kind, block):
        section = self.sections[-1]
        if kind == "bad":
            section["is_doubted"] = True  # it may be a second trailer label
        elif kind == "mark":
            section["is_bare"] = section["shape"] is None
        else:
            section["has_second_trailer"] |= model.kind_of(block) in ("EOF2", "EOV2")
        return {"mark": "next", "block": "trailers", "bad": None}[kind]

    def ended(self, *_):
        return None

    def over(self, *_):
        return None


class Reader:
    """Reads one file, reel after reel: the table in FORMATS.md.

    If it is wary, nothing is taken from a copy with an unreadable block and a wrong block count
    other than 0, nor from one that may have labels among its data.
    """

    def __init__(self, set_id, file, wide, is_wary):
        self.set, self.file, self.wide, self.is_wary = set_id, file, wide, is_wary
        self.section, self.block, self.done, self.known, self.parts = 1, 0, False, None, []

    @property
    def position(self):
        return self.done or (self.section, self.block)

    @property
    def begun(self):
        return bool(self.parts) and model.begins_record(self.parts[-1][0])

    def reel(self, volume, begin=None):
        """The answer of a reel, also from the item after a trailer label on.

        The parts of a suspect reel are discarded: after a wrong count, or if no label ends its
        blocks.
        """
        before = self.section, self.block, self.known, len(self.parts)
        self.delivered = 0
        self.phase = "trailers" if begin else "volume"
        for self.end, (kind, block) in enumerate(volume.items[begin:], (begin or 0) + 1):
            if self.phase == "data" and self.is_left_out(volume):
                return "SECTION DIFFERS" if self.block else "REEL ENDED"
            is_wrong = kind == "bad" and self.phase != "data"
            answer = "BAD ITEM" if is_wrong else getattr(self, self.phase)(kind, block or b"")
            is_unended = answer in ("BAD LABEL 1", "BAD LABEL 2") and self.delivered
            if answer and (answer.startswith("BLOCK COUNT") or is_unended):
                self.section, self.block, self.known = before[:3]
                del self.parts[before[3]:]
            if answer:
                return answer
        fault = volume.stop.split()[1:] if volume.stop.startswith("FAULT") else []
        return " ".join(["REEL ENDED", *(["IMAGE", *fault] if fault else [])])

    def is_left_out(self, volume):
        """Whether the section needed begins here, on a volume from which it is not taken."""
        key = self.set, self.file, self.section, self.end - 1
        return self.is_wary and self.needed and not self.seen and key in volume.left_out

    def volume(self, kind, block):
        self.phase = "labels"
        return None if kind == "block" and model.kind_of(block) == "VOL1" else "NOT LABELLED"

    def labels(self, kind, block):
        if model.kind_of(block) == "HDR1":
            return self.first(block)
        return None if model.is_volume_label(block) else "NOT LABELLED"

    def next(self, kind, block):
        if kind == "mark":
            return "NOT ON REEL"
        return self.first(block) if model.kind_of(block) == "HDR1" else wrong_label(block)

    def first(self, block):
        fields = model.first_label(block)
        if isinstance(fields, int):
            return f"BAD LABEL {fields}"
        self.head, self.phase, self.seen = fields, "second", 0
        self.needed = fields["file"] == self.file
        if fields["set"] != self.set:
            return "OTHER SET"
        if fields["file"] > self.file:
            return "NOT ON REEL"
        if self.needed and fields["section"] != self.section:
            return "EARLIER SECTION" if fields["section"] < self.section else "LATER SECTION"
        is_other = self.needed and self.known and self.known[0] != fields["name"]
        return "SECTION DIFFERS" if is_other else None

    def second(self, kind, block):
        is_absent = self.wide and (kind == "mark" or model.is_further_header(block))
        if not is_absent and (kind == "mark" or model.kind_of(block) != "HDR2"):
            return wrong_label(block) if kind == "block" else "BAD LABEL 2"
        self.phase = "data" if kind == "mark" else "headers"
        if not self.needed:
            return None
        shape = model.ABSENT if is_absent else model.second_label(block, self.wide)
        if isinstance(shape, int):
            return f"BAD LABEL {shape}"
        self.form = self.head["name"], shape[0], shape[1] if shape[0] == "F" else 0, shape[2]
        return "SECTION DIFFERS" if self.known and self.known != self.form else None

    def headers(self, kind, _):
        self.phase = "data" if kind == "mark" else "headers"

    def data(self, kind, block):
        if not self.needed or self.seen < self.block:
            if kind == "mark" and self.needed:
                return "SECTION DIFFERS"
            self.phase = "trailer" if kind == "mark" else "data"
            self.seen += kind != "mark"
            return None
        if kind != "block":
            self.phase = "trailer"
            return "BAD ITEM" if kind == "bad" else None
        shape = self.form[1:]
        block = model.content(shape, block) if self.wide else block
        parts, fault, _ = model.parts_of(shape, block, self.begun)
        if fault:
            return f"BAD BLOCK {fault[0]} {fault[1]}"
        self.parts += parts
        self.delivered += 1
        self.seen += 1
        self.block, self.known = self.seen, self.form
        return None

    def trailer(self, kind, block):
        if kind == "mark" or model.kind_of(block) not in TRAILERS:
            return wrong_label(block) if kind == "block" else "BAD LABEL 2"
        fields = model.first_label(block)
        if isinstance(fields, int):
            return f"BAD LABEL {fields}"
        if any(fields[key] != self.head[key] for key in NUMBERS):
            return "SECTION DIFFERS"
        self.phase = "trailers"
        return self.close(fields["count"], model.kind_of(block) == "EOF1") if self.needed else None

    def close(self, count, is_last):
        if count != self.seen % 1000000:
            return f"BLOCK COUNT {count} {self.seen}"
        if is_last and self.begun:
            return "SPAN LEFT"
        self.done, self.known = is_last, self.form
        self.section, self.block = self.section + 1, 0
        return "COMPLETE" if is_last else "SECTION DONE"

    def trailers(self, kind, _):
        self.phase = "next" if kind == "mark" else "trailers"


def wrong_label(block):
    return "BAD LABEL 2" if len(block) == 80 else "BAD LABEL 1"
