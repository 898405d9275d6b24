"""The images that are read, and the further readings of damaged ones, from docs/FORMATS.md.

For formats_model.py and normal_model.py.
"""

from containers import kind_of, simh_image
from normal_form import RULES, normal_form
from resync import readings
from tape_model import head_at

MOST, SHORTEST = 999, 80
FORMATS = {"e11": "read as an E11 image", "aws": "read as an AWS image"}
KINDS = ("HDR1", "VOL1", "EOF1", "EOV1")
LABELS = [kind.encode(code) for code in ("ascii", "cp037") for kind in KINDS]
HEADERS = [kind.encode(code) for code in ("ascii", "cp037") for kind in ("HDR", "UHL")]


class Image:
    """An image, or a reading of it from byte `at` on, without those from byte `lost` on: its normal
    form."""

    def __init__(self, name, data, at=None, lost=None):
        self.is_further, self.origin, self.at, self.lost = at is not None, name, at, lost
        self.name = f"{name}@{at}" if self.is_further else name
        self.format = None if self.is_further else FORMATS.get(kind_of(data))
        simh = data if self.is_further else simh_image(data)
        self.data, self.rules, self.uncounted = normal_form(simh, self.is_further)

    def notices(self):
        """The ends of the lines about it."""
        lines = [RULES[rule] for rule in self.rules] + [self.format] * bool(self.format)
        if self.is_further:
            without = f"without bytes {self.lost} to {self.at - 1}"
            lines.append(f"{self.origin} from byte {self.at} on, {without}")
        return lines


def begin_of(data, start, end):
    """Where a reading begins, or None if it has no labels: no block of 80 or more bytes that begins
    as one."""
    has_label, at, before = False, start, start
    while at < end:
        kind, length, after = head_at(data, at)
        text = data[at + 4:at + 8]
        if kind == "block" and length >= SHORTEST and text in LABELS:
            has_label = True
            if text in (LABELS[0], LABELS[4]):
                return start if text == LABELS[0] and length == SHORTEST else before
        at, before = after, before if kind == "gap" else after
    return start if has_label else None


def is_over(data, at, end):
    """Whether a volume ends in a reading: two consecutive marks that do not follow header labels."""
    before, marks = "", 0
    while at < end:
        kind, length, after = head_at(data, at)
        if kind == "mark":
            marks += before != ""
        elif kind != "gap":
            is_header = kind == "block" and length >= SHORTEST and data[at + 4:at + 7] in HEADERS
            before, marks = "header" if is_header else "block", 0
        if marks == (3 if before == "header" else 2):
            return True
        at = after
    return False


def further(name, data):
    """The further readings of an image, up to the end of the volume."""
    found = readings(data) if kind_of(data) == "simh" else []
    over = [is_over(data, start, end) for start, end, *_ in found]
    found = found[:over.index(True) + 1] if True in over else found
    starts = zip(found[1:], (end for _, end, *_ in found))
    begins = [(begin_of(data, start, end), lost) for (start, end, *_), lost in starts]
    return [Image(name, data[at:], at, lost) for at, lost in begins if at is not None]


def images_of(names, images):
    """The images in normal form, and then what is read of them after wrong words."""
    made = [Image(name, data) for name, data in zip(names, images)]
    more = sum((further(name, data) for name, data in zip(names, images)), [])
    return made + more[:MOST]
