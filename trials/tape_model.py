"""Images, labels and blocks, from docs/FORMATS.md alone. For formats_model.py and normal_model.py.

An item is a pair: "mark" or "bad" and None, or "block" and its bytes. A shape is a record format,
a record length and a buffer offset. A trial can replace a function of this module by a wrong one.
"""

MARK, BAD = ("mark", None), ("bad", None)
LONGEST, GAP, END = 99999, 0xFFFFFFFE, 0xFFFFFFFF
ABSENT = ("U", 0, 0)


def word(number):
    return number.to_bytes(4, "little")


def encoded(data, pad=b"\0", flag=0):
    """A block, or an unreadable one, as an image has it."""
    lead = word(len(data) | flag)
    return lead + data + pad * (len(data) % 2) + lead


# ---- images

def head_at(data, at):
    """What the word at a place says: the kind, the length of a block, the end of the encoding."""
    lead = int.from_bytes(data[at:at + 4], "little")
    if at == len(data):
        return "PHYSICAL", 0, at
    if at + 4 > len(data):
        return f"FAULT 1 {at}", 0, at
    if lead in (0, GAP, END):
        return {0: "mark", GAP: "gap", END: "MARKED"}[lead], 0, at + 4
    length = lead & 0xFFFFFF
    if lead & 0x7F000000 or not length:
        return f"FAULT 3 {at}", 0, at
    kind = "bad" if lead >> 31 or length > LONGEST else "block"
    return kind, length, at + 8 + length + length % 2


def is_same_word(data, at, end):
    return data[at:at + 4] == data[end - 4:end]


def items_of(data):
    """The items of an image, and its end as in a line of `check`."""
    items, at = [], 0
    while True:
        kind, length, end = head_at(data, at)
        if kind in ("block", "bad") and end > len(data):
            return items, f"FAULT 1 {at}"
        if kind in ("block", "bad") and not is_same_word(data, at, end):
            return items, f"FAULT 2 {at}"
        if kind not in ("block", "bad", "mark", "gap"):
            return items, kind
        if kind != "gap":
            items.append((kind, data[at + 4:at + 4 + length] if kind == "block" else None))
        at = end


# ---- labels

def kind_of(block):
    """The identifier of a label; nothing if the block does not have 80 bytes."""
    return block[:4].decode("latin-1") if len(block) == 80 else ""


def number(label, first, last):
    """The number in these positions of a label, or None."""
    field = label[first - 1:last]
    return int(field) if all(0x30 <= each <= 0x39 for each in field) else None


def first_label(label):
    """The fields of an HDR1, EOF1 or EOV1, or the number of its fault."""
    fields = [number(label, 28, 31), number(label, 32, 35)]
    if kind_of(label) != "HDR1":
        fields.append(number(label, 55, 60))
    for at, value in enumerate(fields):
        if value is None or (at < 2 and value == 0):
            return 3 if value is None else 5
    names = {"name": label[4:21], "set": label[21:27], "gen": label[35:39], "day": label[41:47]}
    return names | {"section": fields[0], "file": fields[1], "count": (fields + [0])[2]}


def second_label(label, wide):
    """The shape that an HDR2, EOF2 or EOV2 says, or the number of its fault."""
    letter = chr(label[4])
    if letter not in ("FDSUV" if wide else "FDS"):
        return 4
    if number(label, 6, 10) is None and not (wide and label[5:10] == b"     "):
        return 3
    length = number(label, 11, 15)
    if length is None and wide and letter != "F" and label[10:15] == b"     ":
        length = 0
    if length is None or (letter == "F" and length == 0):
        return 3 if length is None else 5
    offset = 0 if label[50:52] == b"  " else number(label, 51, 52)
    return 3 if offset is None else (letter, length, offset)


def is_further_header(block):
    kind = kind_of(block)
    return kind[:3] == "UHL" or (kind[:3] == "HDR" and kind[3] in "3456789")


def is_volume_label(block):
    return kind_of(block)[:3] in ("VOL", "UVL")


# ---- blocks: a part is its span, W, F, M or L, and its bytes

def unit_d(block, at):
    count = number(block, at + 1, at + 4) if at + 4 <= len(block) else None
    if count is None or count < 4:
        return 3, None, None
    return 4 if at + count > len(block) else 0, at + count, ("W", block[at + 4:at + count])


def unit_s(block, at):
    if block[at] not in b"0123":
        return 5, None, None
    count = number(block, at + 2, at + 5) if at + 5 <= len(block) else None
    if count is None or count < 5:
        return 3, None, None
    span = "WFML"[block[at] - 0x30]
    return 4 if at + count > len(block) else 0, at + count, (span, block[at + 5:at + count])


def unit_v(block, at):
    if at + 4 > len(block):
        return 3, None, None
    if block[at + 2] > 3 or block[at + 3]:
        return 5, None, None
    count = int.from_bytes(block[at:at + 2], "big")
    if count < 4:
        return 3, None, None
    span = "WFLM"[block[at + 2]]
    return 4 if at + count > len(block) else 0, at + count, (span, block[at + 4:at + count])


def described(block, offset):
    """Whether the block descriptor word is the length of what follows the offset."""
    if len(block) < offset + 4:
        return False
    lead = block[offset:offset + 4]
    if lead[0] & 0x80:
        length = int.from_bytes(lead, "big") & 0x7FFFFFFF
    else:
        length = int.from_bytes(lead[:2], "big") if lead[2:] == b"\0\0" else -1
    return length == len(block) - offset


def fits(span, begun):
    return (span in "ML") == begun


def begins_record(span):
    return span in "FM"


def fixed_parts(length, offset, block, begun):
    """The parts of a block in format F; the fault and its place, or None; where the units end."""
    parts, at = [], offset
    while at + length <= len(block):
        if begun:
            return parts, (6, at), at
        parts.append(("W", block[at:at + length]))
        at += length
    return parts, None if not block[at:].strip(b"^") else (2, at), at


def parts_of(shape, block, begun):
    """The parts of a block; the fault and its place, or None; and where its units end."""
    letter, length, offset = shape
    if len(block) < offset or (letter == "V" and not described(block, offset)):
        return [], (1, 0), 0
    if letter == "F":
        return fixed_parts(length, offset, block, begun)
    if letter == "U":
        whole = [("W", block[offset:])] if len(block) > offset else []
        return ([], (6, offset), offset) if whole and begun else (whole, None, len(block))
    parts, at = [], offset + (4 if letter == "V" else 0)
    while at < len(block) and not (letter != "V" and block[at] == 0x5E):
        fault, end, part = {"D": unit_d, "S": unit_s, "V": unit_v}[letter](block, at)
        if fault or not fits(part[0], begun):
            return parts, (fault or 6, at), at
        parts.append(part)
        begun, at = begins_record(part[0]), end
    padding = block[at:]
    wrong = at + len(padding) - len(padding.lstrip(b"^"))
    return parts, (7, wrong) if padding.strip(b"^") else None, at


def content(shape, block):
    """The block without padding of NULs or spaces, in the wider reading."""
    parts, fault, end = parts_of(shape, block, False)
    rest = block[end:]
    is_foreign = rest in (b"\0" * len(rest), b" " * len(rest))
    if shape[0] not in "FD" or not fault or not parts or not is_foreign:
        return block
    is_ambiguous = shape[0] == "F" and not parts[-1][1].strip(rest[:1])
    return block if is_ambiguous or not rest else block[:end]


def padding_of(shape, blocks, eof):
    """What the blocks of a section have after their records that is, or may be, padding."""
    found = None
    for block in blocks if shape[0] in "FD" else []:
        kept, inside = found if found != "CIRCUMFLEX" else None, content(shape, block)
        if parts_of(shape, inside, False)[1]:
            return kept
        if len(inside) < len(block):
            found = kept or ("SPACE" if block[-1] else "NUL")
        else:
            parts = parts_of(shape, block, False)[0]
            is_last = shape[0] == "F" and parts and not parts[-1][1].strip(b"^")
            found = kept or ("CIRCUMFLEX" if is_last else None)
    return None if found == "CIRCUMFLEX" and not eof else found


def joined(parts):
    """The records of some parts; an unfinished one is left out."""
    records, begun = [], b""
    for span, data in parts:
        begun += data
        if span in "WL":
            records.append(begun)
            begun = b""
    return records
