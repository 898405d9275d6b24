"""Mutated images of tapes as other systems wrote them. For normal_model.py."""

import random

import tape_model as model
from drawn_sets import with_wrong_word
from normal_form import EBCDIC

FORMATS = "FDUVN"
NAMES = ["PAYROLL", "SWAP  .SYS", "A/B"]
LABELS = [b"VOL1", b"HDR1", b"EOF1", b"EOF2", "VOL1".encode("cp037"), "HDR1".encode("cp037")]


def label(text):
    return "block", text.ljust(80)[:80].encode("latin-1")


def noise(rng, *lengths):
    return "block", rng.randbytes(rng.choice(lengths))


def to_ebcdic(block):
    return block.decode("latin-1").encode("cp037")


# ---- tapes

def data_of(rng, letter, count):
    """Blocks in a format, without line feeds in records, so each line of the output is a record."""
    blocks = []
    for _ in range(count):
        lengths = [20 if letter == "F" else rng.randint(1, 30) for _ in range(rng.randint(1, 3))]
        records = [rng.randbytes(length).replace(b"\n", b"\x15") for length in lengths]
        if rng.random() < .1:
            records = [rng.choice(LABELS).ljust(20 if letter == "F" else 80)]
        if letter == "D":
            records = [f"{len(each) + 4:04}".encode() + each for each in records]
        if letter == "V":
            records = [(len(each) + 4).to_bytes(2, "big") + b"\0\0" + each for each in records]
            records.insert(0, (4 + len(b"".join(records))).to_bytes(2, "big") + b"\0\0")
        blocks.append(("block", b"".join(records)))
    return blocks


def second(rng, kind, letter):
    """An HDR2 or EOF2, with numbers as systems wrote them."""
    numbers = ["00060", "00020"] if letter == "F" else ["00300", "00000"]
    if rng.random() < .3:
        blank = rng.choice([" ", "\0"])
        numbers = [rng.choice([each, each.replace("0", blank, 3), blank * 5]) for each in numbers]
    offset = rng.choice(["00", "00", "  ", " 0", "\0\0"])
    return label((kind + letter + "".join(numbers)).ljust(50) + offset)


def file_of(rng, set_id, at, has_trailers, blank, counts):
    """The header labels, the data and the trailer labels of a file.

    Its numbers are replaced by `blank` if that is not empty; unless `counts` its count is 0.
    """
    letter = rng.choice(FORMATS)
    name = rng.choice([*NAMES, "".join(map(chr, rng.choices(range(256), k=17)))])
    blocks = data_of(rng, letter, rng.choice([0, 1, rng.randint(1, 6)]))
    no_count = rng.choice([" " * 6, "\0" * 6, "     2", "  0   "]) if rng.random() < .1 else ""

    def labels(kind, count):
        numbers = blank * 2 or f"0001{at:04}"
        others = f"000100 85103 00000 {no_count or f'{count:06}'}"
        made = [label(f"{kind}1{name:17}{set_id}{numbers}{others}SYSTEM")]
        if letter != "N" and (kind == "HDR" or has_trailers):
            made.append(second(rng, kind + "2", letter))
        if rng.random() < .3:
            made.append(label(rng.choice([kind + "3", "UHL1" if kind == "HDR" else "UTL1"])))
        return [*made, model.MARK]
    count = len(blocks) if counts and rng.random() < .95 else 0
    return labels("HDR", 0), blocks, labels("EOF" if rng.random() < .9 else "EOV", count)


def tape_of(rng, set_id, has_trailers):
    """The items of a tape."""
    if rng.random() < .05:
        data = [noise(rng, 14, 80, 512) for _ in range(4)]
        return [model.MARK] * rng.randint(0, 2) + data + [model.MARK] * 2
    is_ebcdic, counts = rng.random() < .4, rng.random() < .9
    padding = rng.choice([b" ", b"\0", b"@", b"^"]) * rng.choice([1, 4, 40, 41])
    padding = padding if rng.random() < .15 else b""

    def coded(items):
        return [(kind, (to_ebcdic(block) if is_ebcdic else block) + padding if block else block)
                for kind, block in items]
    items = coded([label(f"VOL1{set_id}".ljust(37) + "OWNER".ljust(42) + "3")])
    items += coded([label(rng.choice(["VOL2", "UVL1"]))]) * (rng.random() < .1)
    if rng.random() < .15:
        items += [noise(rng, 13, 79, 80, 81, 200) for _ in range(rng.choice([1, 2, 64, 65]))]
    items += coded([label("HDR1" + "0" * 76)]) * (rng.random() < .1)
    count = rng.choice([1, 1, 2, 3, 0])
    blank = rng.choice(["    ", "0000", "\0\0\0\0", " 0 0", "   7"]) if rng.random() < .2 else ""
    for at in range(1, count + 1):
        numbers = blank if rng.random() < .8 else ""
        header, blocks, trailer = file_of(rng, set_id, at, has_trailers, numbers, counts)
        items += [*coded(header), *blocks, model.MARK, *coded(trailer)]
    items += [model.MARK] * (1 if count else 2)
    return with_edges(rng, items)


def with_edges(rng, items):
    """A tape without its first label, after other items, or with remains after its end."""
    if rng.random() < .1:
        del items[0]
    if rng.random() < .2:
        count = rng.choice([1, 2, 63, 64, 65])
        items = [rng.choice([model.MARK, noise(rng, 1, 12, 13, 14)]) for _ in range(count)] + items
    return items + (remains(rng, items) if rng.random() < .3 else [])


def remains(rng, items):
    """What may follow the end of a volume."""
    labels = [item for item in items if item[1] and len(item[1]) == 80]
    return rng.choice([
        [model.MARK] * rng.choice([1, 4, 3000]), [*data_of(rng, "F", 3), model.MARK],
        [model.BAD, model.MARK], rng.sample(labels, min(len(labels), 3)),
        items[:rng.randint(0, len(items))], [label("EOF1OLD"), model.MARK, model.MARK]])


# ---- mutations

def mutate_items(rng, items):
    """Changes an item."""
    at = rng.randrange(len(items))
    kind, block = items[at]
    added = {"twice": items[at], "mark": model.MARK, "noise": noise(rng, 3, 80),
             "label": rng.choice(items)}
    what = rng.choice(["lost", *added, "swapped", "bad", "length", "byte", "code"])
    if what == "lost":
        del items[at]
    elif what in added:
        items.insert(at, added[what])
    elif what == "swapped":
        items[at:at + 2] = items[at:at + 2][::-1]
    elif what == "bad":
        items[at] = model.BAD
    elif block:
        items[at] = (kind, changed(rng, what, block))


def changed(rng, what, block):
    """A block with another length, a wrong byte, or in another code."""
    if what == "length":
        return rng.choice([block[:-1] or block, block + b" ", block + b"    "])
    if what == "code":
        return rng.choice([block.translate(EBCDIC), to_ebcdic(block)])
    at = rng.randrange(min(len(block), rng.choice([4, 60, len(block)])))
    byte = rng.choice([b" ", b"\0", b"0", b"\xf0", b"\x40", rng.randbytes(1)])
    return block[:at] + byte + block[at + 1:]


def mutate_bytes(rng, data):
    """Truncates an image, or changes bytes of it anywhere."""
    at = rng.randrange(len(data) + 1)
    what = rng.choice(["cut", "byte", "word", "added"])
    if what == "cut":
        return data[:at]
    if what == "added":
        return data + rng.randbytes(rng.randint(1, 20))
    words = [0, 80, 1, model.END, model.GAP, 0x80000050, 100000, 0x01000000]
    new = rng.randbytes(1) if what == "byte" else model.word(rng.choice(words))
    return data[:at] + new + data[at + len(new):]


def image_of(seed, has_trailers):
    """A mutated image; its set has an identifier of its own."""
    rng = random.Random(seed)
    items = tape_of(rng, f"S{seed % 100000:05}", has_trailers)
    for _ in range(rng.choice([0, 0, 1, 1, 2, 4])):
        mutate_items(rng, items or [model.MARK])
    data = bytearray()
    for kind, block in items:
        data += model.word(model.GAP) * (rng.random() < .02)
        pad, flag = rng.randbytes(1), (kind == "bad") << 31
        data += model.word(0) if kind == "mark" else model.encoded(block or b"?" * 80, pad, flag)
    data = bytes(data) + rng.choice([model.word(model.END), b""])
    for _ in range(rng.choice([1, 1, 2, 3]) if rng.random() < .15 else 0):
        data = with_wrong_word(rng, data)
    return mutate_bytes(rng, data) if rng.random() < .3 else data
