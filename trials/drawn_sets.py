"""Random sets in formats F, D, S, U and V, whole and damaged. For formats_model.py."""

import random

import tape_model as model

SET = b"ABC001"
NAMES = ["PAYROLL", "LEDGER", "SWAP.SYS", "DATA"]
LABELS = [b"EOF1", b"HDR1", b"VOL1", "VOL1".encode("cp037")]


def record(rng, least, most):
    """A record; some look like padding, counts or labels."""
    length = rng.randint(least, most)
    dice = rng.random()
    if dice < .6:
        return bytes(rng.choices(b"ABCDEFGHIJ 0123456789^\n", k=length))
    if dice < .7:
        return rng.choice([b"^", b"\0", b" ", b"0"]) * length
    if dice < .8:
        return rng.choice(LABELS).ljust(length)[:length]
    return rng.randbytes(length)


def segments(rng, content, room):
    """The segments of a record: each its span, W, F, M or L, and its bytes."""
    cut = [content[:room]]
    at = len(cut[0])
    while at < len(content):
        cut.append(content[at:at + rng.randint(1, room)])
        at += len(cut[-1])
    return list(zip("W" if len(cut) == 1 else "F" + "M" * (len(cut) - 2) + "L", cut))


def unit(letter, span, data):
    if letter == "D":
        return f"{len(data) + 4:04}".encode() + data
    if letter == "S":
        return f"{'WFML'.index(span)}{len(data) + 5:04}".encode() + data
    return (len(data) + 4).to_bytes(2, "big") + bytes(["WFLM".index(span), 0]) + data


def packed(rng, letter, length, records):
    """The blocks of some records in format D, S or V, without offset and padding."""
    head, begin = (5 if letter == "S" else 4), (4 if letter == "V" else 0)
    room = length - begin - head
    is_spanned = letter == "S" or (letter == "V" and rng.random() < .5)
    units, blocks, under_way = [], [], b""
    for content in records:
        cut = segments(rng, content, rng.randint(1, room)) if is_spanned else [("W", content)]
        units += [unit(letter, *each) for each in cut]
    for each in units:
        if under_way and (len(under_way + each) + begin > length or rng.random() < .1):
            blocks.append(under_way)
            under_way = b""
        under_way += each
    blocks += [under_way] if under_way else []
    return [described(rng, each) for each in blocks] if letter == "V" else blocks


def described(rng, units):
    """The units of format V after a block descriptor word, in one form or the other."""
    length = len(units) + 4
    if rng.random() < .8:
        return length.to_bytes(2, "big") + b"\0\0" + units
    return (length | 1 << 31).to_bytes(4, "big") + units


class File:
    """A file as it is written: its labels, records and blocks."""

    def __init__(self, rng, number):
        self.number, self.name = number, rng.choice(NAMES)
        self.day = rng.choice([" 85103", " 00000", "010123"])
        self.letter = rng.choice("FDSUVN")
        self.has_second, self.is_ambiguous = self.letter != "N", False
        self.letter = self.letter.replace("N", "U")
        self.length = rng.choice([40, 80, 300])
        self.record = rng.choice([1, 2, 7, 20, 40] if self.letter == "F" else [0, self.length])
        self.offset = rng.choice([0, 0, 0, 4, rng.randint(1, 99)]) * self.has_second
        least = {"F": self.record, "U": 1}.get(self.letter, 0)
        most = {"F": self.record, "U": self.length, "S": 3 * self.length, "D": self.length - 4}
        most = most.get(self.letter, self.length - 8)
        count = rng.choice([0, 1, rng.randint(1, 8), rng.randint(1, 30)])
        self.records = [record(rng, least, most) for _ in range(count)]
        self.blocks = [self.dressed(rng, each) for each in self.plain(rng)]
        if self.offset and self.letter != "V" and rng.random() < .1:
            self.blocks.insert(rng.randint(0, len(self.blocks)), rng.randbytes(self.offset))

    def plain(self, rng):
        """The blocks without offset and padding."""
        if self.letter == "U":
            return self.records
        if self.letter != "F":
            return packed(rng, self.letter, self.length, self.records)
        step = max(1, self.length // self.record)
        return [b"".join(self.records[at:at + step]) for at in range(0, len(self.records), step)]

    def dressed(self, rng, block):
        """A block with its offset and padding. Padding that may be a record is written rarely."""
        pad, room = rng.choice([b"", b"", b"^", b"\0", b" "]), 0
        if self.letter == "F":
            room = rng.randint(0, self.record - 1)
            if pad in (b"\0", b" ") and room and not block[-self.record:].strip(pad):
                room *= rng.random() < .1
                self.is_ambiguous |= room > 0
        if self.letter == "D" or (self.letter == "S" and pad == b"^"):
            room = rng.choice([1, 3, 20])
        return rng.randbytes(self.offset) + block + pad * room

    def first(self, kind, section, count):
        numbers = f"{section:04}{self.number:04}000100{self.day} 00000 {count:06}"
        return f"{kind}{self.name:17}{SET.decode()}{numbers}".ljust(80).encode()

    def second(self, kind, rng):
        block = " " * 5 if rng.random() < .1 else f"{self.length:05}"
        length = " " * 5 if rng.random() < .1 and self.letter != "F" else f"{self.record:05}"
        offset = "  " if not self.offset and rng.random() < .3 else f"{self.offset:02}"
        return ((kind + self.letter + block + length).ljust(50) + offset).ljust(80).encode()


class Tape:
    """The images of a set. `is_silent`: it is damaged so that this may not be noticed."""

    def __init__(self, seed):
        rng = self.rng = random.Random(seed)
        self.files = [File(rng, number) for number in range(1, rng.randint(1, 3) + 1)]
        has_all = all(each.has_second for each in self.files)
        self.has_trailers = rng.random() < (.8 if has_all else .2)
        self.is_silent, self.damage, self.volumes = False, [], []
        self.arrange()
        for _ in range(rng.choice([0, 0, 0, 1, 1, 2, 3])):
            self.harm()
        self.images = [self.image(items) for items in self.volumes]
        if self.damage and rng.random() < .3:
            self.harm_image()
        for _ in range(rng.choice([1, 1, 2, 3]) if rng.random() < .2 else 0):
            self.harm_word()

    def arrange(self):
        """The items of each volume: as in the model, with the role of each. The second volume
        begins with a file, or in a file, after a random number of blocks."""
        rng, total = self.rng, sum(len(each.blocks) for each in self.files)
        self.left = rng.randint(0, total) if rng.random() < .5 else -1
        self.begin()
        for file in self.files:
            if self.left == 0 and file.number > 1 and rng.random() < .5:
                self.begin()
            self.write(file)
        self.volumes[-1].append(("mark", None, "end"))

    def begin(self):
        """Begins a volume, the second one after the end of the first."""
        if self.volumes:
            self.volumes[-1].append(("mark", None, "end"))
            self.left = -1
        label = f"VOL1ABC00{len(self.volumes) + 1}".ljust(79).encode() + b"3"
        self.volumes.append([("block", label, "label")])
        if self.rng.random() < .2:
            further = self.rng.choice([b"UVL1", b"VOL2"]).ljust(80)
            self.volumes[-1].append(("block", further, "label"))

    def write(self, file):
        section, count = 1, 0
        self.head(file, section)
        for block in [*file.blocks, None]:
            if self.left == 0:
                self.close(file, section, count, "EOV")
                self.begin()
                section, count = section + 1, 0
                self.head(file, section)
            if block is not None:
                self.volumes[-1].append(("block", block, "data"))
                self.left, count = self.left - 1, count + 1
        self.close(file, section, count, "EOF")

    def head(self, file, section):
        items = [("block", file.first("HDR1", section, 0), "label")]
        items += [("block", file.second("HDR2", self.rng), "second")] * file.has_second
        if self.rng.random() < .3:
            items.append(("block", self.rng.choice([b"HDR3", b"UHL1"]).ljust(80), "label"))
        self.volumes[-1] += [*items, ("mark", None, "mark")]

    def close(self, file, section, count, kind):
        items = [("mark", None, "mark"), ("block", file.first(kind + "1", section, count), "label")]
        if self.has_trailers and file.has_second:
            items.append(("block", file.second(kind + "2", self.rng), "label"))
        self.volumes[-1] += [*items, ("mark", None, "mark")]

    def harm(self):
        """Damages an item."""
        rng = self.rng
        items = rng.choice(self.volumes)
        at = rng.randrange(len(items))
        what = rng.choice(["bad", "bad", "lost", "twice", "wrong"])
        kind, block, role = items[at]
        if what == "lost" or (what == "wrong" and not block):
            del items[at]
        elif what == "wrong":
            place = rng.randrange(len(block))
            byte = rng.choice([b"0", b"9", b"\0", b"^", rng.randbytes(1)])
            items[at] = (kind, block[:place] + byte + block[place + 1:], role)
        else:
            items[at:at + 1] = [("bad", block, role)] if what == "bad" else [items[at]] * 2
        self.damage.append(f"{what} {role}")
        self.is_silent |= what == "wrong" or (what != "bad" and role in ("data", "second"))

    def image(self, items):
        """The bytes of an image, with gaps."""
        rng, data = self.rng, bytearray()
        for kind, block, _ in items:
            data += model.word(model.GAP) * (rng.random() < .05)
            pad, flag = rng.randbytes(1), (kind == "bad") << 31
            data += model.word(0) if kind == "mark" else model.encoded(block or b"?", pad, flag)
        end = model.word(model.END)
        return bytes(data) + rng.choice([end, b"", end + b"anything"])

    def harm_image(self):
        """Truncates an image, or changes a byte of it anywhere."""
        rng = self.rng
        at = rng.randrange(len(self.images))
        data = self.images[at]
        place = rng.randrange(len(data))
        if rng.random() < .7:
            self.images[at] = data[:place]
        else:
            byte = rng.choice([b"\xff", b"\0", b"\x80", rng.randbytes(1)])
            self.images[at] = data[:place] + byte + data[place + 1:]
            self.is_silent = True
        self.damage.append("image")

    def harm_word(self):
        at = self.rng.randrange(len(self.images))
        self.images[at] = with_wrong_word(self.rng, self.images[at])
        self.damage.append("word")
        self.is_silent = True


def with_wrong_word(rng, data):
    """An image with a wrong word: it is changed or removed, or bytes around it are."""
    place = rng.choice(words_of(data))
    if rng.random() < .3:
        new = model.word(rng.choice([80, 7, 0x80000050, 0x10000002, 100_000]))
        return data[:place] + new + data[place + 4:]
    start, size = max(0, place - rng.choice([0, 0, 1, 40])), rng.choice([1, 2, 4, 4, 60, 400])
    new = rng.choice([b"", rng.randbytes(size), bytes(size), data[start:start + size] + b"?"])
    return data[:start] + new + data[start + size:]


def words_of(data):
    """The places of the words of an image, up to its end or a fault."""
    found, at, kind = [], 0, ""
    while kind in ("", "mark", "gap", "bad", "block"):
        kind, _, end = model.head_at(data, at)
        found += [at] if end <= at + 4 else [at, end - 4]
        at = end
    return found
