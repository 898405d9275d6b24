"""Sets of files on reels, made from docs/FORMATS.md alone, and what can be recovered from damaged copies. For shelf.py."""

import gzip
import random
from dataclasses import dataclass, field

from make_worked_image import block, label, word

NAMES = ["PAYROLL", "LEDGER", "A/B", "..", "NAME.TXT", "WITH SPACE", "STOCK_85", "X"]


@dataclass
class File:
    """A file of a set: its text, the fields of its labels, and the blocks of its records."""

    number: int
    name: str
    shape: tuple
    day: str
    text: bytes = b""
    blocks: list = field(default_factory=list)

    def first(self, kind, set_id, section, count):
        return label((kind, 4), (self.name, 17), (set_id, 6), (f"{section:04}{self.number:04}", 8), ("000100", 6),
            (self.day * 2, 12), ("", 1), (f"{count:06}", 6), ("DECFILE11A", 13), ("", 7))

    def second(self, kind):
        letter, length, record = self.shape
        return label((kind + letter, 5), (f"{length:05}{record:05}", 10), ("", 35), ("00", 2), ("", 28))


def packed(shape, records):
    """The blocks of some records, each as full as possible."""
    letter, length, record = shape
    made, under_way = [], b""
    for content in records:
        if letter == "F":
            units = [content.ljust(record)]
        elif letter == "D":
            units = [f"{len(content) + 4:04}".encode() + content]
        else:
            units, rest, is_first = [], content, True
            while rest is not None:
                room = length - len(under_way) - 5
                if room < 1:
                    made.append(under_way)
                    under_way, room = b"", length - 5
                piece, left = rest[:room], rest[room:]
                is_last = not left
                span = "0" if is_first and is_last else "1" if is_first else "3" if is_last else "2"
                under_way += f"{span}{len(piece) + 5:04}".encode() + piece
                rest, is_first = None if is_last else left, False
        for unit in units:
            if len(under_way) + len(unit) > length:
                made.append(under_way)
                under_way = b""
            under_way += unit
    return [it.ljust(18, b"^") if letter != "F" else it for it in made + [under_way] if it]


def file_of(rng, number, day):
    letter = rng.choice("FDS")
    length = rng.choice([80, 400, 2048])
    shape = (letter, length, {"F": 80 if length < 400 else 40, "D": length, "S": 0}[letter])
    records = []
    for _ in range(rng.randint(1, 60)):
        size = shape[2] if letter == "F" else rng.randint(0, length - 4 if letter == "D" else 3 * length)
        records.append(bytes(rng.choices(b"ABCDEFGHIJ 0123456789", k=size)))
    made = File(number, rng.choice(NAMES), shape, day)
    made.text = b"".join(record + b"\n" for record in records)
    made.blocks = packed(shape, records)
    return made


@dataclass
class Item:
    """An item of a volume: its encoding, and for data the file, the section and the number of the block."""

    spelling: bytes
    kind: str
    file: int = 0
    section: int = 0
    number: int = 0


def volumes_of(set_id, files, rng, prefix):
    """The volumes of a set, each a list of items. A volume ends inside a file if another volume follows."""
    volumes, items, left = [], [], 0

    def begin():
        nonlocal items, left
        name = f"{prefix}{len(volumes) + 1:02}"[:6]
        items = [Item(label(("VOL1", 4), (name, 6), ("", 69), ("4", 1)), "label")]
        left = rng.randint(3, 40)

    def head(file, section):
        items.extend([Item(file.first("HDR1", set_id, section, 0), "header", file.number, section),
            Item(file.second("HDR2"), "label"), Item(word(0), "mark")])

    def close(file, section, count, kind):
        items.extend([Item(word(0), "mark"), Item(file.first(kind + "1", set_id, section, count), "trailer", file.number, section),
            Item(file.second(kind + "2"), "label"), Item(word(0), "mark")])

    begin()
    for file in files:
        section, count = 1, 0
        head(file, section)
        for data in file.blocks:
            if left == 0:
                close(file, section, count, "EOV")
                volumes.append([*items, Item(word(0), "mark")])
                begin()
                section, count = section + 1, 0
                head(file, section)
            items.append(Item(block(data), "data", file.number, section, count))
            count, left = count + 1, left - 1
        close(file, section, count, "EOF")
    volumes.append([*items, Item(word(0), "mark")])
    return volumes


@dataclass
class Reel:
    """An image of a volume: its unreadable items, and its size in bytes."""

    name: str
    set_id: str
    items: list
    bad: set = field(default_factory=set)
    cut: int = -1
    lost: bool = False

    def image(self):
        made = b""
        for at, item in enumerate(self.items):
            spelling = bytearray(item.spelling)
            if at in self.bad:
                spelling[3] |= 0x80
                spelling[-1] |= 0x80
            made += bytes(spelling)
        return made + word(0xFFFFFFFF) if self.cut < 0 else made[:self.cut]

    def met(self):
        """The items of its reading, each with whether it was readable."""
        end = 0
        for at, item in enumerate(self.items):
            end += len(item.spelling)
            if 0 <= self.cut < end:
                return
            yield item, at not in self.bad


def sections_of(reel):
    """The part of each section with readable headers that is on the reel: its blocks, and its trailer if it was read."""
    found, section, is_lawful = {}, None, True
    for item, is_good in reel.met():
        if item.kind == "header":
            if not is_good:
                break
            section = found.setdefault((item.file, item.section), {"blocks": [], "trailer": None, "in_data": False})
        elif item.kind == "data":
            section["blocks"].append(is_good)
        elif item.kind == "trailer":
            section["trailer"] = item.spelling[4:7].decode()
        elif item.kind == "mark" and section is not None:
            section["in_data"] = True
    return {key: it for key, it in found.items() if it["in_data"]}


def headers_of(reel):
    """The files of which a header was read in the right position."""
    found = set()
    for item, is_good in reel.met():
        if item.kind == "header":
            if not is_good:
                break
            found.add(item.file)
    return found


def formed_on(reel):
    """The files of which a second header was read in the right position."""
    found, before = set(), None
    for item, is_good in reel.met():
        if before is not None and before.kind == "header":
            found.add(before.file)
        if item.kind == "header" and not is_good:
            break
        before = item
    return found


def wanted(file, reels):
    """None if the reels together have the complete file, otherwise the missing section and block, by positions and readings."""
    section, at = 1, 0
    known = [sections_of(reel) for reel in reels]
    while True:
        before = section, at
        for it in known:
            had = it.get((file, section))
            if had is None:
                continue
            while at < len(had["blocks"]) and had["blocks"][at]:
                at += 1
            if at == len(had["blocks"]) and had["trailer"]:
                if had["trailer"] == "EOF":
                    return None
                section, at = section + 1, 0
        if (section, at) == before:
            return before


def lacking(file, reels):
    """The first section of a file that is complete on no reel, or None."""
    section = 1
    while True:
        whole = [it for it in (sections_of(reel).get((file, section)) for reel in reels) if it and all(it["blocks"]) and it["trailer"]]
        if not whole:
            return section
        if whole[0]["trailer"] == "EOF":
            return None
        section += 1


def volume_of(reel):
    """The identifier in the volume label."""
    return reel.items[0].spelling[8:14].decode()


def listed_volumes(reels):
    """What a survey of these reels of a set, in this order, lists as its volumes: by the description in REFERENCE.md."""
    kept = {}
    for reel in reels:
        for key, it in sections_of(reel).items():
            is_good = all(it["blocks"]) and it["trailer"] is not None
            if key not in kept or is_good and not kept[key][2]:
                kept[key] = volume_of(reel), it["trailer"], is_good
    words, last, missing = [], None, False
    for file in range(1, max((key[0] for key in kept), default=0) + 1):
        before, trailer = 0, "EOV"
        for section in sorted(key[1] for key in kept if key[0] == file):
            missing |= section > before + 1
            volume, trailer, _ = kept[file, section]
            if volume != last:
                words += [after(last)] * missing + [volume]
            before, last, missing = section, volume, False
            if trailer == "EOF":
                break
        missing |= trailer == "EOV"
    return words + [after(last)] * missing


def after(volume):
    """A missing volume."""
    return "missing" if volume is None else f"missing (follows {volume})"


def truly_there(reels, is_there):
    """The volumes of a set of which each is whole or lost: runs of lost ones are one each. None if one is damaged."""
    volumes = {}
    for reel in reels:
        copies = volumes.setdefault(volume_of(reel), [])
        if is_there(reel):
            copies.append(reel)
    if any(reel.cut >= 0 or reel.bad for copies in volumes.values() for reel in copies):
        return None
    words, last, missing = [], None, False
    for volume in sorted(volumes):
        if volumes[volume]:
            words += [after(last)] * missing + [volume]
            last, missing = volume, False
        else:
            missing = True
    return words + [after(last)] * missing


def damaged(rng, reel, twin):
    """One or two images of a volume, each complete or damaged as reels are."""
    data = [at for at, item in enumerate(reel.items) if item.kind == "data"]
    size = sum(len(item.spelling) for item in reel.items)
    way = rng.choice(["whole", "copies", "cut", "cuts", "bad", "mended", "bad in both", "header", "lost", "lost"])
    if way in ("cut", "cuts"):
        reel.cut = rng.randint(1, size)
        twin.cut = rng.randint(1, size) if way == "cuts" else -1
    if way in ("bad", "mended", "bad in both") and data:
        reel.bad = {rng.choice(data)}
        twin.bad = set(reel.bad) if way == "bad in both" else {rng.choice(data)} if way == "mended" else set()
    if way == "header":
        reel.bad = {rng.choice([at for at, item in enumerate(reel.items) if item.kind == "header"])}
    reel.lost = way == "lost"
    return [reel] if way in ("whole", "lost") else [reel, twin]


def strangers(rng):
    """Reels that are not volumes of the sets, by name."""
    text = bytes(rng.choices(range(256), k=80))
    ebcdic = "VOL1IBM001".ljust(80).encode("cp037")
    first = File(1, "RT.DAT", ("F", 512, 512), " 85100").first("HDR1", "RT11A", 1, 0)
    no_second = [label(("VOL1", 4), ("RT11A", 6), ("", 69), ("3", 1)), first]
    return {
        "empty.tap": b"",
        "noise.tap": bytes(rng.choices(range(256), k=4000)),
        "unlabelled.tap": block(text) + block(text) + word(0) + word(0),
        "ebcdic.tap": block(ebcdic) + word(0),
        "rt11.tap": b"".join(no_second) + word(0) + block(b"x" * 512) + word(0) + word(0),
        "blank.tap": label(("VOL1", 4), ("BLANK1", 6), ("", 69), ("4", 1)) + word(0) + word(0) + word(0xFFFFFFFF),
        "packed.tap.gz": gzip.compress(text, mtime=0),
    }


@dataclass
class ImageSource:
    """All reels, the files of each set, and the images that belong to none of the sets."""

    reels: list
    files: dict
    mixed: str
    others: dict


def make_shelf(seed, sets):
    rng = random.Random(seed)
    reels, files = [], {}
    for number in range(1, sets + 1):
        set_id = f"SET{number:03}"
        files[set_id] = [file_of(rng, at, f" 85{rng.randint(1, 365):03}") for at in range(1, rng.randint(1, 4) + 1)]
        for at, items in enumerate(volumes_of(set_id, files[set_id], rng, f"V{number:03}"), 1):
            names = [f"reel {number} {at}{copy}.tap" for copy in ("", " again")]
            reels += damaged(rng, *[Reel(name, set_id, items) for name in names])
    # Two weekly backups with the same identifier.
    for week in (100, 107):
        made = [file_of(rng, 1, f" 85{week}")]
        made[0].name = "WEEKLY.BCK"
        files["BCK001"] = made
        for at, items in enumerate(volumes_of("BCK001", made, rng, "BCK0"), 1):
            reels.append(Reel(f"week {week} {at}.tap", "BCK001", items))
    rng.shuffle(reels)
    return ImageSource(reels, files, "BCK001", strangers(rng))
