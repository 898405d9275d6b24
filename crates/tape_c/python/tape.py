"""Reads images of labelled magnetic tapes (SIMH .tap files), by the C library of `tape`.

    import tape
    with tape.Image("reel.tap") as image:
        for item in image:
            print(item.place, item.kind.name, item.label or item.length)
    for file in tape.survey(["a.tap", "b.tap"]).files:
        print(file.set, file.file, file.state)

The library is libtape_c.so beside this file, or the file that the variable TAPE_LIBRARY of the
environment names. Needs Python 3.8.
"""
import ctypes as c
import enum
import mmap
import os
from dataclasses import dataclass, field, make_dataclass
from pathlib import Path

__all__ = ["Image", "ImageError", "Item", "Kind", "FirstLabel", "LabelError", "SecondLabel",
           "Survey", "TapeError", "VolumeLabel", "label", "survey"]

ALL, NO_MEMORY, FULL, MISSING = 0, 6, 7, 8
TEXTS = {
    1: "the image is truncated", 2: "the lengths before and after a block differ",
    3: "a length word has an unassigned value", 4: "the image is too long", 5: "reading failed",
}
BATCH = 4096


class _Item(c.Structure):
    _fields_ = [("place", c.c_uint64), ("length", c.c_uint32), ("kind", c.c_uint32)]


class _End(c.Structure):
    _fields_ = [("count", c.c_size_t), ("needed", c.c_size_t), ("place", c.c_uint64),
                ("state", c.c_uint32)]


class _Label(c.Structure):
    _fields_ = [(name, c.c_uint32) for name in (
        "kind fault position section sequence blocks "
        "format block_length record_length offset").split()]


class _Image(c.Structure):
    _fields_ = [("bytes", c.c_void_p), ("length", c.c_size_t)]


def _load():
    beside = Path(__file__).resolve().with_name("libtape_c.so")
    lib = c.CDLL(os.environ.get("TAPE_LIBRARY") or str(beside))
    for name, arguments, result in (
        ("tape_items", [c.c_void_p, c.c_size_t, c.POINTER(_Item), c.c_size_t], _End),
        ("tape_label", [c.c_char_p, c.c_size_t], _Label),
        ("tape_list", [c.c_void_p, c.c_size_t, c.c_char_p, c.c_size_t], _End),
        ("tape_survey", [c.POINTER(_Image), c.c_size_t, c.c_char_p, c.c_size_t], _End),
    ):
        call = getattr(lib, name)
        call.argtypes, call.restype = arguments, result
    return lib


_lib = _load()


class TapeError(Exception):
    """An error of this module."""


class ImageError(TapeError):
    """An image cannot be read on: `number` is that of the image fault, `place` its offset."""

    def __init__(self, number, place):
        super().__init__(f"{TEXTS[number]}, at byte {place}")
        self.number, self.place = number, place


class LabelError(TapeError):
    """A block that begins as a label cannot be read: `number` is that of the label fault, and
    `position` where its number begins, counted from 1, or 0."""

    def __init__(self, number, position):
        super().__init__(f"label fault {number}" + (f" at position {position}" if position else ""))
        self.number, self.position = number, position


@dataclass(frozen=True)
class VolumeLabel:
    """VOL1."""
    kind: str
    volume: str
    owner: str


@dataclass(frozen=True)
class FirstLabel:
    """HDR1, EOF1 or EOV1; the dates are the six characters of the label."""
    kind: str
    file: str
    set: str
    section: int
    sequence: int
    created: str
    expires: str
    system: str
    blocks: int


@dataclass(frozen=True)
class SecondLabel:
    """HDR2, EOF2 or EOV2."""
    kind: str
    format: str
    block_length: int
    record_length: int
    offset: int


def label(block):
    """Returns the label in a block of bytes, or None if it is no label. Raises LabelError."""
    block = bytes(block)
    found = _lib.tape_label(block, len(block))
    if not found.kind:
        return None
    if found.fault:
        raise LabelError(found.fault, found.position)
    text = block.decode("latin-1")
    kind = text[:4]
    if kind == "VOL1":
        return VolumeLabel(kind, text[4:10].rstrip(), text[37:51].rstrip())
    if kind[3] == "2":
        return SecondLabel(kind, chr(found.format), found.block_length, found.record_length,
                           found.offset)
    return FirstLabel(kind, text[4:21].rstrip(), text[21:27].rstrip(), found.section,
                      found.sequence, text[41:47], text[47:53], text[60:73].rstrip(), found.blocks)


class Kind(enum.IntEnum):
    """The kinds of items."""
    BLOCK = 1
    BAD = 2
    MARK = 3


@dataclass(frozen=True)
class Item:
    """An item of an image: its number from 1, kind, offset, and number of bytes."""
    number: int
    kind: Kind
    place: int
    length: int
    _image: "Image" = field(repr=False, compare=False)

    @property
    def data(self):
        """The bytes of a block, also those that were read of a bad one; empty for a tape mark."""
        return self._image.read(self.place + 4, self.length)

    @property
    def label(self):
        """The label in a block, or None if it is none, or cannot be read."""
        try:
            return label(self.data) if self.kind is Kind.BLOCK and self.length == 80 else None
        except LabelError:
            return None


class Image:
    """An image: a file that is mapped to memory, by its path (a str or os.PathLike), or bytes.
    Iterating gives its items, and then raises ImageError if the image has a fault."""

    def __init__(self, source):
        self._bytes, self._at, self.length = source, None, 0
        if isinstance(source, (str, os.PathLike)):
            with open(source, "rb") as file:
                # A copy on write: ctypes takes addresses of writable memory only.
                empty = os.fstat(file.fileno()).st_size == 0
                self._bytes = b"" if empty else mmap.mmap(file.fileno(), 0, access=mmap.ACCESS_COPY)
        elif not isinstance(source, bytes):
            self._bytes = bytes(source)
        self.length = len(self._bytes)
        if isinstance(self._bytes, bytes):
            self._at = c.cast(c.c_char_p(self._bytes), c.c_void_p).value
        else:
            self._at = c.addressof(c.c_char.from_buffer(self._bytes))

    def __enter__(self):
        return self

    def __exit__(self, *_):
        self.close()

    def close(self):
        """Unmaps the file. The image cannot be used any more."""
        if isinstance(self._bytes, mmap.mmap):
            self._bytes.close()
        self._at = None

    def _address(self):
        if self._at is None:
            raise ValueError("the image is closed")
        return self._at

    def read(self, place, length):
        """Returns bytes of the image."""
        self._address()
        return self._bytes[place:place + length]

    def __iter__(self):
        table, at, number = (_Item * BATCH)(), 0, 0
        while True:
            end = _lib.tape_items(self._address() + at, self.length - at, table, BATCH)
            if end.state == NO_MEMORY:
                raise MemoryError
            batch = [(Kind(it.kind), at + it.place, it.length) for it in table[:end.count]]
            for kind, place, length in batch:
                number += 1
                yield Item(number, kind, place, length, self)
            if end.state == ALL:
                return
            if end.state != FULL:
                raise ImageError(end.state, at + end.place)
            at += end.place

    def lines(self):
        """Yields the lines that `tape list` prints, and then raises ImageError if the image has a
        fault."""
        text, end = _text(lambda out, room: _lib.tape_list(self._address(), self.length, out, room))
        yield from text.splitlines()
        if end.state != ALL:
            raise ImageError(end.state, end.place)


def _text(call):
    """Calls with a buffer of the size needed, and returns the text and the end of the call."""
    room = 1 << 16
    while True:
        out = c.create_string_buffer(room)
        end = call(out, room)
        if end.state == NO_MEMORY:
            raise MemoryError
        if end.state != FULL:
            return out.raw[:end.count].decode("ascii"), end
        room = end.needed


def _row(name, page, columns):
    """A class for rows of this form: its columns are texts, and further ones are dropped."""
    names = columns.split()
    kind = make_dataclass(name, [(it, str) for it in names], namespace={"__doc__": page},
                          frozen=True)
    return lambda cells: kind(*cells[:len(names)])


ROWS = {
    "IMAGE": _row("ImageRow", "An image; its name is its number in the call, from 1.",
                  "name state volume set system items sections bad end owner description"),
    "SECTION": _row("SectionRow", "A section that was found.",
                    "set file section volume blocks state eof"),
    "FILE": _row("FileRow", "A file, or a run of numbers of which no label was found.",
                 "set file identifier created state section volume conflict damaged "
                 "format block_length record_length"),
    "COPIES": _row("CopiesRow", "The complete copies of a section.",
                   "set file section agree first differs state"),
}


@dataclass(frozen=True)
class Survey:
    """What is on some images: rows with texts as columns, as REFERENCE.md describes them, and
    whether nothing is missing, damaged or in conflict."""
    complete: bool
    text: str

    def rows(self, word):
        """The rows that begin with this word."""
        cells = (line.split("\t") for line in self.text.splitlines())
        return [ROWS[word](it[1:]) for it in cells if it[0] == word]

    images = property(lambda self: self.rows("IMAGE"))
    sections = property(lambda self: self.rows("SECTION"))
    files = property(lambda self: self.rows("FILE"))
    copies = property(lambda self: self.rows("COPIES"))


def survey(images):
    """Surveys SIMH images as they are, without the rules of the normal form: each is a path,
    bytes or an Image."""
    images = [it if isinstance(it, Image) else Image(it) for it in images]
    table = (_Image * len(images))(*((it._address(), it.length) for it in images))
    text, end = _text(lambda out, room: _lib.tape_survey(table, len(images), out, room))
    return Survey(end.state == ALL, text)
