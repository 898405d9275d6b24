#!/usr/bin/env python3
"""Images that show that a premise of the promises is broken: COMPLETE must not be said of a wrong file.

    trials/premises.py [--program PROGRAM]

The images are made here from docs/FORMATS.md alone, so the trial knows which records are the file.
Each scene of SCENES is a list of calls in a directory of its own, which has all images and an empty
directory `u`:

    ## TITLE          begins a scene
    N ARGUMENTS       a call, and its exit status
    > LINE            a line of its output;  ! TEXT  a text on standard error;  ~ TEXT  it is not there
    = FILE RECORDS    FILE has exactly these records;  - FILE  there is no such file
    ? FILE RECORDS    it has these records, or there is no such file
    not yet REASON    the program is still wrong in this scene, and why

Prints each wrong result, and what is wrong in each scene with the words 'not yet', which are counted
apart. Exit status 1 if a result is wrong in another scene, or if none is in one of these.
"""
import subprocess
import sys

from common import Results, arguments, folder_with
from make_worked_image import block, label, word

MARK, END = word(0), word(0xFFFFFFFF)
RECORD = 80


def first_label(kind, name, sect, date, count=0):
    return label((kind, 4), (name, 17), ("ABC001", 6), (f"{sect:04}", 4), ("0001", 4), ("0001", 4), ("00", 2),
                 (date, 6), (" 00000", 6), ("", 1), (f"{count:06}", 6), ("", 13), ("", 7))


def second_label(kind, size, record=RECORD):
    return label((kind, 4), ("F", 1), (f"{size:05}", 5), (f"{record:05}", 5), ("", 35), ("00", 2), ("", 28))


def text(records):
    return [record.ljust(RECORD).encode() for record in records]


def blocks_of(records, size):
    data = b"".join(text(records))
    return [data[at:at + size] for at in range(0, len(data), size)]


def unreadable(data):
    lead = word(0x80000000 | len(data))
    return lead + data + lead


def image(name, blocks, size=800, sect=1, date=" 00000", end="EOF", closing=None, bad=(), lost=(), cut=None,
          spoilt=(), count=None, record=RECORD):
    """A volume with one section, of which the blocks `bad` and the items `spoilt` are unreadable: VOL1 is item 0, the
    first mark is 3. The first mark is lost, or the second, if `lost` has 1 or 2. If `cut` is a number, the image ends
    after so many of the items after HDR2. The trailer label counts `count` blocks instead of the right number."""
    items = [] if 1 in lost else [MARK]
    items += [unreadable(data) if at in bad else block(data) for at, data in enumerate(blocks)]
    items += [] if 2 in lost else [MARK]
    other, day = closing or (name, date)
    count = len(blocks) if count is None else count
    items += [first_label(f"{end}1", other, sect, day, count), second_label(f"{end}2", size, record), MARK, MARK + END]
    volume = label(("VOL1", 4), (f"ABC00{sect}", 6), ("", 69), ("4", 1))
    items = [volume, first_label("HDR1", name, sect, date), second_label("HDR2", size, record), *items[:cut]]
    return b"".join(unreadable(b"??") if at in spoilt else item for at, item in enumerate(items))


CARDS = [f"CARD {number}" for number in range(1, 4)]
FORTY = [f"{number:04}" for number in range(1, 41)]
WEEKS = [[f"WEEK {week} {number:04}" for number in range(1, 41)] for week in (1, 2)]
RECORDS = {"cards": CARDS, "forty": FORTY, "week1": WEEKS[0], "week2": WEEKS[1], "first-twenty": FORTY[:20],
           "week1-gap": WEEKS[0][:10] + WEEKS[0][20:]}

THREE, FOUR = blocks_of(CARDS, 80), blocks_of(FORTY, 800)
ONE, TWO = (blocks_of(week, 800) for week in WEEKS)
SIX = blocks_of(FORTY + WEEKS[0][:20], 800)
DUP, SKIP = [FOUR[0], FOUR[0], FOUR[1]], [FOUR[0], FOUR[2]]
IMAGES = {
    "good": image("CARDS", THREE, 80),
    # A mark is lost: the trailer labels are read as data.
    "lost": image("CARDS", THREE, 80, lost=[1]),
    "lostcut": image("CARDS", THREE, 80, lost=[1], cut=6),
    "lost2": image("CARDS", THREE, 80, lost=[2]),
    "lost2cut": image("CARDS", THREE, 80, lost=[2], cut=6),
    # The same mark is lost, and EOF1 unreadable; other copies.
    "losteof": image("CARDS", THREE, 80, lost=[1], spoilt=[7]),
    "no1": image("CARDS", THREE, 80, bad=[1]),
    "no01": image("CARDS", THREE, 80, bad=[0, 1]),
    # One file in blocks of 400, truncated, and in blocks of 800.
    "x": image("CARDS", blocks_of(FORTY, 400), 400, cut=3),
    "y": image("CARDS", FOUR),
    # Two sets of one identifier, each truncated or with an unreadable block.
    "w1": image("CARDS", ONE, date=" 85010", cut=3),
    "w2": image("CARDS", TWO, date=" 85017"),
    "w1b": image("CARDS", ONE, date=" 85010", bad=[2]),
    "w2b": image("CARDS", TWO, date=" 85017", bad=[0]),
    # A copy with a block twice, or without one, and damaged after that; other copies.
    "dup": image("CARDS", DUP, cut=4),
    "skip": image("CARDS", SKIP, cut=3),
    "first-bad": image("CARDS", FOUR, bad=[0]),
    "last-bad": image("CARDS", FOUR, bad=[3]),
    "third-bad": image("CARDS", FOUR, bad=[2]),
    # A copy with a block less than its trailer label counts.
    "count": image("CARDS", FOUR).replace(block(FOUR[1]), b""),
    # A file on two volumes, and its second section truncated and in other blocks.
    "s1": image("CARDS", FOUR[:2], end="EOV"),
    "s2": image("CARDS", FOUR[2:], sect=2),
    "s2cut": image("CARDS", blocks_of(FORTY[20:], 400), 400, sect=2, cut=3),
    # The same with another date in section 2, and section 2 of another week.
    "m1": image("BACKUP", FOUR[:2], date=" 85010", end="EOV"),
    "m2": image("BACKUP", FOUR[2:], date=" 85011", sect=2),
    "m2other": image("BACKUP", ONE[2:], date=" 85018", sect=2, cut=2),
    # The sections of two files under one number.
    "p1": image("PAYROLL", FOUR[:1], end="EOV"),
    "p2": image("STOCK", ONE[:1], sect=2),
    # A trailer label of another file: the end of an older recording.
    "over": image("TUE.BCK", FOUR[:2], date=" 85142", closing=("MON.BCK", " 85141")),
    # Unreadable labels and marks: HDR1, HDR2, both second labels, or the first mark and EOF1.
    "nohdr1": image("CARDS", FOUR, spoilt=[1]),
    "noform": image("CARDS", FOUR, spoilt=[2, 10]),
    "nomark": image("CARDS", FOUR, spoilt=[3, 9]),
    "second-bad": image("CARDS", FOUR, bad=[1]),
    # Records of another length, in unreadable blocks.
    "half": image("CARDS", FOUR, bad=[1, 2], record=40),
    # Two recordings with the same labels, and with unreadable blocks or without HDR2.
    "mon-1": image("CARDS", ONE, bad=[1]),
    "mon-2": image("CARDS", ONE, bad=[2]),
    "sun-0": image("CARDS", TWO, bad=[0]),
    "sun-01": image("CARDS", TWO, bad=[0, 1]),
    "sun-2": image("CARDS", TWO, bad=[2]),
    "mon-hdr2": image("CARDS", ONE, spoilt=[2]),
    "sun-hdr2": image("CARDS", TWO, spoilt=[2]),
    "six-5": image("CARDS", SIX, bad=[5]),
    "six-hdr2": image("CARDS", SIX, spoilt=[2]),
    # Block 1 twice, and then an unreadable one: five items, of which the trailer label counts four. The same number
    # of blocks as there are, and no count at all.
    "twice": image("CARDS", [*FOUR[:2], *FOUR[1:]], bad=[3], count=4),
    "nocount": image("CARDS", FOUR, bad=[2], count=0),
    # A second section that lost its first block and was truncated, and one with an unreadable block.
    "s2lost": image("CARDS", SIX[1:4], sect=2, cut=4),
    "s2bad": image("CARDS", SIX, sect=2, bad=[2]),
    # The file ends with its first section.
    "ends": image("CARDS", FOUR[:2]),
    # A truncated copy, the second recording, complete, and files of two sets on one volume.
    "cut": image("CARDS", FOUR, cut=3),
    "sun": image("CARDS", TWO),
    "sets": image("CARDS", THREE, 80)[:-8] + image("OTHER", FOUR)[88:].replace(b"ABC001", b"XYZ002"),
    # HDR2 is lost, and then EOF2 too.
    "nohead2": image("CARDS", FOUR).replace(second_label("HDR2", 800), b""),
    "no2": image("CARDS", FOUR).replace(second_label("HDR2", 800), b"").replace(second_label("EOF2", 800), b""),
}

DIFFERS = "tape: warning: image {} differs from the data recovered before it"
SCENES = f"""
## unpack: a lost mark, then a good copy alone
3 unpack u lost.tap
> FILE ABC001 1 AWAITS 1 1 0 u/ABC001.1.CARDS.stage
0 unpack u good.tap
> FILE ABC001 1 COMPLETE 3 u/ABC001.1.CARDS
= u/ABC001.1.CARDS cards
- u/ABC001.1.CARDS.stage
## unpack: a lost mark, then a good copy with it
3 unpack u lost.tap
3 unpack u lost.tap good.tap
> FILE ABC001 1 COMPLETE 3 u/ABC001.1.CARDS
> INCOMPLETE IMAGE lost.tap
= u/ABC001.1.CARDS cards
## unpack: a lost mark on a truncated image
3 unpack u lostcut.tap
0 unpack u good.tap
> FILE ABC001 1 COMPLETE 3 u/ABC001.1.CARDS
- u/ABC001.1.CARDS.stage
= u/ABC001.1.CARDS cards
## unpack: blocks of 400, truncated, then blocks of 800
3 unpack u x.tap
0 unpack u y.tap
> FILE ABC001 1 COMPLETE 40 u/ABC001.1.CARDS
= u/ABC001.1.CARDS forty
- u/ABC001.1.CARDS.stage
## unpack: blocks of 400 and of 800
3 unpack u x.tap
3 unpack u x.tap y.tap
> FILE ABC001 1 CONFLICT
> INCOMPLETE IMAGE x.tap
- u/ABC001.1.CARDS
0 unpack u y.tap
> FILE ABC001 1 COMPLETE 40 u/ABC001.1.CARDS
= u/ABC001.1.CARDS forty
## unpack: one set, then another one of the same identifier
3 unpack u w1.tap
0 unpack u w2.tap
> FILE ABC001 1 COMPLETE 40 u/ABC001.1.CARDS
> FILE ABC001 1 STAGE KEPT u/ABC001.1.CARDS.stage
= u/ABC001.1.CARDS week2
## unpack: two sets of one identifier
3 unpack u w1.tap
3 unpack u w1.tap w2.tap
> FILE ABC001 1 CONFLICT
- u/ABC001.1.CARDS
## unpack: two sets of one identifier, neither of them complete
3 unpack u w1b.tap w2b.tap
> FILE ABC001 1 CONFLICT
- u/ABC001.1.CARDS
- u/ABC001.1.CARDS.stage
## unpack: a file that two copies gave, and another image that contradicts them
0 unpack u mon-1.tap mon-2.tap
3 unpack u mon-1.tap mon-2.tap sun-0.tap
> FILE ABC001 1 CONFLICT
= u/ABC001.1.CARDS week1
## unpack: a doubled block in a truncated copy, then a good copy
3 unpack u dup.tap
0 unpack u y.tap
> FILE ABC001 1 STAGE KEPT u/ABC001.1.CARDS.stage
= u/ABC001.1.CARDS forty
## unpack: a lost block in a truncated copy, then a good copy
3 unpack u skip.tap
0 unpack u y.tap
> FILE ABC001 1 STAGE KEPT u/ABC001.1.CARDS.stage
= u/ABC001.1.CARDS forty
## unpack: a lost block, a damaged copy, then a good copy
3 unpack u skip.tap
3 unpack u last-bad.tap
- u/ABC001.1.CARDS
0 unpack u y.tap
= u/ABC001.1.CARDS forty
## unpack: a truncated second section, then the whole one
3 unpack u s1.tap s2cut.tap
0 unpack u s1.tap s2.tap
= u/ABC001.1.CARDS forty
- u/ABC001.1.CARDS.stage
## unpack: a doubled block, then a copy without block 0
3 unpack u dup.tap
3 unpack u first-bad.tap
> FILE ABC001 1 SECTION DIFFERS first-bad.tap
? u/ABC001.1.CARDS forty
## survey and unpack: a trailer label of another file
3 survey over.tap
>   ABC001 file 1 TUE.BCK: labels of different files, on over.tap
3 unpack u over.tap
> FILE ABC001 1 CONFLICT
- u/ABC001.1.TUE.BCK
## a lost HDR2: the trailer label says that there was one
3 survey nohead2.tap
>   ABC001 file 1 CARDS: HDR2 is lost on each image (nohead2.tap)
3 unpack u nohead2.tap --list
> FILE ABC001 1 LACKS 1 u/ABC001.1.CARDS.stage
0 unpack u nohead2.tap
> FILE ABC001 1 COMPLETE 40 u/ABC001.1.CARDS
= u/ABC001.1.CARDS forty
0 unpack u nohead2.tap
> FILE ABC001 1 EXISTS u/ABC001.1.CARDS
3 extract ABC001 1 out nohead2.tap --again
- out
0 salvage ABC001 1 out2 nohead2.tap
= out2 forty
## a lost HDR2: another image has it
0 unpack u nohead2.tap y.tap
= u/ABC001.1.CARDS forty
## a lost HDR2 and EOF2: another image has them
3 survey no2.tap y.tap
>   ABC001 file 1 CARDS: HDR2 is lost on an image, and was found on another
0 unpack u no2.tap y.tap
= u/ABC001.1.CARDS forty
0 extract ABC001 1 out no2.tap y.tap --again
= out forty
## a valid set whose second section has another date
0 survey m1.tap m2.tap
0 check m1.tap m2.tap
0 unpack u m1.tap m2.tap
> FILE ABC001 1 COMPLETE 40 u/ABC001.1.BACKUP
= u/ABC001.1.BACKUP forty
0 extract ABC001 1 out m2.tap m1.tap --again
= out forty
## two second sections of different dates, and one first section
3 survey m1.tap m2.tap m2other.tap
3 unpack u m1.tap m2.tap m2other.tap
> FILE ABC001 1 CONFLICT
- u/ABC001.1.BACKUP
1 extract ABC001 1 out m1.tap m2.tap m2other.tap --again --explain
! tape: set fault 1
! Image: m2.tap
! Image: m2other.tap
- out
## extract --again: two sets of one identifier
1 extract ABC001 1 out w1.tap w2.tap --again --explain
! tape: set fault 1
! Image: w1.tap
! Image: w2.tap
- out
1 extract ABC001 1 out w1b.tap w2b.tap --again --stage st
! tape: set fault 1
- out
- st
## extract --again: the sections of two files under one number
1 extract ABC001 1 out p1.tap p2.tap --again
! tape: set fault 1
- out
## extract --again: images in one call from nothing
0 extract ABC001 1 out lost.tap good.tap --again
= out cards
0 extract ABC001 1 out2 lostcut.tap good.tap --again
= out2 cards
0 extract ABC001 1 out3 lost2.tap good.tap --again
= out3 cards
1 extract ABC001 1 out4 x.tap y.tap --again
- out4
0 extract ABC001 1 out4 y.tap --again
= out4 forty
0 extract ABC001 1 out5 dup.tap skip.tap y.tap --again
= out5 forty
0 extract ABC001 1 out6 first-bad.tap last-bad.tap --again
= out6 forty
## extract --again: the data of a reel with a wrong count is dropped, without a stage and with one
0 extract ABC001 1 out third-bad.tap first-bad.tap count.tap --again
> REEL 1 BLOCK COUNT 4 3
> REEL 2 BAD ITEM
> REEL 3 COMPLETE
= out forty
0 extract ABC001 1 out2 third-bad.tap first-bad.tap count.tap --again --stage st
= out2 forty
## extract --again: no trailer label ends the blocks of a copy
3 extract ABC001 1 out lost2.tap --again --stage st
> REEL 1 REEL ENDED
> AWAITS 1 1 0
0 extract ABC001 1 out good.tap --again --stage st
= out cards
3 extract ABC001 1 out2 lost2.tap --again
> AWAITS 1 1 0
## extract --again: a stage of blocks of 400, then blocks of 800
3 extract ABC001 1 out x.tap --again --stage st
3 extract ABC001 1 out y.tap --again --stage st
> REEL 1 SECTION DIFFERS
> AWAITS 1 1 2
- out
## extract --again: a stage of a copy with a doubled block
3 extract ABC001 1 out dup.tap --again --stage st
3 extract ABC001 1 out y.tap --again --stage st
- out
## extract --again: a stage of a copy with a lost block
3 extract ABC001 1 out skip.tap --again --stage st
3 extract ABC001 1 out last-bad.tap first-bad.tap --again --stage st
- out
## extract --again: a stage of another set
3 extract ABC001 1 out w1.tap --again --stage st
3 extract ABC001 1 out w2.tap --again --stage st
- out
## extract --again: a stage of a second section in other blocks
3 extract ABC001 1 out s1.tap s2cut.tap --again --stage st
3 extract ABC001 1 out s2.tap --again --stage st
- out
## extract --again: no copy is complete, and one has a doubled block
1 extract ABC001 1 out first-bad.tap dup.tap --again
! tape: set fault 1
- out
## extract --again: a trailer label of another file
1 extract ABC001 1 out over.tap --again
! tape: set fault 1
- out
## extract: a lost mark, then a good copy
0 extract ABC001 1 out lost.tap good.tap
> REEL 1 BAD LABEL 2
> REEL 2 COMPLETE
! {DIFFERS.format(2)}
## extract: two sets of one identifier
0 extract ABC001 1 out w1.tap w2.tap
! {DIFFERS.format(2)}
## extract: a stage of a copy with a doubled block
3 extract ABC001 1 out dup.tap --stage st
0 extract ABC001 1 out y.tap --stage st
! {DIFFERS.format(1)}
## extract: a trailer label of another file, which valid sets may have
0 extract ABC001 1 out over.tap --stage st
~ warning
## extract: no trailer label ends the blocks of a copy
3 extract ABC001 1 out lost2.tap --stage st
> REEL 1 BAD LABEL 2
> AWAITS 1 1 5
3 extract ABC001 1 out good.tap --stage st
> REEL 1 SECTION DIFFERS
## extract: no warning over copies
3 extract ABC001 1 out first-bad.tap third-bad.tap --stage st
~ warning
0 extract ABC001 1 out last-bad.tap y.tap --stage st
~ warning
0 extract ABC001 1 out2 third-bad.tap first-bad.tap last-bad.tap y.tap
~ warning
## salvage: the sections of two files under one number
3 salvage ABC001 1 out p1.tap p2.tap
> LABELS DIFFER 2 2 1
> SALVAGED 20
## salvage: trailer labels in the place of data
3 salvage ABC001 1 out lost2.tap
> GAP 1 3 - 3
> UNSURE 1 3 4
= out cards
3 salvage ABC001 1 out2 lost.tap
> GAP 1 0 - 0
> UNSURE 1 0 1
## salvage: copies of one section in other blocks, and of two sets
0 salvage ABC001 1 out x.tap y.tap
= out forty
3 salvage ABC001 1 out2 w1.tap w2.tap
> CONFLICT 1 2 1
= out2 week2
## salvage: a trailer label of another file
3 salvage ABC001 1 out over.tap
> LABELS DIFFER 1 1 1
> SALVAGED 20
## salvage: a first section of one set, and a second section of another
3 salvage ABC001 1 out m1.tap m2.tap m2other.tap
> CONFLICT 2 2 3
0 salvage ABC001 1 out2 m1.tap m2.tap
= out2 forty
## salvage and unpack: EOF2 after an unreadable mark is no block
3 salvage ABC001 1 out second-bad.tap nomark.tap
> GAP 1 1 1 10
> SALVAGED 30
3 salvage ABC001 1 out2 nomark.tap second-bad.tap
> GAP 1 1 1 10
> SALVAGED 30
3 unpack u second-bad.tap nomark.tap
> FILE ABC001 1 AWAITS 1 1 1 u/ABC001.1.CARDS.stage
- u/ABC001.1.CARDS
## salvage: a copy after whose unreadable mark no block is certain contradicts no other one
0 salvage ABC001 1 out second-bad.tap third-bad.tap nomark.tap
> FILLED 1 2 1 1
> COMPLETE 40
= out forty
## salvage: unreadable labels contradict no other copy
0 salvage ABC001 1 out y.tap nohdr1.tap noform.tap
> COMPLETE 40
= out forty
0 salvage ABC001 1 out2 nohdr1.tap noform.tap y.tap
= out2 forty
## unpack, extract --again: two recordings of which each has the block that the other lacks
3 unpack u mon-1.tap sun-0.tap
> FILE ABC001 1 CONFLICT
3 unpack u sun-0.tap mon-1.tap
> FILE ABC001 1 CONFLICT
- u/ABC001.1.CARDS
1 extract ABC001 1 out mon-1.tap sun-0.tap --again
! tape: set fault 1
1 extract ABC001 1 out sun-0.tap mon-1.tap --again
! tape: set fault 1
- out
3 salvage ABC001 1 out2 mon-1.tap sun-0.tap
> CONFLICT 1 1 2
## unpack: the same on two days, and with a whole copy without HDR2
3 unpack u mon-1.tap
3 unpack u mon-1.tap sun-0.tap
> FILE ABC001 1 CONFLICT
3 unpack u mon-1.tap sun-0.tap mon-hdr2.tap
> FILE ABC001 1 CONFLICT
- u/ABC001.1.CARDS
## unpack: three copies of two recordings, in two orders
3 unpack u sun-2.tap sun-01.tap mon-2.tap
> FILE ABC001 1 CONFLICT
3 unpack u sun-01.tap mon-2.tap sun-2.tap
> FILE ABC001 1 CONFLICT
- u/ABC001.1.CARDS
## unpack, extract --again: a doubled block, an unreadable one, and a count that shows it
3 unpack u third-bad.tap twice.tap
> FILE ABC001 1 AWAITS 1 1 2 u/ABC001.1.CARDS.stage
> FILE ABC001 1 SECTION DIFFERS twice.tap
3 unpack u twice.tap third-bad.tap
> FILE ABC001 1 AWAITS 1 1 2 u/ABC001.1.CARDS.stage
3 extract ABC001 1 out third-bad.tap twice.tap --again
> AWAITS 1 1 2
3 extract ABC001 1 out twice.tap third-bad.tap --again
> AWAITS 1 1 2
- out
## unpack: a trailer label that counts no blocks says nothing against them
3 unpack u nocount.tap
> FILE ABC001 1 AWAITS 1 1 2 u/ABC001.1.CARDS.stage
0 unpack u y.tap
= u/ABC001.1.CARDS forty
- u/ABC001.1.CARDS.stage
## salvage, unpack: recordings without HDR2, all of whose blocks are readable
3 salvage ABC001 1 out mon-hdr2.tap sun-hdr2.tap
> CONFLICT 1 1 2
3 salvage ABC001 1 out2 sun-hdr2.tap mon-hdr2.tap
> CONFLICT 1 1 2
3 salvage ABC001 1 out3 mon-hdr2.tap six-hdr2.tap
> SALVAGED 60
3 unpack u mon-hdr2.tap sun-hdr2.tap
> FILE ABC001 1 CONFLICT
- u/ABC001.1.CARDS
## salvage: a complete copy, and one with an unreadable block whose label counts more blocks
3 salvage ABC001 1 out y.tap six-5.tap
> CONFLICT 1 1 2
> SALVAGED 40
## salvage: copies that record two forms, and one that records none
3 salvage ABC001 1 out noform.tap second-bad.tap half.tap
> CONFLICT 1 1 3
> SALVAGED 40
3 salvage ABC001 1 out2 noform.tap half.tap second-bad.tap
> CONFLICT 1 1 3
> SALVAGED 80
0 salvage ABC001 1 out3 noform.tap second-bad.tap
= out3 forty
## unpack, extract --again: a second section that lost its first block, and a damaged copy
3 unpack u s1.tap s2lost.tap
3 unpack u s1.tap s2lost.tap s2bad.tap
> FILE ABC001 1 CONFLICT
- u/ABC001.1.CARDS
1 extract ABC001 1 out s1.tap s2lost.tap s2bad.tap --again
! tape: set fault 1
1 extract ABC001 1 out s1.tap s2bad.tap s2lost.tap --again
! tape: set fault 1
- out
## unpack: salvaged records of another recording than the complete one
3 unpack u mon-1.tap --salvage
0 unpack u sun.tap
> FILE ABC001 1 STAGE KEPT u/ABC001.1.CARDS.stage
= u/ABC001.1.CARDS week2
= u/ABC001.1.CARDS.salvaged week1-gap
## unpack: a file of another set on the same volume
0 unpack u sets.tap
> FILE ABC001 1 COMPLETE 3 u/ABC001.1.CARDS
> FILE XYZ002 1 COMPLETE 40 u/XYZ002.1.OTHER
= u/XYZ002.1.OTHER forty
## unpack --verify: a damaged image of a file that agrees
3 unpack u y.tap cut.tap --manifest
0 unpack --verify u y.tap cut.tap
> FILE ABC001 1 EXISTS u/ABC001.1.CARDS
> INCOMPLETE IMAGE cut.tap
## unpack: a section after the one that ends the file
3 unpack u ends.tap s2.tap
> FILE ABC001 1 COMPLETE 20 u/ABC001.1.CARDS
> SECTION AFTER END s2.tap
= u/ABC001.1.CARDS first-twenty
## extract --again, unpack: labels after a lost mark are not the blocks that another copy lacks
3 extract ABC001 1 out lostcut.tap no01.tap --again
> AWAITS 1 1 0
3 extract ABC001 1 out no01.tap lostcut.tap --again
> AWAITS 1 1 0
- out
3 unpack u lostcut.tap no01.tap
- u/ABC001.1.CARDS
## unpack: labels after a lost mark, over two days
3 unpack u lostcut.tap
3 unpack u no01.tap
- u/ABC001.1.CARDS
## extract --again: labels after a lost mark, in a truncated copy
3 extract ABC001 1 out lost2cut.tap --again --stage st
> AWAITS 1 1 0
- out
## salvage, unpack: EOF2 after a lost mark completes no other copy
3 salvage ABC001 1 out losteof.tap no1.tap
> GAP 1 1 1 1
> SALVAGED 2
3 salvage ABC001 1 out2 no1.tap losteof.tap
> GAP 1 1 1 1
> SALVAGED 2
3 unpack u losteof.tap no1.tap
- u/ABC001.1.CARDS
"""


def scenes():
    """Each scene: its title, why it is not right yet, and its other lines."""
    for page in SCENES.split("\n## ")[1:]:
        title, *lines = page.splitlines()
        reasons = [line[8:] for line in lines if line.startswith("not yet ")]
        yield title, reasons[0] if reasons else None, [line for line in lines if not line.startswith("not yet ")]


def wrong_in(program, lines):
    """What is wrong in a scene."""
    with folder_with({f"{name}.tap": content for name, content in IMAGES.items()}) as folder:
        (folder / "u").mkdir()
        done, wrong = None, []
        for line in lines:
            what, rest = line.split(" ", 1)
            if what.isdigit():
                done = subprocess.run([program, *rest.split()], cwd=folder, capture_output=True, check=False)
                is_right, found = done.returncode == int(what), f"status {done.returncode}"
            elif what == ">":
                is_right, found = rest in done.stdout.decode().splitlines(), f"printed {done.stdout.decode()!r}"
            elif what == "!":
                is_right, found = rest in done.stderr.decode(), f"errors {done.stderr.decode()!r}"
            elif what == "~":
                is_right, found = rest not in done.stderr.decode(), f"errors {done.stderr.decode()!r}"
            else:
                path, *name = rest.split()
                content = (folder / path).read_bytes() if (folder / path).exists() else None
                right = b"".join(record + b"\n" for record in text(RECORDS[name[0]])) if name else None
                is_right = content == right or (what == "?" and content is None)
                found = "no such file" if content is None else f"{path} has {len(content) // (RECORD + 1)} records"
            if not is_right:
                wrong.append(f"'{line}': {found}")
        return wrong


def main():
    options = arguments(__doc__)
    results, not_yet = Results(), 0
    for title, reason, lines in scenes():
        wrong = wrong_in(options.program, lines)
        if reason:
            not_yet += 1
            for what in wrong:
                print(f"not yet: {title}: {what}")
            results.expect(wrong, f"{title}: nothing is wrong any more, so remove 'not yet'")
        else:
            results.expect(not wrong, f"{title}: " + "; ".join(wrong))
    print(f"{not_yet} scenes are not right yet")
    return results.end("scenes")


if __name__ == "__main__":
    sys.exit(main())
