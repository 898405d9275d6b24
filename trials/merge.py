#!/usr/bin/env python3
"""Merges random readings with the program and with an independent model.

    trials/merge.py PROGRAM CASES [SEED]

Each case makes a tape of blocks, marks and unreadable items, and two to four readings of it. In a
reading an item may have become unreadable; it may also be cut short, end with a fault, or not be a
true reading at all: an item replaced, left out or doubled. One case in five is a labelled volume,
so that the counts of its sections matter. The model determines the merged tape, or where the
readings differ. `merge` and `compare` must print its lines and end with its status; OUT and, in two
cases of three, the log must have its bytes, or not exist; and no other file may be left.
"""
import os
import random
import subprocess
import sys
import tempfile

from make_worked_image import word

MARK, BAD = ('mark',), ('bad',)


def block(content):
    return ('block', content)


def encoded(item, rnd):
    """An item as the program of a drive might write it; a bad item with any content."""
    if item == MARK:
        return word(0)
    if item == BAD:
        length = rnd.choice([1, 2, 7, 80, 800])
        lead = 0x80000000 | length
        if rnd.random() < .05:  # a block that is too long is bad as well
            lead = length = 100001
        return word(lead) + rnd.randbytes(length) + b'\0' * (length % 2) + word(lead)
    return written(item)


def written(item):
    """An item as encoded in OUT."""
    if item == MARK:
        return word(0)
    if item == BAD:
        return bytes([1, 0, 0, 0x80, 0, 0, 1, 0, 0, 0x80])
    content = item[1]
    length = len(content)
    return word(length) + content + b'\0' * (length % 2) + word(length)


class Reading:
    """The items of one image, its end, and where each item begins."""

    def __init__(self, items, rnd):
        self.items = items
        self.offsets = []
        data = b''
        for item in items:
            self.offsets.append(len(data))
            if rnd.random() < .1:
                data += word(0xFFFFFFFE)  # an erase gap
            data += encoded(item, rnd)
        self.end = rnd.choice(['MARKED', 'PHYSICAL'])
        if self.end == 'MARKED':
            data += word(0xFFFFFFFF)
            if rnd.random() < .3:
                data += rnd.randbytes(rnd.randrange(9))
        elif rnd.random() < .4:
            self.end = rnd.choice([f'FAULT 1 {len(data)}', f'FAULT 3 {len(data)}'])
            if self.end.startswith('FAULT 1'):
                data += word(80) + b'abc'
            else:
                data += word(0x01000000)
        self.data = data


def label(text):
    return block(text.ljust(80).encode())


def volume(rnd):
    """The items of a labelled volume of one to three sections."""
    items = [label('VOL1ABC001'.ljust(79) + '4')]
    for file in range(1, rnd.randrange(2, 5)):
        blocks = [block(rnd.randbytes(rnd.choice([18, 80]))) for _ in range(rnd.randrange(4))]
        count = len(blocks)
        if rnd.random() < .1:
            count += 1
        head = f'{"FILE":17}ABC001{1:04}{file:04}000100 85113 85113 '
        tail = 'TAPE'.ljust(13) + ' ' * 7
        items += [label('HDR1' + head + '000000' + tail), label('HDR2F0008000080'), MARK]
        items += blocks + [MARK]
        items += [label('EOF1' + head + f'{count:06}' + tail), label('EOF2F0008000080'), MARK]
    return items + [MARK]


def any_tape(rnd):
    items = []
    for _ in range(rnd.randrange(14)):
        dice = rnd.random()
        if dice < .25:
            items.append(MARK)
        elif dice < .32:
            items.append(BAD)
        else:
            items.append(block(rnd.randbytes(rnd.choice([1, 2, 3, 18, 80, 119, 120, 800]))))
    return items


def reading_of(tape, rnd):
    items = [BAD if rnd.random() < .15 else item for item in tape]
    dice = rnd.random()
    if dice < .15 and items:
        items[rnd.randrange(len(items))] = rnd.choice([MARK, BAD, block(b'other')])
    elif dice < .22 and items:
        del items[rnd.randrange(len(items))]
    elif dice < .29 and items:
        at = rnd.randrange(len(items))
        items.insert(at, items[at])
    if rnd.random() < .3:
        items = items[:rnd.randrange(len(items) + 1)]
    return Reading(items, rnd)


def miscounts(items):
    """The number of sections whose trailer label gives a different number of blocks."""
    def starts(item, name):
        return item[0] == 'block' and item[1].startswith(name)

    if not items or not starts(items[0], b'VOL1'):
        return 0
    wrong = 0
    at = 1
    while at < len(items) and (starts(items[at], b'VOL') or starts(items[at], b'UVL')):
        at += 1  # further volume labels
    while at + 1 < len(items) and starts(items[at], b'HDR1') and starts(items[at + 1], b'HDR2'):
        head = items[at][1]
        at += 2
        while at < len(items) and items[at][0] == 'block':
            at += 1
        if at == len(items) or items[at] != MARK:
            break
        at += 1
        first = at
        while at < len(items) and items[at] != MARK:
            at += 1
        blocks = at - first
        at += 1
        if at >= len(items) or not starts(items[at], b'EOF1'):
            break
        trailer = items[at][1]
        if trailer[27:35] != head[27:35]:
            break
        wrong += int(trailer[54:60]) != blocks
        at += 1
        while at < len(items) and items[at][0] == 'block':
            at += 1
        if at == len(items) or items[at] != MARK:
            break
        at += 1
    return wrong


def kind(item):
    return f'BLOCK {len(item[1])}' if item[0] == 'block' else item[0].upper()


def model(readings, names):
    """The lines, the status, and the bytes of OUT and of the log, or None."""
    merged, alone = [], 0
    rows = ['\t'.join(['ITEM', 'KIND', *names])]
    for place in range(max(len(r.items) for r in readings)):
        have = [r.items[place] if place < len(r.items) else None for r in readings]
        good = [item for item in have if item is not None and item != BAD]
        if len(set(good)) > 1:
            return differing(readings, names, place, have, good)
        merged.append(good[0] if good else BAD)
        alone += len(good) == 1
        if len(good) == 1 or BAD in have:
            cells = ['' if item is None else 'BAD' if item == BAD else 'GOOD' for item in have]
            rows.append('\t'.join([str(place + 1), kind(merged[-1]), *cells]))
    lines = [f'IMAGE {n + 1} {len(r.items)} {r.items.count(BAD)} {r.end} {names[n]}'
             for n, r in enumerate(readings)]
    ends = [r.end for r in readings if len(r.items) == len(merged)]
    end = 'MARKED' if 'MARKED' in ends else 'PHYSICAL' if 'PHYSICAL' in ends else 'CUT'
    bad, wrong = merged.count(BAD), miscounts(merged)
    counts = f' COUNT {wrong}' if wrong else ''
    lines.append(f'MERGED {len(merged)} {bad} {alone} {end}{counts}')
    data = b''.join(written(item) for item in merged)
    if end == 'MARKED':
        data += word(0xFFFFFFFF)
    log = ''.join(row + '\n' for row in rows).encode()
    return lines, 0 if bad == 0 and wrong == 0 and end != 'CUT' else 3, data, log


def differing(readings, names, place, have, good):
    lines = []
    for n, r in enumerate(readings):
        taken = r.items[:place + 1]
        end = '-' if len(r.items) > place else r.end
        lines.append(f'IMAGE {n + 1} {len(taken)} {taken.count(BAD)} {end} {names[n]}')
    lines.append(f'DIFFER {place + 1}')
    first = good[0]
    second = next(item for item in good if item != first)
    for n, item in enumerate(have):
        if item is not None:
            letter = '-' if item == BAD else 'A' if item == first else 'B' if item == second else 'C'
            offset = readings[n].offsets[place]
            lines.append(f'HAS {n + 1} {letter} {kind(item)} {offset} {names[n]}')
    return lines, 3, None, None


def run(program, *words):
    done = subprocess.run([program, *words], capture_output=True, text=True)
    return done.stdout.split('\n')[:-1], done.returncode, done.stderr


def differs(program, rnd, folder):
    tape = volume(rnd) if rnd.random() < .2 else any_tape(rnd)
    readings = [reading_of(tape, rnd) for _ in range(rnd.randrange(2, 5))]
    names = [os.path.join(folder, f'r{n}.tap') for n in range(len(readings))]
    for name, reading in zip(names, readings):
        with open(name, 'wb') as file:
            file.write(reading.data)
    out = os.path.join(folder, 'out.tap')
    log = os.path.join(folder, 'log.tsv')
    lines, status, data, rows = model(readings, names)
    if rnd.random() < .33:
        merged, rows = run(program, 'merge', out, *names), None
    else:
        merged = run(program, 'merge', '--log', log, out, *names)
    compared = run(program, 'compare', *names)
    there = {os.path.basename(name) for name in names}
    for name, content in ((out, data), (log, rows)):
        if content is not None:
            there.add(os.path.basename(name))
    others = set(os.listdir(folder))
    what = 'differ' if data is None else f'status {status}'
    if (merged != (lines, status, '') or compared != merged or read(out) != data
            or read(log) != rows or others != there):
        print(f'expected {status} {lines}\nmerge {merged}\ncompare {compared}\nfiles {others}')
        print(f'log {rows}\nfound {read(log)}')
        return what, True
    return what, False


def read(name):
    """The bytes of a file, or None."""
    if not os.path.exists(name):
        return None
    with open(name, 'rb') as file:
        return file.read()


def main():
    program, cases = sys.argv[1], int(sys.argv[2])
    rnd = random.Random(int(sys.argv[3]) if len(sys.argv) > 3 else 1)
    wrong, seen = 0, {}
    for _ in range(cases):
        with tempfile.TemporaryDirectory() as folder:
            what, is_wrong = differs(program, rnd, folder)
        seen[what] = seen.get(what, 0) + 1
        wrong += is_wrong
        if wrong > 3:
            break
    print(f'{cases} cases, {wrong} differ: {seen}')
    sys.exit(wrong > 0)


if __name__ == '__main__':
    main()
