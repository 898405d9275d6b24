#!/usr/bin/env python3
"""Tries readings that random cases do not reach: trials/readings.py PROGRAM [NAME...]

    many      256 readings, which together have one good copy of each item; and 257, which are refused
    pipes     readings through pipes, which give few bytes at a time; `unpack` and `salvage`
              refuse them, and open none
    names     names with spaces, line feeds and other bytes, from arguments and from a list
    same      one image named several times
    large     readings of 4 GB, the longest image, and of one block more, through pipes
    devices   each read of a merge fails, inside an item or between two, alone and with all later ones
    refused   each other call and allocation refused, alone and with all later ones

Each answer is compared with the model of merge.py, or with the answer without the failure: status,
lines, the bytes of OUT, the files left. OUT never exists incomplete. Exit status 1 if an answer was
wrong.
"""
import os
import random
import re
import subprocess
import sys
import tempfile
import threading

from common import library
from fail import KINDS
from make_worked_image import word
from merge import BAD, MARK, Reading, block, model, read, run, written

wrong = 0

# A backslash, control characters, and invisible characters
HIDDEN = re.compile('[\\\\\x00-\x1f\x7f-\x9f\xad\u061c\u200b-\u200f\u2028-\u202e\u2060-\u206f\ufeff]')


def expect(what, got, right):
    global wrong
    if got != right:
        wrong += 1
        print(f'WRONG {what}:\n  got      {str(got)[:600]}\n  expected {str(right)[:600]}')


class Plain(Reading):
    """A reading without gaps or faults."""

    def __init__(self, items, end='MARKED'):
        self.items, self.end, self.offsets, self.data = items, end, [], b''
        for item in items:
            self.offsets.append(len(self.data))
            self.data += written(item)
        if end == 'MARKED':
            self.data += word(0xFFFFFFFF)


def put(folder, readings, names=None):
    names = names or [f'r{n}.tap' for n in range(len(readings))]
    names = [os.path.join(folder, name) for name in names]
    for name, reading in zip(names, readings):
        with open(name, 'wb') as file:
            file.write(reading.data)
    return names


def printed(name):
    """A name as printed according to the reference."""
    return HIDDEN.sub(lambda c: '\\\\' if c[0] == '\\' else f'\\u{ord(c[0]):04X}', name)


def judge(what, program, folder, readings, names, words=None):
    """`merge` and `compare` print the model's lines, and OUT has its bytes."""
    lines, status, data, _ = model(readings, [printed(name) for name in names])
    out = os.path.join(folder, 'out')
    expect(f'{what}: merge', run(program, 'merge', out, *(words or names)), (lines, status, ''))
    expect(f'{what}: OUT', read(out), data)
    expect(f'{what}: compare', run(program, 'compare', *(words or names)), (lines, status, ''))
    if data is not None:
        os.remove(out)


def tape(rnd, length):
    return [MARK if rnd.random() < .2 else block(rnd.randbytes(rnd.choice([1, 17, 80, 800])))
            for _ in range(length)]


def many(program, folder):
    rnd = random.Random(1)
    items = tape(rnd, 256)
    readings = [Plain([item if place == n else BAD for place, item in enumerate(items)])
                for n in range(256)]
    names = put(folder, readings)
    judge('256 readings', program, folder, readings, names)
    listed = os.path.join(folder, 'list')
    with open(listed, 'w') as file:
        file.write('\n'.join(names) + '\n')
    judge('256 from a list', program, folder, readings, names, ['--files-from', listed])
    expect('257 arguments', run(program, 'compare', *names, names[0])[1], 2)
    with open(listed, 'a') as file:
        file.write(names[7] + '\n')
    judge('257 from a list', program, folder, readings + [readings[7]], names + [names[7]],
          ['--files-from', listed])


def feed(path, data, size):
    """Writes the data to a pipe, a few bytes at a time."""
    with open(path, 'wb', buffering=0) as pipe:
        try:
            for at in range(0, len(data), size):
                pipe.write(data[at:at + size])
        except BrokenPipeError:
            pass


def pipes(program, folder):
    rnd = random.Random(2)
    for case in range(40):
        items = tape(rnd, 12)
        readings = [Plain([BAD if rnd.random() < .2 else item for item in items],
                          rnd.choice(['MARKED', 'PHYSICAL'])) for _ in range(3)]
        if case % 4 == 0:
            readings[1].items[3] = block(b'another')
            readings[1] = Plain(readings[1].items)
        names = [os.path.join(folder, f'p{case}.{n}') for n in range(3)]
        for name in names:
            os.mkfifo(name)
        lines, status, data, _ = model(readings, names)
        out = os.path.join(folder, 'out')
        feeds = [threading.Thread(target=feed, args=(name, reading.data, rnd.choice([1, 3, 100])))
                 for name, reading in zip(names, readings)]
        for thread in feeds:
            thread.start()
        expect(f'pipes {case}', run(program, 'merge', out, *names), (lines, status, ''))
        expect(f'pipes {case}: OUT', read(out), data)
        for thread in feeds:
            thread.join()
        if data is not None:
            os.remove(out)
    # Nobody writes to the pipe now, so opening it would block.
    for words in (['unpack', folder], ['salvage', 'ABC001', '1', os.path.join(folder, 'out')]):
        expect(f'pipes: {words[0]}', run(program, *words, names[0])[1], 2)


def names(program, folder):
    readings = [Plain([block(b'a'), MARK]), Plain([block(b'a'), BAD]), Plain([block(b'b')])]
    odd = ['with a space', ' leading', 'line\nfeed', 'tab\there', 'MERGED 1 0 0 MARKED', "quote'",
           'ünï']
    for first in odd:
        for second in odd:
            if first != second:
                paths = put(folder, readings[:2], [first, second])
                judge(f'names {first!r} {second!r}', program, folder, readings[:2], paths)
    paths = put(folder, readings, odd[:3])
    judge('names that differ', program, folder, readings, paths)
    listed = os.path.join(folder, 'list')
    with open(listed, 'wb') as file:
        file.write(b''.join(os.fsencode(path) + b'\0' for path in paths))
    judge('names from a list', program, folder, readings, paths,
          ['--files-from', listed, '--null'])


def same(program, folder):
    reading = Plain([block(b'a'), BAD, MARK, block(b'c' * 800)])
    path, = put(folder, [reading])
    for often in (2, 3, 40):
        judge(f'one image {often} times', program, folder, [reading] * often, [path] * often)


def generated(pipe, parts):
    try:
        with open(pipe, 'wb', buffering=0) as file:
            for part, often in parts:
                for _ in range(often):
                    file.write(part)
    except BrokenPipeError:
        pass


def from_pipes(program, folder, out, all_parts):
    paths = []
    for n, parts in enumerate(all_parts):
        path = os.path.join(folder, f'large{n}')
        os.mkfifo(path)
        paths.append(path)
        threading.Thread(target=generated, args=(path, parts), daemon=True).start()
    words = ['merge', out, *paths] if out else ['compare', *paths]
    answer = run(program, *words)
    for path in paths:
        os.remove(path)
    return answer, paths


def large(program, folder):
    one = written(block(b'\xa5' * 65528))  # 65,536 bytes
    bad = word(0x80000000 | 65528) + bytes(65528) + word(0x80000000 | 65528)
    full = 65535  # an image with this number of blocks has 4,294,901,760 bytes
    tail = written(block(b'z' * 65526))  # 65,534 bytes: 4,294,967,294 in all
    # one reading is complete up to the last possible byte, the other has a bad block in the middle
    right = [(one, full), (tail, 1)]
    damaged = [(one, 1000), (bad, 1), (one, full - 1001), (tail, 1)]
    answer, paths = from_pipes(program, folder, None, [right, damaged])
    expect('4 GB', answer, ([f'IMAGE 1 {full + 1} 0 PHYSICAL {paths[0]}',
                             f'IMAGE 2 {full + 1} 1 PHYSICAL {paths[1]}',
                             f'MERGED {full + 1} 0 1 PHYSICAL'], 0, ''))
    # a difference in the last block
    other = [(one, full), (written(block(b'y' * 65526)), 1)]
    answer, paths = from_pipes(program, folder, None, [right, other])
    place = full * 65536
    expect('4 GB, differing', answer, (
        [f'IMAGE 1 {full + 1} 0 - {paths[0]}', f'IMAGE 2 {full + 1} 0 - {paths[1]}',
         f'DIFFER {full + 1}', f'HAS 1 A BLOCK 65526 {place} {paths[0]}',
         f'HAS 2 B BLOCK 65526 {place} {paths[1]}'], 3, ''))
    # one block too many: a fault, at which the image ends
    answer, paths = from_pipes(program, folder, None, [[(one, full + 1)], right])
    expect('over 4 GB', answer, ([f'IMAGE 1 {full} 0 FAULT 4 {place} {paths[0]}',
                                  f'IMAGE 2 {full + 1} 0 PHYSICAL {paths[1]}',
                                  f'MERGED {full + 1} 0 1 PHYSICAL'], 0, ''))
    # each reading fits, but the merged image does not: short bad blocks replace long good ones
    short = written(BAD)
    halves = [[(one, 40000), (short, 40000)], [(short, 40000), (one, 40000)]]
    answer, paths = from_pipes(program, folder, None, halves)
    expect('merged image over 4 GB', answer[1:], (1, f'tape: image fault 4 at {full * 65536}\n'))


def failing(program, folder, preload, fail, words):
    counts = os.path.join(folder, 'counts')
    environment = dict(os.environ, LD_PRELOAD=preload, FAIL_COUNTS=counts)
    if fail:
        environment['FAIL'] = fail
    done = subprocess.run([program, *words], capture_output=True, text=True, env=environment)
    return done.stdout, done.returncode, done.stderr, read(counts)


def prepared(folder, sizes, count):
    """The library that refuses calls, and readings in their own directory."""
    preload = library(folder)
    rnd = random.Random(3)
    items = [MARK if rnd.random() < .2 else block(rnd.randbytes(rnd.choice(sizes)))
             for _ in range(count)]
    readings = [Plain([BAD if rnd.random() < .2 else item for item in items], end)
                for end in ('MARKED', 'PHYSICAL', 'PHYSICAL')]
    inside = os.path.join(folder, 'inside')
    os.mkdir(inside)
    return preload, readings, put(inside, readings), os.path.join(inside, 'out')


def each_call(program, folder, preload, kinds, words, out):
    """The result with each call of some kinds refused, alone and with all later ones."""
    numbers = failing(program, folder, preload, '', words)[3].split()
    os.remove(out)
    for kind in kinds:
        for number in range(1, int(numbers[KINDS.index(kind)]) + 1):
            for fail in (f'{kind}{number}', f'{kind}{number}+'):
                yield fail, *failing(program, folder, preload, fail, words)[:3]


def cut(reading, line):
    """The reading up to the item stated in its line, if its device failed."""
    words = line.split(' ')
    if words[4:6] != ['FAULT', '5']:
        return reading
    items, place = int(words[2]), int(words[6])
    ends = reading.offsets + [len(reading.data)]
    expect('the place of the failure', place, ends[items])
    short = Plain(reading.items[:items])
    short.end = f'FAULT 5 {place}'
    return short


def devices(program, folder):
    preload, readings, paths, out = prepared(folder, [1, 800, 20_000, 50_000], 40)
    tried = unreported = 0
    for fail, said, status, line in each_call(program, folder, preload, 'r',
                                              ['merge', out, *paths], out):
        tried += 1
        lines = said.split('\n')[:-1]
        # What is read for the kind of an image is read again if that fails once.
        unreported += 'FAULT 5' not in said
        expect(f'{fail}: a failure is reported', 'FAULT 5' in said or not fail.endswith('+'), True)
        if len(lines) < len(readings):
            continue
        given = [cut(reading, text) for reading, text in zip(readings, lines)]
        right, ends, data, _ = model(given, paths)
        expect(fail, (lines, status, line), (right, ends, ''))
        expect(f'{fail}: OUT', read(out), data)
        if os.path.exists(out):
            os.remove(out)
    expect('failures that are not reported', unreported <= 2 * len(readings), True)
    print(f'  {tried} runs')


def refused(program, folder):
    preload, readings, paths, out = prepared(folder, [1, 800, 20_000], 40)
    lines, status, data, _ = model(readings, paths)
    tried = 0
    for fail, said, got, line in each_call(program, folder, preload, KINDS.replace('r', ''),
                                           ['merge', out, *paths], out):
        tried += 1
        what = f'{fail} ({got}, {line!r})'
        whole = ''.join(text + '\n' for text in lines)
        expect(f'{what}: a prefix of the lines', whole.startswith(said), True)
        if got == 1:
            # OUT may exist only if the failure came after OUT had its name
            expect(f'{what}: OUT', read(out) in (None, data), True)
        else:
            expect(what, (got, said, read(out)), (status, whole, data))
        if os.path.exists(out):
            os.remove(out)
        left = set(os.listdir(os.path.dirname(out))) - {os.path.basename(path) for path in paths}
        expect(f'{what}: files', [name for name in left if not name.startswith('.tape-')], [])
        for name in left:
            os.remove(os.path.join(os.path.dirname(out), name))
    expect('the images', [read(path) for path in paths], [r.data for r in readings])
    print(f'  {tried} runs')


TRIALS = [many, pipes, names, same, large, devices, refused]


def main():
    program, chosen = os.path.abspath(sys.argv[1]), sys.argv[2:]
    for trial in TRIALS:
        if not chosen or trial.__name__ in chosen:
            before = wrong
            with tempfile.TemporaryDirectory() as folder:
                trial(program, folder)
            print(f'{trial.__name__}: {wrong - before} wrong', flush=True)
    sys.exit(wrong > 0)


if __name__ == '__main__':
    main()
