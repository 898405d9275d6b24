#!/usr/bin/env python3
"""Copies of sections that agree or differ, and the results of `tape survey` and `tape unpack` for them.

    trials/conflicts.py PROGRAM CASES [SEED]

Each case is a set of one to three files on one to four volumes, made here from docs/FORMATS.md
alone, with up to three copies of each volume. A copy is equal; or has one changed byte, two changed
bytes with an unchanged sum, two exchanged blocks, a block lost or doubled (with or without this in
the count of the trailer label), or a block in two parts; or belongs to another set with the same
identifiers; or is damaged. One volume in the middle may be missing. The model compares
the good copies byte by byte. The rows of `survey --tsv`, all lines of `survey`, the answers and the
files of `unpack` must be those of the model: each conflict is reported with both images, nothing else
is, each image with such a copy is in conflict and no other, and no file in conflict is recovered.
Prints each wrong result, and counts; exit status 1 if there is one.
"""
import random
import subprocess
import sys
from pathlib import Path

from common import Results, folder_with
from make_worked_image import block, label, word

RECORD, BLOCK = 80, 800


def bad(data):
    lead = 0x80000000 | len(data)
    return word(lead) + data + b"\0" * (len(data) % 2) + word(lead)


def first_label(name, case, file, sect, blocks):
    return label((f"{name}{'FILE' + str(file):17}{case.set_id:6}{sect:04}{file:04}000100 00000 00000 "
                  f"{blocks % 1000000:06}", 80))


def second_label(name):
    return label((f"{name}F{BLOCK:05}{RECORD:05}{'':35}00", 80))


def fault_of(section):
    return "has unreadable blocks" if section.damage is not None else "has a wrong block count"


def counted(number, word):
    return f"{number} {word}{'s' * (number != 1)}"


def totals(states, words):
    """How many are in each state: the first one always."""
    return ": " + ", ".join(f"{states.count(word)} {word}" for word in words if word in states or word == words[0])


class Section:
    """A section on a volume: its blocks, whether it ends its file, and the count of its trailer."""

    def __init__(self, file, sect, blocks, ends):
        self.file, self.sect, self.blocks, self.ends = file, sect, blocks, ends
        self.count, self.damage = len(blocks), None

    def copy(self):
        return Section(self.file, self.sect, list(self.blocks), self.ends)

    def is_good(self):
        return self.damage is None and self.count == len(self.blocks)

    def encoded(self, case):
        data = [bad(b) if at == self.damage else block(b) for at, b in enumerate(self.blocks)]
        end = "EOF" if self.ends else "EOV"
        return b"".join([first_label("HDR1", case, self.file, self.sect, 0), second_label("HDR2"), word(0)]
                        + data + [word(0), first_label(end + "1", case, self.file, self.sect, self.count),
                                  second_label(end + "2"), word(0)])


class Case:
    """A set, its volumes, and the copies of each."""

    def __init__(self, rnd):
        self.rnd = rnd
        self.set_id = rnd.choice(["MUS001", "ONE", "A B"])
        self.files = [self.content() for _ in range(rnd.randint(1, 3))]
        self.volumes = self.on_volumes(self.files)
        self.images = []  # (volume number, sections)
        missing = rnd.randrange(1, len(self.volumes) - 1) if len(self.volumes) > 2 and rnd.random() < .3 else None
        for number, sections in enumerate(self.volumes):
            if number != missing:
                for copy in range(rnd.choice([1, 1, 2, 2, 3])):
                    self.images.append((number, [s.copy() for s in sections]))
        rnd.shuffle(self.images)
        for image in self.images:
            if rnd.random() < .4:
                self.change(image)

    def content(self):
        records = self.rnd.randint(1, 60)
        return b"".join(self.rnd.randbytes(RECORD) for _ in range(records))

    def on_volumes(self, files):
        """Fills volumes of a few blocks each."""
        room, volumes = self.rnd.choice([3, 4, 8, 100]), [[]]
        left = room
        for number, text in enumerate(files, 1):
            blocks = [text[at:at + BLOCK] for at in range(0, len(text), BLOCK)]
            sect = 1
            while True:
                here, blocks = blocks[:left], blocks[left:]
                volumes[-1].append(Section(number, sect, here, not blocks))
                left -= len(here)
                if not blocks:
                    break
                sect += 1
                volumes.append([])
                left = room
            if left == 0 and number < len(files):
                volumes.append([])
                left = room
        return volumes

    def change(self, image):
        """Changes one section of a copy."""
        rnd = self.rnd
        section = rnd.choice(image[1])
        blocks = section.blocks
        at = rnd.randrange(len(blocks))
        data = bytearray(blocks[at])
        way = rnd.choice(["byte", "byte", "tops", "moved", "lost", "doubled", "cut", "other", "bad", "count"])
        if way == "byte":
            data[rnd.randrange(len(data))] ^= 1 << rnd.randrange(8)
            blocks[at] = bytes(data)
        elif way == "tops":  # the highest bits of two words: they cancel out in a plain sum
            one, two = rnd.sample(range(7, len(data), 8), 2)
            data[one] ^= 128
            data[two] ^= 128
            blocks[at] = bytes(data)
        elif way == "moved" and len(blocks) > 1:
            other = rnd.randrange(len(blocks))
            blocks[at], blocks[other] = blocks[other], blocks[at]
        elif way == "lost" and len(blocks) > 1:
            del blocks[at]
            section.count = rnd.choice([len(blocks), section.count])
        elif way == "doubled":
            blocks.insert(at, blocks[at])
            section.count = rnd.choice([len(blocks), section.count])
        elif way == "cut" and len(data) > RECORD:  # the same bytes in one more block
            blocks[at:at + 1] = [bytes(data[:RECORD]), bytes(data[RECORD:])]
            section.count = len(blocks)
        elif way == "other":
            for each in image[1]:
                each.blocks = [rnd.randbytes(len(b)) for b in each.blocks]
        elif way == "bad":
            section.damage = at
        elif way == "count":
            section.count += 1

    def encoded(self, image):
        volume = label((f"VOL1{'VOL%03d' % (image[0] + 1):6}{'':69}4", 80))
        end = self.rnd.choice([word(0xFFFFFFFF), b""])
        return volume + b"".join(s.encoded(self) for s in image[1]) + word(0) + end

    # ---- what must be reported

    def copies(self):
        """The good copies of each section, in the order in which their first good copies were found."""
        found = {}
        for number, (_, sections) in enumerate(self.images):
            for section in sections:
                if section.is_good():
                    found.setdefault((section.file, section.sect), []).append((number, section))
        return found

    def rows(self, names):
        """The rows of copies, and the numbers of files in conflict."""
        rows, conflicts = [], set()
        for (file, sect), copies in self.copies().items():
            first = copies[0][1].blocks
            same = [number for number, section in copies if section.blocks == first]
            others = [number for number, section in copies if section.blocks != first]
            if others:
                conflicts.add(file)
            if len(copies) > 1:
                rows.append(["COPIES", self.set_id, str(file), str(sect), str(len(same)), names[copies[0][0]],
                             names[others[0]] if others else "", "CONFLICT" if others else "AGREE"])
        return rows, conflicts

    def runs(self, rows):
        """The sections of rows as text, with the row of the first: those in a row with the same copies together."""
        runs = []
        for row in rows:
            file, sect = int(row[2]), int(row[3])
            before = runs[-1] if runs else None
            if before and before[0][4:] == row[4:] and (file, sect) in ((before[2][0] + 1, 1), (before[2][0], before[2][1] + 1)):
                before[2] = file, sect
            else:
                runs.append([row, (file, sect), (file, sect)])
        for row, first, last in runs:
            until = f" to file {last[0]} section {last[1]}" if last != first else ""
            yield f"{self.set_id} file {first[0]} section {first[1]}{until}: ", row

    def problems(self, file):
        """The damaged and missing sections of a file, unless it is complete, as the last column of its row has them."""
        if self.text(file) is not None:
            return ""
        first, states = {}, {}
        for _, sections in self.images:
            for section in sections:
                if section.file == file:
                    state = "GOOD" if section.is_good() else "BAD" if section.damage is not None else "COUNT"
                    first.setdefault(section.sect, section)
                    if section.sect not in states or state == "GOOD":
                        states[section.sect] = state
        cells, before = [], 0
        for sect in sorted(states):
            if sect > before + 1:
                cells.append((before + 1, sect - 1, "MISSING"))
            if states[sect] != "GOOD":
                cells.append((sect, sect, states[sect]))
            before = sect
        if not states or not first[before].ends:
            cells.append((before + 1, before + 1, "MISSING"))
        return "".join(f"{low}:{state};" if low == high else f"{low}-{high}:{state};" for low, high, state in cells)

    def listed(self):
        """The volumes of the set, with one missing volume for each gap between the sections that were found."""
        there = {number for number, sections in self.images if sections}
        words, last, missing = [], None, False
        for number, sections in enumerate(self.volumes):
            if number in there:
                name = f"VOL{number + 1:03}"
                words += [f"missing (follows {last})" if last else "missing"] * missing + [name]
                last, missing = name, False
            elif sections:
                missing = True
        return words

    def states(self):
        """The state of each image: in conflict if it has a good copy of a section of which good copies differ."""
        return ["in conflict" if self.disputed(number) else "ok" if all(section.is_good() for section in sections) else "damaged"
                for number, (_, sections) in enumerate(self.images)]

    def disputed(self, number):
        """The first good section on an image of which other good copies differ."""
        copies = self.copies()
        return next((section for section in self.images[number][1] if section.is_good()
                     and len({tuple(each.blocks) for _, each in copies[section.file, section.sect]}) > 1), None)

    def sight(self, number, column, indent):
        """The lines about an image."""
        volume, sections = self.images[number]
        yield f"{column}volume VOL{volume + 1:03}, {len(sections)} section{'s' * (len(sections) != 1)}"
        bad = sum(section.damage is not None for section in sections)
        if bad:
            yield f"{indent}{bad} unreadable block{'s' * (bad != 1)}"
        for section in sections:
            if not section.is_good():
                yield (f"{indent}section {section.sect} of file {section.file} {fault_of(section)}, "
                       f"blocks found: {len(section.blocks)}")
        if section := self.disputed(number):
            yield f"{indent}section {section.sect} of file {section.file}: good copies differ"

    def survey(self, names, rows, conflicts):
        """All lines of a survey in words, by what GUIDE.md says of its lists."""
        copies, where, found = self.copies(), {}, {}
        for number, (volume, sections) in enumerate(self.images):
            for section in sections:
                key = section.file, section.sect
                found.setdefault(key, (f"VOL{volume + 1:03}", section, number))
                where[key] = copies[key][0][0] if key in copies else number
        damaged = [number for number, (_, sections) in enumerate(self.images) if not all(s.is_good() for s in sections)]
        spare = [number for number in damaged
                 if all((s.file, s.sect) in copies for s in self.images[number][1] if not s.is_good())]
        files = {file for file, _ in found}

        def sections_in(state):
            for file in range(1, self.greatest() + 1):
                before = max((each for each in files if each < file), default=0)
                if state == "MISSING" and file in files and file > before + 1:
                    numbers = f" {before + 1}" if file == before + 2 else f"s {before + 1}-{file - 1}"
                    yield f"  {self.set_id} file{numbers}"
                for cell in self.problems(file).split(";")[:-1] if file in files else ():
                    numbers, said = cell.split(":")
                    first = (file, int(numbers.split("-")[0]) - 1)
                    if said == state:
                        on = f", after volume {found[first][0]} ({names[where[first]]})" if first in found else ""
                        yield f"  {self.set_id} file {file} FILE{file}: section{'s' * ('-' in numbers)} {numbers}{on}"

        bad = [f"  {self.set_id} file {key[0]} FILE{key[0]}: section {key[1]} {fault_of(section)} on {volume} ({names[number]})"
               for key, (volume, section, number) in found.items() if key not in copies]
        differ = [f"  {text}good copies on {row[5]} and {row[6]} differ" for text, row in self.runs([row for row in rows if row[6]])]
        for heading, lines in (
                ("In conflict: find out which is right ('tape compare', 'tape list')", differ),
                ("Complete on no image: read or copy it again; 'tape unpack' joins copies", bad),
                ("Missing: look for the reel, or for other images of it", list(sections_in("MISSING"))),
                ("Damaged, but other images have the sections or the volume whole", [f"  {names[n]}" for n in spare])):
            yield from [heading, *lines] * (lines != [])
        states = self.states()
        if spare or differ or bad or list(sections_in("MISSING")):
            yield ""
        yield counted(len(states), "image") + totals(states, ("ok", "in conflict", "damaged"))
        fates = ["in conflict" if file in conflicts else "not found" if file not in files else
                 "complete" if self.text(file) is not None else "incomplete" for file in range(1, self.greatest() + 1)]
        yield "1 set, " + counted(len(fates), "file") + totals(fates, ("complete", "in conflict", "incomplete", "not found"))
        agreed = [row for row in rows if not row[6]]
        if agreed:
            yield counted(len(agreed), "section") + " with several good copies that agree"
        if self.is_sound(conflicts):
            yield "All files are complete, and every image was read to its end."
        yield ""
        for number, state in enumerate(states):
            yield from self.sight(number, f"{names[number]:<24}  {state:<13}", "    ")
        yield f"Set {self.set_id}: {fates.count('complete')} of {len(fates)} files complete"
        line = "  Volumes: "
        for volume in self.listed():
            if not line.endswith(": ") and len(line) + 2 + len(volume) > 78:
                yield line + ","
                line = " " * 11
            line += (", " if line.strip() and not line.endswith(": ") else "") + volume
        yield line
        for file, fate in enumerate(fates, 1):
            if file in files:
                yield f"{file:4} {'FILE' + str(file):<17}              {fate}"
        yield from (f"{text}good, {row[4]} copies agree" for text, row in self.runs(agreed))

    def text(self, file):
        """The records of a file, or None if a section has no good copy."""
        copies, text, sect = self.copies(), b"", 1
        while True:
            if (file, sect) not in copies:
                return None
            section = copies[file, sect][0][1]
            text += b"".join(section.blocks)
            if section.ends:
                return text
            sect += 1

    def greatest(self):
        return max((s.file for _, sections in self.images for s in sections), default=0)

    def is_sound(self, conflicts):
        copies = self.copies()
        met = {(s.file, s.sect) for _, sections in self.images for s in sections}
        return (not conflicts and met == set(copies)
                and all(self.text(file) is not None for file in range(1, self.greatest() + 1)))


class Trial(Results):
    def __init__(self, program):
        self.program = program

    def run(self, folder, *words):
        return subprocess.run([self.program, *words], cwd=folder, capture_output=True, text=True, check=False)


def try_case(trial, case, folder, number):
    names = [f"{at}.tap" for at in range(len(case.images))]
    for name, image in zip(names, case.images):
        (folder / name).write_bytes(case.encoded(image))
    rows, conflicts = case.rows(names)
    sound = case.is_sound(conflicts)

    done = trial.run(folder, "survey", "--tsv", *names)
    told = [line.split("\t") for line in done.stdout.splitlines()]
    trial.expect([row for row in told if row[0] == "COPIES"] == rows, f"{number}: rows {done.stdout}\nwanted {rows}")
    states = [row[2] for row in told if row[0] == "IMAGE"]
    wanted = [{"ok": "WHOLE", "damaged": "PARTIAL", "in conflict": "CONFLICT"}[state] for state in case.states()]
    trial.expect(states == wanted, f"{number}: states {states}, wanted {wanted}")
    marked = {int(row[2]) for row in told if row[0] == "FILE" and row[8] == "CONFLICT"}
    trial.expect(marked == {f for f in conflicts}, f"{number}: files in conflict {marked}, expected {conflicts}")
    told = {int(row[2]): row[9] for row in told if row[0] == "FILE" and "-" not in row[2]}
    for file in told:
        trial.expect(told[file] == case.problems(file), f"{number}: file {file}: {told[file]!r}, not {case.problems(file)!r}")
    trial.expect(done.returncode == (0 if sound else 3), f"{number}: survey --tsv, status {done.returncode}")

    done = trial.run(folder, "survey", "--all", *names)
    wanted = list(case.survey(names, rows, conflicts))
    trial.expect(done.stdout.splitlines() == wanted, f"{number}: survey {done.stdout}\nwanted " + "\n".join(wanted))
    trial.expect(done.returncode == (0 if sound else 3), f"{number}: survey, status {done.returncode}")
    few = trial.run(folder, "survey", *names).stdout.splitlines()
    if len(names) > 5:
        at = len(wanted) - wanted[::-1].index("")
        wanted[at:] = ["With --all: also each image, each set with its volumes and files, and copies."]
    trial.expect(few == wanted, f"{number}: survey of {len(names)} images: {few}")

    out = folder / "out"
    out.mkdir()
    done = trial.run(folder, "unpack", "--form", "raw", "out", *names)
    told = {int(line.split(" ")[-2 if line.endswith("CONFLICT") else 0]) if line.endswith("CONFLICT") else None
            for line in done.stdout.splitlines()} - {None}
    trial.expect(told == conflicts, f"{number}: unpack says {done.stdout}, expected {conflicts}")
    made = {path.name: path.read_bytes() for path in out.iterdir()}
    for file in range(1, case.greatest() + 1):
        text = case.text(file)
        name = [n for n in made if n.split(".")[1] == str(file) and not n.endswith(".stage")]
        if file in conflicts:
            trial.expect(not [n for n in made if n.split(".")[1] == str(file)], f"{number}: {file} in conflict, {name}")
        elif text is not None:
            trial.expect([made[n] for n in name] == [text], f"{number}: file {file} is not as it was, {done.stdout}")
    trial.expect((done.returncode == 0) == (not conflicts and done.stdout.count("\n")
                == done.stdout.count(" COMPLETE ") + 1), f"{number}: unpack, status {done.returncode}, {done.stdout}")
    return len(rows), len(conflicts)


def main():
    program, cases = str(Path(sys.argv[1]).resolve()), int(sys.argv[2])
    seed = int(sys.argv[3]) if len(sys.argv) > 3 else 1
    trial, compared, conflicts = Trial(program), 0, 0
    for number in range(cases):
        case = Case(random.Random(f"{seed} {number}"))
        with folder_with() as folder:
            some, others = try_case(trial, case, folder, number)
        compared, conflicts = compared + some, conflicts + others
    print(f"{cases} cases, {compared} sections with more than one good copy, {conflicts} files in conflict")
    sys.exit(trial.end("seen"))


if __name__ == "__main__":
    main()
