#!/usr/bin/env python3
"""Measures how the work of `tape` grows with files, volumes and sections: bytes read and written, calls and instructions.
Run manually, before a release; CI does not run it.

    ./growth.py [--program PATH] [--files N] [--large] [--instructions] [--folder DIR]

Creates sets of volumes from docs/FORMATS.md, runs the built program on them, and compares the counts of the system
(/proc/PID/io, strace for syncs) with a bound. Prints a line for each measurement, with `WRONG` if it exceeds its bound or
if the program's result is not the expected one; the status is 1 if there was such a line.
--large: also 9,999 files on an image of 11.7 MB, 2,000 files over ten images, and a collection of 580 images.
"""

import os
import random
import re
import shutil
import subprocess
import sys
import tempfile
from pathlib import Path

from timing import HERE, build
sys.path.insert(0, str(HERE.parent / "trials"))
from common import arguments  # noqa: E402
from make_worked_image import block, label, mark, word  # noqa: E402


def section(set_id, file, sect, blocks, ends, length=800, record=80):
    """A file section with a number of blocks; `ends` says whether the file ends with it."""
    name = f"F{file}"

    def first(kind, count):
        return label((f"{kind}{name:17.17}{set_id:6.6}{sect:04}{file:04}000100 85100 00000 {count:06}", 80))

    def second(kind):
        return label((f"{kind}F{length:05}{record:05}{'':35}00", 80))

    trailer = "EOF" if ends else "EOV"
    data = b"".join(block(content(file, sect, i, length)) for i in range(blocks))
    return (first("HDR1", 0) + second("HDR2") + mark() + data + mark() + first(trailer + "1", blocks)
        + second(trailer + "2") + mark())


def content(file, sect, number, length):
    return bytes([65 + (file + 7 * sect + number) % 26]) * length


def records_of(file, sections, length=800, record=80):
    """The bytes that `unpack` writes for a file, given the number of blocks in each of its sections."""
    text = b"".join(content(file, s + 1, i, length) for s, n in enumerate(sections) for i in range(n))
    return b"".join(text[at:at + record] + b"\n" for at in range(0, len(text), record))


def volume(name, sections):
    return label((f"VOL1{name:6.6}{'':69}4", 80)) + b"".join(sections) + mark() + word(0xFFFFFFFF)


class Counted:
    """The result of a run, and the system's counts for it."""

    def __init__(self, words, folder):
        with open(folder / "out.txt", "wb") as out:
            child = subprocess.Popen([str(w) for w in words], cwd=folder, stdin=subprocess.DEVNULL, stdout=out,
                stderr=subprocess.STDOUT)
            os.waitid(os.P_PID, child.pid, os.WEXITED | os.WNOWAIT)
            io = dict(line.split(": ") for line in Path(f"/proc/{child.pid}/io").read_text().splitlines())
            child.wait()
        self.status = child.returncode
        self.read, self.wrote = int(io["rchar"]), int(io["wchar"])
        self.reads, self.writes = int(io["syscr"]), int(io["syscw"])
        self.text = (folder / "out.txt").read_bytes()


class Bench:
    def __init__(self, options, folder):
        self.program, self.folder, self.wrong = options.program, folder, 0
        self.large, self.files = options.large, options.files

    def memory(self, words, folder):
        """The maximum memory of a run, in MB, as the child of a small program, since the count of a child begins with its parent's."""
        report = folder / "report.txt"
        subprocess.run([self.folder / "measure", report, *words], cwd=folder, stdin=subprocess.DEVNULL, stdout=subprocess.DEVNULL,
            stderr=subprocess.DEVNULL, check=True)
        return int(report.read_text().split()[2]) / 1024

    def fresh(self, name):
        path = self.folder / name
        shutil.rmtree(path, ignore_errors=True)
        path.mkdir()
        return path

    def line(self, what, figure, bound, right=True):
        good = right and figure <= bound
        self.wrong += not good
        print(f"{what}: {figure:,.2f}, at most {bound:,.2f}{'' if right else ', answer not as expected'}"
            f"{'' if good else ' WRONG'}", flush=True)

    def write(self, folder, images):
        """Writes images into a directory; returns their names and size."""
        names = []
        for at, image in enumerate(images):
            names.append(folder / f"{at:04}.tap")
            names[-1].write_bytes(image)
        return names, sum(len(image) for image in images)

    # ---- unpack

    def unpack(self, what, images, expected, bound, order=None):
        folder = self.fresh("unpack")
        names, size = self.write(folder, images)
        if order:
            names = order(names)
        (folder / "out").mkdir()
        (folder / "list").write_text("".join(f"{n}\n" for n in names))
        run = Counted([self.program, "unpack", "out", "--files-from", "list"], folder)
        right = run.status == 0 and len(os.listdir(folder / "out")) == len(expected)
        for name, text in expected.items():
            path = folder / "out" / name
            right = right and path.exists() and path.read_bytes() == text
        self.line(f"unpack, {what}: times read", run.read / size, bound, right)

    def one_image(self, count):
        sections = [section("SETAAA", f + 1, 1, 1, True) for f in range(count)]
        expected = {f"SETAAA.{f + 1}.F{f + 1}": records_of(f + 1, [1]) for f in range(count)}
        self.unpack(f"{count:,} files on one image", [volume("VOL001", sections)], expected, 2.2)

    def many_images(self, count, images):
        each = count // images
        made = [volume(f"VOL{i:03}", [section("SETAAA", f + 1, 1, 1, True)
            for f in range(i * each, (i + 1) * each)]) for i in range(images)]
        expected = {f"SETAAA.{f + 1}.F{f + 1}": records_of(f + 1, [1]) for f in range(count)}
        for how, order in ORDERS:
            self.unpack(f"{count:,} files on {images} images, {how}", made, expected, 2.2, order)

    def spanning(self, volumes):
        """Each volume ends with the first section of a file whose second section begins the next one."""
        made, expected, file = [], {}, 0
        for at in range(volumes):
            own = [section("SETAAA", file, 2, 30, True)] if at else []
            for _ in range(4):
                file += 1
                own.append(section("SETAAA", file, 1, 20, True))
                expected[f"SETAAA.{file}.F{file}"] = records_of(file, [20])
            if at + 1 < volumes:
                file += 1
                own.append(section("SETAAA", file, 1, 30, False))
                expected[f"SETAAA.{file}.F{file}"] = records_of(file, [30, 30])
            made.append(volume(f"V{at:05}", own))
        for how, order in ORDERS:
            self.unpack(f"{file} files over {volumes} volumes, {how}", made, expected, 2.2, order)

    def cut_copy(self, count):
        """The first half of an image is specified before the complete image."""
        sections = [section("SETAAA", f + 1, 1, 2, True) for f in range(count)]
        whole = volume("VOL001", sections)
        expected = {f"SETAAA.{f + 1}.F{f + 1}": records_of(f + 1, [2]) for f in range(count)}
        folder = self.fresh("unpack")
        names, size = self.write(folder, [whole[:len(whole) // 2], whole])
        (folder / "out").mkdir()
        run = Counted([self.program, "unpack", "out", *names], folder)
        right = run.status == 3 and all((folder / "out" / n).exists() and (folder / "out" / n).read_bytes() == t
            for n, t in expected.items())
        self.line(f"unpack, {count} files, half of an image named before the whole: times read", run.read / size,
            2.2, right)

    def incomplete(self, volumes):
        """The last volume of a file is missing; the call is then repeated."""
        made = [volume(f"V{at:05}", [section("SETAAA", 1, at + 1, 100, at + 1 == volumes)])
            for at in range(volumes)][:-1]
        folder = self.fresh("unpack")
        names, size = self.write(folder, made)
        (folder / "out").mkdir()
        for call, read, wrote in (("first", 2.5, 1.2), ("second", 2.2, 0.1)):
            run = Counted([self.program, "unpack", "out", *names], folder)
            right = run.status == 3
            self.line(f"unpack, last of {volumes} volumes missing, {call} call: times read", run.read / size, read, right)
            self.line(f"unpack, last of {volumes} volumes missing, {call} call: times written", run.wrote / size, wrote,
                right)

    # ---- extract --again

    def again(self, volumes):
        made = [volume(f"V{at:05}", [section("SETAAA", 1, at + 1, 2, at + 1 == volumes)]) for at in range(volumes)]
        text = records_of(1, [2] * volumes)
        for how, order in ORDERS:
            folder = self.fresh("again")
            names, _ = self.write(folder, made)
            words = [self.program, "extract", "SETAAA", "1", "OUT", *order(names), "--again", "--stage", "stage"]
            syncs = self.syncs(folder, *words)
            right = (folder / "OUT").read_bytes() == text
            self.line(f"extract --again, {volumes} volumes, {how}: syncs a volume", syncs / volumes, 8, right)
            for name in ("OUT", "stage"):
                (folder / name).unlink()
            run = Counted(words, folder)
            right = run.status == 0 and (folder / "OUT").read_bytes() == text
            readings = run.text.count(b"REEL ")
            self.line(f"extract --again, {volumes} volumes, {how}: readings of an image", readings / volumes, 3, right)

    # ---- reports

    def sparse(self, sets):
        """One file numbered 9,999 in each set."""
        made = [volume(f"V{at:05}", [section(f"S{at:05}", 9999, 1, 1, True)]) for at in range(sets)]
        folder = self.fresh("sparse")
        names, size = self.write(folder, made)
        words = [self.program, "survey", *names]
        run = Counted(words, folder)
        self.line(f"survey, {sets} sets with file 9,999 alone: MB of memory", self.memory(words, folder), 16, run.status == 3)
        self.line(f"survey, {sets} sets with file 9,999 alone: MB of text", len(run.text) / 1e6, 1, run.status == 3)
        (folder / "out").mkdir()
        run = Counted([self.program, "unpack", "out", *names], folder)
        self.line(f"unpack, {sets} sets with file 9,999 alone: write calls a set", run.writes / sets, 30)

    def items(self, count):
        image = volume("VOL001", [section("SETAAA", 1, 1, count, True, 20, 20)])
        folder = self.fresh("items")
        names, size = self.write(folder, [image])
        for command in ("list", "check", "survey"):
            words = [self.program, command, *names]
            run = Counted(words, folder)
            self.line(f"{command}, {count:,} blocks of 20: times read", run.read / size, 1.02, run.status == 0)
            self.line(f"{command}, {count:,} blocks of 20: MB of memory", self.memory(words, folder), 4, run.status == 0)

    # ---- stages

    def stages(self, length):
        """A stage of parts of a given length, opened by a run that adds nothing, and shown."""
        image = volume("VOL001", [section("SETAAA", 1, 1, 6_000_000 // length, False, length, length)])
        folder = self.fresh("stage")
        names, _ = self.write(folder, [image])
        (folder / "blank.tap").write_bytes(volume("VOL002", []))
        words = [self.program, "extract", "SETAAA", "1", "OUT"]
        run = Counted([*words, *names, "--stage", "stage"], folder)
        staged = (folder / "stage").stat().st_size
        right = run.status == 3
        run = Counted([*words, "blank.tap", "--stage", "stage"], folder)
        self.line(f"opening a stage, parts of {length:,}: times read", run.read / staged, 1.05, right and run.status == 3)
        run = Counted([self.program, "stage", "stage"], folder)
        self.line(f"stage, parts of {length:,}: times read", run.read / staged, 1.05, run.status == 3)
        run = Counted([self.program, "stage", "stage", "part.txt"], folder)
        self.line(f"stage with OUT, parts of {length:,}: times read", run.read / staged, 2.05, run.status == 3)

    def syncs(self, folder, *words):
        """The number of syncs in a run."""
        subprocess.run(["strace", "-f", "-e", "trace=fsync,fdatasync", "-o", "calls", *map(str, words)], cwd=folder,
            stdin=subprocess.DEVNULL, capture_output=True, check=False)
        return len(re.findall(r"f(?:data)?sync\(", (folder / "calls").read_text()))

    def shelf(self, sets):
        """Sets of three images with six files each; of every tenth set the last image is missing."""
        made, stages = [], 0
        for at in range(sets):
            set_id, lacks = f"S{at:05}", at % 10 == 9
            images = [volume(f"V{at:04}1", [section(set_id, 1, 1, 2, True), section(set_id, 2, 1, 3, False)]),
                volume(f"V{at:04}2", [section(set_id, 2, 2, 3, True), section(set_id, 3, 1, 2, True),
                    section(set_id, 4, 1, 3, False)]),
                volume(f"V{at:04}3", [section(set_id, 4, 2, 3, True), section(set_id, 5, 1, 2, True),
                    section(set_id, 6, 1, 2, True)])]
            made += images[:2] if lacks else images
            stages += lacks
        folder = self.fresh("shelf")
        names, _ = self.write(folder, made)
        (folder / "out").mkdir()
        (folder / "list").write_text("".join(f"{name}\n" for name in names))
        for call, files in (("first", 6 * sets - 3 * stages), ("second", 0)):
            syncs = self.syncs(folder, self.program, "unpack", "out", "--files-from", "list")
            there = [name.endswith(".stage") for name in os.listdir(folder / "out")]
            right = there.count(True) == stages and there.count(False) == 6 * sets - 3 * stages
            self.line(f"unpack, {len(made)} images, {call} call: syncs above two a file written", syncs - 2 * files,
                8 * stages, right)

    # ---- instructions

    def instructions(self, *words, folder):
        log = folder / "valgrind"
        subprocess.run(["valgrind", "--tool=callgrind", "--callgrind-out-file=/dev/null", f"--log-file={log}",
            *map(str, words)], cwd=folder, stdin=subprocess.DEVNULL, stdout=subprocess.DEVNULL, check=False)
        return int(re.search(r"Collected : (\d+)", log.read_text()).group(1))

    def ratios(self):
        """Instructions for each block, compared with one another and with the C program that writes records as they come."""
        c = self.folder / "extract"
        for length, record, blocks, bounds in ((80, 80, 20_000, (1.15, 1.5)), (8160, 80, 400, (1.15, 2.0))):
            folder = self.fresh("instructions")
            image = volume("VOL001", [section("SETAAA", 1, 1, blocks, True, length, record)])
            small = volume("VOL001", [section("SETAAA", 1, 1, 1, True, length, record)])
            (folder / "large.tap").write_bytes(image)
            (folder / "small.tap").write_bytes(small)

            def count(*words):
                for name in ("OUT", "stage"):
                    (folder / name).unlink(missing_ok=True)
                return self.instructions(*words, folder=folder)

            def each(command):
                return (count(*command("large.tap")) - count(*command("small.tap"))) / blocks

            tape, words = self.program, ("SETAAA", "1", "OUT")
            check = each(lambda image: (tape, "check", image))
            survey = each(lambda image: (tape, "survey", image))
            extract = each(lambda image: (tape, "extract", *words, image))
            stage = each(lambda image: (tape, "extract", *words, image, "--stage", "stage"))
            plain = each(lambda image: (c, *words, image))
            print(f"instructions a block of {length:,}: check {check:,.0f}, survey {survey:,.0f}, extract {extract:,.0f}, "
                f"extract --stage {stage:,.0f}, C {plain:,.0f}")
            self.line(f"extract over C, blocks of {length:,}", extract / plain, 1.25)
            self.line(f"survey over check, blocks of {length:,}", survey / check, bounds[0])
            self.line(f"extract --stage over extract, blocks of {length:,}", stage / extract, bounds[1])


def shuffled(names):
    mixed = list(names)
    random.Random(5).shuffle(mixed)
    return mixed


ORDERS = (("in order", list), ("reversed", lambda names: names[::-1]), ("shuffled", shuffled))


def main():
    options = arguments(__doc__, ("--files", 5000, "the number of files on one image"), ("--large", False, "larger sets too"),
        ("--instructions", False, "count instructions too, by valgrind"), ("--folder", "/dev/shm", "of the images and outputs"))
    with tempfile.TemporaryDirectory(dir=options.folder) as folder:
        build(Path(folder), ("measure", "extract"))
        bench = Bench(options, Path(folder))
        for count in (100, 1000, options.files, *((9999,) if options.large else ())):
            bench.one_image(count)
        bench.many_images(2000 if options.large else 200, 10)
        bench.spanning(12)
        bench.cut_copy(100)
        bench.incomplete(20)
        bench.again(60)
        bench.shelf(200 if options.large else 20)
        bench.sparse(50)
        bench.items(100_000)
        for length in (80, 20_000, 40_000, 99_999):
            bench.stages(length)
        if options.instructions:
            bench.ratios()
    sys.exit(bench.wrong > 0)


if __name__ == "__main__":
    main()
