#!/usr/bin/env python3
"""Mutated images of tapes as other systems wrote them, read by the program and by a model.

    trials/normal_model.py PROGRAM IMAGES [SEED] [--plant FAULT]

Each image is drawn (mutated_images.py) from its own seed: a labelled tape with the peculiarities of
other systems (labels in EBCDIC or with padding, no HDR2 or one with blanks, no numbers in HDR1 or
counts, marks, noise and boot blocks before the first file, no VOL1, a dummy HDR1, remains after the
end, a second volume label, labels in data, thousands of marks), and up to four mutations of its
items or bytes.

The images are read in batches of 200 by `survey --tsv` and `unpack`, which must end with status 0
or 3. The model (tape_model.py, normal_form.py, further_model.py, read_model.py, survey_model.py,
salvage_model.py), written from docs/FORMATS.md and docs/REFERENCE.md, determines the normal form of
each image and what is read after its wrong words. The lines about rules that were applied must be
those of the model, and so must the rows for images and sections, the report of `unpack`, and the
bytes of its files. Apart from the model, each record that `unpack` or `unpack --salvage` (20 images
of a batch) writes must be in its image, byte for byte. `show --raw` must write the bytes of the
items of one image of each batch.

Prints each wrong result with the seed of its image or batch (PROGRAM 200 SEED repeats a batch), and
counts; exit status 1 if there is one. --plant replaces a part of the model by a wrong one, for
which there must be wrong results: FAULT is map, noise, further, dummy, file, count, data or begin.
With TMPDIR=/dev/shm it takes a third of the time.
"""

import argparse
import shutil
import subprocess
import sys
import tempfile
import time
from collections import Counter, defaultdict
from pathlib import Path

import further_model
import normal_form
import tape_model as model
from common import Results
from further_model import images_of
from mutated_images import image_of
from survey_model import Survey, one_by_one, path_of, printed

BATCH, SALVAGED = 200, 20


class Trial(Results):
    """The runs of the program for one batch after the other."""

    def __init__(self, program, folder):
        self.program, self.folder, self.told = program, folder, Counter()

    def run(self, *words, names=()):
        listed = ["--files-from", "-", "--null"] if names else []
        done = subprocess.run([self.program, *words, *listed], cwd=self.folder,
                              input="\0".join(names).encode(), capture_output=True, check=False)
        told = f"batch {self.seed}: {words}: status {done.returncode}, {done.stderr[-200:]}"
        self.expect(done.returncode in (0, 3), told)
        return done.stdout, done.stderr.decode()

    def batch(self, seed, count):
        self.seed = seed
        shutil.rmtree(self.folder)
        for name in ("out", "salvaged"):
            (self.folder / name).mkdir(parents=True)
        seeds = range(seed, seed + count)
        images = [image_of(each, seed // BATCH % 2 == 0) for each in seeds]
        names = [f"{each}.tap" for each in seeds]
        for name, data in zip(names, images):
            (self.folder / name).write_bytes(data)
        forms = images_of(names, images)
        self.forms = {each.name: each for each in forms}
        survey = Survey([each.data for each in forms])
        # Each section once, in the order in which they are read.
        self.uncounted = list(dict.fromkeys(sum((each.uncounted for each in forms), [])))
        notices = [f"  image {at}: {line}" for at, each in enumerate(forms, 1)
                   for line in each.notices()]
        self.told.update(rule for each in forms for rule in each.rules)
        self.told["further readings"] += len(forms) - len(names)
        sources = [images[names.index(each.origin)] for each in forms]
        self.survey(survey, names, notices)
        self.unpack(survey, names, notices, sources)
        self.salvage(survey, names[:SALVAGED], sources)
        self.show(names[0], images[0])

    def notices(self, command, told, want, volumes):
        """The lines about rules. A line may also name what follows a fault of its image."""
        lines = told.splitlines()
        for line in set(lines) ^ set(want):
            at = int(line.split()[1][:-1]) if line.startswith("  image ") else 0
            if line in lines and at and volumes[at - 1].stop.startswith("FAULT"):
                continue
            who = "the model" if line in want else "the program"
            self.expect(False, f"batch {self.seed}: {command}: {who} alone says {line!r}")
        is_once = len(lines) == len(set(lines))
        self.expect(is_once, f"batch {self.seed}: {command}: a line twice")

    def survey(self, survey, names, notices):
        out, told = self.run("survey", "--tsv", names=names)
        self.notices("survey", told, notices, survey.volumes)
        rows = [line.split("\t") for line in out.decode().splitlines()]
        conflicts = survey.images_in_conflict()
        images = [row[1:11] for row in rows if row[0] == "IMAGE"]
        told = f"batch {self.seed}: {len(images)} images, expected {len(self.forms)}"
        self.expect(len(images) == len(self.forms), told)
        for at, (row, name, volume) in enumerate(zip(images, self.forms, survey.volumes)):
            want = [name, *self.image_row(volume, at in conflicts)]
            self.expect(row == want, f"image {name}: survey: {row}, expected {want}")
        want = survey.section_rows()
        told = [row[1:] for row in rows if row[0] == "SECTION"]
        wrong = [pair for pair in zip(told, want) if pair[0] != pair[1]]
        is_right = len(told) == len(want) and not wrong
        self.expect(is_right, f"batch {self.seed}: sections: {wrong[:1]}")
        told = [row[1:] for row in rows if row[0] == "UNCOUNTED"]
        self.may_be_uncounted(survey, told)
        want = [[printed(set_id).rstrip(), str(file), str(section)]
                for set_id, file, section in self.uncounted]
        self.expect(told == want, f"batch {self.seed}: not counted: {told}, expected {want}")
        self.told["uncounted"] += len(want)

    def may_be_uncounted(self, survey, told):
        """Takes from the program which other sections of damaged images are not counted, and their
        order: labels that follow a fault may already be read with the image. The image of such a
        section is found by its set."""
        sets = {}
        for form, volume in zip(self.forms.values(), survey.volumes):
            if form.is_further or volume.stop.startswith("FAULT"):
                found = [volume.set, *(each["set"] for each in volume.sections)]
                sets |= {printed(each).rstrip(): each for each in found}
        for at, (set_id, *numbers) in enumerate(told):
            if set_id in sets:
                key = sets[set_id], *map(int, numbers)
                self.uncounted = [each for each in self.uncounted if each != key]
                self.uncounted.insert(at, key)

    def image_row(self, volume, is_in_conflict):
        """The columns of an image after its name, up to the owner."""
        state = "CONFLICT" if is_in_conflict else "WHOLE" if volume.is_whole else "PARTIAL"
        identifier = b"" if volume.identifier == b"(none)" else volume.identifier
        texts = [identifier, volume.set, volume.system, volume.owner]
        texts = [printed(each).rstrip() for each in texts]
        bad = sum(kind == "bad" for kind, _ in volume.items)
        counts = [len(volume.items), len(volume.first_labels), bad]
        return [state, *texts[:3], *map(str, counts), volume.stop, texts[3]]

    def unpack(self, survey, names, notices, images):
        out, told = self.run("unpack", "--form", "lines", "out", names=names)
        self.notices("unpack", told, notices, survey.volumes)
        want, files = [], {}
        for set_id, file in survey.files:
            lines, path, records = self.read(survey, set_id, file)
            lines += [f"UNCOUNTED {section}"
                      for *key, section in self.uncounted if key == [set_id, file]]
            want += [f"FILE {printed(set_id)} {file} {line}" for line in lines]
            if records is not None:
                files[path] = b"".join(each + b"\n" for each in records)
        unread = [name for name, volume in zip(names, survey.volumes) if not volume.is_read]
        want += [f"INCOMPLETE IMAGE {name}" for name in unread]
        found = one_by_one(out.decode().splitlines()[:-1])
        for line in set(found) ^ set(want):
            who = "the model" if line in want else "the program"
            self.expect(False, f"batch {self.seed}: unpack: {who} alone says {line!r}")
        told = f"batch {self.seed}: unpack: {len(found)} lines, expected {len(want)}"
        self.expect(len(found) == len(want), told)
        made = [path for path in (self.folder / "out").iterdir() if path.suffix != ".stage"]
        made = {f"out/{path.name}": path.read_bytes() for path in made}
        for path in {*made, *files}:
            told = f"batch {self.seed}: {path}: {made.get(path)}, expected {files.get(path)}"
            self.expect(made.get(path) == files.get(path), told)
        self.untouched(survey, made, images)

    def read(self, survey, set_id, file):
        """The ends of the lines about a file, its path, and its records if it is complete."""
        path, records = "out/" + path_of(set_id, file, survey.names.get((set_id, file), b"")), None
        lines = ["CONFLICT" if (set_id, file) in survey.names else "NOT FOUND"]
        if lines == ["CONFLICT"] and not survey.in_conflict(set_id, file):
            reader = survey.unpacked(set_id, file)
            self.told["salvaged"] += not reader.done and survey.salvaged(reader)
            lines = [f"{survey.last_line(reader)} {path}" + ("" if reader.done else ".stage")]
            names = [*self.forms]
            lines += [f"SECTION DIFFERS {names[at]}" for at in survey.left_out(reader)]
            records = model.joined(reader.parts) if reader.done else None
        self.told.update(line.split()[0].lower() for line in lines)
        return lines, path, records

    def salvage(self, survey, names, images):
        self.run("unpack", "--salvage", "--form", "lines", "salvaged", names=names)
        made = [path for path in (self.folder / "salvaged").iterdir() if path.suffix == ".salvaged"]
        made = {path.name: path.read_bytes() for path in made}
        self.untouched(survey, made, images)

    def untouched(self, survey, made, images):
        """Each record is in an image. In format V it may have been joined from two segments."""
        places = defaultdict(list)
        for (set_id, *_), images_with in survey.begin.items():
            places[path_of(set_id, 1, b"").split(".")[0]] += images_with
        for name, data in made.items():
            set_id = name.split("/")[-1].split(".")[0]
            sources = [images[at] for at in places.get(set_id, [])]
            self.told["records"] += data.count(b"\n")
            lost = [line for line in data.split(b"\n")
                    if not any(is_in(line, image) for image in sources or images)]
            self.expect(not lost, f"batch {self.seed}: {name}: not in an image: {lost[:1]}")

    def show(self, name, data):
        """The bytes of all items of an image, as it is."""
        items, at, want = 0, 0, b""
        while True:
            kind, length, end = model.head_at(data, at)
            if kind not in normal_form.ITEMS or not normal_form.is_complete(data, at, kind, end):
                break
            want += data[at + 4:at + 4 + length]
            items, at = items + (kind != "gap"), end
        if items:
            out, _ = self.run("show", "--raw", name, "1", str(items))
            told = f"image {name[:-4]}: show: {len(out)} bytes, expected {len(want)}"
            self.expect(out == want, told)


def is_in(line, image):
    """Whether an image has a record, or its two segments."""
    cuts = range(1, len(line))
    return line in image or any(line[:at] in image and line[at:] in image for at in cuts)


def plant(fault):
    """Makes the model wrong."""
    normal, further = normal_form.Normal, model.is_further_header
    data = normal.data
    if fault == "map":  # another code page
        normal_form.EBCDIC = bytes(range(256)).decode("cp500").encode("latin-1", "replace")
    elif fault == "noise":  # 63 items instead of 64
        normal_form.MOST = 63
    elif fault == "further":  # no HDR2 before UHL1
        model.is_further_header = lambda block: further(block) and model.kind_of(block) != "UHL1"
    elif fault == "dummy":  # an HDR1 of zeros is a label
        normal_form.is_dummy = lambda label: False
    elif fault == "file":  # each file without a number is the first
        numbered = normal_form.numbered
        normal_form.numbered = lambda label, file: numbered(label, 1)
    elif fault == "count":  # unreadable blocks are passed over
        normal.data = lambda self, kind, *_: data(self, kind) if kind != "bad" else None
    elif fault == "begin":  # a reading whose labels are in EBCDIC does not begin with HDR1
        further_model.begin_of = lambda data, start, end: start
    elif fault == "data":  # blocks of 80 bytes in data are mapped
        normal.data = lambda self, kind, block, label: data(self, kind) or (
            [("block", label)] if kind == "block" else None)


def main():
    parser = argparse.ArgumentParser(
        description=__doc__, formatter_class=argparse.RawDescriptionHelpFormatter)
    parser.add_argument("program", type=Path)
    parser.add_argument("images", type=int)
    parser.add_argument("seed", type=int, nargs="?", default=0)
    parser.add_argument("--plant")
    options = parser.parse_args()
    if options.plant:
        plant(options.plant)
    begun, last = time.monotonic(), options.seed + options.images
    with tempfile.TemporaryDirectory(prefix="tape-") as folder:
        trial = Trial(str(options.program.resolve()), Path(folder, "tape"))
        trial.folder.mkdir()
        for seed in range(options.seed, last, BATCH):
            trial.batch(seed, min(BATCH, last - seed))
            if trial.wrong > 20:
                break
    count, seconds = min(seed + BATCH, last) - options.seed, time.monotonic() - begun
    print(f"{count} images in {seconds:.0f} s: {dict(sorted(trial.told.items()))}")
    return trial.end()


if __name__ == "__main__":
    sys.exit(main())
