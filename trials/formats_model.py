#!/usr/bin/env python3
"""Random tapes in formats F, D, S, U and V, whole and damaged, read by the program and by a model.

    trials/formats_model.py PROGRAM TAPES [SEED] [--plant FAULT]

Each tape is a set of one to three files on one or two volumes, drawn (drawn_sets.py) from its own
seed: formats F, D, S, U, V, VB and VBS, or no HDR2; buffer offsets; padding with circumflexes, NULs
or spaces; gaps, pad bytes, user labels. More than half of the tapes are damaged: items that are
unreadable, lost or doubled, wrong bytes, truncated images, wrong words.

The model (tape_model.py, normal_form.py, further_model.py, read_model.py, survey_model.py,
salvage_model.py) is written from docs/FORMATS.md and docs/REFERENCE.md, with what is read after
wrong words. `survey --tsv` must print its sections; `unpack` in each form must report and write its
files, byte for byte; `extract --again` of one file must print its lines; the stage of an incomplete
file must have its records. And the records that were written are known: they must be those of the
model if a tape is whole, and those of each file that is COMPLETE, unless the damage cannot be
noticed, such as a wrong byte in a record. Of what was written in the form counted the records must
come back by their lengths.

Prints each wrong result with the seed of its tape (PROGRAM 1 SEED repeats it), and counts; exit
status 1 if there is one. --plant replaces a function of the model by a wrong one, for which there
must be wrong results: FAULT is segments, record, padding, ambiguous, spans, sections, descriptor,
length, miscounted or readings. With TMPDIR=/dev/shm it takes half the time.
"""

import argparse
import shutil
import subprocess
import sys
import tempfile
from collections import Counter
from copy import copy
from pathlib import Path

import further_model
import read_model
import tape_model as model
from common import Results
from drawn_sets import SET, Tape
from further_model import images_of
from survey_model import Survey, one_by_one, path_of, printed

FORMS = ["raw", "lines", "counted"]


def length_of(record):
    """What precedes a record in the form counted."""
    return len(record).to_bytes(4, "big")


def in_form(form, record):
    """The bytes that are written for a record."""
    if form == "counted":
        return length_of(record) + record
    return record + {"raw": b"", "lines": b"\n"}[form]


def text_of(form, records):
    return b"".join(in_form(form, record) for record in records)


def counted(data):
    """The records of a file in the form counted."""
    records, at = [], 0
    while at < len(data):
        end = at + 4 + int.from_bytes(data[at:at + 4], "big")
        records.append(data[at + 4:end])
        at = end
    return records


class Trial(Results):
    """The runs of the program for one tape after another."""

    def __init__(self, program, folder):
        self.program, self.folder, self.told = program, folder, Counter()

    def run(self, *words):
        return subprocess.run([self.program, *words], cwd=self.folder, capture_output=True,
                              text=True, check=False)

    def same(self, found, wanted, what):
        self.expect(found == wanted, f"{self.what}: {what}: {found}, expected {wanted}")

    def read(self, seed):
        """Draws a tape, and compares what the program and the model read of it."""
        tape = self.tape = Tape(seed)
        shutil.rmtree(self.folder)
        for form in FORMS:
            (self.folder / form).mkdir(parents=True)
        self.names = [f"{number}.tap" for number in range(len(tape.images))]
        for name, data in zip(self.names, tape.images):
            (self.folder / name).write_bytes(data)
        self.what = f"seed {seed} ({', '.join(tape.damage) or 'whole'})"
        images = images_of(self.names, tape.images)
        self.told["further readings"] += len(images) - len(self.names)
        self.images = [each.name for each in images]
        self.found = Survey([each.data for each in images])
        self.uncounted = list(dict.fromkeys(sum((each.uncounted for each in images), [])))
        self.readers = {key: self.reader(*key) for key in self.found.files}
        self.check_model()
        self.records = {key: self.whole(key[1], each) for key, each in self.readers.items()}
        self.check_survey()
        for form in FORMS:
            self.check_unpack(form)
        self.check_extract(tape.rng.choice(tape.files).number)

    def reader(self, set_id, file):
        """The reader of a file of the model; None for a file in conflict or without a label."""
        if (set_id, file) not in self.found.names or self.found.in_conflict(set_id, file):
            return None
        return self.found.unpacked(set_id, file)

    def check_model(self):
        """The model is right about the records that were written."""
        for (_, file), reader in self.readers.items():
            if reader and reader.done and not self.tape.is_silent:
                records = self.tape.files[file - 1].records
                self.same(model.joined(reader.parts), records, "the model")
            self.told["complete" if reader and reader.done else "incomplete"] += 1
        for file in [] if self.tape.damage else self.tape.files:
            reader = self.readers.get((SET, file.number))
            is_left_out = file.is_ambiguous or self.found.is_lost(SET, file.number)
            is_read = reader is not None and reader.done
            self.told[f"whole {file.letter}"] += is_read
            self.expect(is_left_out or is_read, f"{self.what}: the model reads less")

    def is_complete(self):
        """Whether the model reads all files, and each image to its end."""
        is_read = all(each and each.done for each in self.readers.values())
        is_lost = any(self.found.is_lost(*key) for key in self.readers)
        is_whole = all(each.is_whole for each in self.found.volumes)
        return bool(self.readers) and is_read and is_whole and not is_lost

    def check_survey(self):
        done = self.run("survey", "--tsv", *self.names)
        rows = [line.split("\t") for line in done.stdout.splitlines()]
        told = [row[1:] for row in rows if row[0] == "SECTION"]
        self.same(told, self.found.section_rows(), "survey")
        told = [row[1:] for row in rows if row[0] == "UNCOUNTED"]
        want = [[printed(set_id).rstrip(), str(file), str(section)]
                for set_id, file, section in self.uncounted]
        self.same(told, want, "survey: not counted")
        told = sorted(row[1:] for row in rows if row[0] == "PADDED")
        self.same(told, self.found.padded_rows(), "survey: padding")
        self.told.update(f"padded with {padding}" for *_, padding in told)
        states = {(row[1], row[2]): row[5] for row in rows if row[0] == "FILE"}
        for (set_id, file), reader in self.readers.items():
            if reader and reader.done and self.found.is_complete(set_id, file):
                state = states.get((printed(set_id).rstrip(), str(file)))
                self.same(state, "COMPLETE", f"survey: state of file {file}")
        allowed = (0,) if self.is_complete() else (0, 3)
        self.expect(done.returncode in allowed, f"{self.what}: survey: status {done.returncode}")

    def check_unpack(self, form):
        """The lines, the files, the stages and the status."""
        done = self.run("unpack", "--form", form, form, *self.names)
        want, files = [], {}
        for (set_id, file), reader in self.readers.items():
            name = self.found.names.get((set_id, file))
            path = f"{form}/{path_of(set_id, file, name or b'')}"
            line = "NOT FOUND" if name is None else "CONFLICT"
            records = self.records[set_id, file]
            lines = [line]
            if records is not None:
                lines = [f"COMPLETE {len(records)} {path}"]
                files[path] = text_of(form, records)
            elif reader:
                lines = [f"{self.found.last_line(reader)} {path}.stage"]
                left_out = self.found.left_out(reader)
                lines += [f"SECTION DIFFERS {self.images[at]}" for at in left_out]
                if form != "lines":
                    self.check_stage(form, path, file, reader)
            lines += [f"UNCOUNTED {section}" for section in self.sections_not_counted(set_id, file)]
            want += [f"FILE {printed(set_id)} {file} {line}" for line in lines]
        unread = [name for name, each in zip(self.names, self.found.volumes) if not each.is_read]
        want += [f"INCOMPLETE IMAGE {name}" for name in unread]
        self.same(one_by_one(done.stdout.splitlines()[:-1]), want, "unpack")
        made = [path for path in (self.folder / form).iterdir() if path.suffix != ".stage"]
        made = {f"{form}/{path.name}": path.read_bytes() for path in made}
        self.same(made, files, "unpack: files")
        is_all = bool(self.readers) and len(files) == len(self.readers) and not unread
        self.same(done.returncode, 0 if is_all else 3, "unpack: status")
        if done.returncode == 0 and not self.tape.is_silent:
            self.check_written(form, made)

    def whole(self, file, reader):
        """The records of a file, if `unpack` writes it: as it is read, or else as by `salvage`."""
        if reader is None or reader.done:
            return model.joined(reader.parts) if reader else None
        reader = copy(reader)
        if not self.found.salvaged(reader):
            return None
        self.told["salvaged"] += 1
        records = model.joined(reader.parts)
        if not self.tape.is_silent:
            self.same(records, self.tape.files[file - 1].records, "the model of salvage")
        return records

    def sections_not_counted(self, set_id, file):
        return [section for *key, section in self.uncounted if key == [set_id, file]]

    def check_written(self, form, made):
        """Apart from the model: status 0 means that the files are those that were written."""
        for path, data in made.items():
            file = self.tape.files[int(path.split(".")[1]) - 1]
            self.same(data, text_of(form, file.records), f"unpack: {path} with status 0")
            if form == "counted":
                self.same(counted(data), file.records, f"unpack: records of {path}")

    def check_stage(self, form, path, file, reader):
        """The records in the stage of an incomplete file."""
        out = self.folder / "records"
        out.unlink(missing_ok=True)
        self.run("stage", "--form", form, f"{path}.stage", out.name)
        found = out.read_bytes() if out.exists() else None
        self.same(found, text_of(form, model.joined(reader.parts)), f"stage of file {file}")

    def check_extract(self, file):
        """One file by `extract --again`: lines, status and bytes."""
        form = self.tape.rng.choice(FORMS)
        words = ["--again", "--form", form, SET.decode(), str(file), "out"]
        done = self.run("extract", *words, *self.names)
        reader, lines = self.found.again(SET, file, True)
        lines.append(self.found.last_line(reader))
        lines += [f"UNCOUNTED {section}" for section in self.sections_not_counted(SET, file)]
        want = lines, 0 if reader.done else 3
        if self.found.in_conflict(SET, file):
            want = [], 1
        self.same((done.stdout.splitlines(), done.returncode), want, f"extract of file {file}")
        out = self.folder / "out"
        found = out.read_bytes() if out.exists() else None
        right = text_of(form, model.joined(reader.parts)) if want[1] == 0 else None
        self.same(found, right, f"extract of file {file}")


def plant(fault):
    """Makes the model wrong."""
    content, described, joined = model.content, model.described, model.joined
    begun = read_model.Reader.begun
    wrong = {
        # a last segment ends no record
        "segments": ("joined", lambda parts: joined([
            ("F" if span == "L" else span, data) for span, data in parts])),
        # padding with circumflexes takes a record of format F with it
        "record": ("content", lambda shape, block:
                   block[:-shape[1] or None] if block.endswith(b"^") else block),
        # padding of NULs or spaces is never left out
        "padding": ("content", lambda shape, block: block),
        # padding that may be a record is left out
        "ambiguous": ("content", lambda shape, block:
                      block[:model.parts_of(shape, block, False)[2]] if shape[0] == "F"
                      else content(shape, block)),
        # segments in any order
        "spans": ("fits", lambda span, begun: True),
        # the first bit of a block descriptor word does not count
        "descriptor": ("described", lambda block, at:
                       described(block, at) and not block[at] & 0x80),
    }
    if fault == "readings":  # nothing is read after a wrong word
        further_model.further = lambda name, data: []
    elif fault == "length":  # the length counts its own four bytes
        globals()["length_of"] = lambda record: (len(record) + 4).to_bytes(4, "big")
    elif fault == "miscounted":  # a copy with a wrong block count, or with labels, is read
        read_model.Volume.left_out = frozenset()
    elif fault == "sections":  # a record of format V does not continue in the next section
        read_model.Reader.begun = property(lambda self:
            begun.fget(self) and (self.seen > 0 or self.form[1] == "S"))
    else:
        setattr(model, *wrong[fault])


def main():
    parser = argparse.ArgumentParser(
        description=__doc__, formatter_class=argparse.RawDescriptionHelpFormatter)
    parser.add_argument("program", type=Path)
    parser.add_argument("tapes", type=int)
    parser.add_argument("seed", type=int, nargs="?", default=1)
    parser.add_argument("--plant")
    options = parser.parse_args()
    if options.plant:
        plant(options.plant)
    with tempfile.TemporaryDirectory(prefix="tape-") as folder:
        trial = Trial(str(options.program.resolve()), Path(folder, "tape"))
        trial.folder.mkdir()
        for seed in range(options.seed, options.seed + options.tapes):
            trial.read(seed)
            if trial.wrong > 20:
                break
    print(f"{seed - options.seed + 1} tapes: {dict(sorted(trial.told.items()))}")
    return trial.end()


if __name__ == "__main__":
    sys.exit(main())
