#!/usr/bin/env python3
"""Refuses every system call of the built program in turn, and judges the result.
Run manually; CI does not run it.

    ./fail.py [--program PATH] [COMMAND]..

Each trial is run once unchanged, and then once for each call of a kind with that call refused, by
calls.c: alone, and with all later ones of its kind. A result is right if

- it is status 1 and one line on standard error, with a fault that this refusal may cause (no line if
  writing that line was refused); or what the command reports of an image that is not opened or read;
- standard output is a prefix of the right lines, of complete lines if no write was refused;
- each image is a prefix, and an output file does not exist: part of it may exist only after a failed
  write;
- it differs from the result without a refusal, except for the refusals that `may_change_nothing`
  lists with their reasons: a refusal that the program ignores is wrong.

In one more run reads and writes transfer one byte at a time: nothing may change. Prints a line for each
group of similar wrong results, and a table. Exit status 1 if a result was wrong.
"""

import errno
import os
import re
import subprocess
import sys
from dataclasses import dataclass, field
from pathlib import Path

from common import arguments, files_in, folder_with, library
from make_worked_image import block, first_label, mark, second_label, volume_label, word

# allocations, openings, reads, writes, syncs, new names, locks, looks, second names, removals, closes, as calls.c
# counts them
KINDS = "aorwynlthdc"
# the errors that each call is refused with
ERRORS = {
    "a": [errno.ENOMEM],
    "o": [errno.EACCES, errno.EIO, errno.EMFILE],
    "r": [errno.EIO],
    "w": [errno.EIO, errno.ENOSPC],
    "y": [errno.EIO, errno.EDQUOT],
    "n": [errno.EIO],
    "l": [errno.EWOULDBLOCK, errno.EIO, errno.EINTR],
    "t": [errno.ESTALE, errno.EACCES],
    "h": [errno.EPERM, errno.EIO],
    "d": [errno.EIO],
    "c": [errno.EIO, errno.EDQUOT],
}


@dataclass
class Trial:
    """A command line, its files, and its possible results if a call is refused."""

    name: str
    words: list
    faults: dict
    files: dict = field(default_factory=dict)
    stdin: bytes = b""
    # the file that contains exactly the complete result, or is unchanged
    result: str = ""
    # standard output if the command reports a refusal in its lines, by kind and status
    reports: dict = field(default_factory=dict)
    # a file that may exist if something is missing, with the data recovered
    stays: str = ""
    # the image that is listed: its fault states the offset of the current item
    image: bytes = b""


@dataclass
class Answer:
    status: int
    out: str
    err: str
    files: dict
    counts: list
    # the path in the refused call, if it has one
    path: str = ""


# ---- images ----


def places(image):
    """The offset of each item of a complete image, and the offset of its end."""
    found, at = [], 0
    while at < len(image):
        length = int.from_bytes(image[at:at + 4], "little")
        if length == 0xFFFFFFFF:
            break
        size = 4 if length == 0 else 8 + length + length % 2
        found.append((at, at + size))
        at += size
    return found + [(at, at + 4)]


def section(number, ends, records):
    """A section of the worked file: its records in blocks of 800 bytes."""
    lines = [f"{i:04}".encode("ascii") + b" " * 76 for i in records]
    blocks = [b"".join(lines[i:i + 10]) for i in range(0, len(lines), 10)]
    numbered = lambda label: label.replace(b"ABC00100010001", b"ABC001%04d0001" % number)
    trailer = "EOF" if ends else "EOV"
    return b"".join(
        [numbered(first_label("HDR1", 0)), second_label("HDR2"), mark()]
        + [block(data) for data in blocks]
        + [mark(), numbered(first_label(trailer + "1", len(blocks))), second_label(trailer + "2"), mark()]
    )


def volume(number, ends, records):
    return volume_label(f"ABC{number:03}") + section(number, ends, records) + mark() + word(0xFFFFFFFF)


# there are more records than the program buffers, 65,536 bytes
ONE, TWO = volume(1, False, range(1, 451)), volume(2, True, range(451, 901))
LINES = b"".join(b"%04d" % i + b" " * 76 + b"\n" for i in range(1, 901))

# ---- trials ----

NO_MEMORY = {"run fault 4", "image fault 6 at 0"}
LIST = {"a": NO_MEMORY, "o": {"file fault 2"}, "r": {"image fault 5"}, "w": {"file fault 4"}}
# closed standard streams are handled first
INIT = {"a": {"run fault 4"}, "o": {"file fault 2", "file fault 4"}, "w": {"file fault 4"}, "y": {"file fault 4"},
    "l": {"file fault 1", "file fault 2"}}
WRITE = {
    "a": {"run fault 4", "write fault 10"},
    # an input is looked up first, and opened when its turn comes; a directory is opened for a sync
    "o": {"file fault 2", "file fault 3", "file fault 4"},
    "r": {"file fault 3"},
    "w": {"write fault 9", "file fault 4"},
    "y": {"file fault 4"},
    "t": {"file fault 2"},
    "l": {"file fault 1", "file fault 2"},
}
EXTRACT = {
    "a": NO_MEMORY | {"run fault 1"},
    "o": {"file fault 2", "file fault 4"},
    "r": {"file fault 3"},
    "w": {"file fault 4"},
    "y": {"file fault 4"},
    "n": {"file fault 4"},
    "l": {"file fault 2"},
    "t": {"file fault 2", "file fault 4"},
}
STAGE = {
    "a": NO_MEMORY | {"stage fault 4"},
    "o": {"file fault 2", "file fault 4"},
    "r": {"stage fault 3"},
    "w": {"file fault 4"},
    "y": {"file fault 4"},
    "n": {"file fault 4"},
    "l": {"stage fault 7", "file fault 2"},
    "t": {"file fault 2", "file fault 4"},
}
REELS = r"(REEL \d+ .*\n)*"
UNREAD = {"o": r"REEL \d+ NOT OPENED\n", "r": r"REEL \d+ (REEL ENDED|NOT LABELLED) IMAGE 5 \d+\n"}
EXTRACT_REPORTS = {
    kind: {0: REELS + line + REELS + r"COMPLETE \d+\n", 3: REELS + line + REELS + r"AWAITS .*\n"} for kind, line in UNREAD.items()
}
# nothing can be opened, so closed standard streams cannot be guarded
CHECK = {"a": NO_MEMORY, "o": {"file fault 2"}, "w": {"file fault 4"}}
# the list itself, which is opened and read before the images
CHECK_LIST = CHECK | {"o": {"file fault 2"}, "r": {"file fault 3"}}
IMAGES = r"(IMAGE .*\n)*"
SECTIONS = r"(SECTION .*\n)*(LACKS .*\n|ALL SECTIONS FOUND\n)*"
CHECK_REPORTS = {
    "o": dict.fromkeys((0, 3), IMAGES + r"IMAGE \d+ 0 NOT OPENED\n" + IMAGES + SECTIONS),
    "r": dict.fromkeys((0, 3), IMAGES + r"IMAGE \d+ \d+ FAULT 5 \d+\n" + IMAGES + SECTIONS),
}
LISTS = r"([A-Z].*\n(  .*\n)+)*"
REST = r"([A-Z0-9].*\n)+\n(\w+\.tap +.*\n(    .*\n)*)*(Set .*\n(  .*\n)*)*"
SURVEY_REPORTS = {
    "o": {3: r"Not opened: .*\n(  \w+\.tap\n)+" + LISTS + r"\n2 images: [01] ok, [12] not opened\n" + REST},
    "r": {3: LISTS + r"\n2 images: [01] ok, [12] damaged\n([A-Z0-9].*\n)+\n(\w+\.tap +.*\n(    .*\n)*)*"
        r"\w+\.tap +damaged .*\n(    .*\n)*    image fault 5 at byte \d+.*\n(    .*\n)*(\w+\.tap +.*\n(    .*\n)*)*(Set .*\n(  .*\n)*)*"},
}
# memory, files and stages as above; a fault inside a file is also reported by the file's line
UNPACK = {
    "a": NO_MEMORY | {"run fault 1", "stage fault 4"},
    "o": {"file fault 2", "file fault 4", "stage fault 3"},
    "w": {"file fault 4", "run fault 1", "stage fault 3"},
    "r": {"stage fault 1", "stage fault 3", "run fault 1"},
    "y": {"file fault 4", "run fault 1", "stage fault 3"},
    "n": {"file fault 4"},
    "l": {"stage fault 7", "file fault 2"},
    "t": {"file fault 2", "file fault 4"},
}
# a reading that ends early is merged up to its end
MERGE = EXTRACT | {"r": {"image fault 5"}}
READINGS = r"(IMAGE \d+ .*\n)*(ITEM .*\n)*"
MERGE_REPORTS = {"r": dict.fromkeys((0, 3), READINGS + r"MERGED .*\n")}
PARTS = r"(IMAGE \d+ (NOT OPENED|FAULT \d+ \d+)\n)*(SECTION .*\n|GAP .*\n|NO FORM .*\n|TORN .*\n|COUNT .*\n)*"
SALVAGE_REPORTS = {kind: {0: PARTS + r"COMPLETE \d+\n", 3: PARTS + r"SALVAGED \d+\n"} for kind in "or"}
UNPACKED = "ABC001.1.PAYROLL"
WANTED = r"FILE ABC001 1 (COMPLETE|AWAITS) .*\n"
TOTAL = r"(INCOMPLETE IMAGE .*\n)*TOTAL .*\n"
UNPACK_REPORTS = {kind: {0: WANTED + TOTAL, 3: f"({WANTED})?{TOTAL}"} for kind in "orwyl"}
FAILED = re.compile(rf"FILE ABC001 1 FAILED .*\n{TOTAL}\Z")
LEFT = r"(tape: .* could not be removed\n)+"
# a draft that a refusal left: the next run removes it
DRAFT = re.compile(r"\.tape-\d+\.part")


def stage_of(program):
    """A stage with the records of the first volume, created by the program."""
    with folder_with({"one.tap": ONE}) as folder:
        words = ["extract", "ABC001", "1", "OUT", "one.tap", "--stage", "kept.stage"]
        subprocess.run([program, *words], cwd=folder, capture_output=True, check=False)
        return (folder / "kept.stage").read_bytes()


def trials(program):
    stage = {"kept.stage": stage_of(program)}
    reels = {"one.tap": ONE, "two.tap": TWO}
    lines = {"lines": LINES}
    blanks = {f"ABC{number:03}.tap": volume_label(f"ABC{number:03}") + mark() + mark() + word(0xFFFFFFFF) for number in (1, 2)}
    shape = ["--format", "F", "--block", "800", "--record", "80"]
    return [
        Trial("list, standard input", ["list"], LIST, stdin=ONE, image=ONE),
        Trial("list, a file", ["list", "one.tap"], LIST, reels, image=ONE),
        Trial("list, an image cut off", ["list", "cut.tap"], LIST, {"cut.tap": ONE[:20_000]}, image=ONE),
        Trial("list, offsets", ["list", "--offsets", "one.tap"], LIST, reels, image=ONE),
        Trial("init, two volumes", ["init", ".", "ABC", "2"], INIT),
        Trial("write, F", ["write", ".", "ABC", "30000", "PAYROLL=lines", *shape], WRITE, lines),
        Trial("write, D", ["write", ".", "ABC", "100000", "PAYROLL=lines"], WRITE, lines),
        Trial("write, S", ["write", ".", "ABC", "30000", "PAYROLL=lines", "--format", "S"], WRITE, lines),
        Trial("write, over blank volumes", ["write", ".", "ABC", "30000", "A=lines", *shape], WRITE, lines | blanks),
        Trial("extract, two reels", ["extract", "ABC001", "1", "OUT", "one.tap", "two.tap"], EXTRACT, reels, result="OUT",
            reports=EXTRACT_REPORTS),
        Trial("extract, existing OUT", ["extract", "ABC001", "1", "OUT", "two.tap", "one.tap", "two.tap"], EXTRACT,
            reels | {"OUT": b"older\n"}, result="OUT", reports=EXTRACT_REPORTS),
        Trial("extract, in passes", ["extract", "ABC001", "1", "OUT", "two.tap", "one.tap", "--again"], EXTRACT, reels,
            result="OUT", reports=EXTRACT_REPORTS),
        Trial("stage", ["stage", "kept.stage"], STAGE, stage),
        Trial("stage, with its records", ["stage", "kept.stage", "OUT"], STAGE, stage, result="OUT"),
        Trial("stage, damaged", ["stage", "--damaged", "torn.stage", "OUT"], STAGE,
            {"torn.stage": stage["kept.stage"][:20_000]}, result="OUT"),
        Trial("check, two reels", ["check", "one.tap", "two.tap"], CHECK, reels, reports=CHECK_REPORTS),
        Trial("check, names in a list", ["check", "one.tap", "--files-from", "names"], CHECK_LIST, reels | {"names": b"two.tap\n"},
            reports=CHECK_REPORTS),
        Trial("extract, names on standard input", ["extract", "ABC001", "1", "OUT", "--files-from", "-", "--null"], EXTRACT, reels,
            stdin=b"one.tap\0two.tap\0", result="OUT", reports=EXTRACT_REPORTS),
        Trial("unpack, two reels", ["unpack", ".", "two.tap", "one.tap"], UNPACK, reels, result=UNPACKED, stays=f"{UNPACKED}.stage",
            reports=UNPACK_REPORTS),
        Trial("merge, two readings", ["merge", "OUT", "one.tap", "one.tap"], MERGE, reels, result="OUT", reports=MERGE_REPORTS),
        Trial("salvage, two reels", ["salvage", "ABC001", "1", "OUT", "one.tap", "two.tap"], MERGE, reels, result="OUT",
            reports=SALVAGE_REPORTS),
        Trial("survey, two reels", ["survey", "one.tap", "two.tap"], CHECK, reels, reports=SURVEY_REPORTS),
    ]


# ---- one run ----


def run(options, preload, trial, refusal):
    # standard input is a file, not a pipe: each run then has the same reads
    with folder_with(trial.files) as work, folder_with({"stdin": trial.stdin}) as other, open(other / "stdin", "rb") as stdin:
        counts, path = other / "counts", other / "path"
        told = os.environ | {"LD_PRELOAD": str(preload), "FAIL": refusal, "FAIL_COUNTS": str(counts), "FAIL_PATH": str(path)}
        done = subprocess.run([options.program, *trial.words], cwd=work, env=told, stdin=stdin, capture_output=True, check=False)
        numbers = [int(count) for count in counts.read_text().split()] if counts.exists() else []
        return Answer(done.returncode, done.stdout.decode(), done.stderr.decode(), files_in(work), numbers,
            path.read_text() if path.exists() else "")


# ---- judging ----


def reads_again(trial):
    return "--again" in trial.words or trial.words[0] == "unpack"


def may_change_nothing(trial, kind, error, answer):
    """Why a refusal may change nothing, or None if it must change something."""
    path = answer.path
    if kind == "c":
        return "what has to be on the disk was synced before"
    if kind == "h":
        return "the name is taken by an empty file first"
    if kind in "ly" and error == errno.EINTR:
        return "the call is made again"
    if kind == "a":
        return "whether the environment asks for explanations is not known then"
    if kind == "r" and trial.words[0] in ("stage", "unpack"):
        return "what could not be read ahead of a stage is read by itself"
    if kind == "o" and path == "/":
        return "/dev/null is opened"
    if kind == "o" and path == "/dev/null" and error == errno.EMFILE:
        return "no number is free, so no file can get that of a standard stream"
    if kind in "ot" and error == errno.EACCES and DRAFT.fullmatch(Path(path).name):
        return "the directory takes no new file, so the output is written in place"
    if kind in "ort" and trial.words[0] in ("extract", "unpack") and (path.endswith(".tap") or kind == "r"):
        return "an image is looked at, or read again for its labels or for a comparison"
    if kind == "t" and path in (trial.result, f"./{trial.result}") and trial.result not in trial.files:
        return "a name that nothing had is taken by a link, which looks for itself"
    if kind == "t" and trial.words[0] == "unpack" and path.endswith((".salvaged", ".gaps")):
        return "records salvaged earlier that cannot be found are left"
    if kind == "o" and error == errno.EACCES and path == ".":
        return "a directory that may not be read is not synced"
    return None


def may_be_silent(kind, all_later, right, answer):
    """Whether the fault line itself was refused."""
    return kind == "w" and (all_later or (right.err != "" and answer.out == right.out))


def wrong_text(trial, kind, all_later, right, answer):
    """Why the status, the fault line or the lines are wrong, or None."""
    if kind in "lt" and (answer.status, answer.out, answer.err) == (right.status, right.out, right.err):
        # another name was used for the temporary file, since this one may belong to another run
        return None if any(DRAFT.fullmatch(name) for name in answer.files) else "a refusal that is not reported"
    if reads_again(trial) and kind in "or" and (answer.status, answer.err) == (0, ""):
        return None if re.fullmatch(REELS + r"COMPLETE \d+\n", answer.out) or answer.out == right.out else "the lines"
    report = trial.reports.get(kind)
    if report and (answer.status == 3 or (answer.status == 0 and answer.files == right.files)):
        told = answer.err == "" and re.fullmatch(report[answer.status], answer.out)
        return None if told else "a report that does not tell the refusal"
    if kind == "t" and trial.words[0] == "unpack" and KEPT in answer.out:
        # It is not known whether a complete file has a stage.
        is_right = answer.out.replace(KEPT, "") == right.out and (answer.err, answer.files) == ("", right.files)
        return None if is_right else "a stage that cannot be looked up"
    if kind == "d" and (answer.status, answer.out) == (right.status, right.out):
        return None if re.fullmatch(LEFT, answer.err) else "a file that could not be removed is not named"
    if answer.status != 1:
        return "the status"
    if answer.err != "" or not may_be_silent(kind, all_later, right, answer):
        fault = re.fullmatch(r"tape: (.*)\n", answer.err)
        allowed = trial.faults.get(kind, set())
        if not fault or not any(fault[1] == text or fault[1].startswith(text + " at ") for text in allowed):
            return "the fault line"
    is_gap = trial.words[0] == "salvage" and kind in "or" and re.fullmatch(PARTS, answer.out)
    if not is_gap and not right.out.startswith(FAILED.sub("", answer.out)):
        return "the lines"
    if kind != "w" and answer.out and not answer.out.endswith("\n"):
        return "half a line"
    return None


def wrong_place(trial, kind, right, answer):
    """A listing whose read was refused: it states the offset of the current item, and lists all items before it."""
    if kind != "r" or not trial.image:
        return None
    given = answer.counts[len(KINDS)]
    under_way = next(i for i, (_, end) in enumerate(places(trial.image)) if end > given)
    lines = right.out.splitlines(keepends=True)[:under_way]
    expected = f"tape: image fault 5 at {places(trial.image)[under_way][0]}\n"
    return None if answer.err == expected and answer.out == "".join(lines) else "the place, or what is listed before it"


def is_part(content, whole):
    """Whether the lines are among the complete ones, in order; items that were not read are left out."""
    left = iter(whole.splitlines(keepends=True))
    return all(line in left for line in content.splitlines(keepends=True))


def wrong_files(trial, kind, right, answer):
    for name, content in answer.files.items():
        before, whole = trial.files.get(name), right.files.get(name)
        if content in (before, whole) or name == trial.stays:
            continue
        if DRAFT.fullmatch(name) and (kind == "d" or not content):
            continue
        if trial.words[0] == "salvage" and name == trial.result and is_part(content, whole):
            continue
        if whole is None or not whole.startswith(content):
            return f"the bytes of {name}"
        if name == trial.result and content and answer.err not in ("tape: file fault 4\n", ""):
            return f"a part of {name} without the fault of writing"
    gone = trial.files.keys() - answer.files.keys()
    return f"no {gone.pop()}" if gone else None


KEPT = "FILE ABC001 1 STAGE KEPT ./ABC001.1.PAYROLL.stage\n"


def judge(trial, kind, all_later, right, answer):
    return (
        wrong_text(trial, kind, all_later, right, answer)
        or wrong_place(trial, kind, right, answer)
        or wrong_files(trial, kind, right, answer)
    )


def same(one, other):
    return (one.status, one.out, one.err, one.files) == (other.status, other.out, other.err, other.files)


# ---- all runs of a trial ----


def print_wrong(trial, wrong):
    """Prints similar wrong results together."""
    alike = {}
    for refusal, why, answer in wrong:
        alike.setdefault((why, answer.status, answer.err, answer.out[-200:]), []).append(refusal)
    for (why, status, err, out), refusals in alike.items():
        print(f"{trial.name}: {why}: status {status}, {err!r}, {out!r}, at {refusals[0]} and {len(refusals) - 1} more")


def refuse_each(options, preload, trial, kind, number_of_calls, right):
    unchanged, wrong = 0, []
    refusals = [
        (f"{kind}{number}{later}:{error}", error)
        for number in range(1, number_of_calls + 1) for later in ("", "+") for error in ERRORS[kind]
        # a call that is always interrupted is repeated forever
        if (later, error) != ("+", errno.EINTR)
    ]
    for refusal, error in refusals:
        answer = run(options, preload, trial, refusal)
        if same(answer, right):
            unchanged += 1
            why = None if may_change_nothing(trial, kind, error, answer) else f"nothing was changed ({answer.path})"
        else:
            why = judge(trial, kind, "+" in refusal, right, answer)
        if why:
            wrong.append((refusal, why, answer))
    print_wrong(trial, wrong)
    return len(refusals), unchanged, len(wrong)


def due(trial, right):
    """The minimum numbers of syncs and locks: a call that is not made cannot be refused."""
    written = re.search(r"INIT (\d+)\n|VOLUMES (\d+)\n", right.out)
    if written:
        volumes = int(written[1] or written[2])
        return {"y": 2 * volumes, "l": volumes}
    if trial.result and right.status == 0:
        return {"y": 2, "l": 1}
    return {}


def try_all(options, preload, trial):
    """A row of the table, and the number of wrong results."""
    right = run(options, preload, trial, "")
    missing = [kind for kind, count in due(trial, right).items() if right.counts[KINDS.index(kind)] < count]
    if missing:
        print(f"{trial.name}: not so many calls as there have to be, of the kinds {missing}: {right.counts}")
    each = [refuse_each(options, preload, trial, kind, right.counts[place], right) for place, kind in enumerate(KINDS)]
    runs, unchanged, wrong = (sum(numbers) for numbers in zip(*each))
    wrong += len(missing)
    if not same(run(options, preload, trial, "s"), right):
        wrong += 1
        print(f"{trial.name}: another answer where one byte passes at a time")
    calls = " | ".join(str(right.counts[place]) for place in range(len(KINDS)))
    return f"| {trial.name} | {calls} | {runs + 1} | {unchanged} | {wrong} |", wrong


def main():
    options, rows, wrong = arguments(__doc__, ("commands", [], "these commands alone")), [], 0
    with folder_with() as folder:
        preload = library(folder)
        for trial in trials(options.program):
            name = trial.words[0]
            if options.commands and name not in options.commands:
                continue
            row, count = try_all(options, preload, trial)
            rows, wrong = [*rows, row], wrong + count
    print("| Trial | Allocations | Openings | Reads | Writes | Syncs | New names | Locks | Looks | Second names | Removals | Closes "
        "| Runs | Nothing changed, as it may | Wrong answers |")
    print("|" + "---|" * (len(KINDS) + 4))
    print("\n".join(rows))
    return wrong != 0


if __name__ == "__main__":
    sys.exit(main())
