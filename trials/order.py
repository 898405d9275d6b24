#!/usr/bin/env python3
"""Runs the built program under strace, and judges its calls on files, their order, its options and its
exit statuses. Run manually before a release; CI does not run it. Needs strace and root.

    ./order.py [--program PATH] [NAME]..

Each check is named after the rule that a wrong program would violate. Prints each wrong result, and the counts. Exit
status 1 if something was wrong.
"""

import os
import re
import subprocess
import sys
import tempfile
from inspect import isfunction, signature
from pathlib import Path

from common import Results, arguments, files_in, folder_with
from fail import LINES, ONE, TWO, stage_of
from make_worked_image import block, first_label, mark, second_label, volume_label, word

CALLS = "openat,write,fsync,fdatasync,rename,renameat,renameat2,link,linkat,unlink,unlinkat,flock,close,ftruncate,fchmod,fchown"
CALL = re.compile(r"(\w+)\((.*)\) += (-?\d+)(.*)$")
PATH = re.compile(r'"((?:[^"\\]|\\.)*)"')
REELS = {"one.tap": ONE, "two.tap": TWO}
EXTRACT = ["extract", "ABC001", "1", "OUT"]
CUT = ONE[:20000]
BLANK = volume_label("ABC001") + mark() + mark() + word(0xFFFFFFFF)


class Run:
    """One run of the program in its own directory: its result, and its system calls."""

    def __init__(self, program, words, files, inject=(), only=None, before=None, out=subprocess.PIPE, watch=True, stdin=b"", env=None):
        with folder_with(files) as folder:
            self.root = folder
            os.chmod(folder, 0o777)
            (folder / "d").mkdir(exist_ok=True)
            if before:
                before(self.root)
            log = self.root.with_suffix(".log")
            strace = ["strace", "-y", "-s", "64", "-o", str(log), "-e", f"trace={CALLS}"]
            for rule in inject:
                strace += ["-e", f"inject={rule}"]
            if only:
                strace += ["-P", only]
            done = subprocess.run(
                [*(strace if watch or inject else []), program, *words], cwd=folder, stdout=out, stderr=subprocess.PIPE,
                input=stdin, check=False, timeout=120, env={**os.environ, **(env or {})},
            )
            self.status, self.err = done.returncode, done.stderr.decode("utf-8", "replace")
            self.out = (done.stdout or b"").decode("utf-8", "replace")
            self.files = files_in(folder)
            self.links = [str(p.relative_to(self.root)) for p in self.root.rglob("*") if p.is_symlink()]
            self.modes = {name: (self.root / name).stat().st_mode & 0o7777 for name in self.files}
            self.events = self.read(log) if log.exists() else []
            log.unlink(missing_ok=True)

    def read(self, log):
        """The log: the name of each call, its path, and the rest."""
        events = []
        for line in log.read_text(errors="replace").splitlines():
            found = CALL.match(line)
            if not found or found[3].startswith("-"):
                continue
            name, rest = found[1], found[2]
            held = re.match(r"\d+<([^>]*)>", rest)
            paths = PATH.findall(rest)
            path = held[1] if held else (paths[0] if paths else "")
            if name == "openat":
                path = re.search(r"<([^>]*)>", found[4])[1] if "<" in found[4] else path
            events.append((name, self.short(path), rest if name != "linkat" else self.short(paths[-1])))
        return events

    def short(self, path):
        prefix = str(self.root) + "/"
        return "." if path == str(self.root) else path.removeprefix(prefix).removeprefix("./")

    def last(self, test, start=0):
        found = [k for k, event in enumerate(self.events) if k >= start and test(*event)]
        return found[-1] if found else None

    def first(self, test, start=0):
        return next((k for k, event in enumerate(self.events) if k >= start and test(*event)), None)

    def printed(self, text):
        """The index of the call that writes a text to standard output."""
        return self.first(lambda name, path, rest: name == "write" and rest.startswith("1<") and text in rest)

    def drafts(self):
        return [name for name in self.files if ".tape-" in name]


def in_order(*places):
    return all(place is not None for place in places) and list(places) == sorted(places)


def is_sync(path):
    return lambda name, at, rest: name in ("fsync", "fdatasync") and at == path


def is_write(path):
    return lambda name, at, rest: name == "write" and at == path


def refused(t, words, files, *kinds):
    """Each call of some kinds refused in turn: a description, and the run."""
    for kind, error in kinds:
        for number in range(1, sum(call in kind.split(",") for call, _, _ in t(words, files).events) + 1):
            yield f"{kind} {number}", t(words, files, inject=[f"{kind}:error={error}:when={number}"])


# ---- syncs and names, in their order ----


def image_is_synced(t):
    for files in ({}, {"ABC001.tap": BLANK}):
        run = t(["write", ".", "ABC", "200000", "A=lines"], {"lines": LINES} | files)
        yield in_order(run.last(is_write("ABC001.tap")), run.last(is_sync("ABC001.tap")), run.printed("VOLUME")), "the image is synced, then printed"
        if not files:
            yield in_order(run.first(is_write("ABC001.tap")), run.last(is_sync(".")), run.printed("FILES")), "the directory of a new image is synced"


def init_is_synced(t):
    run = t(["init", ".", "ABC", "2"], {})
    for name in ("ABC001.tap", "ABC002.tap"):
        yield in_order(run.last(is_write(name)), run.last(is_sync(name)), run.printed("INIT")), f"{name} is synced"


def name_after_sync(t):
    for words, files in (([*EXTRACT, "one.tap", "two.tap"], REELS), ([*EXTRACT, "two.tap", "one.tap", "--again"], REELS | {"OUT": b"old\n"}),
            ([*EXTRACT, "one.tap", "two.tap", "--stage", "s"], REELS), (["unpack", "d", "one.tap", "two.tap"], REELS)):
        run = t(words, files)
        taken = run.last(lambda name, at, rest: name.startswith(("link", "rename")))
        draft = next((path for name, path, rest in run.events if name == "openat" and ".tape-" in path and "O_EXCL" in rest), None)
        folder = "d" if words[0] == "unpack" else "."
        yield draft is not None, "a new file is opened under a name of its own"
        yield in_order(run.last(is_write(draft)), run.first(is_sync(draft)), taken), "it is synced before it is named"
        yield in_order(taken, run.first(is_sync(folder), taken or 0), run.printed("COMPLETE 900")), "the directory is synced before COMPLETE"
        yield run.drafts() == [], "the draft has gone"


def stage_is_synced(t):
    run = t([*EXTRACT, "one.tap", "--stage", "s"], REELS)
    yield in_order(run.first(is_write("s")), run.first(is_sync("s")), run.printed("AWAITS")), "a new stage is synced"
    yield in_order(run.first(lambda name, at, rest: name == "openat" and at == "s"), run.first(is_sync(".")), run.printed("REEL")), "so is its directory"
    yield in_order(run.last(is_write("s")), run.last(is_sync("s")), run.printed("REEL")), "a reel is saved before its line is printed"
    yield any(name == "flock" and at == "s" and "LOCK_EX" in rest for name, at, rest in run.events), "it is locked for this run alone"


def a_shared_lock_excludes(t):
    def lock(root):
        held.append(subprocess.Popen(["flock", "-s", str(root / "s"), "sleep", "30"]))
        subprocess.run(["sh", "-c", f"while flock -n -x {root}/s true; do sleep .01; done"], check=False)
    held = []
    run = t([*EXTRACT, "two.tap", "--stage", "s"], REELS | {"s": t.stage}, before=lock)
    held[0].terminate()
    yield run.status == 1 and run.err == "tape: stage fault 7\n" and run.files["s"] == t.stage, f"a shared lock: {run.err}"


def refused_folder_sync(t):
    for words, files in (([*EXTRACT, "one.tap", "two.tap"], REELS), (["unpack", "d", "one.tap", "two.tap"], REELS),
            (["write", ".", "ABC", "200000", "A=lines"], {"lines": LINES})):
        for what, run in refused(t, words, files, ("fsync", "EIO")):
            yield run.status == 1 and "COMPLETE 900" not in run.out and "FILES" not in run.out, f"{words[0]}, {what} refused: {run.status} {run.out!r}"


def input_is_closed(t):
    run = t(["write", ".", "ABC", "200000", "A=a", "B=b"], {"a": LINES, "b": LINES})
    read = [k for k, (name, at, rest) in enumerate(run.events) if name == "openat" and at in "ab"]
    closed = run.last(lambda name, at, rest: name == "close" and at == "a")
    yield in_order(read[-2], closed, read[-1]), "one input is closed before the next is opened"


# ---- files that remain, and files that are removed ----


def drafts_are_removed(t):
    full = lambda root: (root / "OUT").symlink_to("/dev/full")
    for words, files in (([*EXTRACT, "one.tap"], REELS), ([*EXTRACT, "one.tap", "--again"], REELS), ([*EXTRACT, "one.tap", "--stage", "s"], REELS),
            (["unpack", "d", "one.tap"], REELS), (["unpack", "--salvage", "d", "one.tap"], REELS), (["merge", "OUT", "one.tap", "two.tap"], REELS), (["salvage", "ABC001", "1", "OUT", "one.tap"], REELS),
            (["stage", "s", "OUT"], {"s": t.stage})):
        run = t(words, files)
        yield run.status == 3 and run.drafts() == [], f"{words}: {run.status} {run.drafts()}"
        # the name is refused in the end
        run = t([*words, "two.tap"] if words[0] in ("extract", "unpack") else words, files, inject=["rename,link,linkat,renameat,renameat2:error=EIO"])
        yield run.drafts() == [], f"{words}, no new name: {run.drafts()}"
    for number in range(1, 5):
        run = t([*EXTRACT, "one.tap", "two.tap"], REELS, inject=[f"write:error=ENOSPC:when={number}"])
        yield run.status == 1 and run.drafts() == [], f"write {number} refused: {run.status} {run.drafts()}"
    run = t(["stage", "s", "OUT"], {"s": t.stage[:-300]})
    yield run.status == 1 and run.drafts() == [], f"a damaged stage: {run.status} {run.drafts()}"


def no_new_file(t):
    """No temporary file can be created: OUT is written in place only if it exists and its directory refuses new files."""
    old = {"OUT": b"old\n"}
    for error in ("EACCES", "EROFS", "ENOSPC", "EMFILE", "EIO", "ENAMETOOLONG", "EDQUOT"):
        in_place = error in ("EACCES", "EROFS")
        refuse = {"inject": [f"openat:error={error}"], "only": ".tape-1.part"}
        run = t([*EXTRACT, "one.tap", "two.tap"], REELS | old, **refuse)
        yield (run.status, run.files["OUT"]) == ((0, t.records) if in_place else (1, b"old\n")), f"{error}, OUT exists: {run.status} {run.err!r}"
        yield in_place or run.err == "tape: file fault 2\n", f"{error}, OUT exists: {run.err!r}"
        for words in (["merge", "OUT", "one.tap", "one.tap"], ["salvage", "ABC001", "1", "OUT", "one.tap"]):
            run = t(words, REELS, **refuse)
            yield run.err == "tape: file fault 2\n" and "OUT" not in run.files, f"{error}, {words[0]}: {run.status} {run.err!r}"
        for staged in ({}, {"d/ABC001.1.PAYROLL.stage": t.stage}):
            run = t(["unpack", "d", "one.tap", "two.tap"], REELS | staged, inject=refuse["inject"], only="d/.tape-1.part")
            yield run.status == 1 and "FAILED file fault 2" in run.out and "d/ABC001.1.PAYROLL" not in run.files, f"{error}, unpack: {run.out!r}"


def names_that_are_taken(t):
    def take(root):
        for number in range(1, 12):
            (root / f".tape-{number}.part").mkdir()
    run = t([*EXTRACT, "one.tap", "two.tap"], REELS, before=take)
    yield run.status == 0 and run.files.get("OUT") == t.records, f"eleven names are taken: {run.status} {run.err!r}"


def modes_are_kept(t):
    for mode, wanted in ((0o600, 0o600), (0o640, 0o640), (0o4755, 0o755), (0o2711, 0o711)):
        run = t([*EXTRACT, "one.tap", "two.tap"], REELS | {"OUT": b"old\n"}, before=lambda root: (root / "OUT").chmod(mode))
        yield run.status == 0 and run.modes["OUT"] == wanted, f"{mode:o} became {run.modes['OUT']:o}"


def links_are_left_alone(t):
    run = t(["unpack", "d", "one.tap", "two.tap"], REELS, before=lambda root: (root / "d/ABC001.1.PAYROLL").symlink_to("lost"))
    yield run.links == ["d/ABC001.1.PAYROLL"] and "NOT COMPARED" in run.out and "d/lost" not in run.files, f"a link that leads nowhere: {run.out!r} {run.links}"
    run = t(["unpack", "d", "one.tap"], REELS, before=lambda root: (root / "d/ABC001.1.PAYROLL.stage").symlink_to("../victim"))
    yield run.links == ["d/ABC001.1.PAYROLL.stage"] and "victim" not in run.files, f"a stage that is a link: {run.out!r}"
    run = t([*EXTRACT, "one.tap", "two.tap"], REELS | {"real": b"old\n"}, before=lambda root: (root / "OUT").symlink_to("real"))
    yield run.links == ["OUT"] and run.files["real"] == t.records, "OUT that is a link is written through"
    for number in range(1, sum(call == "write" for call, _, _ in run.events) + 1):
        run = t([*EXTRACT, "one.tap", "two.tap"], REELS | {"real": b"old\n"}, inject=[f"write:error=ENOSPC:when={number}+"],
            before=lambda root: (root / "OUT").symlink_to("real"))
        left = run.files["real"]
        yield run.status == 1 and run.links == ["OUT"] and left in (b"old\n", t.records), f"OUT that is a link, a disk full from write {number} on: {run.status} {left[:20]}"


def output_that_has_the_lines(t):
    for words, files in ((["extract", "ABC001", "1"], REELS), (["stage", "s"], {"s": t.stage})):
        for name in ("/dev/stdout", "/proc/self/fd/1", "notes"):
            with tempfile.TemporaryDirectory() as folder:
                notes = Path(folder) / "notes"
                notes.write_bytes(b"my notes\n")
                with open(notes, "ab") as out:
                    path = str(notes) if name == "notes" else name
                    run = t([*words, path, *(name for name in files if name != "s")], files, out=out)
                yield run.status == 2 and notes.read_bytes() == b"my notes\n", f"{words[0]} {name}: {run.status} {notes.read_bytes()!r}"


def names_of_drafts(t):
    for words in (["salvage", "ABC001", "1", "S"], ["merge", "M", "two.tap"], ["unpack", "d"], EXTRACT):
        run = t([*words, ".tape-1.part"], {"two.tap": TWO, ".tape-1.part": ONE})
        yield run.status == 2 and run.files.get(".tape-1.part") == ONE, f"{words[0]} of an unfinished output: {run.status}"


def salvaged_files(t):
    """What `unpack --salvage` does to its two files: those of anybody else stay as they are."""
    words, name = ["unpack", "--salvage", "d", "one.tap"], "d/ABC001.1.PAYROLL"
    run = t(words, REELS)
    own = {path: run.files.get(path) for path in (f"{name}.salvaged", f"{name}.gaps")}
    yield run.status == 3 and None not in own.values() and run.drafts() == [], f"{run.status} {run.out!r}"
    for number, path in ((2, f"{name}.gaps"), (1, f"{name}.salvaged")):
        draft = f"d/.tape-{number}.part"
        taken = run.first(lambda call, at, rest: call == "linkat" and rest == path or call == "link" and path in rest)
        yield in_order(run.last(is_write(draft)), run.first(is_sync(draft)), taken, run.first(is_sync("d"), taken or 0), run.printed("AWAITS")), f"{path} is synced, then named"
    for path in own:
        run = t(words, REELS | {path: b"mine\n"})
        yield run.status == 3 and "EXISTS" in run.out and run.files[path] == b"mine\n", f"{path} of another: {run.status} {run.out!r}"
        run = t(words, REELS | own | {path: own[path] + b"more\n"})
        yield run.status == 3 and "EXISTS" in run.out and run.files[path] == own[path] + b"more\n", f"{path} that was changed: {run.status} {run.out!r}"
        run = t(words, REELS, before=lambda root: (root / path).symlink_to("lost"))
        yield run.links == [path] and "EXISTS" in run.out and "d/lost" not in run.files, f"{path} is a link: {run.out!r}"
        run = t([*words, "two.tap"], REELS | own | {path: own[path] + b"more\n"})
        yield run.status == 0 and run.files.get(path) == own[path] + b"more\n", f"{path} that was changed, a complete file: {run.status}"
    run = t([*words, "two.tap"], REELS | own)
    yield run.status == 0 and not set(own) & set(run.files), f"a complete file: {run.status} {list(run.files)}"
    for what, run in refused(t, words, REELS, ("fsync", "EIO"), ("write", "ENOSPC")):
        yield run.status == 1 and all(run.files.get(path, due) == due for path, due in own.items()) and run.drafts() == [], f"{what}: {run.status} {list(run.files)}"


def log_of_a_merge(t):
    """OUT and LOG of `merge --log` are there together, or neither is; files that exist stay as they are."""
    words = ["merge", "--log", "LOG", "OUT", "one.tap", "one.tap"]
    run = t(words, REELS)
    due = {path: run.files.get(path) for path in ("OUT", "LOG")}
    yield run.status == 0 and None not in due.values() and run.drafts() == [], f"{run.status} {run.err!r} {list(run.files)}"
    for path in due:
        run = t(words, REELS | {path: b"mine\n"})
        yield run.status == 1 and run.files[path] == b"mine\n" and not set(due) - {path} & set(run.files), f"{path} exists: {run.status} {list(run.files)}"
        run = t(words, REELS, before=lambda root: (root / path).symlink_to("lost"))
        yield run.status == 1 and run.links == [path] and "lost" not in run.files, f"{path} is a link: {run.status}"
    for log, out in (("x", "x"), ("d/../x", "x")):
        run = t(["merge", "--log", log, out, "one.tap", "one.tap"], REELS)
        yield run.status == 2 and run.out == "" and "x" not in run.files, f"LOG {log}, OUT {out}: {run.status} {run.out!r}"
    for what, run in refused(t, words, REELS, ("fsync", "EIO"), ("write", "ENOSPC"), ("link,linkat,rename", "EIO")):
        there = {path: run.files[path] for path in due if path in run.files}
        yield run.drafts() == [] and (there == due or run.status == 1 and not there), f"{what}: {run.status} {list(there)}"


def a_stage_by_another_path(t):
    for stage, out in (("d/../x", "x"), ("x", "d/../x"), ("./x", "x")):
        run = t(["extract", "ABC001", "1", out, "one.tap", "--stage", stage], REELS)
        yield run.status == 2 and "x" not in run.files, f"OUT {out}, stage {stage}: {run.status}"


def files_on_two_systems(t):
    with tempfile.TemporaryDirectory() as top:
        a, b = Path(top, "a"), Path(top, "b")
        for folder in (a, b):
            folder.mkdir()
            subprocess.run(["mount", "-t", "tmpfs", "x", str(folder)], check=True)
        try:
            (a / "one.tap").write_bytes(ONE)
            (a / "two.tap").write_bytes(TWO)
            (b / "OUT").write_bytes(b"old\n")
            same = (a / "one.tap").stat().st_ino == (b / "OUT").stat().st_ino
            run = t(["extract", "ABC001", "1", f"{b}/OUT", f"{a}/one.tap", f"{a}/two.tap"], {})
            yield same and run.status == 0, f"one number on two file systems ({same}): {run.status} {run.err}"
        finally:
            for folder in (a, b):
                subprocess.run(["umount", str(folder)], check=True)


def inputs_are_tried_first(t):
    run = Run("setpriv", ["--reuid=65534", "--clear-groups", t.program, "write", "d", "ABC", "100000", "A=a", "B=b"], {"a": LINES, "b": LINES},
        before=lambda root: ((root / "b").chmod(0), (root / "d").chmod(0o777)), watch=False)
    yield run.status == 1 and not any(name.endswith(".tap") for name in run.files), f"an input that cannot be read: {run.status}, {list(run.files)}"


# ---- options and statuses ----


def options_do_something(t):
    run = t(["survey", "one.tap", "--tsv"], REELS)
    yield run.out.startswith("IMAGE\tone.tap\t"), f"survey --tsv: {run.out!r}"
    yield not t(["survey", "one.tap"], REELS).out.startswith("IMAGE"), "survey"
    broken = t.stage[:-300]
    yield t(["stage", "s"], {"s": broken}).err == "tape: stage fault 2\n", "a damaged stage"
    run = t(["stage", "s", "--damaged"], {"s": broken})
    yield run.status == 3 and run.out.startswith("STAGE ABC001 1 ") and "TRUNCATED AT" in run.out, f"stage --damaged: {run.out!r}"
    for words, env in ((["--explain"], {}), ([], {"TAPE_EXPLAIN": "1"})):
        for call, what in ((["list", "lost.tap"], "image"), (["check", "--files-from", "lost"], "list"), ([*EXTRACT, "lost.tap", "--stage", "lost/s"], "stage"),
                (["write", "d", "ABC", "100000", "A=lost"], "input"), (["init", "lost", "ABC", "1"], "image")):
            run = t([*call, *words], REELS, env=env)
            yield run.status == 1 and "No such file or directory" in run.err and f"  The {what} could not be " in run.err, f"{call}: {run.err!r}"
    yield t(["list", "lost.tap"], {}).err == "tape: file fault 2\n", "nothing is explained unless it is asked for"


def statuses_of_unpack(t):
    other = ONE.replace(b"PAYROLL", b"LEDGERS")
    second = TWO.replace(b"ABC00100020001", b"ABC00100010002")
    for name, files, status, line in (
        ("complete", REELS, 0, "COMPLETE 900"),
        ("incomplete", {"one.tap": ONE}, 3, "AWAITS 1 2 0"),
        ("two sets of one identifier", {"one.tap": ONE, "other.tap": other, "two.tap": TWO}, 3, "CONFLICT"),
        ("a file not found", {"two.tap": second}, 3, "NOT FOUND"),
        ("blank volumes", {"blank.tap": BLANK}, 3, ""),
        ("an image that does not exist", REELS | {"lost.tap": None}, 3, "INCOMPLETE IMAGE lost.tap"),
    ):
        run = t(["unpack", "d", *files], {name: content for name, content in files.items() if content})
        yield run.status == status and line in run.out, f"unpack, {name}: {run.status} {run.out!r}"
    with open("/dev/full", "wb") as full:
        run = t(["unpack", "d", "one.tap", "two.tap", "lost.tap"], REELS, out=full)
    yield run.status == 1 and run.err == "tape: file fault 4\n", f"unpack to a full device: {run.status} {run.err!r}"
    yield t(["unpack", "lost", "one.tap"], REELS).status == 1, "no directory"


def images_of_one_set(t):
    other = ONE.replace(b"ABC001", b"XYZ001")
    run = t(["unpack", "d", "one.tap", "other.tap"], {"one.tap": ONE, "other.tap": other})
    opened = [at for name, at, rest in run.events if name == "openat" and at.endswith(".tap")]
    stage = "d/ABC001.1.PAYROLL.stage"
    first = run.first(lambda name, at, rest: name == "openat" and at == stage) or len(run.events)
    ended = run.first(lambda name, at, rest: name == "close" and at == stage, first) or len(run.events)
    between = {at for name, at, rest in run.events[first:ended] if name == "openat" and at.endswith(".tap")}
    # After the survey the copies are compared, and the files recovered, set by set.
    yield between == {"one.tap"} and opened[2:] == sorted(opened[2:]), f"for ABC001 {between} were opened ({opened})"


def lines_one_by_one(t):
    names = ["a.tap", "b.tap", "c.tap"]
    for command in (["check"], ["survey"], ["survey", "--tsv"]):
        run = t([*command, *names], dict.fromkeys(names, CUT))
        opened = [run.first(lambda name, at, rest, image=image: name == "openat" and at == image) for image in names]
        lines = [k for k, (name, at, rest) in enumerate(run.events) if name == "write" and rest.startswith("1<")]
        if command == ["check"]:
            yield all(any(one < line < next_one for line in lines) for one, next_one in zip(opened, opened[1:])), "check: a line for each image, before the next is opened"
        else:
            yield lines and all(opened[-1] < line for line in lines), f"{command}: nothing before the last image is opened"


def full_output(t):
    calls = (["check", "one.tap"], ["survey", "one.tap"], ["list", "one.tap"], ["init", "d", "ABC", "1"], ["compare", "one.tap", "one.tap"],
        ["write", "d", "ABC", "200000", "A=lines"])
    for words in calls:
        with open("/dev/full", "wb") as full:
            run = t([*words, "--explain"], REELS | {"lines": LINES}, out=full)
        yield run.status == 1 and run.err.startswith("tape: file fault 4\n  Output: standard output\n"), f"{words}: {run.err!r}"
    for words, files, reels in (([*EXTRACT[:3], "/dev/full", "one.tap", "two.tap"], REELS, "  REEL 1: one.tap\n  REEL 2: two.tap\n"),
            (["stage", "s", "/dev/full"], {"s": t.stage}, "")):
        run = t([*words, "--explain"], files)
        yield run.status == 1 and run.err.startswith(f"{reels}tape: file fault 4\n  OUT: /dev/full\n"), f"{words}: {run.err!r}"
    run = t(["extract", "ABC001", "1", "OUT", "one.tap", "--stage", "s", "--explain"], REELS | {"s": b"no stage"})
    yield run.err.startswith("tape: stage fault 1\n  Stage: s\n"), f"a stage: {run.err!r}"
    run = t([*EXTRACT, "one.tap", "--stage", "s", "--explain"], REELS | {"s": t.stage}, inject=["fsync:error=EIO:when=4+"])
    yield run.err.startswith("  REEL 1: one.tap\ntape: run fault 1\n  Stage: s\n"), f"a stage that cannot be synced: {run.err!r}"
    run = t(["extract", "ABC001", "2", "OUT", "one.tap", "--stage", "s", "--explain"], REELS | {"s": t.stage})
    yield run.err.startswith("tape: run fault 5\n  Stage: s\n") and run.files["s"] == t.stage, f"a stage of another file: {run.err!r}"


def each_refused_write(t):
    """More bytes than the buffer: a write of records fails while reels are read."""
    for what, run in refused(t, [*EXTRACT, "one.tap", "two.tap"], REELS, ("write", "ENOSPC")):
        yield run.status == 1 and run.err == "tape: file fault 4\n" and "COMPLETE" not in run.out.replace("REEL 2 COMPLETE", ""), f"{what}: {run.err!r}"
    written = ["write", ".", "ABC", "200000", "A=lines"], {"lines": LINES, "ABC001.tap": BLANK}
    right = t(*written).files["ABC001.tap"]
    for number in range(1, 12):
        run = t(*written, inject=[f"write:error=ENOSPC:when={number}"])
        there = run.files["ABC001.tap"]
        yield run.status == 1 and right.startswith(there) or there == right, f"write to a blank volume, write {number}: {run.status}, {len(there)} bytes"
    for number in (1, 2):
        run = t(["init", "d", "ABC", "2"], {}, inject=[f"write:error=ENOSPC:when={number}"])
        yield run.status == 1, f"init, write {number}: {run.status} {run.out!r}"


def each_refused_line(t):
    for words, files in ((["list", "one.tap"], REELS), (["check", "one.tap", "two.tap"], REELS), (["survey", "one.tap", "two.tap"], REELS),
            (["survey", "--tsv", "one.tap", "two.tap"], REELS), (["compare", "one.tap", "two.tap"], REELS), (["merge", "OUT", "one.tap", "one.tap"], REELS),
            ([*EXTRACT, "one.tap", "two.tap"], REELS), (["unpack", "d", "one.tap", "two.tap"], REELS), (["salvage", "ABC001", "1", "OUT", "one.tap"], REELS),
            (["stage", "s"], {"s": t.stage}), (["init", "d", "ABC", "1"], {}), (["write", "d", "ABC", "100000", "A=lines"], {"lines": LINES})):
        writes = [rest for name, at, rest in t(words, files).events if name == "write"]
        for number in [k for k, rest in enumerate(writes, 1) if rest.startswith("1<")]:
            run = t(words, files, inject=[f"write:error=ENOSPC:when={number}"])
            yield run.status == 1 and run.err == "tape: file fault 4\n", f"{words}, write {number}: {run.status} {run.err!r}"


def long_numbers(t):
    labels = volume_label("ABC001") + first_label("HDR1", 0) + second_label("HDR2").replace(b"F0080000080", b"F0002000020") + mark()
    image = labels + block(b"x" * 20) * 100_000
    run = t(["unpack", "d", "one.tap"], {"one.tap": image + b"\0\0"}, watch=False)
    yield "AWAITS 1 1 100000 d/" in run.out, f"a long last line: {run.out!r}"
    run = t(["write", ".", "ABC", "100000000", "A=a"], {"a": b"x\n" * 1_000_001}, watch=False)
    yield run.status == 0, f"a million records: {run.err!r}"
    image = run.files.get("ABC001.tap", b"")
    run = t(["extract", "ABC001", "1", "OUT", "a.tap"], {"a.tap": image}, watch=False)
    yield run.out.endswith("COMPLETE 1000001\n"), f"a million records: {run.out!r} {run.err!r}"


def long_stages(t):
    """A stage of more than 2 GB is written, continued and read."""
    with tempfile.TemporaryDirectory(prefix="tape-order-") as folder:
        size, count, image = 99_999, 21_600, Path(folder, "a.tap")
        labels = volume_label("ABC001") + first_label("HDR1", 0) + second_label("HDR2").replace(b"F0080000080", b"F9999999999") + mark()
        with image.open("wb") as file:
            file.write(labels)
            for _ in range(count):
                file.write(size.to_bytes(4, "little"))
                file.seek(size + 1, os.SEEK_CUR)
                file.write(size.to_bytes(4, "little"))
        for _ in range(2):
            run = t(["extract", "ABC001", "1", "OUT", str(image), "--stage", f"{folder}/s"], {}, watch=False)
            yield run.status == 3 and run.out.endswith(f"AWAITS 1 1 {count}\n"), f"a long stage: {run.status} {run.out!r} {run.err!r}"
        yield Path(folder, "s").stat().st_size > 1 << 31, "it has more than 2 GB"
        run = t(["stage", f"{folder}/s"], {}, watch=False)
        yield run.out.startswith(f"STAGE ABC001 1 {count}\n"), f"a long stage that is shown: {run.out!r} {run.err!r}"


def lines_of_lists(t):
    names = b"".join(b"%d.tap\n" % number for number in range(1, 11)) + b"M\xfcller.tap\n12.tap\n"
    run = t(["check", "--files-from", "names"], {"names": names})
    yield run.status == 2 and "line 11 of the list" in run.err, f"a line that is not text: {run.err!r}"


def odd_calls(name):
    """Calls that end with an error about this name or word."""
    folder = f"{name}/f"
    yield from ([name], ["--" + name], ["--version=" + name], ["help", name], ["help", "list", name], ["list", "--" + name], ["list", "a", "--" + name],
        ["list", "--explain=" + name], ["survey", "--tsv" + name, "x"], ["survey", "--tsv=" + name, "x"], ["stage", "s", "o", name])
    for words in (["list", name], ["check", "--files-from", name], ["survey", "--files-from", name], ["stage", name], ["compare", name, name],
            ["unpack", folder, "i"], ["unpack", "", name], ["merge", folder, "i", "j"], ["merge", "o", name, name],
            ["init", folder, "ABC", "2"], ["init", "d", name, "2"], ["init", "d", "ABC", name],
            ["write", folder, "ABC", "100000", "A=p"], ["write", "d", name, "100000", "A=p"], ["write", "d", "ABC", name, "A=p"],
            ["write", "d", "ABC", "100000", "A=" + name], ["write", "d", "ABC", "100000", name], ["write", "d", "ABC", "100000", "A=p", "--block", name],
            ["write", "d", "ABC", "100000", "A=p", "--format", name]):
        yield ["--explain", *words]
    for words in (["extract"], ["salvage"]):
        for rest in (["S", "1", folder, "i"], ["S", name, "o", "i"], ["1234567" + name, "1", "o", "i"], ["S", "1", "o", name], ["S", "1", "o", "i", "--form", name]):
            yield [*words, "--explain", *rest]
    yield ["extract", "--explain", "S", "1", "o", "i", "--stage", folder]


def names_are_quoted(t):
    """No character of a name or of another word acts on a terminal, hides or ends a line, and different ones are printed differently."""
    odd = [0, *range(1, 32), *range(127, 160), 0xAD, 0x61C, *range(0x200B, 0x2010), *range(0x2028, 0x202F), *range(0x2060, 0x2070), 0xFEFF]
    names = ["a\x1b]0;x\ab", "a\ntape: run fault 9", "a\\u000Atape: run fault 9", "a\u202eb", "a\u2028b", "a\x9b1mb", "a\x7fb", "a\rb", "\ufeffa", "a\u200bb", "a\\b", "a\\\\b"]
    for number, _ in enumerate(odd_calls("")):
        runs = [(name, t(list(odd_calls(name))[number], {}, watch=False)) for name in names]
        words = list(odd_calls("NAME"))[number]
        hidden = [name for name, run in runs if any(ord(c) in odd for c in (run.out + run.err).replace("\n", ""))]
        yield not hidden, f"{words}: {hidden} are printed as they are"
        yield all("\ntape: run fault 9" not in run.err for _, run in runs), f"{words}: a line is forged"
        # "\\" and "\" begin like other names in a word that is read character by character
        texts = [run.err for _, run in runs]
        yield len(set(texts)) in (1, len(names)), f"{words}: {len(set(texts))} texts for {len(names)} names"
    run = t(["check", "a.tap", b"M\xfc\x1bller.tap"], {}, watch=False)
    yield run.status == 2 and run.err.endswith("  word 3: M\\xFC\\x1Bller.tap\n"), f"a word that is not text: {run.err!r}"


def main():
    options, results = arguments(__doc__, ("names", [], "the checks to run [default: all]")), Results()
    program = options.program

    def call(words, files, **how):
        return Run(program, words, files, **how)

    call.program, call.stage, call.records = program, stage_of(program), LINES
    # each function with the single parameter `t` is a check
    checks = {name: it for name, it in globals().items() if isfunction(it) and list(signature(it).parameters) == ["t"]}
    for name in options.names or checks:
        for is_right, what in checks[name](call):
            results.expect(is_right, f"{name}: {what}")
    return results.end()


if __name__ == "__main__":
    sys.exit(main())
