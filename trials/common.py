"""Shared by the trials: their options, directories of files, and the count of their results."""

import argparse
import subprocess
import sys
import tempfile
from contextlib import contextmanager
from pathlib import Path

HERE = Path(__file__).resolve().parent
CRATE = HERE.parent / "crates" / "tape"


def arguments(page, *rows):
    """The options in the command line: `--program`, and a row (name, default, help) for each other one."""
    parser = argparse.ArgumentParser(description=page, formatter_class=argparse.RawDescriptionHelpFormatter)
    parser.add_argument("--program", type=Path, default=CRATE / "out" / "tape", help="the built `tape`")
    for name, default, text in rows:
        kind = {"action": "store_true"} if default is False else {"nargs": "*"} if default == [] else {"type": type(default)}
        parser.add_argument(name, default=default, help=text, **kind)
    options = parser.parse_args()
    if not options.program.exists():
        sys.exit(f"{options.program} does not exist: run `rt run -- --help` in crates/tape, or specify another with --program")
    options.program = str(options.program.resolve())
    return options


def library(folder):
    """Builds calls.c, which is loaded before the C library."""
    path = Path(folder, "calls.so")
    subprocess.run(["cc", "-O2", "-Wall", "-shared", "-fPIC", "-o", path, HERE / "calls.c"], check=True)
    return path


@contextmanager
def folder_with(files=(), place=None):
    """A temporary directory with these files, given as names and bytes."""
    with tempfile.TemporaryDirectory(prefix="tape-", dir=place) as name:
        folder = Path(name)
        for path, content in dict(files).items():
            (folder / path).parent.mkdir(exist_ok=True)
            (folder / path).write_bytes(content)
        yield folder


def files_in(folder):
    """The files below a directory, by their relative paths; links are left out."""
    paths = (path for path in Path(folder).rglob("*") if path.is_file() and not path.is_symlink())
    return {str(path.relative_to(folder)): path.read_bytes() for path in paths}


class Results:
    """Counts results, and prints each wrong one."""

    seen = wrong = 0

    def expect(self, is_right, what):
        self.seen += 1
        if not is_right:
            self.wrong += 1
            print(what, flush=True)

    def end(self, noun="results"):
        """Prints the counts; returns the exit status."""
        print(f"{self.seen} {noun}, {self.wrong} wrong")
        return self.wrong != 0
