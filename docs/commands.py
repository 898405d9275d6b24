"""The commands and options of the program, as its own help prints them.

Imported by completions.py, man.py and reference.py, which write what is generated from them.
"""
import argparse
import os
import re
import subprocess
import sys
import tempfile
from dataclasses import dataclass, field

TOP = os.path.dirname(os.path.dirname(os.path.abspath(__file__)))
OUT = os.path.join(TOP, "crates", "tape", "out")
# The proved program, or else the unproved one that `./tape` makes.
BUILT = next(filter(os.path.exists, [os.path.join(OUT, "tape"), os.path.join(OUT, "unproved")]), OUT)


@dataclass
class Word:
    """An argument, or an option: `name` is that of the argument, or `--option`."""
    name: str
    value: str  # the name of its value in the help; of an argument its own name; of a flag nothing
    is_repeated: bool
    text: str
    default: str
    values: list = field(default_factory=list)  # the only values, if the program limits them

    @property
    def call(self):
        """The word as in a call, with its values: `--form lines|raw`."""
        value = "|".join(self.values) or self.value
        return " ".join(filter(None, [self.name, value])) if self.name.startswith("-") else value

    @property
    def described(self):
        """The text with the default value."""
        return self.text + (f" [default: {self.default}]" if self.default else "")


@dataclass
class Command:
    """The program, with an empty name, or one of its commands."""
    name: str
    about: str
    arguments: list  # of Word
    options: list  # of Word, without those of every command
    after: str  # what the help prints at its end
    required: str  # the arguments of the usage line, such as `OUT [IMAGE]...`

    @property
    def usage(self):
        """The command with its arguments; up to three options are named."""
        options = [f"[{word.call}]" for word in self.options]
        words = ["tape", self.name, *(options if len(options) <= 3 else ["[OPTIONS]"]), self.required]
        return " ".join(filter(None, words))


@dataclass
class Program:
    version: str
    whole: Command  # its options are those of every command
    own: list  # of Word: the options of every command, and -h and -V
    commands: list  # of Command


def words_of(text):
    """The words of a part of the help: each is a line with its name, then indented lines."""
    for head, body in re.findall(r"^ {2,6}(\S.*)\n((?: {10}.*\n|\n)*)", text, re.M):
        name = re.fullmatch(r"(?:(-\w), )?(--[\w-]+)?(?: ?[<\[]([^>\]]+)[>\]])?(\.\.\.)?", head)
        lines = "\n".join(line[10:] for line in body.split("\n")).strip()
        said, _, default = lines.partition("\n\n[default: ")
        yield name[1], Word(name[2] or name[3], name[3] or "", bool(name[4]), said, default.removesuffix("]"))


def parts_of(text):
    """The parts of a help: the text before the usage, the usage, arguments, options, and the rest."""
    about, _, rest = text.partition("\n\nUsage: ")
    usage, _, rest = rest.partition("\n")
    found = {"Arguments": "", "Commands": "", "Options": ""}
    while head := re.match(r"\n+(Arguments|Commands|Options):\n((?: .*\n|\n(?= ))*)", rest):
        found[head[1]] = head[2]
        rest = rest[head.end():]
    return about, usage, found, rest.strip("\n")


def read(program):
    """Reads the help of the program at this path, and of each of its commands."""
    program = os.path.abspath(program)

    def run(*words):
        """What the program prints, in an empty directory."""
        with tempfile.TemporaryDirectory() as folder:
            done = subprocess.run([program, *words], cwd=folder, stdin=subprocess.DEVNULL,
                                  stdout=subprocess.PIPE, stderr=subprocess.PIPE, text=True)
        return done.stdout or done.stderr

    about, _, parts, after = parts_of(run("--help"))
    own = list(words_of(parts["Options"]))
    shared = [word for letter, word in own if letter is None]
    names = [name for name in re.findall(r"^  (\S+)", parts["Commands"], re.M) if name != "help"]
    whole = Command("", about, [], shared, after, "")
    commands = [command_at(name, run, [word.name for _, word in own]) for name in names]
    version = re.search(r"\d+\.\d+\.\d+", run("--version"))[0]
    return Program(version, whole, [dashed(*each) for each in own], commands)


def dashed(letter, word):
    """The option with the names that the help shows, such as `-h, --help`."""
    name = f"{letter}, {word.name}" if letter else word.name
    return Word(name, word.value, word.is_repeated, word.text, word.default)


def command_at(name, run, shared):
    """Reads the help of one command; `shared` has the options of every command."""
    about, usage, parts, after = parts_of(run(name, "--help"))
    arguments = [word for _, word in words_of(parts["Arguments"])]
    options = [word for _, word in words_of(parts["Options"]) if word.name not in shared]
    required = re.sub(r"[<>]", "", usage.removeprefix(f"tape {name}"))
    required = re.sub(r" \[(?:OPTIONS|--[^\]]*)\]", "", required).strip()
    # The program lists the possible values of an option when it refuses another one.
    for word in options:
        if word.value and (found := re.search(r"\[possible values: (.*)\]", run(name, f"{word.name}=?"))):
            word.values = found[1].split(", ")
    return Command(name, about, arguments, options, after, required)


def parse(page):
    """The options of a script that writes generated files, and the program that they name."""
    parser = argparse.ArgumentParser(description=page, formatter_class=argparse.RawDescriptionHelpFormatter)
    parser.add_argument("--check", action="store_true", help="write nothing; report what is out of date, with status 1")
    parser.add_argument("--program", default=BUILT, help="the built program (default: %(default)s)")
    options = parser.parse_args()
    if not os.path.isfile(options.program):
        sys.exit(f"{options.program} is no program: run ./tape --help first, or name another one with --program")
    return options


def write(files, is_check, script):
    """Writes the files, given as paths and texts; if `is_check`, reports those that differ. Returns the exit status."""
    status = 0
    for path, text in files.items():
        old = ""
        if os.path.exists(path):
            with open(path, encoding="utf-8") as file:
                old = file.read()
        if old == text:
            continue
        if is_check:
            print(f"{os.path.relpath(path, TOP)} is out of date: run {script}")
            status = 1
            continue
        with open(path, "w", encoding="utf-8") as file:
            file.write(text)
    return status
