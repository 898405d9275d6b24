#!/usr/bin/env python3
"""Writes the man page docs/tape.1 from the program's help.

    docs/man.py [--program PATH]            writes the page
    docs/man.py [--program PATH] --check    reports if it is out of date, or if `man` does not show a line of output
                                            as the help has it, with status 1

The commands, their arguments and all texts come from the program; commands.py reads them.
"""
import os
import re
import shutil
import subprocess
import sys
import textwrap

import commands

PAGE = os.path.join(commands.TOP, "docs", "tape.1")

# The date of the page. It goes with the version of the program.
DATE = "2026-11-26"

# The files that the program creates: a name, and what it is.
FILES = [
    (".tape-1.part", "an unfinished output, in the directory of OUT. It gets the name OUT when the "
     "file is complete. A run that was killed may leave it; the next run in that directory removes it."),
    ("PATH of --stage, DIR/SET.FILE.NAME.stage", "a stage: what was recovered so far. The next run "
     "continues from it."),
    ("DIR/SET.FILE.NAME", "a file that unpack recovered, named after its labels."),
    ("DIR/PRE001.tap, DIR/PRE002.tap, ...", "the images of init and write."),
]

# Where to read more, as roff.
SEE_ALSO = """\
.BR cmp (1),
.BR ddrescue (1),
.BR mt (1)
.PP
The pages of the package, in
.IR /usr/share/doc/tape\\-volumes/docs :
.TP
.B GUIDE.md
from a shelf of reels to files
.TP
.B RECIPES.md
shell one\\-liners
.TP
.B REFERENCE.md
every option, every line of output, every error
.TP
.B FORMATS.md
images, labels, blocks, stages
.TP
.B PROVED.md
what is proved, and what is only tested
.PP
ECMA\\-13,
.IR "File Structure and Labelling of Magnetic Tapes for Information Interchange" ,
4th edition, 1985.
.br
.IR "SIMH Magtape Representation and Handling" ,
which comes with the SIMH simulators.""".split("\n")

# What is known to be missing.
BUGS = ("The program was tested only with images generated from the format descriptions, never with "
        "a dump of a real reel. It cannot detect errors that a drive did not report.")

def escaped(text):
    """Text with the escapes of roff."""
    for old, new in [("\\", "\\e"), ("-", "\\-"), ("'", "\\(aq"), ("`", "\\(ga"), ("^", "\\(ha"),
                     ("~", "\\(ti")]:
        text = text.replace(old, new)
    return re.sub(r"^\.", r"\&.", text)


def quoted(text):
    """Text as one argument of a request."""
    return '"' + escaped(text).replace('"', "\\(dq") + '"'


def one_column(lines):
    """Lines in two columns, each with a heading, with the second column after the first."""
    out, at = [], 0
    while at < len(lines):
        second = re.match(r"\S.*?:\s{3,}(?=\S.*:$)", lines[at])
        if not second:
            out.append(lines[at])
            at += 1
            continue
        left, right = [lines[at][:second.end()].rstrip()], [lines[at][second.end():]]
        at += 1
        while at < len(lines) and lines[at].startswith(" "):
            left.append(lines[at][:second.end()].rstrip())
            right.append("  " + lines[at][second.end():].lstrip())
            at += 1
        out += left + [""] + [line for line in right if line.strip()] + [""]
    return out


def is_output(lines):
    """Whether indented lines are what the program prints: one is indented further, but not to a column of others."""
    columns = {at.end() for line in lines for at in re.finditer(r"(?<=\S) {2,}(?=\S)", line)}
    indents = {len(line) - len(line.lstrip()) for line in lines}
    return any(indent > 2 and indent not in columns for indent in indents)


def rows(lines):
    """Indented lines: rows of a key and what it means, or text that is left as it is."""
    if is_output(lines):
        return [".PP", ".EX", *(escaped(line[2:]) for line in lines), ".EE"]
    out, keyed, verbatim, column = [], False, False, 0
    for line in lines:
        indent = len(line) - len(line.lstrip())
        cells = re.split(r" {2,}(?=\S)", line.strip())
        numbered = re.fullmatch(r"\d+", cells[0]) and len(cells) > 1
        row = re.match(r"(.*\S) {3,}(\S.*)", line.strip())
        # A long key leaves two spaces before the column of the rows above.
        row = row or keyed and re.match(rf"(?=.{{{column}}}\S)(.*\S) {{2}}(\S.*)", line.strip())
        if keyed and indent > 20:
            out.append(escaped(line.strip()))
            continue
        if numbered or row:
            key, said = (cells[0], cells[1:]) if numbered else (row[1], [row[2]])
            column = 0 if numbered else row.start(2)
            out += [".EE"] * verbatim + [".PP", ".PD 0"] * (not keyed)
            out += [".TP", f".B {quoted(key)}"]
            out += [part for cell in said for part in (".br", escaped(cell))][1:]
            keyed, verbatim = True, False
        elif indent > 2 and keyed:
            out.append(escaped(line.strip()))
        else:
            out += [] if verbatim else [".PD"] * keyed + [".PP", ".EX"]
            out.append(escaped(line[2:]))
            keyed, verbatim = False, True
    return out + [".EE"] * verbatim + [".PD"] * keyed


def paragraphs(text):
    """Text of help as roff: what is not indented is filled."""
    out, block = [], []
    for line in one_column(text.split("\n")) + [""]:
        if line.startswith("  "):
            block.append(line)
            continue
        if block:
            out += rows(block)
            block = []
            if line:
                out.append(".PP")
        elif line and (not out or out[-1] == ""):
            out.append(".PP")
        out.append(escaped(line))
    return [line for line in out if line]


def titled(text):
    """A text in sections, by its headings such as `Image faults:`."""
    out = [".SH DIAGNOSTICS"]
    for part in re.split(r"\n\n", text):
        first, _, rest = part.partition("\n")
        if first.startswith("Example"):
            out += [".SH EXAMPLES", *paragraphs(rest)]
        elif first.startswith("Exit status: "):
            out += [".SH EXIT STATUS", *paragraphs(part.removeprefix("Exit status: "))]
        elif first.endswith(":"):
            out += [f".SS {quoted(first[:-1])}", *paragraphs(rest)]
        else:
            out += paragraphs(part)
    return out


def words(listed):
    """Arguments and options, each with its text."""
    return [line for word in listed for line in (".TP", f".B {escaped(word.call)}", escaped(word.described))]


def command_part(command):
    """The section of a command."""
    return [f".SS {quoted('tape ' + command.name)}", escaped(command.about) + ".",
            *words(command.arguments + command.options), ".PP", *paragraphs(command.after)]


def page(program):
    """The man page."""
    about = program.whole.about
    out = [r".\" Made by docs/man.py from the program's help.",
           f'.TH TAPE 1 "{DATE}" "tape {program.version}" "User Commands"', ".SH NAME",
           rf"tape \- {escaped(about[0].lower() + about[1:])}", ".SH SYNOPSIS"]
    for command in program.commands:
        name = f"tape {command.name}"
        out += [f".B {name}", escaped(command.usage.removeprefix(name).strip()), ".br"]
    out[-1:] = [".SH DESCRIPTION", "Each command prints its part of this page with"]
    out += [r".BR \-\-help .", ".SH OPTIONS", *words(program.own), ".SH COMMANDS"]
    for command in program.commands:
        out += command_part(command)
    out += titled(program.whole.after)
    out += [".SH ENVIRONMENT", ".TP", ".B TAPE_EXPLAIN"]
    out += [escaped("0 is as --no-explain, anything else that is not empty as --explain"), ".SH FILES"]
    for name, text in FILES:
        out += [".TP", f".I {quoted(name)}", escaped(text)]
    out += [".SH BUGS", escaped(BUGS), ".SH SEE ALSO", *SEE_ALSO]
    return "\n".join(tidied(out)) + "\n"


def tidied(lines):
    """The lines without paragraphs that begin a section, and with filled text of 80 columns."""
    out, verbatim = [], False
    for line in lines:
        verbatim = line == ".EX" or verbatim and line != ".EE"
        if line == ".PP" and (out[-1].startswith((".SH", ".SS", ".PP")) or not out):
            continue
        if verbatim or line.startswith(".") or len(line) <= 80:
            out.append(line)
            continue
        for part in textwrap.wrap(line, 78, break_long_words=False, break_on_hyphens=False):
            out.append(r"\&" + part if part.startswith((".", "'")) else part)
    return out


def changed(program):
    """The lines of output in the help that are no lines of the page as `man` shows it."""
    shown = subprocess.run(["man", "-l", PAGE], env={**os.environ, "MANWIDTH": "120", "LC_ALL": "C.UTF-8"},
                           stdout=subprocess.PIPE, check=True, encoding="utf-8").stdout
    seen = {line.strip() for line in shown.split("\n")}
    for text in [program.whole.after, *(command.after for command in program.commands)]:
        for block in re.findall(r"(?:^  .*\n?)+", "\n".join(one_column(text.split("\n"))), re.M):
            lines = block.rstrip("\n").split("\n")
            yield from (line for line in lines if is_output(lines) and line.strip() not in seen)


def main():
    options = commands.parse(__doc__)
    program = commands.read(options.program)
    status = commands.write({PAGE: page(program)}, options.check, "docs/man.py")
    for line in changed(program) if options.check and shutil.which("man") else []:
        print(f"man does not show this line of the help: {line!r}")
        status = 1
    return status


if __name__ == "__main__":
    sys.exit(main())
