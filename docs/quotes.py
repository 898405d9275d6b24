#!/usr/bin/env python3
"""Reports quotes in docs/PROVED.md and the crates' README.md that differ from the code.

A quote is an indented block without '$ '. Its lines must appear in one file of crates/*/src,
crates/*/specs or crates/*/python, or in a C program of trials, in the same order; lines of the file may be omitted between them, and leading space
is ignored. The last line printed is the number of quotes that differ. Run manually, not in CI.
"""
import pathlib
import re
import sys

TOP = pathlib.Path(__file__).resolve().parent.parent


def lines_of(text):
    return [" ".join(line.split()) for line in text.splitlines() if line.strip()]


def stands_in(quote, source):
    rest = iter(source)
    return all(line in rest for line in quote)


def quotes_of(page):
    blocks = re.findall(r"(?:^    .*\n(?:\n(?=    ))?)+", page.read_text(), re.M)
    return [block for block in blocks if not block.startswith("    $ ")]


def main():
    files = [*TOP.glob("crates/*/src/**/*.rt"), *TOP.glob("crates/*/specs/**/*.antt"),
             *TOP.glob("crates/*/python/*.py"), *TOP.glob("trials/*.c")]
    sources = [lines_of(file.read_text()) for file in sorted(files)]
    count = differ = 0
    for page in [TOP / "docs/PROVED.md", *sorted(TOP.glob("crates/*/README.md"))]:
        for block in quotes_of(page):
            count += 1
            if not any(stands_in(lines_of(block), source) for source in sources):
                differ += 1
                print(f"{page.relative_to(TOP)}: no file has these lines in this order:\n{block}")
    print(f"{differ} of {count} quotes differ")
    return 1 if differ else 0


sys.exit(main())
