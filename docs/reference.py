#!/usr/bin/env python3
"""Writes the usages and the list of errors in docs/REFERENCE.md from the program's help and the texts of --explain.

    docs/reference.py [--program PATH]            writes them
    docs/reference.py [--program PATH] --check    reports if they are out of date, or if an explanation is too
                                                  long, with status 1

A list is between '<!-- usage of COMMAND -->' or '<!-- errors -->' and '<!-- end -->'. The rest of the page is
written by hand and stays. Usages come from the program, as in docs/man.py. Errors come from explain.rt and
explain/files.rt: of each the first sentence that is no advice (ADVICE), and that the page does not say of all
errors (SAID).
"""
import os
import re
import sys
import textwrap

import commands

PAGE = os.path.join(commands.TOP, "docs", "REFERENCE.md")
SOURCE = os.path.join(commands.TOP, "crates", "tape_tool", "src")
BLOCK = re.compile(r"(<!-- (usage of (\w+)|errors) -->\n).*?(<!-- end -->\n)", re.S)

# The lists of explanations whose errors have a kind of their own.
KINDS = {"IMAGE": "image fault {} at P", "LABEL": "label fault {}", "WRITE": "write fault {}",
         "RUN": "run fault {}", "STAGE": "stage fault {}"}

# Single explanations: the error, and the file.
SINGLE = {"NO_IMAGE": ("`image fault 1`, `2` or `3` `at 0`", ""),
          "A_FOLDER": ("`image fault 5`", "a directory"),
          "MERGED_TOO_LONG": ("`image fault 4`", "`merge`, `compare`"),
          "CONFLICT": ("`set fault 1`", "`extract --again`")}

# The number of the error of each kind for which the explanation is NO_MEMORY.
MEMORY = {"IMAGE": 6, "WRITE": 10, "RUN": 4, "STAGE": 4}

# The lists of explanations of file faults: the file.
FILES = {"FILE_OF_IMAGE": "an image", "FILE_OF_LIST": "a list of images",
         "FILE_OF_OUT": "OUT", "FILE_OF_NEW": "OUT of `merge` or `convert`", "FILE_OF_LOG": "LOG of `merge`",
         "FILE_OF_STAGE": "a stage", "FILE_OF_FOLDER": "DIR of `unpack`",
         "FILE_OF_MANIFEST": "a list of `unpack` in DIR", "FILE_OF_PROVENANCE": "the JSONL of `--provenance`",
         "FILE_OF_VOLUME": "an image of `init`", "FILE_OF_INPUT": "an input of `write`",
         "FILE_OF_IMAGES": "an image of `write`", "FILE_OF_LINES": "standard output"}


# The columns of a usage; a character in place of the spaces in an option.
WIDTH, UNBROKEN = 100, "\0"

# How a sentence begins that says what to do, or what FORMATS.md has; so does a question.
ADVICE = re.compile(r"(?:A file of at most|Allowed|Check|Choose|Close|Copy|Free|Give|If the disk|Increase|Leave|Look"
                    r"|Name|Remove|Shorten|Use|Wait|With 'extract' OUT|With 'merge' (?:and 'convert' )?OUT|With the default|'tape|'sha256sum)\b")

# Sentences that the sections of the commands, or the text above the list, have for all their errors.
SAID = {"Nothing was listed.", "All items before that block were listed.", "All items before that were listed.",
        "All items before that, if any, were listed.", "Data saved in the stage earlier is safe.",
        "Data saved in a stage is safe.", "Data saved earlier is safe.", "Files reported earlier are kept.",
        "Files that were reported are kept.", "Files reported earlier, and the stages, are kept.",
        "It was not changed.", "It was not changed, and no image was created.", "Nothing was written.",
        "Created images were removed; remove blank ones that were begun.",
        "Images created before it, if any, are complete.", "Nothing was read.", "No image was read.",
        "With --verify: there is no MANIFEST.sha256; 'tape unpack --manifest' writes it."}


def line(text):
    """Text in one line."""
    return " ".join(text.split())


def read(*path):
    with open(os.path.join(*path), encoding="utf-8") as file:
        return file.read()


def unescaped(text):
    """The text of a string in the source."""
    text = re.sub(r"\\\n\s*", "", text)
    return re.sub(r"\\(.)", lambda it: "\n" if it[1] == "n" else it[1], text)


def usage(command):
    """The usage of a command with all its options."""
    options = [f"[{word.call}]".replace(" ", UNBROKEN) for word in command.options]
    lines = textwrap.wrap(" ".join(["tape", command.name, *options, command.required]), WIDTH,
                          initial_indent=" " * 4, subsequent_indent=" " * 8, break_on_hyphens=False)
    return "\n".join(lines).replace(UNBROKEN, " ") + "\n"


def explanations():
    """The texts of --explain: single ones, and lists by the number of the error."""
    source = "".join(read(SOURCE, *part) for part in (("explain.rt",), ("explain", "files.rt")))
    string = r'"(?:[^"\\]|\\.)*"'
    single = {name: unescaped(text[1:-1]) for name, text in
              re.findall(rf"const (\w+): &str =\s*({string});", source, re.S)}
    lists = {name: {int(number): text for number, text in
                    (item.split("  ", 1) for item in body.split("\n#")[1:])}
             for name, body in single.items() if body.startswith("\n#")}
    for name, number in MEMORY.items():
        lists[name][number] = single["NO_MEMORY"]
    return single, lists


def misfits():
    """The texts of --explain that do not fit on a screen: each has one to three lines of at most 79 columns."""
    single, lists = explanations()
    missing = re.findall(r'"([A-Z](?:[^"\\{]|\\.)*\n(?:[^"\\{]|\\.)*)"',
                         read(SOURCE, "explain", "missing.rt"), re.S)
    texts = [*map(unescaped, missing), *(text for name, text in single.items() if name not in lists),
             *(text for texts in lists.values() for text in texts.values())]
    for text in texts:
        lines = ("  " + text).split("\n")
        if len(lines) > 3 or not all(it.startswith("  ") and len(it) <= 79 for it in lines):
            yield text


# What the numbers of file faults mean for every file, as the text above the list says.
PLAIN = re.compile(r"[A-Z][\w. -]*?(?:, or a file in it,)? could not be (?:opened|created|opened or created|read"
                   r"|written|written completely)(?:: the disk is full or failing)?\.|The \w+ already exists\."
                   r"|Writing to \w+ or standard output failed: the disk is full, or a pipe was closed\."
                   r"|OUT already exists, or another program created it meanwhile\."
                   r"|Output failed: the disk is full, or the pipe was closed \(by 'head', say\)\."
                   r"|OUT already exists and could not be read, so tape cannot tell whether it is a tape image\.")


def facts(text):
    """The first sentence of an explanation that is no advice, and that the page does not say of all errors."""
    text = re.sub(r": is [^.?]*\?|(?:;|, and) it was (?:left as it is|not changed)\.", ".", " ".join(text.split()))
    sentences = re.split(r"(?<=[.?])\s+(?=[A-Z'])", text)
    said = (PLAIN.sub("", it).strip() for it in sentences)
    return next((it for it in said if it and not (it.endswith("?") or ADVICE.match(it) or it in SAID)), "")


def errors():
    """A list of all errors."""
    single, lists = explanations()
    unknown = set(lists) - set(KINDS) - set(FILES)
    if unknown:
        sys.exit(f"reference.py: no heading for {', '.join(sorted(unknown))}")
    rows = [(error, file, single[name]) for name, (error, file) in SINGLE.items()]
    for name, error in KINDS.items():
        rows += [(f"`{error.format(number)}`", "", text)
                 for number, text in sorted(lists[name].items())]
    rows = [(error, file, facts(text)) for error, file, text in rows]
    for name, file in FILES.items():
        rows += [(f"`file fault {number}`", file, facts(text))
                 for number, text in sorted(lists[name].items())]
    alike = {}
    for error, file, text in rows:
        if text:
            alike.setdefault((file, text), []).append(error)
    return "\n".join(f"- {', '.join(same)}{file and f', {file}'}: {line(text)}"
                     for (file, text), same in alike.items()) + "\n"


def page(program):
    """The page with its lists."""
    text = read(PAGE)
    found = [it[3] for it in BLOCK.finditer(text) if it[3]]
    usages = {command.name: usage(command) for command in program.commands}
    if sorted(found) != sorted(usages):
        sys.exit(f"docs/REFERENCE.md has usages of {' '.join(found)}; the commands are {' '.join(usages)}")
    return BLOCK.sub(lambda it: it[1] + (usages[it[3]] if it[3] else errors()) + it[4], text)


def main():
    options = commands.parse(__doc__)
    status = commands.write({PAGE: page(commands.read(options.program))}, options.check, "docs/reference.py")
    for text in misfits() if options.check else []:
        print(f"an explanation has more than three lines, or a line that is too long: {text!r}")
        status = 1
    return status


if __name__ == "__main__":
    sys.exit(main())
