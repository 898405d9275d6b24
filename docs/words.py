#!/usr/bin/env python3
"""Counts sentences with phrases that make texts hard to read; CONTRIBUTING.md, 'Words', has better ones.

    docs/words.py            prints for each text how many sentences it has, and how many have one
    docs/words.py PLACE      prints the sentences of a place that have one
    docs/words.py --check    says where there are more than docs/words.txt allows, or where a page uses a
                             word that the glossary keeps for others (TERMS), with status 1
    docs/words.py --update   writes the present counts into docs/words.txt

A place is a page, `help` (with --explain and usage errors), or `/// CRATE`. Code, tables' rules and
names are left out; a sentence has at least six plain words.
"""
import pathlib
import re
import sys

TOP = pathlib.Path(__file__).resolve().parent.parent
ALLOWED = TOP / "docs" / "words.txt"
PHRASES = re.compile(r"""\b(
    tell|tells|told|telling | stand|stands|stood|standing | behind | met|meet|meets
    | wanted|wants | lack|lacks|lacking|lacked | (?:is|are|was|were)\ there | just
    | bring|brings|brought | lies|lie|lay | in\ (?:the|its|their)\ place\ of
    | (?:is|are|be|was)\ none | fronts? | at\ hand | left\ over
    | (?:go|goes|gone|going|went)\ on | pass(?:ed|es)?\ (?:by|over) | (?:is|are)\ passed | a\ row\ of
)\b""", re.X)

# The words that the glossary of DEFINITIONS.md keeps for contracts, comments and names, and those that one
# term replaces: what users read has none of them, and what specifies lines and bytes few.
USERS = ("README.md", "CHANGELOG.md", "docs/GUIDE.md", "docs/RECIPES.md", "docs/JSON.md", "help")
LINES = ("docs/REFERENCE.md", "docs/FORMATS.md")
INNER = r"lawful|doubtful|spell(?:s|ed|ings?)|awaited|foreign|strangers?|folders?|wrong (?:usage|arguments)"
TERMS = [(USERS, re.compile(rf"\b(?:{INNER}|sinks?|sessions?|frames?|weigh(?:t|s)|portions?|catalogue)\b", re.I)),
         (LINES, re.compile(rf"\b(?:{INNER})\b", re.I))]


def sentences(text):
    """The sentences of a text in which at least six plain words are left without code."""
    text = re.sub(r"\s+", " ", text).strip()
    for each in re.split(r"(?<=[.;!?])\s+(?=[A-Z`*\[\"'_])", text):
        bare = re.sub(r"\[([^\]]*)\]\([^)]*\)", r"\1", re.sub(r"`[^`]*`", " ", each))
        if len(re.findall(r"\b[A-Za-z][a-z]+\b|\ba\b", bare)) >= 6:
            yield bare


def paragraphs(path):
    """The paragraphs, list items and table cells of a page."""
    lines, code = [], False
    for line in [*path.read_text(encoding="utf-8").split("\n"), ""]:
        if line.startswith("```"):
            code = not code
        elif line.startswith("|"):
            yield from [] if set(line) <= set("|-: ") else re.split(r"(?<!\\)\|", line)[1:-1]
        if not line.strip() or code or line.startswith(("```", "|", "#", "    ")) \
                or re.match(r" *(- |\d+\. )", line):
            if lines:
                yield " ".join(lines)
            lines = []
        if line.strip() and not code and not line.startswith(("```", "|", "#", "    ")):
            lines.append(re.sub(r"^ *(- |\d+\. )", "", line))


def comments(path):
    """The paragraphs of the documentation comments of a source."""
    lines = []
    for line in [*path.read_text(encoding="utf-8").split("\n"), ""]:
        found = re.match(r"\s*//[/!]\s?(.*)", line)
        if found and found[1].strip() and not found[1].startswith("#"):
            lines.append(found[1])
        elif lines:
            yield " ".join(lines)
            lines = []


def strings(path):
    """The paragraphs of the texts in a source."""
    text = re.sub(r"\\\n\s*", "", path.read_text(encoding="utf-8"))
    for each in re.findall(r'"((?:[^"\\]|\\.)*)"', text, re.S):
        for part in re.split(r"\n\n|\n(?= )", each.replace("\\n", "\n").replace('\\"', "'")):
            yield part


def whole_texts():
    """For each place its paragraphs."""
    for page in sorted([*TOP.glob("*.md"), *TOP.glob("docs/*.md"), *TOP.glob("bench/*.md"), *TOP.glob("trials/*.md"),
                        *TOP.glob("release/*.md"), *TOP.glob("crates/*/README.md")]):
        if page.name != "DEFINITIONS.md":
            yield str(page.relative_to(TOP)), list(paragraphs(page))
    tool = TOP / "crates" / "tape_tool" / "src"
    texts = [path for name in ("help", "explain") for path in
             [tool / f"{name}.rt", *sorted((tool / name).glob("*.rt"))] if path.exists()]
    yield "help", [p for path in texts for p in strings(path)]
    for crate in sorted(TOP.glob("crates/*/src")):
        yield f"/// {crate.parent.name}", [p for path in sorted(crate.rglob("*.rt")) for p in comments(path)]


def places():
    """For each place its sentences."""
    for place, texts in whole_texts():
        yield place, [s for text in texts for s in sentences(text)]


def misused():
    """Each place with a word that the glossary keeps for others, and that word."""
    for place, texts in whole_texts():
        for names, words in TERMS:
            if place in names:
                for text in texts:
                    bare = re.sub(r"`[^`]*`|\{[^}]*\}|\]\([^)]*\)", " ", text)
                    yield from ((place, hit[0]) for hit in words.finditer(bare))


def main():
    found = {place: (len(all_), [s for s in all_ if PHRASES.search(s)]) for place, all_ in places()}
    arguments = sys.argv[1:]
    if arguments == ["--update"]:
        ALLOWED.write_text("".join(f"{len(hits)} {place}\n" for place, (_, hits) in found.items()),
                           encoding="utf-8")
        return 0
    if arguments == ["--check"]:
        rows = [line.split(" ", 1) for line in ALLOWED.read_text(encoding="utf-8").splitlines()]
        allowed = {place: int(count) for count, place in rows}
        more = [(place, len(hits)) for place, (_, hits) in found.items()
                if len(hits) > allowed.get(place, 0)]
        for place, count in more:
            print(f"{place}: {count} sentences with an unclear phrase, {allowed.get(place, 0)} before; "
                  f"docs/words.py '{place}' shows them")
        wrong = list(misused())
        for place, word in wrong:
            print(f"{place}: '{word}' is not a word of this page; the glossary of DEFINITIONS.md has another")
        return 1 if more or wrong else 0
    if arguments:
        for sentence in found[arguments[0]][1]:
            print(sentence.strip())
        return 0
    for place, (count, hits) in found.items():
        print(f"{count:6} {len(hits):5} {100 * len(hits) // max(count, 1):4} %  {place}")
    return 0


sys.exit(main())
