#!/usr/bin/env python3
"""Mutates the definitions of a crate, and reports what notices each mutation.

    trials/mutate.py [--sample N] [--seed S] [--group G] [--minutes M] [--only WORD] [--rules RULE,..]
                     [--of TSV] [--jobs J] [--call FUNCTION] [--list] [--tsv FILE] CRATE..

A proof says no more than the definitions it is about. A definition holds if a change of its meaning
makes a proof fail; trials/mutations.py generates such changes by rule, of the definitions that
public contracts reach, and reads the composite ones of trials/composite.txt. Each crate is proved in a
copy of the repository, over the work kept in out/; run `rt check` in it first.

Up to G mutations of different definitions go into one check. A refusal is attributed to a mutation
if the refused declaration speaks, directly or through definitions, of no other changed definition.
Mutations without an answer are tried again in other groups, in the end alone. The answers:

    noticed       a goal is open, or a proof needs what was taken away
    by form       only hand-written proofs fail, because they prove more than is asked now; this
                  says little of the meaning
    not compiled  the mutation is not well-formed
    accepted      nothing notices it, and trials/accepted.txt gives the reason
    UNNOTICED     nothing notices it

The rule `same` changes no meaning: the share of its mutations that are noticed is what the form of
proofs contributes to the other figures. --call checks one function alone, for example laws::cases;
--of tries the rows of an earlier table; --list only lists. The columns of a table: crate, file, line, definition, rule, old and new
text, answer, what notices it, mutations in that check, first message. Exit status 1: UNNOTICED.
"""
import argparse
import os
import random
import re
import subprocess
import sys
import tempfile
import time
from pathlib import Path

from edits import copy_tree
from mutations import BEFORE_FN, FN, HEAD, SCAFFOLD, WORD
from mutations import drawn, files_of, generated, listed, masked, with_mutations

TOP = Path(__file__).resolve().parent.parent
LEMMA = re.compile(r"(?m)^( *)(?:pub )?([\w'-]+) : ")
SAID = re.compile(r"(?:note: )?(?:\./)?([\w/.-]+\.(?:antt|rt)):(\d+):\d+: (?:(error): |note: )?(.*)")
BARE = re.compile(r"fn [\w:+]+: no proof: expected \w+ in \./([^\s;]+)")
WAITS = re.compile(r"(?:fn|impl) ([\w:+]+): (?:no proof: it calls|not proved; it calls)|"
                   r"note: `search` has not tried the goals of `([\w:]+)`")
FORM = re.compile(r"has no field|not in scope|has no `|expected type `Unit \{0\}`|are `Unit \{0\}` \(expected\)|"
                  r"`Unit \{0\}` is a declared record")


class Crate:
    """The texts of a crate, and the definitions that each of its declarations uses."""

    def __init__(self, crate, only_cases):
        self.texts = {it: Path(crate, it).read_text() for it in files_of(crate, "specs", "proofs", "src")}
        self.spoken, self.hearers = {}, {}
        self.defs, self.lemmas, self.functions, self.cases = {}, {}, {}, {}
        for path, text in self.texts.items():
            self.read(path, text)
        tables = (self.cases,) if only_cases else (self.lemmas, self.functions, self.cases)
        for sort, table in enumerate(tables):
            for name, words in table.items():
                for it in self.closed(words, sort == 1):
                    self.hearers.setdefault(it, set()).add((sort, name))

    def read(self, path, text):
        for paragraph in text.split("\n\n") if path.endswith(".antt") else []:
            for _, name in HEAD.findall(masked(paragraph)):
                self.defs.setdefault(name, set()).update(WORD.findall(masked(paragraph)))
            for _, name in LEMMA.findall(paragraph)[:1] if path.startswith("proofs/") else []:
                stated = re.split(rf"(?m)^ *{re.escape(name)}\b(?! :)", paragraph)[0]
                self.lemmas.setdefault(name, set()).update(WORD.findall(stated))
        for body in BEFORE_FN.split(text) if path.startswith("src/") else []:
            for name in FN.findall(body)[:1]:
                self.functions.setdefault(name, set()).update(WORD.findall(body))
        if path.startswith("specs/") and SCAFFOLD.match(os.path.basename(path)):
            for it in re.split(r"\n  pub (?=\w+ :)", text)[1:]:
                self.cases.setdefault(it.split()[0], set()).update(WORD.findall(masked(it.split("\n\n")[0])))

    def closed(self, words, with_lemmas=True):
        """The definitions that some words use, also through definitions and statements of lemmas."""
        cited = {x for it in words for x in self.lemmas.get(it, ())} if with_lemmas else set()
        found, left = set(), (words | cited) & self.defs.keys()
        while left:
            found |= left
            left = {x for it in left for x in self.defs[it] if x in self.defs} - found
        return found

    def at(self, path, line):
        """The declaration around a line: its name, and the definitions that it uses."""
        if (path, line) not in self.spoken:
            lines = self.texts.get(path, "").split("\n")
            first = next((k + 1 for k in range(min(line, len(lines)) - 1, -1, -1) if not lines[k].strip()), 0)
            last = next((k for k in range(line - 1, len(lines)) if not lines[k].strip()), len(lines))
            said = masked("\n".join(lines[first:last]))
            words, heads = set(WORD.findall(said)), HEAD.findall(said) if path.startswith("specs/") else []
            name = next((it[1] for it in [*heads, *LEMMA.findall(said)]), "")
            if path.endswith(".rt") or path.count("/") >= 2:
                above = (x for k in range(line, 0, -1) for x in FN.findall(lines[k - 1]))
                name = next(above, "") if path.endswith(".rt") else path.split("/")[-2]
                body = self.functions.get(name, set())
                words |= body | {x for it in body for x in self.functions.get(it, ())}
            above = (x for k in range(line, first, -1) for x in re.findall(r"^  (\w+) =(?: |$)", lines[k - 1]))
            field = next(above, "") if re.match(r"proofs/(\w*Examples|Cases)", path) else ""
            if field in self.cases:
                name, words = f"{name}.{field}", self.cases[field]
            self.spoken[path, line] = name, self.closed(words)
        return self.spoken[path, line]


def kind_of(path, name):
    """The kind of a refused declaration."""
    file, name = os.path.basename(path), path.split("/")[-2] if path.count("/") >= 2 else name
    kinds = {"mistakes": file.startswith("Mistakes"),
             "worked": "worked" in name or re.match(r"(List|Check|Extract|Placed)Examples|Worked", file),
             "cases": name == "cases" or re.match(r"Cases|Examples", file),
             "laws": "laws" in path, "proof": path.startswith("proofs/"), "function": True}
    return next(it for it in kinds if kinds[it])


def check(crate, group, args):
    """The declarations that a check with some mutations refuses, those that it does not reach, and whether all is proved."""
    texts = with_mutations(group)
    kept = {it: Path(crate, it).read_text() for it in texts}
    words = f"rt check --jobs {args.jobs}{' --only ' if args.call else ''}{args.call}".split()
    try:
        for file, text in texts.items():
            Path(crate, file).write_text(text)
        ran = subprocess.run(words, cwd=crate, text=True, stdin=subprocess.DEVNULL, capture_output=True)
    finally:
        for file, text in kept.items():
            Path(crate, file).write_text(text)
    said, refused, hidden = ran.stdout + ran.stderr, [], []
    for line in said.split("\n"):
        it, bare, waits = SAID.match(line), BARE.match(line), WAITS.match(line)
        refused += [(bare.group(1), 1, "a goal is open that no hand-written proof answers")] if bare else []
        hidden += [(waits.group(1) or waits.group(2)).split("::")[-1]] if waits else []
        if it and (it.group(3) or re.search(r"it is not proved|`search` found no proof", it.group(4))):
            hidden += re.findall(r"[\w'-]+", it.group(4).partition("checked: ")[2])
            if not re.search(r"w(as|ere) not checked", it.group(4)):
                refused.append((it.group(1), int(it.group(2)), it.group(4)))
    if ran.returncode and not refused:
        sys.exit(said[-3000:])
    return refused, hidden, not ran.returncode


def places_of(known, group, refused):
    """The refusals, each with its declaration; lines are those of the texts without mutations."""
    places = []
    for path, line, why in refused:
        edits = sorted((edit[1:], it) for it in group for edit in it.edits if edit[0] == path)
        for (first, last, new), _ in edits:
            text = known.texts[path]
            at = text.count("\n", 0, first) + 1
            line += text.count("\n", first, last) - new.count("\n") if at < line else 0
        places.append((path, line, why, *known.at(path, line)))
    return places


def judge(known, group, said):
    """Sets the answer of each mutation for which the result of the check is clear."""
    (refused, hidden, proved), alone = said, len(group) == 1
    for it in group:
        it.size, it.answer, it.is_quiet = len(group), "UNNOTICED" if proved else "", False
    places = places_of(known, group, refused)
    for path, line, why, name, spoken in places:
        if path.startswith("specs/") and name in known.defs and not SCAFFOLD.match(os.path.basename(path)):
            able = [it for it in group if it.names & spoken or alone]
            for it in [x for x in able if name in x.names] or (able if len(able) == 1 else []):
                it.answer, it.why = "not compiled", f"{path}:{line} {name}: {why}"
    if proved or any(it.answer for it in group):
        return
    names = {name for it in group for name in it.names}
    beyond = [known.closed({it} | known.lemmas.get(it, set()) | known.functions.get(it, set())) for it in hidden]
    for it in group:
        mine = [x for x in places if alone or it.names & x[4]]
        sure = [x for x in mine if alone or not (x[4] & names) - it.names]
        real = [x for x in sure if not FORM.search(x[2])]
        waits = not alone and any(it.names & x for x in beyond)
        if real or (sure and len(mine) == len(sure) and not waits):
            it.answer, first = "noticed" if real else "by form", (real or sure)[0]
            it.kinds = sorted({kind_of(x[0], x[3]) for x in real or sure})
            it.why = f"{first[0]}:{first[1]} {first[3]}: {first[2]}"
        it.is_quiet = not (it.answer or mine or waits)


def next_group(known, left, size):
    """Mutations that nothing seems to notice, or some that share no declaration."""
    quiet, group = list({it.name: it for it in left if it.is_quiet}.values()), []
    if len(quiet) > 3 or (quiet and len(quiet) == len(left)):
        return quiet
    for it in [it for it in left if not it.is_quiet]:
        sets = [set().union(*(known.hearers.get(y, set()) for y in x.names)) for x in [*group, it]]
        is_free = all(len(a.difference(*(b for b in sets if b is not a))) * 4 >= len(a) for a in sets)
        is_other = not any(it.names & x.names for x in group)
        if not group or (len(group) < size and is_other and is_free):
            group.append(it)
    return group


def accepted():
    """The definitions and rules whose mutations are known to be unnoticed."""
    path = TOP / "trials" / "accepted.txt"
    rows = [it.split(":")[0].split() for it in path.read_text().splitlines()] if path.exists() else []
    return {tuple(it) for it in rows if len(it) == 3}


def try_crate(crate, args):
    """Tries the drawn mutations of a crate; returns those that were tried."""
    name, began = os.path.basename(crate), time.time()
    made = [it for it in drawn(generated(crate), args.seed) + listed(crate)
            if args.only in f"{it.file} {it.name}" and it.rule in (args.rules or it.rule).split(",")]
    rows = {tuple(x.split("\t")[1:7]) for x in Path(args.of).read_text().splitlines()} if args.of else None
    chosen = [it for it in made if rows is None or tuple(it.row().split("\t")[1:7]) in rows]
    chosen = chosen[:args.sample or None]
    print(f"{name}: {len(made)} mutations of {len({it.name for it in made})} definitions; trying {len(chosen)}", flush=True)
    if args.list:
        print("\n".join(it.row() for it in chosen))
        return []
    count, known, size, known_rows = 0, Crate(crate, args.call), args.group, accepted()
    if not check(crate, [], args)[2]:
        sys.exit(f"{name} is not proved without a mutation")
    while any(not it.answer for it in chosen) and time.time() - began < args.minutes * 60:
        left = [it for it in chosen if not it.answer]
        random.Random(count).shuffle(left)
        group = next_group(known, left, size)
        judge(known, group, check(crate, group, args))
        count, done = count + 1, [it for it in group if it.answer]
        size = args.group if done else max(1, len(group) // 2)
        for it in done:
            if it.answer == "UNNOTICED" and (name, it.name, it.rule) in known_rows:
                it.answer = "accepted"
            print(f"{time.time() - began:5.0f}s of {it.size}: {it.name} {it.rule}: {it.answer} "
                  f"{'+'.join(it.kinds)} {it.why[:110]}", flush=True)
    for sort in ("mutations", "controls"):
        words = [it.answer or "not tried" for it in chosen if (it.rule == "same") == (sort == "controls")]
        print(f"{name}: {len(words)} {sort}: {', '.join(f'{words.count(x)} {x}' for x in sorted(set(words)))}")
    print(f"{name}: {count} checks, {time.time() - began:.0f} s")
    return chosen


def main():
    parser = argparse.ArgumentParser(usage=__doc__)
    parser.add_argument("crates", nargs="+")
    for name, default in (("sample", 0), ("seed", 1), ("group", 8), ("minutes", 600), ("jobs", 1),
                          ("only", ""), ("rules", ""), ("of", ""), ("call", ""), ("tsv", "")):
        parser.add_argument(f"--{name}", type=type(default), default=default)
    parser.add_argument("--list", action="store_true")
    args, tried = parser.parse_args(), []
    with tempfile.TemporaryDirectory() as room:
        names = [os.path.basename(it.rstrip("/")) for it in args.crates]
        copy_tree(f"{room}/copy", [] if args.list else names)
        for name in names:
            tried += try_crate(f"{room}/copy/crates/{name}", args)
    if args.tsv:
        Path(args.tsv).write_text("".join(it.row() + "\n" for it in tried))
    return 1 if any(it.answer == "UNNOTICED" for it in tried) else 0


if __name__ == "__main__":
    sys.exit(main())
