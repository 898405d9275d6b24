#!/usr/bin/env python3
"""Tries mistakes in groups: trials/edits.py [CRATE...]

Each file of crates/CRATE/must-fail and by-hand puts one mistake into the code, which the prover must
refuse. One check here contains one edit of each function: a function is judged by the contracts of
the functions that it calls, not by their bodies, so no edit hides another. The result for the edited
function is one of these:

    refused       one of its goals is open: its contract is not satisfied
    in a proof    the proof that was written for it no longer holds
    by shape      only names that this proof uses are gone, which proves little
    NOT REFUSED   no error; each of these is tried once more, alone

It works on a copy of the repository and of out/, and removes the copy. Exit status 1 if an edit was not
refused.
"""
import os
import re
import shutil
import subprocess
import sys
import tempfile
import time

TOP = os.path.dirname(os.path.dirname(os.path.abspath(__file__)))
FUNCTION = re.compile(r'\s*(?:pub(?:\([a-z]+\))? )?(?:const )?(?:extern "C" )?fn (\w+)')
OPEN_GOAL = re.compile(r"note: (\S+?):(\d+):\d+: (it is not proved .*|`search` found no proof .*)")
IN_PROOF = re.compile(r"(?:\./)?proofs/(\S+)/(\w+)/\w+\.antt:\d+:\d+: error: (.*)")
SHAPE = re.compile(r"has no field|is not in scope|has no `|was not admitted|record `[^`]+` \(nearest")


def read_edit(path):
    """The changes of an edit: file, old text, and new text."""
    pairs, now = [], {}
    with open(path, encoding="utf-8") as lines:
        for line in lines:
            word, _, rest = line.rstrip("\n").partition(":")
            now[word] = rest.strip() if word == "file" else rest[1:]
            if word == "new":
                pairs.append((now["file"], now["old"], now["new"]))
    return pairs


def text_of(path):
    with open(path, encoding="utf-8") as text:
        return text.read()


def function_at(lines, line):
    """The name, the first and the last line of the function that contains a line.

    Its attributes are included, since the prover reports a goal of the whole function there.
    """
    first = next((k for k in range(line, 0, -1) if FUNCTION.match(lines[k - 1])), line)
    named = FUNCTION.match(lines[first - 1])
    indent = re.match(r"\s*", lines[first - 1]).group()
    ends = (k for k in range(first, len(lines) + 1) if lines[k - 1] == indent + "}")
    last = max(line, next(ends, first))
    while first > 1 and lines[first - 2].startswith(f"{indent}#["):
        first -= 1
    return named and named.group(1), first, last


class Edit:
    """A mistake: its changes, and the functions that contain them."""

    def __init__(self, crate, path):
        self.name, self.pairs, self.functions = os.path.basename(path)[:-5], read_edit(path), set()
        self.errors = []
        texts = {file: text_of(f"{crate}/{file}") for file, _, _ in self.pairs}
        for file, old, new in self.pairs:
            found = texts[file].count(old)
            if found != 1:
                self.errors.append(f"{path}: its text occurs {found} times in {file}, not once")
            line = texts[file][: texts[file].find(old)].count("\n") + 1
            self.functions.add((file, *function_at(texts[file].split("\n"), line)))
            texts[file] = texts[file].replace(old, new)

    def put_into(self, texts):
        """Changes the texts; returns false if an old text no longer exists."""
        for file, old, new in self.pairs:
            if texts[file].count(old) != 1:
                return False
            texts[file] = texts[file].replace(old, new)
        return True

    def judged(self, said):
        """The lines of a check that are about its functions."""
        found = [goal.group(3) for goal in filter(None, map(OPEN_GOAL.match, said)) if self.has(goal)]
        if found:
            return "refused", found[0]
        names = {name for _, name, _, _ in self.functions}
        broken = [it.group(3) for it in filter(None, map(IN_PROOF.match, said)) if it.group(2) in names]
        whole = [it for it in broken if not SHAPE.search(it)]
        if whole:
            return "in a proof", whole[0]
        return ("by shape", broken[0]) if broken else ("NOT REFUSED", "")

    def has(self, goal):
        """Whether one of its functions has an open goal."""
        file, line = goal.group(1).removeprefix("./"), int(goal.group(2))
        return any(file == at and first <= line <= last for at, _, first, last in self.functions)


def edits_of(crate):
    folders = [f"{crate}/{it}" for it in ("must-fail", "by-hand") if os.path.isdir(f"{crate}/{it}")]
    paths = [f"{at}/{it}" for at in folders for it in sorted(os.listdir(at)) if it.endswith(".edit")]
    return [Edit(crate, it) for it in paths]


def groups_of(crate, edits):
    """The edits in few groups, none of which has two edits of one function."""
    groups = []
    for edit in edits:
        free = (it for it in groups if not any(edit.functions & other.functions for other in it))
        group = next((it for it in free if texts_with(crate, [*it, edit])), None)
        group.append(edit) if group else groups.append([edit])
    return groups


def texts_with(crate, group):
    """The files that a group changes, with its changes, or nothing if the changes conflict."""
    files = {file for edit in group for file, _, _ in edit.pairs}
    texts = {file: text_of(f"{crate}/{file}") for file in files}
    return texts if all(edit.put_into(texts) for edit in group) else None


def write(crate, texts):
    for file, text in texts.items():
        with open(f"{crate}/{file}", "w", encoding="utf-8") as to:
            to.write(text)


def checked(crate, group):
    """The lines of a check with the group's changes, which are undone afterwards."""
    texts = texts_with(crate, group)
    kept = {file: text_of(f"{crate}/{file}") for file in texts}
    write(crate, texts)
    ran = subprocess.run(["rt", "check", "--jobs", "1"], cwd=crate, stdin=subprocess.DEVNULL,
                         stdout=subprocess.PIPE, stderr=subprocess.STDOUT, text=True)
    write(crate, kept)
    lines = ran.stdout.rstrip("\n").split("\n")
    return lines, ran.returncode == 1 and any(it.startswith("logic=not-proved") for it in lines)


def alone(crate, edit):
    """The result of a check of a single edit, if the check of its group had no line about it."""
    said, is_refused = checked(crate, [edit])
    word, why = edit.judged(said)
    goals = [goal.group(3) for goal in filter(None, map(OPEN_GOAL.match, said))]
    if word == "NOT REFUSED" and is_refused and goals:
        return "refused", f"{goals[0]} (in another function)"
    return word, why


def try_crate(crate, edits):
    """Tries all edits of a crate, and prints the result of each."""
    began, words, groups = time.time(), [], groups_of(crate, edits)
    for group in groups:
        said, _ = checked(crate, group)
        for edit in group:
            word, why = edit.judged(said)
            if word in ("NOT REFUSED", "by shape"):
                word, why = alone(crate, edit)
            words.append(word)
            print(f"{os.path.basename(crate)}/{edit.name}: {word}: {why[:120]}", flush=True)
    counts = ", ".join(f"{words.count(it)} {it}" for it in dict.fromkeys(words))
    took = f"{len(groups)} groups, {time.time() - began:.0f} s"
    print(f"{os.path.basename(crate)}: {len(edits)} edits in {took}: {counts}", flush=True)
    return words.count("NOT REFUSED")


def crates_below():
    """The crates, each with those on which it depends."""
    lines = text_of(f"{TOP}/crates.txt").splitlines()
    named = [it.partition(":") for it in lines if it and not it.startswith("#")]
    return {name.strip(): below.split() for name, _, below in named}


def copy_tree(to, names):
    """Copies the repository, with the out/ folders of the given crates and those below them."""
    below = crates_below()
    kept, left = set(), [*names]
    while left:
        crate = left.pop()
        kept.add(crate)
        left += [it for it in below.get(crate, []) if it not in kept]

    def left_out(at, files):
        is_other = os.path.dirname(at) == f"{TOP}/crates" and os.path.basename(at) not in kept
        return {".git"} & set(files) | ({"out"} & set(files) if is_other else set())

    shutil.copytree(TOP, to, ignore=left_out)
    os.mkdir(f"{to}/.git")


def main(names):
    edits = {it: edits_of(f"{TOP}/crates/{it}") for it in names or crates_below()}
    errors = [line for of_crate in edits.values() for edit in of_crate for line in edit.errors]
    if errors:
        sys.exit("\n".join(errors))
    with tempfile.TemporaryDirectory() as room:
        copy_tree(f"{room}/copy", edits)
        found = [try_crate(f"{room}/copy/crates/{it}", edits[it]) for it in edits if edits[it]]
    return 1 if sum(found) else 0


if __name__ == "__main__":
    sys.exit(main(sys.argv[1:]))
