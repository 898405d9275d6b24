#!/usr/bin/env python3
"""Completes command lines with docs/tape.bash, docs/_tape and docs/tape.fish, and compares what is offered with the
program's help. In bash and zsh, in a terminal, it also compares what the program then gets. Run manually before a
release; CI does not run it. Needs bash; zsh and fish are left out, with a line, if they are not installed.

    ./completion.py [--program PATH]

Prints each wrong completion, and the counts. Exit status 1 if something was wrong.
"""

import os
import pty
import re
import select
import shutil
import subprocess
import sys
import tempfile
import time
from pathlib import Path

from common import HERE, Results, arguments

DOCS = HERE.parent / "docs"
SCRIPT = DOCS / "tape.bash"
NAMES = ["my file.tap", "star*.tap", "starA.tap", "dollar$HOME.tap", "quote'q.tap", 'double"d.tap', "back\\s.tap", "semi;x.tap",
    "paren(x).tap", "amp&.tap", "tick`id`.tap", "brack[a].tap", "ünï.tap", "tilde~.tap", "hash#.tap", "equal=e.tap", "colon:c.tap",
    "line\nfeed", "plain.stage", "a stage", "stage*", "stageB"]
# what is typed before TAB, and the last argument that the program then gets
TYPED = [(["check"], "star\\*", "star*.tap"), *((["check"], name[:3], name) for name in NAMES[3:17]), (["check"], "my\\ f", NAMES[0]),
    (["check"], "my", NAMES[0]), (["survey"], "line", "line\nfeed"), (["stage"], "pl", "plain.stage"),
    (["stage"], "stage\\*", "stage*"), (["stage"], '"a s', "a stage"), (["stage"], "a\\ s", "a stage"), (["stage"], "my", "my"),
    (["check", "--files-from"], "a\\ s", "a stage"), (["extract", "S", "1", "o"], "my", NAMES[0]), (["extract", "S", "1"], "my", "my"),
    (["extract", "--stage"], "pl", "plain.stage"), (["check"], "sub\\ dir/i", "sub dir/in.tap"), (["unpack"], "sub", "sub dir/"),
    (["init"], "sub", "sub dir/"), (["check"], "~/plain", "plain.stage")]
# the same in one shell only: bash does not offer a name with a line feed among files that are no images
TYPED_IN = {"bash": [*TYPED, (["stage"], "line", "line")], "zsh": [*TYPED, (["stage"], "line", "line\nfeed")]}
# what fish offers for a start of a file's name
FILES_IN_FISH = [(["check"], "quo", ["quote'q.tap"]), (["stage"], "pl", ["plain.stage"]), (["stage"], "my", []),
    (["init"], "s", ["sub dir/"]), (["unpack"], "s", ["sub dir/"]), (["extract", "--stage"], "pl", ["plain.stage"]),
    (["extract", "S", "1"], "my", []), (["extract", "S", "1", "o"], "my", ["my file.tap"]), (["check", "--files-from"], "pl", ["plain.stage"]),
    (["write", "D", "A", "1"], "ID=pl", ["ID=plain.stage"]), (["--explain", "stage"], "pl", ["plain.stage"])]
# what is offered: the words before the cursor, and all offers; a name that ends in `/` is a directory
OFFERED = [(["salvage", "--form"], "lines raw counted blocks"), (["stage", "--form"], "lines raw counted"), (["write", "--format"], "F D S"),
    (["unpack", "--set"], ""), (["write", "D", "A", "1", "--block"], ""), (["extract"], ""), (["extract", "S"], ""), (["init", "D"], "")]
TELL = """_calls() { COMP_WORDS=("$@"); COMP_CWORD=$((${#COMP_WORDS[@]} - 1)); COMPREPLY=(); _tape; printf '%s\\n' "${COMPREPLY[@]}"; }
compopt() { :; }; _calls "$@" """
CALL = "tape() { printf '%s\\0' \"$@\" >.got; mv .got .args; }\n"
# writes to .seen what a completion adds, on ^X, and on TAB completes as always
ZSH = """PS1='% '; unsetopt autoremoveslash; fpath=(DOCS $fpath); autoload -Uz compinit; compinit -u -D
_seen() {
    compadd() {
        [[ ${@[1,(i)(-|--)]} == *-(O|A|D)\\ * ]] && { builtin compadd "$@"; return }
        local -a hits; builtin compadd -A hits "$@"; print -rl -- $hits >>.hits; builtin compadd "$@"
    }
    :>.hits; _main_complete; unfunction compadd; mv .hits .seen
}
zle -C seen complete-word _seen; bindkey '^X' seen; bindkey '^T' kill-whole-line
: >.ready
"""


def shell(folder, *words):
    """A shell in a terminal, in this directory: the terminal and the process."""
    pid, terminal = pty.fork()
    if pid == 0:
        os.chdir(folder)
        os.execvpe(words[0], words, {"PATH": os.environ["PATH"], "TERM": "dumb", "LC_ALL": "C.UTF-8", "HOME": folder, "INPUTRC": "/dev/null"})
    return terminal, pid


def awaited(path, seconds=4):
    """The contents of a file that a shell renames when it is complete, or None; the file is removed."""
    for _ in range(int(seconds * 20)):
        if path.exists():
            content = path.read_bytes().decode()
            path.unlink()
            return content
        time.sleep(0.05)
    return None


def drained(terminal):
    """Reads what the shell has printed: it would wait for ever on a terminal that is full."""
    while select.select([terminal], [], [], 0)[0]:
        os.read(terminal, 65536)


def pressed(folder, terminal, words, start):
    """The arguments that the program gets if TAB and then Enter follow."""
    os.write(terminal, f"tape {' '.join(words)} {start}\t".encode())
    time.sleep(0.4)
    os.write(terminal, b"\n")
    content = awaited(Path(folder, ".args"))
    drained(terminal)
    return content and content.split("\0")[:-1]


def typed_in_bash(folder):
    """For each row, the arguments that the program gets; each in a bash of its own."""
    for words, start, _ in TYPED_IN["bash"]:
        terminal, pid = shell(folder, "bash", "--norc", "--noprofile", "-i")
        os.write(terminal, f". {SCRIPT}; {CALL}".encode())
        time.sleep(0.5)
        yield pressed(folder, terminal, words, start)
        os.close(terminal)
        os.waitpid(pid, 0)


class Zsh:
    """A zsh with the completion, in a directory."""

    def __init__(self, folder):
        self.folder = folder
        Path(folder, ".zinit").write_text(ZSH.replace("DOCS", str(DOCS)) + CALL)
        self.terminal, self.pid = shell(folder, "zsh", "-f", "-i")
        os.write(self.terminal, b". ./.zinit\n")
        if awaited(Path(folder, ".ready"), 60) is None:
            sys.exit("zsh did not start")

    def typed(self):
        for words, start, _ in TYPED_IN["zsh"]:
            yield pressed(self.folder, self.terminal, words, start)

    def offered(self, *words):
        """What is offered for the last word, without the `=` of an option."""
        os.write(self.terminal, (" ".join(words) + "\x18").encode())
        content = awaited(Path(self.folder, ".seen"))
        drained(self.terminal)
        os.write(self.terminal, b"\x14")
        return {word.removesuffix("=") for word in (content or "").split("\n") if word}

    def close(self):
        os.close(self.terminal)
        os.waitpid(self.pid, 0)


def offered_by_bash(*words):
    done = subprocess.run(["bash", "-c", f". {SCRIPT}; {TELL}", "bash", *words], stdout=subprocess.PIPE, text=True, check=True)
    return set(done.stdout.split())


def offered_by_fish(folder, *words):
    done = subprocess.run(["fish", "--no-config", "-c", f"source {DOCS}/tape.fish; complete -C (string join ' ' -- $argv | string collect)", *words],
        stdout=subprocess.PIPE, text=True, check=True, cwd=folder)
    return {line.split("\t")[0] for line in done.stdout.splitlines()}


def options_of(program, *words):
    done = subprocess.run([program, *words, "--help"], stdout=subprocess.PIPE, text=True, check=True)
    return set(re.findall(r"^ +(?:-\w, )?(--[a-z-]+)", done.stdout, re.M))


def commands_of(program):
    done = subprocess.run([program, "--help"], stdout=subprocess.PIPE, text=True, check=True)
    return re.findall(r"^  (\w+) ", done.stdout.partition("\nCommands:\n")[2].partition("\n\n")[0], re.M)


def offers(program, offered):
    """What `offered` offers, what is right, and where."""
    commands = set(commands_of(program))
    for command in sorted(commands - {"help"}):
        for before in ([], ["--explain"]):
            yield offered("tape", *before, command, "--"), options_of(program, command), f"options of {before} {command}"
    yield offered("tape", "--"), options_of(program), "options of the program"
    for before in ([], ["--explain"]):
        yield offered("tape", *before, "") - options_of(program), commands, f"commands after {before}"
    yield offered("tape", "help", ""), commands - {"help"}, "commands after help"
    for words, due in OFFERED:
        yield offered("tape", *words, ""), set(due.split()), f"after {words}"


def arguments_of(folder, rows, found):
    """What the program gets in each row, what is right, and where."""
    for (words, start, last), seen in zip(rows, found):
        yield seen, [*words, f"{folder}/{last}" if start[0] == "~" else last], f"{words} {start}"


def in_fish(folder):
    """What fish offers for file names, what is right, and where."""
    for words, start, due in FILES_IN_FISH:
        yield offered_by_fish(folder, "tape", *words, start), set(due), f"{words} {start}"


def completions(program, folder):
    for shell_name, found in {
        "bash": lambda: [*offers(program, offered_by_bash), *arguments_of(folder, TYPED_IN["bash"], typed_in_bash(folder))],
        "zsh": lambda: in_zsh(program, folder),
        "fish": lambda: [*offers(program, lambda *words: offered_by_fish(folder, *words)), *in_fish(folder)],
    }.items():
        if shutil.which(shell_name) is None:
            print(f"{shell_name} is not installed: not tried")
            continue
        script = {"bash": SCRIPT, "zsh": DOCS / "_tape", "fish": DOCS / "tape.fish"}[shell_name]
        read = subprocess.run([shell_name, "-n", script], stdout=subprocess.PIPE, stderr=subprocess.STDOUT, text=True)
        yield (read.returncode, read.stdout), (0, ""), f"{shell_name} -n"
        for seen, due, what in found():
            yield seen, due, f"{shell_name}: {what}"


def in_zsh(program, folder):
    zsh = Zsh(folder)
    yield from offers(program, zsh.offered)
    yield from arguments_of(folder, TYPED_IN["zsh"], zsh.typed())
    zsh.close()


def main():
    program, results = arguments(__doc__).program, Results()
    with tempfile.TemporaryDirectory(prefix="tape-completion-") as folder:
        for name in NAMES:
            Path(folder, name).touch()
        Path(folder, "sub dir").mkdir()
        Path(folder, "sub dir/in.tap").touch()
        for seen, due, what in completions(program, folder):
            results.expect(seen == due, f"{what}: {seen}, not {due}")
    return results.end()


if __name__ == "__main__":
    sys.exit(main())
