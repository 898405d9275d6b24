#!/usr/bin/env python3
"""Writes the completions docs/tape.bash, docs/_tape (zsh) and docs/tape.fish from the program's help.

    docs/completions.py [--program PATH]            writes them
    docs/completions.py [--program PATH] --check    reports if one is out of date, with status 1

commands.py reads the help; KINDS says what the value of an argument or option is.
"""
import os
import re
import sys
import textwrap

import commands

# What the values with these names are: an image, a file, one that is no image, a directory, or free text.
KINDS = {
    "IMAGE": "image", "LIST": "file", "ID=PATH": "file", "OUT": "other", "PATH": "other", "LOG": "other",
    "JSONL": "other",
    "DIR": "directory", "SET": "text", "FILE": "text", "N": "text", "N|NAME": "text", "PRE": "text",
    "SET=OTHER": "text",
    "COUNT": "text", "CAPACITY": "text", "DATE": "text", "M": "text",
}
MADE = "Made by docs/completions.py from the program's help."


def kind(word):
    """The kind of a word's value, or its values."""
    if word.values:
        return " ".join(word.values)
    if word.value not in KINDS:
        sys.exit(f"completions.py: no kind for the value {word.value} of {word.name}")
    return KINDS[word.value]


def valued(program):
    """The options with a value, each with its command."""
    return [(command, word) for command in program.commands for word in command.options if word.value]


def placed(program):
    """The arguments, each with its command and its place, from 1; those that are repeated come last."""
    found = [(command, place, word) for command in program.commands
             for place, word in enumerate(command.arguments, 1)]
    return sorted(found, key=lambda it: it[2].is_repeated)


def arms(pairs, indent):
    """The arms of a `case` of bash that set `kind`, from pairs of a pattern and a kind."""
    groups = {}
    for pattern, name in pairs:
        groups.setdefault((name, pattern.endswith("*")), []).append(pattern)
    return "\n".join(f"{joined(patterns, indent)}) kind='{name}' ;;" for (name, _), patterns in groups.items())


def joined(patterns, indent):
    """Patterns as one of a `case`, in lines of up to 80 columns."""
    lines = textwrap.wrap(" | ".join(pattern.replace(" ", "") for pattern in patterns), 76,
                          initial_indent=indent, subsequent_indent=indent + "    ", break_on_hyphens=False)
    return " \\\n".join(lines)


BASH = r'''# Completion of tape(1) for bash. {made}
_tape() {{
    local cur=${{COMP_WORDS[COMP_CWORD]}} prev=${{COMP_WORDS[COMP_CWORD-1]}} start=1
    local commands='{commands}'
    # Options of the program may precede the command.
    while [ "$start" -lt "$COMP_CWORD" ] && [[ ${{COMP_WORDS[start]}} == -* ]]; do
        start=$((start + 1))
    done
    local word at place=1 kind='' command=${{COMP_WORDS[start]}}
    if [ "$COMP_CWORD" -eq "$start" ]; then
        COMPREPLY=($(compgen -W "$commands help {own}" -- "$cur"))
        return
    fi
    # Bash makes '=' a word.
    [ "$cur" = '=' ] && cur=''
    [ "$prev" = '=' ] && prev=${{COMP_WORDS[COMP_CWORD-2]}}
    # The value of an option.
    case $command:$prev in
{options}
    esac
    if [ -z "$kind" ] && [[ $cur == -* ]]; then
        case $command in
{flags}
        *) word='' ;;
        esac
        COMPREPLY=($(compgen -W "$word {shared}" -- "$cur"))
        return
    fi
    if [ "$command" = help ]; then
        [ "$COMP_CWORD" -gt $((start + 1)) ] || COMPREPLY=($(compgen -W "$commands" -- "$cur"))
        return
    fi
    # An argument: which of them.
    for ((at = start + 1; at < COMP_CWORD; at++)); do
        case ${{COMP_WORDS[at]}} in
{valued})
            at=$((at + 1))
            [ "${{COMP_WORDS[at]}}" = '=' ] && at=$((at + 1)) ;;
        -*) ;;
        *) place=$((place + 1)) ;;
        esac
    done
    [ -n "$kind" ] || case $command:$place in
{places}
    esac
    # Bash itself completes the names of files and directories, with any characters in them.
    case $kind in
    text | '') ;;
    image | file) compopt -o default ;;
    directory) compopt -o dirnames ;;
    # No image is offered for an output, which would replace it, nor for a stage.
    other)
        compopt -o filenames
        # A name with a line feed comes in pieces, which are not offered.
        while IFS= read -r word; do
            [ -e "${{word/#\~\//$HOME/}}" ] && COMPREPLY+=("$word")
        done < <(compgen -f -X '*.[tT][aA][pP]' -- "$cur") ;;
    *) COMPREPLY=($(compgen -W "$kind" -- "$cur")) ;;
    esac
}}
complete -F _tape tape
'''


def bash(program):
    """The completion for bash."""
    own = [word.name.split(", ")[-1] for word in program.own]
    indent = "    "
    return BASH.format(
        made=MADE, commands=" ".join(command.name for command in program.commands), own=" ".join(own),
        shared=" ".join(name for name in own if name != "--version"),
        flags="\n".join(f"{indent * 2}{command.name}) word='{' '.join(word.name for word in command.options)}' ;;"
                        for command in program.commands if command.options),
        options=arms([(f"{command.name}:{word.name}", kind(word)) for command, word in valued(program)], indent),
        valued=joined(sorted({word.name for _, word in valued(program)}), indent * 2),
        places=arms([(f"{command.name}:{'*' if word.is_repeated else place}", kind(word))
                     for command, place, word in placed(program)], indent))


def line(text):
    """A text as one line, up to its first sentence's end."""
    return re.split(r"(?<=[^.])\. ", " ".join(text.split()))[0]


def quoted(text):
    """A text in single quotes of the shell."""
    return "'" + text.replace("'", "'\\''") + "'"


ZSH = {"image": "_files", "file": "_tape_file", "other": "_tape_other", "directory": "_files -/", "text": " "}


def zsh_word(word):
    """An option or an argument for _arguments."""
    name = kind(word) if word.value else ""
    value = f":{word.value}:{ZSH.get(name, f'({name})')}" if word.value else ""
    if not word.name.startswith("-"):
        return quoted("*" * word.is_repeated + value)
    said = re.sub(r"[\[\]:\\]", lambda it: "\\" + it[0], line(word.text))
    return quoted("*" * ("be repeated" in word.text) + word.name + "=" * bool(value) + f"[{said}]{value}")


def zsh(program):
    """The completion for zsh."""
    shared = [zsh_word(word) for word in program.whole.options]
    own = shared + ["'(- *)'{-h,--help}'[Print help]'"]
    out = ["#compdef tape", f"# Completion of tape(1) for zsh. {MADE}", "",
           "# A file, also after ID=.", "_tape_file() {", "  compset -P 1 '*='", "  _files", "}", "",
           "# No image is offered for an output, which would replace it, nor for a stage.",
           "_tape_other() {", "  _files -F '*.[tT][aA][pP]'", "}", "",
           "_tape() {", "  local curcontext=$curcontext state line", "  local -a commands=("]
    out += ["    " + quoted(f"{command.name}:{line(command.about)}") for command in program.commands]
    out += ["  )", "  _arguments -C \\", *(f"    {word} \\" for word in own),
            "    '(- *)'{-V,--version}'[Print version]' \\",
            "    '1:command:->command' '*::argument:->argument' && return", "  case $state in",
            "  command)", "    commands+=('help:Print the help of a command')",
            "    _describe -t commands command commands ;;", "  argument)", "    case $words[1] in",
            "    help) (( CURRENT > 2 )) || _describe -t commands command commands ;;"]
    for command in program.commands:
        listed = [*own, *map(zsh_word, command.options + command.arguments)]
        out += [f"    {command.name})", "      _arguments \\", *(f"        {word} \\" for word in listed)]
        out[-1] = out[-1].removesuffix(" \\") + " ;;"
    return "\n".join([*out, "    esac ;;", "  esac", "}", "", '_tape "$@"']) + "\n"


FISH = r'''# Completion of tape(1) for fish. {made}

# Succeeds if the command is $argv[1], and the word at the cursor is its argument with the number $argv[2], or
# with a higher one if $argv[3] is +.
function __tape_at
    set -l command ''
    set -l place 1
    set -l is_value false
    for word in (commandline -opc)[2..]
        if $is_value
            set is_value false
            continue
        end
        switch $word
            case {valued}
                set is_value true
            case '-*'
            case '*'
                if test -z "$command"
                    set command $word
                else
                    set place (math $place + 1)
                end
        end
    end
    $is_value; and return 1
    test "$command" = "$argv[1]"; or return 1
    test $place -eq $argv[2]; or test "$argv[3]" = + -a $place -gt $argv[2]
end

# Succeeds if the command is $argv[1].
function __tape_in
    string match -q -- $argv[1] (string match -v -- '-*' (commandline -opc)[2..])[1]
end

# Lists the files but images: none is offered for an output, which would replace it, nor for a stage.
function __tape_other
    string match -vir '\.tap(\t|$)' -- (__fish_complete_path (string replace -r '^--[a-z-]+=' '' -- (commandline -ct)))
end

complete -c tape -f
{lines}
'''
FISH_KINDS = {"image": "-F", "file": "-F", "other": "-a '(__tape_other)'",
              "directory": "-a '(__fish_complete_directories (commandline -ct))'", "text": ""}


def fish(program):
    """The completion for fish."""
    out = []
    for word in program.own:
        letter, _, name = word.name.rpartition(", ")
        only = " -n '__tape_at \"\" 1'" if name == "--version" else ""
        out.append(f"complete -c tape{only}{f' -s {letter[1:]}' if letter else ''} -l {name[2:]}"
                   f" -d {quoted(line(word.text))}")
    for command in program.commands:
        out.append(f"complete -c tape -n '__tape_at \"\" 1' -a {command.name} -d {quoted(line(command.about))}")
    out.append("complete -c tape -n '__tape_at \"\" 1' -a help -d 'Print the help of a command'")
    out.append(f"complete -c tape -n '__tape_at help 1' -a '{' '.join(it.name for it in program.commands)}'")
    for command in program.commands:
        for word in command.options:
            takes = f" {fish_value(word)}".rstrip() if word.value else ""
            out.append(f"complete -c tape -n '__tape_in {command.name}' -l {word.name[2:]}{takes}"
                       f" -d {quoted(line(word.text))}")
        for place, word in enumerate(command.arguments, 1):
            if kind(word) != "text":
                more = " +" * word.is_repeated
                out.append(f"complete -c tape -n '__tape_at {command.name} {place}{more}' {FISH_KINDS[kind(word)]}")
    return FISH.format(made=MADE, valued=" ".join(sorted({word.name for _, word in valued(program)})),
                       lines="\n".join(out))


def fish_value(word):
    """What an option takes, for fish."""
    name = kind(word)
    return ("-r " if name == "file" else "-x ") + FISH_KINDS.get(name, f"-a '{name}'")


def main():
    options = commands.parse(__doc__)
    program = commands.read(options.program)
    folder = os.path.join(commands.TOP, "docs")
    files = {"tape.bash": bash, "_tape": zsh, "tape.fish": fish}
    return commands.write({os.path.join(folder, name): made(program) for name, made in files.items()},
                          options.check, "docs/completions.py")


if __name__ == "__main__":
    sys.exit(main())
