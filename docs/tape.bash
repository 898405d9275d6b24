# Completion of tape(1) for bash. Made by docs/completions.py from the program's help.
_tape() {
    local cur=${COMP_WORDS[COMP_CWORD]} prev=${COMP_WORDS[COMP_CWORD-1]} start=1
    local commands='list show check survey compare merge convert extract unpack salvage stage init write'
    # Options of the program may precede the command.
    while [ "$start" -lt "$COMP_CWORD" ] && [[ ${COMP_WORDS[start]} == -* ]]; do
        start=$((start + 1))
    done
    local word at place=1 kind='' command=${COMP_WORDS[start]}
    if [ "$COMP_CWORD" -eq "$start" ]; then
        COMPREPLY=($(compgen -W "$commands help --explain --no-explain --help --version" -- "$cur"))
        return
    fi
    # Bash makes '=' a word.
    [ "$cur" = '=' ] && cur=''
    [ "$prev" = '=' ] && prev=${COMP_WORDS[COMP_CWORD-2]}
    # The value of an option.
    case $command:$prev in
    check:--files-from | survey:--files-from | compare:--files-from | \
        merge:--files-from | extract:--files-from | unpack:--files-from | \
        salvage:--files-from) kind='file' ;;
    survey:--join | extract:--join | unpack:--set | unpack:--file | \
        unpack:--join | salvage:--join | write:--block | write:--record | \
        write:--offset | write:--date) kind='text' ;;
    merge:--log | extract:--stage | extract:--provenance | \
        salvage:--provenance) kind='other' ;;
    convert:--format) kind='auto aws e11 simh' ;;
    extract:--form | stage:--form) kind='lines raw counted' ;;
    unpack:--form) kind='lines raw counted auto' ;;
    salvage:--form) kind='lines raw counted blocks' ;;
    write:--format) kind='F D S' ;;
    write:--form) kind='lines raw' ;;
    write:--labels) kind='ascii ebcdic' ;;
    esac
    if [ -z "$kind" ] && [[ $cur == -* ]]; then
        case $command in
        list) word='--offsets --json' ;;
        show) word='--raw --ebcdic' ;;
        check) word='--files-from --null' ;;
        survey) word='--files-from --null --all --join --renumber --tsv --json' ;;
        compare) word='--files-from --null --json' ;;
        merge) word='--log --files-from --null' ;;
        convert) word='--format --resync' ;;
        extract) word='--files-from --null --form --text --stage --again --join --renumber --now --provenance' ;;
        unpack) word='--files-from --null --form --text --set --file --list --salvage --join --renumber --now --manifest --verify' ;;
        salvage) word='--files-from --null --form --text --now --join --renumber --provenance' ;;
        stage) word='--form --damaged' ;;
        write) word='--format --block --record --offset --pad-full --form --date --labels --dry-run' ;;
        *) word='' ;;
        esac
        COMPREPLY=($(compgen -W "$word --explain --no-explain --help" -- "$cur"))
        return
    fi
    if [ "$command" = help ]; then
        [ "$COMP_CWORD" -gt $((start + 1)) ] || COMPREPLY=($(compgen -W "$commands" -- "$cur"))
        return
    fi
    # An argument: which of them.
    for ((at = start + 1; at < COMP_CWORD; at++)); do
        case ${COMP_WORDS[at]} in
        --block | --date | --file | --files-from | --form | --format | \
            --join | --labels | --log | --offset | --provenance | --record | \
            --set | --stage)
            at=$((at + 1))
            [ "${COMP_WORDS[at]}" = '=' ] && at=$((at + 1)) ;;
        -*) ;;
        *) place=$((place + 1)) ;;
        esac
    done
    [ -n "$kind" ] || case $command:$place in
    show:1) kind='image' ;;
    show:2 | extract:1 | extract:2 | salvage:1 | salvage:2 | init:2 | init:3 \
        | write:2 | write:3) kind='text' ;;
    merge:1 | convert:1 | extract:3 | salvage:3 | stage:1) kind='other' ;;
    unpack:1 | init:1 | write:1) kind='directory' ;;
    list:* | check:* | survey:* | compare:* | merge:* | convert:* | \
        extract:* | unpack:* | salvage:*) kind='image' ;;
    show:*) kind='text' ;;
    stage:*) kind='other' ;;
    write:*) kind='file' ;;
    esac
    # Bash itself completes the names of files and directories, with any characters in them.
    case $kind in
    text | '') ;;
    image | file) compopt -o default ;;
    directory) compopt -o dirnames ;;
    # No image is offered for an output, which would replace it, nor for a stage.
    other)
        compopt -o filenames
        # A name with a line feed comes in pieces, which are not offered.
        while IFS= read -r word; do
            [ -e "${word/#\~\//$HOME/}" ] && COMPREPLY+=("$word")
        done < <(compgen -f -X '*.[tT][aA][pP]' -- "$cur") ;;
    *) COMPREPLY=($(compgen -W "$kind" -- "$cur")) ;;
    esac
}
complete -F _tape tape
