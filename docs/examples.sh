#!/bin/bash
# examples.sh [PROGRAM]: runs every example of README.md, docs/GUIDE.md and docs/RECIPES.md with
# PROGRAM, such as an installed /usr/bin/tape (default: ./tape), in a new directory, and compares
# the output with the page. An example is an indented line that begins with '$ '; the lines below
# it in the same block, empty ones too, are its output, standard output and standard error together. A line
# '    [status N]' is an exit status other than 0. At the end docs/page.py must draw docs/page.html.
# The last line printed is the number of examples that differ. Run manually, not in CI.
here=$(dirname "$(readlink -f "$0")")
top=$(dirname "$here")
program=$(realpath -s "${1:-$top/tape}")
if [ ! -x "$program" ]; then
    echo "no program at $program" >&2
    exit 2
fi
if [ "$program" = "$top/tape" ] && [ ! -x "$top/crates/tape/out/proved" ]; then
    echo "the program is not proved: run ./tape --prove first" >&2
    exit 2
fi
folder=$(mktemp -d) || exit 2
trap 'rm -rf "$folder"' EXIT
mkdir "$folder/bin"
ln -s "$program" "$folder/bin/tape"
export PATH="$folder/bin:$PATH" LC_ALL=C
examples=0
differ=0

# A new directory with the two images that the pages use, and the path that README.md uses.
fresh() {
    rm -rf "$folder/run"
    mkdir -p "$folder/run/crates/tape"
    ln -s "$program" "$folder/run/tape"
    cp "$top/crates/tape/stdin" "$folder/run/crates/tape/"
    cp "$top/crates/tape/stdin" "$folder/run/reel.tap"
    head -c 2288 "$folder/run/reel.tap" >"$folder/run/cut.tap"
}

# Runs one example and compares.
try() {
    command=$1 wanted=$2
    examples=$((examples + 1))
    got=$(cd "$folder/run" && eval "$command" 2>&1; status=$?
        [ $status -eq 0 ] || echo "[status $status]")
    if [ "$got" != "$wanted" ]; then
        differ=$((differ + 1))
        printf '%s\n' "differs: $command" "$(diff <(echo "$wanted") <(echo "$got"))" ''
    fi
}

# The examples of a page, in order, in one directory.
page() {
    fresh
    command='' wanted='' gap=''
    while IFS= read -r line; do
        case $line in
        '    $ '*)
            [ -n "$command" ] && try "$command" "$wanted"
            command=${line#'    $ '} wanted='' gap='' ;;
        '    '*)
            if [ -n "$command" ]; then
                [ -n "$wanted" ] && wanted="$wanted"$'\n'
                wanted="$wanted$gap${line#'    '}" gap=''
            fi ;;
        '') gap=$gap$'\n' ;;
        *)
            [ -n "$command" ] && try "$command" "$wanted"
            command='' wanted='' gap='' ;;
        esac
    done <"$1"
    [ -n "$command" ] && try "$command" "$wanted"
}

for it in README.md docs/GUIDE.md docs/RECIPES.md; do
    [ ! -f "$top/$it" ] || page "$top/$it"
done
# The page of three images must equal the stored one; bad.tap is that of RECIPES.md.
fresh
cp "$top/crates/tape/stdin" "$folder/run/bad.tap"
for at in 1079 1883; do
    printf '\200' | dd of="$folder/run/bad.tap" bs=1 seek=$at conv=notrunc status=none
done
if [ -f "$here/page.py" ]; then
    try "$(printf %q "$here/page.py") cut.tap bad.tap reel.tap" "$(cat "$here/page.html")"
fi
echo "$differ of $examples examples differ"
[ "$differ" -eq 0 ]
