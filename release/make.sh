#!/bin/bash
# make.sh OUT [CI-LOG]: makes a release of the program from this clone, which is at a commit, with
# a clean work tree, and has its proofs in crates/*/out (what is not there is proved first).
#
# OUT is a new or an empty directory, and gets
#   tape-volumes_VERSION_amd64.deb       the program as proved and built, for Debian's C library
#   tape-VERSION-MACHINE-linux.tar.gz    for x86_64 and aarch64: the program linked statically, and
#                                        in link/ the object file, C source and note it is made of
#   tape.stamp                           the toolchain's checksum of sources, toolchain and program
#   PROVED.txt                           commit, toolchain, the last line of each proof, checksums
#   ASSUMED.txt                          the C functions whose contracts the proofs assume
#   parts.spdx.json                      the parts of the program, with origins and licences
#   SHA256SUMS
# All packages have man page, completions, pages, licences and a sample image. CI-LOG is the output
# of 'rt ci' at this commit; its last line is copied into PROVED.txt.
# The same commit and CI-LOG, with the same toolchain, C compilers and packers, give the same bytes:
# times are the commit's, and names are sorted.
#
# With TRIAL=DIR nothing is proved or built, to try this script alone: DIR has the program `tape`,
# as the script `tape` keeps it, and for each machine MACHINE.o and MACHINE.log, the object file and
# what `rattle build` printed. The version then ends in ~trial, and PROVED.txt says that nothing is
# proved.
set -eu
here=$(dirname "$(readlink -f "$0")")
out=$(realpath -m "${1:?usage: make.sh OUT [CI-LOG]}")
gate=${2:+$(tail -n 1 "$2")}
trial=${TRIAL:+$(realpath "$TRIAL")}
cd "$here/.."

fail() {
    echo "make.sh: $*" >&2
    exit 1
}

[ -n "$trial" ] || [ -z "$(git status --porcelain)" ] || fail "the work tree is not clean"
case ${gate:-, 0 failed} in
*', 0 failed') ;;
*) fail "the last line of CI is '$gate'" ;;
esac
[ ! -e "$out" ] || rmdir "$out" || fail "OUT exists, and is not an empty directory"
docs/links.py >/dev/null || fail "a link leads nowhere: docs/links.py"
docs/definitions.py --check || fail "docs/DEFINITIONS.md is out of date"
for it in aarch64-linux-gnu-gcc qemu-aarch64-static; do
    command -v $it >/dev/null || fail "$it is not installed; release/README.md lists what is needed"
done

commit=$(git rev-parse HEAD)
export SOURCE_DATE_EPOCH LC_ALL=C TZ=UTC
SOURCE_DATE_EPOCH=$(git log -1 --format=%ct)
umask 022
room=$(mktemp -d)
trap 'rm -rf "$room"' EXIT
mkdir -p "$out"
kit=$(dirname "$(rt doc)")
crates=
for it in $(sed -n 's/^tape_tool: //p' crates.txt) tape_tool; do
    [ ! -d "crates/$it" ] || crates="$crates $it"
done

# The proofs: each crate's own last line, lowest first.
verdicts() {
    local crate log=$room/log
    for crate in $crates tape; do
        (cd "crates/$crate" && rt check --jobs 1) >"$log" 2>&1 ||
            fail "$crate: $(tail -n 3 "$log")"
        printf '  %-12s %s\n' "$crate" "$(tail -n 1 "$log")"
        if [ "$crate" != tape ]; then
            (cd "crates/$crate" && rt lib) >"$log" 2>&1 || fail "$crate: $(tail -n 3 "$log")"
        fi
    done
}

# The object file of the proved program for a machine, from the kept proofs.
object() {
    local machine=$1 crate words=()
    for crate in $crates; do
        words+=(-L "dependency=../$crate/out/rlib")
    done
    (cd crates/tape && "$kit/bin/rattle" build --crate-name tape src/main.rt --list-axioms \
        --extern "std=$kit/rlibs/std.rlib" -L "dependency=$kit/rlibs" \
        --extern tape_tool=../tape_tool/out/rlib/tape_tool.rlib "${words[@]}" \
        --antt-project "$kit/rattle/logic/antt-project.json" --logic-built "$kit/logic_built" \
        --incremental "$room/kept" --jobs 1 --toolchain "$kit/toolchain" --backend llvm \
        --target "$machine-unknown-linux-gnu" -o "$room/$machine.o") </dev/null \
        >"$room/$machine.log" 2>&1 || fail "$machine: $(tail -n 3 "$room/$machine.log")"
}

machines='x86_64 aarch64'
if [ -n "$trial" ]; then
    echo "  none: a trial of make.sh. NOTHING HERE IS PROVED" >"$room/verdicts"
    for it in $machines; do
        cp "$trial/$it.o" "$trial/$it.log" "$room/"
    done
    program=$trial/tape
    echo trial >"$out/tape.stamp"
else
    verdicts >"$room/verdicts"
    # The program that was proved: built here, or before, where nothing has changed since, and with
    # the note of this commit.
    rm -f crates/tape/out/proved
    ./tape --prove </dev/null >"$room/run" 2>&1 || fail "$(tail "$room/run")"
    program=$PWD/crates/tape/out/proved
    cp crates/tape/out/tape.stamp "$out/"
    cp -a crates/tape/out/incremental "$room/kept"
    for it in $machines; do
        object "$it"
        printf '  %-12s %s\n' "tape $it" "$(tail -n 1 "$room/$it.log")" >>"$room/verdicts"
    done
    cmp "$room/x86_64.o" crates/tape/out/tape.o
fi
number=$(env -i "$program" --version | grep -o '[0-9]*\.[0-9]*\.[0-9]*' | head -n 1)
version=$number+$(git log -1 --format=%cd --date=format:%Y%m%d).$(git rev-parse --short=8 HEAD)
version=$version${trial:+~trial}
for it in docs/man.py docs/completions.py docs/reference.py; do
    "$it" --check --program "$program" || fail "run $it"
done

# Each machine's program: the object file, with its main under another name, linked with shim.c,
# and the note at the end of each program, which it prints with its version.
cp "$here/shim.c" "$room/"
tail -c 128 "$program" >"$room/note"
said=$(env -i "$program" --version | sed -n 2p)
[ -n "$said" ] && [ "$said" = "$(sed -n '2s/^build of tape: //; 2s/ *$//p' "$room/note")" ] ||
    fail "$program does not print its note"
# The prefix of the compiler and its tools for a machine.
tools() {
    [ "$1" = "$(uname -m)" ] || echo "$1-linux-gnu-"
}
for it in $machines; do
    mkdir "$room/$it"
    "$(tools "$it")objcopy" --redefine-sym main=tape_main "$room/$it.o" "$room/$it/tape.o"
    (cd "$room/$it" && "$(tools "$it")gcc" -O2 -s -static tape.o ../shim.c -o tape)
    cat "$room/note" >>"$room/$it/tape"
done

# Prints what a program prints in the stored run, in a root directory with nothing else in it.
alone() {
    local machine=$1 program=$2 qemu='' root=$room/root
    rm -rf "$root"
    mkdir "$root"
    cp "$program" "$root/tape"
    if [ "$machine" != "$(uname -m)" ]; then
        qemu=/qemu
        cp "$(command -v "qemu-$machine-static")" "$root$qemu"
    fi
    # shellcheck disable=SC2046 # the words of the stored run, one a line
    env -i PATH="$PATH" unshare --map-root-user chroot "$root" $qemu /tape $(cat crates/tape/args) \
        <crates/tape/stdin
}
for it in $machines; do
    alone "$it" "$room/$it/tape" | cmp - crates/tape/stdout
done

# The same with the other compilers and the other C library, where they are installed.
linked=
for it in gcc clang musl-gcc; do
    command -v $it >/dev/null || continue
    $it -O2 -s -static -Wall -Wextra -Werror "$room/x86_64/tape.o" "$room/shim.c" -o "$room/by"
    alone x86_64 "$room/by" | cmp - crates/tape/stdout
    linked="$linked $it"
done

# All examples of the pages, with the toolchain's program and each machine's.
mkdir "$room/bin"
cat >"$room/bin/aarch64" <<T
#!/bin/sh
exec qemu-aarch64-static "$room/aarch64/tape" "\$@"
T
chmod +x "$room/bin/aarch64"
for it in "$program" "$room/x86_64/tape" "$room/bin/aarch64"; do
    [ "$("$it" --version)" = "$("$program" --version)" ] || fail "$it is of another version"
    docs/examples.sh "$it" >"$room/log" || fail "$it: $(cat "$room/log")"
done
[ "$(file -b -m docs/tape.magic crates/tape/stdin)" = \
    'SIMH magnetic tape image, labelled volume "ABC001", first file "PAYROLL          "' ] ||
    fail "docs/tape.magic does not recognise the sample image"

# The parts with their licences, and the C functions whose contracts are assumed.
mkdir -p "$room/deb/usr/bin"
cp "$program" "$room/deb/usr/bin/tape"
"$here/parts.py" "$room" "$version" "$commit" shim.c x86_64/tape.o x86_64/tape aarch64/tape.o \
    aarch64/tape deb/usr/bin/tape
cp "$room/parts.spdx.json" "$out/"
# Its licences are read by a program that is not ours. Debian has none for all of SPDX.
NODE_PATH=/usr/share/nodejs node -e '
    const parse = require("spdx-expression-parse"), file = require("fs").readFileSync(0, "utf8");
    for (const it of JSON.parse(file).packages)
        for (const text of [it.licenseConcluded, it.licenseDeclared])
            if (text != "NONE" && text != "NOASSERTION") parse(text);
' <"$room/parts.spdx.json" || fail "a licence in parts.spdx.json is not SPDX"
{
    echo "# The C functions whose contracts the proofs assume: crate and name, and the machines."
    for it in $machines; do
        sed -n "s/^  \([A-Za-z_0-9:]*\)  *reached\$/\1 $it/p" "$room/$it.log"
    done | sort | awk '{of[$1] = of[$1] " " $2} END {for (name in of) print name of[name]}' | sort
} >"$out/ASSUMED.txt"

sum() {
    sha256sum <"$1" | cut -c1-64
}
{
    cat <<T
tape $version
commit     $commit
toolchain  $(rt version)
proofs     the last line of 'rt check' in each crate, over the work that earlier checks kept, and of
           'rattle build' of the program for each machine:
$(cat "$room/verdicts")
CI         ${gate:-not given}
assumed    $(grep -vc '^#' "$out/ASSUMED.txt") functions of C, listed in ASSUMED.txt
examples   $(tail -n 1 "$room/log"), with each of the programs below
linked     also by:$linked; each alone in an empty root directory
sums       (SHA-256)
  $(head -c -128 "$program" | sha256sum | cut -c1-64)  tape, as the toolchain linked it
  $(sum "$program")  the same with its note: /usr/bin/tape of the package
T
    for it in $machines; do
        cc=$("$(tools "$it")gcc" --version | head -n 1)
        echo "  $(sum "$room/$it.o")  tape.o for $it, as the toolchain made it"
        echo "  $(sum "$room/$it/tape.o")  link/tape.o for $it: its main renamed tape_main"
        echo "  $(sum "$room/$it/tape")  tape for $it, linked by $cc, with its note"
    done
    echo "  $(sum "$out/tape.stamp")  tape.stamp"
} >"$out/PROVED.txt"

# What all packages have: all pages, so that their links lead somewhere, and an image to try.
papers() {
    mkdir -p "$1/examples"
    git archive "$commit" -- '*.md' docs/json.schema.json docs/page.html ':!.github' | tar -x -C "$1"
    cp "$out/PROVED.txt" "$out/ASSUMED.txt" "$out/parts.spdx.json" "$1/"
    cp crates/tape/stdin "$1/examples/reel.tap"
}

# Every file with the commit's time, readable for all.
settle() {
    chmod -R u=rwX,go=rX "$1"
    find "$1" -exec touch -h -d "@$SOURCE_DATE_EPOCH" {} +
}

for it in $machines; do
    top=tape-$version-$it-linux
    papers "$room/$top"
    install -m 755 "$room/$it/tape" "$room/$top/tape"
    install -m 755 docs/page.py "$room/$top/tape-page"
    install -m 755 scripts/* "$room/$top/"
    cp docs/tape.1 docs/tape.bash docs/_tape docs/tape.fish docs/tape.magic "$room/$top/"
    install -m 644 -D "$room/$it/tape.o" "$room/$top/link/tape.o"
    cp "$room/shim.c" "$room/note" "$room/$top/link/"
    cp "$room/COPYRIGHT" "$room/$top/"
    settle "$room/$top"
    tar -C "$room" --sort=name --owner=0 --group=0 --numeric-owner -cf - "$top" |
        gzip -9n >"$out/$top.tar.gz"
done

deb=$room/deb doc=$room/deb/usr/share/doc/tape-volumes share=$room/deb/usr/share
papers "$doc"
cp "$room/COPYRIGHT.debian" "$doc/copyright"
mkdir -p "$deb/DEBIAN"
install -m 755 docs/page.py "$deb/usr/bin/tape-page"
install -m 755 scripts/* "$deb/usr/bin/"
install -m 644 -D docs/tape.bash "$share/bash-completion/completions/tape"
install -m 644 -D docs/_tape "$share/zsh/vendor-completions/_tape"
install -m 644 -D docs/tape.fish "$share/fish/vendor_completions.d/tape.fish"
install -m 644 -D docs/tape.magic "$share/tape-volumes/tape.magic"
mkdir -p "$share/man/man1"
gzip -9nc docs/tape.1 >"$share/man/man1/tape.1.gz"
maintainer="Sevumbia maintainers <maintainers@users.noreply.sevumbia.example>"
day=$(date -u -R -d "@$SOURCE_DATE_EPOCH")
printf 'tape-volumes (%s) stable; urgency=low\n\n  * Commit %s.\n\n -- %s  %s\n' \
    "$version" "$commit" "$maintainer" "$day" | gzip -9n >"$doc/changelog.gz"
size=$(find "$deb/usr" -type f -printf '%s\n' | awk '{n += $1} END {print int(n / 1024)}')
glibc=$(readelf -V "$program" | grep -o 'GLIBC_[0-9.]*' | sort -uV | tail -n 1 | cut -d_ -f2)
cat >"$deb/DEBIAN/control" <<T
Package: tape-volumes
Version: $version
Architecture: amd64
Maintainer: $maintainer
Installed-Size: $size
Depends: libc6 (>= $glibc)
Recommends: python3
Suggests: mt-st, hercules, gddrescue
Section: utils
Priority: optional
Description: reads and writes ANSI labelled magnetic tapes in .tap images
 Lists, checks and extracts files on volumes with the labels of ECMA-13 (ANSI
 X3.27, ISO 1001), from SIMH .tap images of reels, damaged, cut or mixed with
 others, and writes such volumes. What it reads and writes is proved against
 definitions: PROVED.txt and docs/PROVED.md.
T
(cd "$deb" && find usr -type f -print0 | sort -z | xargs -0 md5sum) >"$deb/DEBIAN/md5sums"
settle "$deb"
chmod 755 "$deb/usr/bin/tape"
find "$deb/DEBIAN" -exec touch -h -d "@$SOURCE_DATE_EPOCH" {} +
dpkg-deb --root-owner-group -Zxz --threads-max=1 -b "$deb" \
    "$out/tape-volumes_${version}_amd64.deb" >/dev/null

(cd "$out" && sha256sum -- * >"$room/sums" && mv "$room/sums" SHA256SUMS)
touch -d "@$SOURCE_DATE_EPOCH" "$out"/*
ls -l "$out"
