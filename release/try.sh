#!/bin/bash
# try.sh OUT ROOT: tries the package of a release in ROOT, a Debian root of its own, as debootstrap
# makes it: installed there, run with nothing else, all examples, removed. Then the program of each
# archive with nothing beside it, linked again if ROOT has a C compiler for it. By hand, as root.
set -eu
here=$(dirname "$(readlink -f "$0")")
out=$(realpath "$1") root=$(realpath "$2")
top=$(dirname "$here")
# Runs a command in the root, with the system's folders mounted for as long as it runs.
inside() {
    # shellcheck disable=SC2016 # for the inner shell
    unshare --mount sh -c 'mount -t proc proc "$0/proc" && mount --rbind /dev "$0/dev" &&
        exec chroot "$0" /usr/bin/env -i PATH=/usr/sbin:/usr/bin:/sbin:/bin LC_ALL=C "$@"' \
        "$root" "$@"
}
rm -rf "$root/try"
trap 'rm -rf "$root/try" "$out.before" "$out.after"' EXIT
mkdir -p "$root/try/docs" "$root/try/crates/tape"
cp "$out"/*.deb "$root/try/"
cp "$top/README.md" "$root/try/"
cp "$top/docs/examples.sh" "$top"/docs/*.md "$root/try/docs/"
cp -R "$top"/crates/tape/{args,stdin,stdout} "$root/try/crates/tape/"
find "$root/usr" "$root/etc" -xdev | LC_ALL=C sort >"$out.before"

inside sh -c 'dpkg -i /try/*.deb'
inside dpkg -L tape-volumes | grep -v '\.md$'
inside tape --version
inside sh -c 'cd /try/crates/tape && tape $(cat args) <stdin | cmp - stdout'
inside cat /usr/share/doc/tape-volumes/copyright
inside bash /try/docs/examples.sh /usr/bin/tape
(cd "$root/usr/bin" && sha256sum tape) | cut -c1-64 | grep -f - "$out/PROVED.txt"
inside dpkg --purge tape-volumes

find "$root/usr" "$root/etc" -xdev | LC_ALL=C sort >"$out.after"
diff "$out.before" "$out.after" && echo "nothing is left"

for machine in x86_64 aarch64; do
    tar -C "$root/try" -xzf "$out"/tape-*-"$machine"-linux.tar.gz
    archive=$(echo "$root"/try/tape-*-"$machine"-linux)
    qemu='' cc=cc
    if [ "$machine" != "$(uname -m)" ]; then
        qemu=/qemu cc=$machine-linux-gnu-gcc
        cp "$(command -v "qemu-$machine-static")" "$archive$qemu"
    fi
    # shellcheck disable=SC2046 # the words of the stored run, one a line
    chroot "$archive" $qemu /tape $(cat "$top/crates/tape/args") <"$top/crates/tape/stdin" |
        cmp - "$top/crates/tape/stdout"
    echo "$machine: the archive's program runs alone"
    if inside sh -c "command -v $cc" >/dev/null; then
        inside sh -c "cd /try/tape-*-$machine-linux/link &&
            $cc -O2 -s -static tape.o shim.c -o /try/linked && cat note >>/try/linked &&
            cmp /try/linked ../tape"
        echo "$machine: linked again it is the same"
    fi
done
