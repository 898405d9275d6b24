#!/usr/bin/env python3
"""verify.py PROGRAM STAMP: reports whether STAMP, the file tape.stamp of a release, is that of
the sources of this clone, of the toolchain on this machine, and of PROGRAM, the package's
/usr/bin/tape.

It proves nothing and trusts whoever wrote STAMP; it needs the toolchain, whose version is part of the
sum, and takes a second. The note at the end of PROGRAM, which the toolchain did not write, is printed.
Exit status 0 if everything matches, otherwise 1.
"""
import hashlib
import importlib.machinery
import importlib.util
import os
import subprocess
import sys

TOP = os.path.dirname(os.path.dirname(os.path.abspath(__file__)))
NOTE, LENGTH = b"\nbuild of tape: ", 128


def toolchain():
    """The toolchain's own module, which knows what a stamp is the sum of."""
    page = subprocess.run(["rt", "doc"], stdout=subprocess.PIPE, text=True, check=True).stdout
    path = os.path.join(os.path.dirname(page.strip()), "bin", "rtlib.py")
    loader = importlib.machinery.SourceFileLoader("rtlib", path)
    module = importlib.util.module_from_spec(importlib.util.spec_from_loader("rtlib", loader))
    sys.modules["rtlib"], sys.dont_write_bytecode = module, True
    loader.exec_module(module)
    return module


def read(path):
    with open(path, "rb") as file:
        return file.read()


def main():
    if len(sys.argv) != 3:
        sys.exit(__doc__.strip())
    program, stamp = sys.argv[1:]
    crate = toolchain().Crate(os.path.join(TOP, "crates", "tape"), TOP, {})
    words = read(os.path.join(crate.folder, "args")).decode().splitlines()
    crate.said = {**crate.said, "args": words}
    said = read(stamp).decode()
    sources = said[:64] == crate.stamp()
    built, note = read(program), b""
    if built[-LENGTH:].startswith(NOTE):
        built, note = built[:-LENGTH], built[-LENGTH:]
    made = said[64:] == hashlib.sha256(built).hexdigest()
    print("sources", "as they were proved" if sources else "are NOT those that were proved")
    print("program", "as it was built from them" if made else "is NOT the one that was built")
    print("note   ", note[len(NOTE):].decode(errors="replace").strip() or "none")
    return 0 if sources and made else 1


sys.exit(main())
