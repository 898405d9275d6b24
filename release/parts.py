#!/usr/bin/env python3
"""Lists the parts of the program and collects their licences. Called by make.sh.

    parts.py OUT VERSION COMMIT FILE..

The parts are the libraries of the toolchain that crates.txt names for `tape` and for the crates below it, and
those that they use in turn. Their licences are in the toolchain's folders. OUT gets

    parts.spdx.json     the parts, with their licences and origins, as SPDX 2.3
    COPYRIGHT           the same for people, with all licence texts, and those of the GNU C library, which the
                        static programs contain
    COPYRIGHT.debian    the same for Debian's package, without the C library, and without the text of the
                        Apache License, which each Debian system has

Each FILE, named by its path below OUT, is listed with its checksums: an object file, shim.c, or a program.
SOURCE_DATE_EPOCH is the time in the list. A licence text that is not recognised ends the script with an error.
"""
import hashlib
import json
import os
import re
import subprocess
import sys
import time

TOP = os.path.dirname(os.path.dirname(os.path.abspath(__file__)))
MAINTAINERS = "Organization: Sevumbia maintainers"
# The GNU C library and GCC's start-up code in the static programs: the Debian package, and the licence.
STATIC = {"glibc": ("libc6-dev", "LGPL-2.1-or-later"),
          "libgcc": ("libgcc-12-dev", "GPL-3.0-or-later WITH GCC-exception-3.1")}


def read(*path):
    with open(os.path.join(*path), encoding="utf-8") as file:
        return file.read()


def output(*words):
    return subprocess.run(words, stdout=subprocess.PIPE, text=True, check=True).stdout.strip()


def licence_of(text, path):
    """The SPDX identifier of a licence text."""
    if "SPDX-License-Identifier: " in text:
        return re.search(r"SPDX-License-Identifier: (.*)", text)[1]
    if "Apache License" in text and "Version 2.0" in text:
        return "Apache-2.0"
    if "Permission is hereby granted, free of charge" in text:
        return "MIT"
    sys.exit(f"parts.py: {path} is not recognised: add it to licence_of")


class Part:
    """A library of the toolchain."""

    def __init__(self, kit, name):
        self.name, folder = name, os.path.join(kit, "rattle", name)
        self.uses = re.findall(r"^dep (\w+)$", read(kit, "rlibs", f"{name}.rlib", "format"), re.M)
        page = os.path.join(folder, "README.md")
        said = read(page) if os.path.exists(page) else ""
        found = re.search(rf"(?<![-\w]){name}(?:_builder)?`? (\d+\.\d+\.\d+)", said)
        self.origin = found and found[1]
        names = sorted(it for it in os.listdir(folder) if it.startswith("LICENSE"))
        self.texts = [read(folder, it).strip() for it in names]
        ids = {licence_of(text, f"{folder}/{it}") for it, text in zip(names, self.texts)}
        self.licence = " OR ".join(sorted(ids, reverse=True))
        self.owners = sorted({line.strip() for text in self.texts for line in text.split("\n")
                              if re.match(r"\s*Copyright (\(c\)|©|\d)", line, re.I)})

    @property
    def described(self):
        """The part in a line for people."""
        origin = f"after the Rust crate {self.name} {self.origin}" if self.origin else "a library of the toolchain"
        return f"  {self.name:<16} {origin}: {self.licence or 'no licence text comes with it'}"


def parts_of(kit):
    """The parts, by name."""
    listed = dict(re.findall(r"^(\w+):(.*)$", read(TOP, "crates.txt"), re.M))
    found, todo = {}, ["tape", "std"]
    while todo:
        name = todo.pop()
        if name in listed:
            todo += listed.pop(name).split()
        elif name not in found and os.path.isdir(os.path.join(kit, "rlibs", f"{name}.rlib")):
            found[name] = Part(kit, name)
            todo += found[name].uses
    return [found[name] for name in sorted(found)]


def copyright_of(version, parts, is_debian):
    """The parts and all licence texts."""
    path = os.path.join(TOP, "LICENSE")
    own = read(path).strip() if os.path.exists(path) else "No licence has been granted for this work yet."
    out = [f"tape {version}", own, "The program contains these parts, which belong to others. parts.spdx.json is the "
           "same list, for programs.", "\n".join(part.described for part in parts)]
    texts = {}
    for part in parts:
        for text in part.texts:
            if is_debian and licence_of(text, part.name) == "Apache-2.0":
                text = "The Apache License 2.0: see /usr/share/common-licenses/Apache-2.0"
            texts.setdefault(text, []).append(part.name)
    out += [f"---- {', '.join(names)} ----\n\n{text}" for text, names in texts.items()]
    if not is_debian:
        out += ["---- the GNU C library ----\n\nThe program is linked with it statically. To link it with another "
                "version, or another C library,\nin the directory link:\n\n    cc -O2 -s -static tape.o shim.c -o tape",
                read("/usr/share/doc", STATIC["glibc"][0], "copyright").strip(),
                read("/usr/share/common-licenses/LGPL-2.1").strip(),
                "---- libgcc ----\n\nA few of its functions may be in the program, under the GNU General Public "
                "License,\nversion 3 or later, with the GCC Runtime Library Exception, which permits this."]
    return "\n\n".join(out) + "\n"


def package(name, version, licence, **more):
    """A package of SPDX."""
    return {"SPDXID": f"SPDXRef-{name.replace('_', '-')}", "name": name, "versionInfo": version,
            "downloadLocation": "NOASSERTION", "filesAnalyzed": False, "licenseConcluded": licence,
            "licenseDeclared": licence, "copyrightText": "NOASSERTION", **more}


def spdx(version, commit, kit, parts, files):
    """The list as SPDX 2.3."""
    path = os.path.join(TOP, "LICENSE")
    own = licence_of(read(path), path) if os.path.exists(path) else "NONE"
    toolchain = read(kit, "KIT-ID").split(" ")[0]
    packages = [package("tape", version, own, supplier=MAINTAINERS, primaryPackagePurpose="APPLICATION",
                        sourceInfo=f"git commit {commit}"),
                package("rattle", toolchain, "NOASSERTION", sourceInfo="The toolchain that proved and compiled it.")]
    relations = [("SPDXRef-DOCUMENT", "DESCRIBES", "SPDXRef-tape"),
                 ("SPDXRef-rattle", "BUILD_TOOL_OF", "SPDXRef-tape")]
    for part in parts:
        source = (f"Written in Rattle after the Rust crate {part.name} {part.origin}." if part.origin else
                  "A library of the toolchain. No licence text comes with it.")
        packages.append(package(part.name, toolchain, part.licence or "NOASSERTION", sourceInfo=source,
                                copyrightText="\n".join(part.owners) or "NOASSERTION"))
        relations.append(("SPDXRef-tape", "STATIC_LINK", packages[-1]["SPDXID"]))
        relations += [(packages[-1]["SPDXID"], "DEPENDS_ON", f"SPDXRef-{it.replace('_', '-')}") for it in part.uses]
    for name, (debian, licence) in STATIC.items():
        said = output("dpkg-query", "-W", "-f", "${source:Package} ${source:Version}", debian).split(" ")
        packages.append(package(name, said[1], licence, supplier="Organization: Debian",
                                sourceInfo=f"Debian's source package {said[0]}."))
    listed = []
    for at, file in enumerate(files):
        with open(file, "rb") as it:
            content = it.read()
        listed.append({"SPDXID": f"SPDXRef-File-{at}", "fileName": f"./{file}",
                       "checksums": [{"algorithm": "SHA1", "checksumValue": hashlib.sha1(content).hexdigest()},
                                     {"algorithm": "SHA256", "checksumValue": hashlib.sha256(content).hexdigest()}],
                       "fileTypes": ["SOURCE" if file.endswith(".c") else "BINARY"],
                       "licenseConcluded": "NOASSERTION", "licenseInfoInFiles": ["NOASSERTION"],
                       "copyrightText": "NOASSERTION"})
        relations.append((f"SPDXRef-File-{at}", "GENERATED_FROM", "SPDXRef-tape"))
        if re.fullmatch(r"\w+/tape", file):
            relations += [(f"SPDXRef-File-{at}", "STATIC_LINK", f"SPDXRef-{name}") for name in STATIC]
    created = time.strftime("%Y-%m-%dT%H:%M:%SZ", time.gmtime(int(os.environ["SOURCE_DATE_EPOCH"])))
    return {"spdxVersion": "SPDX-2.3", "dataLicense": "CC0-1.0", "SPDXID": "SPDXRef-DOCUMENT",
            "name": f"tape-{version}", "documentNamespace": f"https://spdx.org/spdxdocs/tape-{version}-{commit}",
            "creationInfo": {"created": created, "creators": ["Tool: parts.py", MAINTAINERS]},
            "packages": packages, "files": listed,
            "relationships": [{"spdxElementId": left, "relationshipType": kind, "relatedSpdxElement": right}
                              for left, kind, right in relations]}


def main():
    if len(sys.argv) < 4:
        sys.exit(__doc__.strip())
    out, version, commit, *files = sys.argv[1:]
    os.chdir(out)
    kit = os.path.dirname(output("rt", "doc"))
    parts = parts_of(kit)
    texts = {"COPYRIGHT": copyright_of(version, parts, False), "COPYRIGHT.debian": copyright_of(version, parts, True),
             "parts.spdx.json": json.dumps(spdx(version, commit, kit, parts, files), indent=1) + "\n"}
    for name, text in texts.items():
        with open(name, "w", encoding="utf-8") as file:
            file.write(text)


main()
