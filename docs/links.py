#!/usr/bin/env python3
"""Reports links of the pages that lead nowhere: to a file, or to a heading of a page, that does not exist.

Run manually; status 1 if there is one. Links to other sites are not followed.
"""
import pathlib
import re
import sys

TOP = pathlib.Path(__file__).resolve().parent.parent
PAGES = [path for pattern in ("*.md", "docs/*.md", "bench/*.md", "trials/*.md", "release/*.md", "crates/*/README.md")
         for path in sorted(TOP.glob(pattern))]


def anchors(page):
    """The anchors of a page's headings."""
    found, seen, code = set(), {}, False
    for line in page.read_text(encoding="utf-8").splitlines():
        code ^= line.startswith("```")
        heading = re.match(r"#+ (.*)", line)
        if code or not heading:
            continue
        text = re.sub(r"\[([^\]]*)\]\([^)]*\)", r"\1", heading[1]).lower()
        name = re.sub(r"[^\w\- ]", "", text).replace(" ", "-")
        count = seen.get(name, 0)
        seen[name] = count + 1
        found.add(f"{name}-{count}" if count else name)
    return found


def dead(page):
    """The links of a page that lead nowhere."""
    text = re.sub(r"(?ms)^```.*?^```|^    .*?$|`[^`\n]*`", "", page.read_text(encoding="utf-8"))
    for target in re.findall(r"\]\(([^)\s]+)\)", text):
        path, _, anchor = target.partition("#")
        if re.match(r"[a-z]+:", target):
            continue
        file = (page.parent / path).resolve() if path else page
        if not file.exists():
            yield target
        elif anchor and file.suffix == ".md" and anchor not in anchors(file):
            yield target


def main():
    found = [f"{page.relative_to(TOP)}: {target}" for page in PAGES for target in dead(page)]
    print(*found, f"{len(found)} links lead nowhere", sep="\n")
    return 1 if found else 0


sys.exit(main())
