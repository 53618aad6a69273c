#!/usr/bin/env python3
"""Checks that the files that the pages name are there.

    tools/files.py

A page names a file by a link, or by its name or path in backticks, with one of the endings below;
and docs/ARCHITECTURE.md says which files of a crate's `proofs/` have the reasoning of a theorem. It
prints each name that no file has, and then `N names of files, M missing`. Names in capitals, as in
`proofs/PATH/Answers.antt`, stand for others, and those of programs that a page writes are listed.
"""
import re
import subprocess
import sys
from pathlib import Path

TOP = Path(__file__).resolve().parent.parent
ENDINGS = "antt|c|cddl|csv|edit|h|html|mjs|py|rs|rt|so|toml|txt"
NAME = re.compile(rf"`([\w./-]+\.(?:{ENDINGS}))`")
LINK = re.compile(r"\]\(([^)#\s]+)(?:#[^)]*)?\)")
STANDS_FOR_OTHERS = re.compile(r"\b[A-Z]{3,}\b")
WRITTEN = {"hello.c", "screen/Cargo.toml", "screen/src/main.rs", "what-it-does.edit"}
THEOREM = re.compile(r"^\|[^|]+\|(`[^|]+)\|(`[A-Z][^|]+)\|$")


def committed():
    """The files of the repository, those that are new among them."""
    listed = subprocess.run(["git", "ls-files", "--cached", "--others", "--exclude-standard"],
                            cwd=TOP, check=True, capture_output=True, text=True)
    return [Path(line) for line in listed.stdout.splitlines() if (TOP / line).exists()]


def named_files(page):
    """The names of files in a page, but those that stand for others."""
    for name in NAME.findall(page):
        if name not in WRITTEN and not STANDS_FOR_OTHERS.search(name):
            yield name


def is_there(name, files):
    """Whether some file has this name, or this end of a path."""
    parts = Path(name).parts
    return any(file.parts[-len(parts):] == parts for file in files)


def proofs(page):
    """The files of proofs that a table of theorems names, and the crates of which one has them."""
    for line in page.splitlines():
        row = THEOREM.match(line)
        if row:
            crates, names = (re.findall(r"`([\w/]+)`", column) for column in row.groups())
            yield from ((name, crates) for name in names)


def main():
    files = committed()
    count = missing = 0

    def look(page, name, there):
        nonlocal count, missing
        count += 1
        if not there:
            missing += 1
            print(f"{page.relative_to(TOP)} names {name}, which isn't there")

    pages = [TOP / file for file in files if file.suffix == ".md" and file.parts[0] != "vendor"]
    for page in pages:
        text = page.read_text()
        for name in named_files(text):
            look(page, name, is_there(name, files))
        for link in LINK.findall(text):
            if "://" not in link and not link.startswith("mailto:"):
                look(page, link, (page.parent / link).exists())
    architecture = TOP / "docs" / "ARCHITECTURE.md"
    for name, crates in proofs(architecture.read_text()):
        paths = [Path(f"crates/{crate}/proofs/{name}.antt") for crate in crates]
        look(architecture, f"{name} of {' or '.join(crates)}", any(path in files for path in paths))
    print(f"{count} names of files, {missing} missing")
    return missing > 0


if __name__ == "__main__":
    sys.exit(main())
