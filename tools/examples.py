#!/usr/bin/env python3
"""Runs the examples of docs/SCRIPT.md, and compares what is printed with what stands there.

    tools/examples.py      says which differ, and fails where one does

In a block of the section "Examples" a command stands on the left, and what it prints from column 22
on. A block with `send` goes through `surfsend` and `surfwatch -a`, one with `ask SOURCE NUMBER`
through `surfsend -i` and `surfwatch -a`, and any other through `surfview`, as they were built last:
`rt run` in the crate of each.

Each row of bytes in docs/VIEWER.md has to be a case that another encoder made, in the vectors of
bindings/js/test, or a part of one.
"""
import argparse
import re
import subprocess
import sys
from pathlib import Path

TOP = Path(__file__).resolve().parent.parent
PAGE = TOP / "docs" / "SCRIPT.md"
VIEWER = TOP / "docs" / "VIEWER.md"
VECTORS = TOP / "bindings" / "js" / "test" / "vectors.txt"
SIZE = ("6", "2")
LEFT = 22


def blocks():
    """The scripts of the section, each with what it prints."""
    section = re.search(r"^## Examples\n(.*?)^## ", PAGE.read_text(), re.M | re.S).group(1)
    for block in re.findall(r"```text\n(.*?)```", section, re.S):
        lines = block.split("\n")
        script = [line[:LEFT].rstrip() for line in lines if line[:LEFT].strip()]
        yield script, "".join(f"{line[LEFT:]}\n" for line in lines if line[LEFT:])


def run(name, words, text):
    program = TOP / "crates" / name / "out" / name
    if not program.exists():
        sys.exit(f"tools/examples.py: {name} isn't built: rt run in crates/{name}")
    return subprocess.run([program, *words], input=text, capture_output=True, check=False).stdout


def strange_bytes():
    """How many rows of bytes VIEWER.md has, and those of them that no vector has."""
    rows = re.findall(r"`((?:[0-9a-f]{2} )+[0-9a-f]{2})`", VIEWER.read_text())
    vectors = VECTORS.read_text()
    return len(rows), [row for row in rows if row.replace(" ", "") not in vectors]


def main():
    argparse.ArgumentParser(description=__doc__,
                            formatter_class=argparse.RawDescriptionHelpFormatter).parse_args()
    failed = count = 0
    for script, wanted in blocks():
        text = "".join(f"{line}\n" for line in script).encode()
        if any(re.fullmatch(r"ask \d+ \d+", line) for line in script):
            printed = run("surfwatch", ["-a"], run("surfsend", ["-i", *SIZE], text))
        elif "send" in script:
            printed = run("surfwatch", ["-a"], run("surfsend", SIZE, text))
        else:
            printed = run("surfview", SIZE, text)
        count += 1
        if printed.decode() != wanted:
            failed += 1
            print(f"docs/SCRIPT.md: {script[0]} .. prints\n{printed.decode()}", end="")
    if failed or not count:
        sys.exit(f"docs/SCRIPT.md: {failed} of {count} examples differ")
    count, strange = strange_bytes()
    if strange or not count:
        sys.exit(f"docs/VIEWER.md: no vector has {' or '.join(strange) or 'its examples'}")


main()
