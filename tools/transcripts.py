#!/usr/bin/env python3
"""Plays the transcripts of cases/ by `player`, which has to print each as it is.

    tools/transcripts.py --shim FILE     plays all, and says how many plays hold

Each is played by the programs of both compilers, where both are there. Those of lines in both forms
are played with each line compressed behind each call too. Those of refused memory are played once
more for each request for memory that a play makes, which is refused by tools/shim.c, built. A play
has to print the transcript then too, or a beginning of it and why it ends, where the memory for the
player's own texts is refused. What fails is printed, and the status is 1 then.
"""
import argparse
import os
import re
import subprocess
import sys
from concurrent.futures import ThreadPoolExecutor
from pathlib import Path

TOP = Path(__file__).resolve().parent.parent
CASES = TOP / "cases"
PLAYER = TOP / "crates" / "player" / "out" / "player"
# What the two compilers' programs are called.
ENDINGS = ("", ".by-rattle")
BOTH_FORMS = ("storages", "lines-table")
REFUSED = "refused-"
SECONDS = 120
REPORT = re.compile(rb"requests (\d+) refused (\d+) writes \d+\n$")


def played(path, ending="", word="play", shim=None, number=0):
    """Returns what the player prints of a transcript, its errors and its status."""
    at = dict(os.environ)
    if shim:
        at |= {"LD_PRELOAD": str(shim), "REFUSED": str(number)}
    ran = subprocess.run([f"{PLAYER}{ending}", word], input=path.read_bytes(), env=at,
                         capture_output=True, timeout=SECONDS)
    return ran.stdout, ran.stderr, ran.returncode


def difference(wanted, found):
    """Returns the first line in which they differ, and what it is there."""
    pairs = zip(wanted.split(b"\n"), found.split(b"\n") + [b"(no more)"])
    for number, (line, other) in enumerate(pairs, 1):
        if line != other:
            return f"line {number}: {line.decode()!r}, but {other.decode()!r}"
    return "more is printed"


def hold(path, ending, word):
    """Returns what is wrong with a play, if anything is."""
    wanted = path.read_bytes()
    out, errors, status = played(path, ending, word)
    if (out, status) == (wanted, 0):
        return None
    return f"{path.name}, {word}{ending}: status {status}, {difference(wanted, out)}, {errors}"


def refuse(path, shim, number):
    """Refuses a request of a play. Returns whether it went on to the end, and what is wrong."""
    wanted = path.read_bytes()
    out, errors, status = played(path, shim=shim, number=number)
    report = REPORT.search(errors)
    if report and report[2] == b"1":
        if (out, status) == (wanted, 0):
            return True, None
        if status == 1 and re.match(rb"Error: (Memory|Io)\n", errors) and wanted.startswith(out):
            return False, None
    return False, f"{path.name}, request {number} refused: status {status}, {errors}"


def refuse_each(path, shim, pool):
    """Refuses each request of a play in turn, and returns what is wrong."""
    report = REPORT.search(played(path, shim=shim)[1])
    count = int(report[1])
    found = list(pool.map(lambda number: refuse(path, shim, number), range(1, count + 1)))
    went_on = sum(it[0] for it in found)
    print(f"{path.name}: {count} requests refused in turn, {went_on} plays went on", flush=True)
    return [it[1] for it in found]


def main():
    parser = argparse.ArgumentParser(description=__doc__,
                                     formatter_class=argparse.RawDescriptionHelpFormatter)
    parser.add_argument("--shim", type=Path, required=True, help="tools/shim.c, built")
    shim = parser.parse_args().shim
    paths = sorted(CASES.glob("*.txt"))
    plays = [(path, ending, "play") for path in paths for ending in ENDINGS
             if Path(f"{PLAYER}{ending}").exists()]
    plays += [(path, "", "compressed") for path in paths if path.name.startswith(BOTH_FORMS)]
    with ThreadPoolExecutor(len(os.sched_getaffinity(0))) as pool:
        found = list(pool.map(lambda play: hold(*play), plays))
        cases = sum(line.startswith("case") for it in paths for line in it.open())
        print(f"transcripts: {len(paths)} with {cases} cases, {len(plays)} plays", flush=True)
        for path in paths:
            if path.name.startswith(REFUSED):
                found += refuse_each(path, shim, pool)
    wrong = [it for it in found if it]
    for it in wrong[:20]:
        print(f"FAILED: {it}")
    print(f"{len(found) - len(wrong)} passed, {len(wrong)} failed")
    sys.exit(bool(wrong))


main()
