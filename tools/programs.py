#!/usr/bin/env python3
"""Plays transcripts of `surfview`, `surfsend` and `surfwatch`.

    tools/programs.py FILE ..             plays these, and says how many runs agree
    tools/programs.py --recorded FILE ..  plays the scripts of that file too

A transcript has cases. A line `case TITLE` begins one, and empty lines and those that begin with
`#` say nothing. The others are

    $ PROGRAM WORD ..  begins a run; `$ PROGRAM .. | PROGRAM ..` one of two, of which the first
                       writes what the second reads; a word may stand between apostrophes
    |TEXT              a line of its input
    +TEXT              a text of its input, without a line end
    =HEX               bytes of its input
    @FILE              a file of the repository, which is its input, line ends and all
    fails read ERROR   reads fail behind the input, by `EIO` or `ENOMEM`
    fails write N      the output takes N writes, and then fails; `fails error N` the error output
    < TEXT             a line that it has to print, and `! TEXT` one of its error output
    ? STATUS           its exit status, where that isn't 0
    writes N           by how many writes it has to print that

and `bad [TEXT]` is a run of `surfview 4 3` of three lines, `show`, the text and `fly`, which has to
refuse the second.

Recorded scripts are cases `case WIDTH HEIGHT`, the lines of a script for `surfview`, each behind
`> `, and the lines of what it has to print, each behind `< `.

The programs are those that `rt ci` or `rt run` has built, each as both compilers make it, where
both are there; runs that fail or count writes are of LLVM's alone, which the shim is loaded
before. What fails is printed, and the status is 1 then.
"""
import argparse
import os
import shlex
import subprocess
import sys
from pathlib import Path

TOP = Path(__file__).resolve().parent.parent
SECONDS = 60
# What the two compilers' programs are called.
ENDINGS = ("", ".by-rattle")
INPUT = {"|": lambda text: text + b"\n", "+": lambda text: text,
         "=": lambda text: bytes.fromhex(text.decode())}


class Run:
    """A run of a program: what it is given, and what it has to print."""

    def __init__(self, words, number, title):
        self.words, self.number, self.title = words, number, title
        self.given, self.out, self.errors, self.status = b"", b"", b"", 0
        self.failures, self.writes = {}, None

    def add(self, line):
        """Takes a line of the transcript below the one that begins the run."""
        mark, rest = line[:1].decode("latin-1"), line[1:]
        if mark in INPUT:
            self.given += INPUT[mark](rest)
        elif mark == "@":
            self.given += (TOP / rest.decode()).read_bytes()
        elif line.startswith(b"fails "):
            what, value = line.decode().split()[1:]
            self.failures[what] = value
        elif line[:2] == b"< " or line == b"<":
            self.out += line[2:] + b"\n"
        elif line.startswith(b"! "):
            self.errors += line[2:] + b"\n"
        elif line.startswith(b"? "):
            self.status = int(line[2:])
        elif line.startswith(b"writes "):
            self.writes = int(line[7:])
        else:
            sys.exit(f"programs.py: line {self.number}: {line!r} says nothing")

    def played(self, ending, shim):
        """Returns what the run prints, its errors, its status, and by how many writes it prints."""
        commands, at = [[]], dict(os.environ)
        for word in self.words:
            if word == "|":
                commands.append([])
            else:
                commands[-1].append(word)
        writes = None
        if self.needs_shim():
            at["LD_PRELOAD"] = str(shim)
            at |= {f"FAILS_{what.upper()}": value for what, value in self.failures.items()}
        given, errors = self.given, b""
        for program, *words in commands:
            path = TOP / "crates" / program / "out" / (program + ending)
            ran = subprocess.run([path, *words], input=given, capture_output=True, env=at,
                                 timeout=SECONDS)
            given, errors = ran.stdout, errors + ran.stderr
        if self.needs_shim():
            # (the shim's own last line)
            lines = errors.splitlines(True)
            report = lines.pop() if lines and lines[-1].startswith(b"requests ") else b"-1"
            errors = b"".join(lines)
            writes = int(report.split()[-1]) if self.writes is not None else None
        return given, errors, ran.returncode, writes

    def needs_shim(self):
        return bool(self.failures) or self.writes is not None

    def programs(self):
        return [word for at, word in enumerate(self.words) if at == 0 or self.words[at - 1] == "|"]


def runs_of(path):
    """Returns the runs of a transcript."""
    runs, title = [], ""
    for number, line in enumerate(path.read_bytes().split(b"\n"), 1):
        if line.startswith(b"case "):
            title = line[5:].decode()
        elif line.startswith(b"$ "):
            runs.append(Run(shlex.split(line[2:].decode()), number, title))
        elif line.startswith(b"bad [") and line.endswith(b"]"):
            run = Run(["surfview", "4", "3"], number, title)
            run.given = b"show\n" + line[5:-1] + b"\nfly\n"
            run.errors, run.status = b"line 2: bad command\n", 2
            runs.append(run)
        elif line and not line.startswith(b"#"):
            runs[-1].add(line)
    return runs


def recorded_runs_of(path):
    """Returns the runs of a file of recorded scripts."""
    runs = []
    for number, line in enumerate(path.read_bytes().split(b"\n"), 1):
        if line.startswith(b"case "):
            size = line[5:].decode().split()
            runs.append(Run(["surfview", *size], number, "recorded"))
        elif line.startswith(b"> "):
            runs[-1].given += line[2:] + b"\n"
        elif line:
            runs[-1].add(line)
    return runs


def differs(run, ending, shim):
    """Returns what a run prints otherwise than it has to, if it does."""
    wanted = run.out, run.errors, run.status, run.writes
    try:
        found = run.played(ending, shim)
    except subprocess.TimeoutExpired:
        return "it takes too long"
    names = "output", "error output", "status", "writes"
    differing = [f"{name}: wanted {one!r}, found {other!r}"
            for name, one, other in zip(names, wanted, found) if one != other]
    return "\n  ".join(differing)


def play(path, runs, shim):
    """Plays the runs of a file, and returns how many agree and how many don't."""
    agreeing = failing = 0
    for ending in ENDINGS:
        for run in runs:
            built = [TOP / "crates" / it / "out" / (it + ending) for it in run.programs()]
            if ending and (run.needs_shim() or not all(it.exists() for it in built)):
                continue
            found = differs(run, ending, shim)
            agreeing, failing = agreeing + (not found), failing + bool(found)
            if found:
                print(f"FAILED: {path.name}, line {run.number}, {run.title}\n  {found}")
    print(f"{path.name}: {len(runs)} runs, {agreeing} agree, {failing} differ")
    return agreeing, failing


def main():
    parser = argparse.ArgumentParser(description=__doc__,
                                     formatter_class=argparse.RawDescriptionHelpFormatter)
    parser.add_argument("--shim", type=Path, help="tools/shim.c, built")
    parser.add_argument("--recorded", type=Path, help="a file of recorded scripts")
    parser.add_argument("files", type=Path, nargs="*")
    given = parser.parse_args()
    played = [play(it, runs_of(it), given.shim) for it in given.files]
    if given.recorded:
        played.append(play(given.recorded, recorded_runs_of(given.recorded), given.shim))
    print(f"{sum(it[0] for it in played)} passed, {sum(it[1] for it in played)} failed")
    sys.exit(any(it[1] for it in played))


main()
