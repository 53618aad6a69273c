#!/usr/bin/env python3
"""Says what the gate costs, in minutes of a processor.

    tools/costs.py run FILE COMMAND ..   runs a command, `rt ci` say, and writes what it took
    tools/costs.py table FILE SECONDS    prints a table of that, of a gate that took so many
                                         seconds of processors (user and system time) in all

A crate's columns are its own proof, the second proof that its wrong bodies are tried over, these
wrong bodies, and the proof of its tests. What an earlier run passed is kept, and takes no time: a
table of all is one of a run from nothing. The time of each prover is read twice a second from
/proc, so that up to half a second of each is missed; it is part of the last row, which has all
that no prover of a crate takes, too: the programs, their tests, pages and bindings.
"""
import json
import os
import re
import resource
import subprocess
import sys
import threading
import time

EACH = 0.5
PROVER = "rattle"
PARTS = ("proof", "second proof", "wrong bodies", "tests")
TICKS = os.sysconf("SC_CLK_TCK")


class Process:
    """A process, with the seconds that it and those of its own that have ended took."""

    def __init__(self, number):
        with open(f"/proc/{number}/stat", encoding="ascii", errors="replace") as it:
            name, rest = it.read().rsplit(")", 1)
        fields = rest.split()
        self.number, self.name, self.parent = number, name.split("(", 1)[1], int(fields[1])
        self.began, self.took = fields[19], sum(map(int, fields[11:15])) / TICKS


def processes():
    """Returns the processes that run, by their numbers."""
    found = {}
    for number in map(int, filter(str.isdigit, os.listdir("/proc"))):
        try:
            found[number] = Process(number)
        except (OSError, ValueError, IndexError):
            # (it has ended meanwhile)
            continue
    return found


def ways_up(found, number):
    """Returns the processes from one up to the first."""
    while process := found.get(number):
        yield process
        number = process.parent


def words_of(number):
    with open(f"/proc/{number}/cmdline", "rb") as it:
        return it.read().decode(errors="replace").split("\0")


def part_of(words, folder):
    """Returns what a prover of these words, in this folder, works at."""
    over = next((after for it, after in zip(words, words[1:]) if it == "--incremental"), "")
    if re.search(r"/rt-edits-[^/]*/seed$", over):
        return "second proof"
    if over or "/rt-edit-" in folder:
        return "wrong bodies"
    return "tests" if "--test" in words else "proof"


class Provers:
    """The provers that run, and the seconds that each was seen to take."""

    def __init__(self):
        self.seen = {}

    def look(self):
        found, took = processes(), {}
        for process in found.values():
            above = [*ways_up(found, process.number)]
            provers = [it for it in above if it.name == PROVER]
            if provers and any(it.number == os.getpid() for it in above):
                key = provers[-1].number, provers[-1].began
                took[key] = took.get(key, 0.0) + process.took
        for key, seconds in took.items():
            if key in self.seen or self.begin(key):
                self.seen[key][2] = max(self.seen[key][2], seconds)

    def begin(self, key):
        """Notes which crate a prover works at. Returns whether it does."""
        try:
            words, folder = words_of(key[0]), os.readlink(f"/proc/{key[0]}/cwd")
        except OSError:
            return False
        if "--crate-name" not in words:
            return False
        crate = words[words.index("--crate-name") + 1]
        self.seen[key] = [crate, part_of(words, folder), 0.0]
        return True

    def costs(self):
        """Returns the seconds of each part of each crate, in the order in which they began."""
        costs = {}
        for crate, part, took in self.seen.values():
            of_crate = costs.setdefault(crate, dict.fromkeys(PARTS, 0.0))
            of_crate[part] += took
        return costs


def run(file, command):
    provers, has_ended = Provers(), threading.Event()

    def watch():
        while not has_ended.wait(EACH):
            provers.look()

    watcher, begin = threading.Thread(target=watch), time.monotonic()
    watcher.start()
    status = subprocess.call(command)
    has_ended.set()
    watcher.join()
    used = resource.getrusage(resource.RUSAGE_CHILDREN)
    with open(file, "w", encoding="utf-8") as it:
        json.dump({"crates": provers.costs(), "all": used.ru_utime + used.ru_stime,
                   "clock": time.monotonic() - begin}, it)
    return status


def table(file, seconds):
    with open(file, encoding="utf-8") as it:
        taken = json.load(it)
    minutes = lambda seconds: f"{seconds / 60:.1f}"
    rows = [(crate, *(minutes(parts[it]) for it in PARTS), minutes(sum(parts.values())))
            for crate, parts in taken["crates"].items()]
    sums = [sum(parts[it] for parts in taken["crates"].values()) for it in PARTS]
    rows.append(("all crates", *map(minutes, sums), minutes(sum(sums))))
    rows.append(("the rest", *[""] * len(PARTS), minutes(max(seconds - sum(sums), 0))))
    rows.append(("in all", *[""] * len(PARTS), minutes(max(seconds, sum(sums)))))
    heads = ("processor minutes", *PARTS, "in all")
    print(f"|{'|'.join(heads)}|\n|---{'|--:' * (len(heads) - 1)}|")
    for row in rows:
        print(f"|{'|'.join(row)}|")
    print(f"`rt ci` took {minutes(taken['clock'])} minutes by the clock.")


def main(words):
    if words[:1] == ["run"] and len(words) > 2:
        sys.exit(run(words[1], words[2:]))
    if words[:1] == ["table"] and len(words) == 3:
        sys.exit(table(words[1], float(words[2])))
    sys.exit(__doc__)


main(sys.argv[1:])
