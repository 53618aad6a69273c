#!/usr/bin/env python3
"""Measures what docs/speed.csv has of `crates/bench/out/bench`, and writes it there.

    tools/measure.py [WORKLOAD..]     all workloads, or these; JOBS=2 runs two at a time

It builds nothing: `cd crates/bench && rt run -- plain 10` does. Each workload runs under callgrind
at the two counts of its row, and the difference over their distance is what one operation takes. A
row above the best peer's gets the functions that take most of it, each with its per cent. A row
whose unit is `heap` runs under massif at its lower count, and the peak counts. A row whose unit is
`bytes` is a reckoning, and stays as it is.
"""
import argparse
import csv
import os
import re
import subprocess
import sys
import tempfile
from concurrent.futures import ThreadPoolExecutor
from pathlib import Path

TOP = Path(__file__).resolve().parent.parent
DATA = TOP / "docs" / "speed.csv"
BENCH = TOP / "crates" / "bench" / "out" / "bench"


def valgrind(tool, words):
    """What a tool writes of a run of the bench, as lines."""
    with tempfile.NamedTemporaryFile("r") as out:
        command = ["valgrind", f"--tool={tool}", f"--{tool}-out-file={out.name}"]
        if tool == "massif":
            command.append("--peak-inaccuracy=0")
        run = subprocess.run(command + [str(BENCH), *words], capture_output=True, text=True)
        if run.returncode:
            sys.exit(f"bench {' '.join(words)}: {run.stderr}")
        return Path(out.name).read_text().split("\n")


def costs(words):
    """The instructions of a run by function, those of its calls left out."""
    names, own, function, called = {}, {}, None, False
    for line in valgrind("callgrind", words):
        match = re.match(r"c?fn=\((\d+)\)(?: (.*))?", line)
        if match:
            if match.group(2):  # named here for the first time
                names[match.group(1)] = re.sub(r"::<#\w+>", "", match.group(2))
            if line[0] == "f":
                function = names[match.group(1)]
        elif line.startswith("calls="):
            called = True
        elif re.match(r"[+\-*\d]", line):
            if not called:
                own[function] = own.get(function, 0) + int(line.split()[1])
            called = False
    return own


def operation(workload, low, high, size=""):
    """What one operation takes, and the functions that take most of it, each with its per cent."""
    words = [size] if size else []
    few, many = (costs([workload, str(count)] + words) for count in (low, high))
    own = {name: (many[name] - few.get(name, 0)) / (high - low) for name in many}
    whole = sum(own.values())
    most = sorted(own.items(), key=lambda pair: -pair[1])[:3]
    return round(whole), "; ".join(f"{100 * cost / whole:.0f} {name}" for name, cost in most)


def peak(workload, count):
    """The most bytes of heap that are in use at once."""
    lines = valgrind("massif", [workload, str(count)])
    return max(int(line.split("=")[1]) for line in lines if line.startswith("mem_heap_B="))


def measure(row):
    """Fills in the measured columns of a row."""
    workload, low = row["workload"], int(row["low"] or 0)
    if row["unit"] == "heap":
        row["here"] = peak(workload, low)
    elif row["unit"] == "instructions":
        row["here"], functions = operation(workload, low, int(row["high"]))
        above = row["peer"] and row["here"] > int(row["peer"])
        row["functions"] = functions if above else ""
        if row["size"]:
            for column, factor in (("at size", 1), ("at four times", 4)):
                size = str(int(row["size"].split()[0]) * factor)
                row[column], _ = operation(workload, 1000, 3000, size)
    print(workload, row["here"], file=sys.stderr, flush=True)


def main():
    parser = argparse.ArgumentParser(description=__doc__,
                                     formatter_class=argparse.RawDescriptionHelpFormatter)
    parser.add_argument("workload", nargs="*", help="of docs/speed.csv; all, if there is none")
    named = parser.parse_args().workload
    if not BENCH.exists():
        sys.exit("crates/bench/out/bench isn't built: cd crates/bench && rt run -- plain 10")
    with DATA.open(newline="") as file:
        reader = csv.DictReader(file)
        rows, columns = list(reader), reader.fieldnames
    for name in set(named) - {row["workload"] for row in rows}:
        sys.exit(f"docs/speed.csv has no workload {name}")
    wanted = [row for row in rows if not named or row["workload"] in named]
    with ThreadPoolExecutor(int(os.environ.get("JOBS", 1))) as jobs:
        list(jobs.map(measure, wanted))
    with DATA.open("w", newline="") as file:
        writer = csv.DictWriter(file, columns, lineterminator="\n")
        writer.writeheader()
        writer.writerows(rows)


main()
