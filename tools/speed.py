#!/usr/bin/env python3
"""Writes what is made of docs/speed.csv: the tables of docs/SPEED.md, the picture docs/speed.svg,
and the counts of README.md, of functions and of wrong bodies too, which are rounded.

    tools/speed.py           writes them
    tools/speed.py --check   fails where one differs from the data

A row is a workload: what it does, the unit of its figures, the counts between which it is measured,
and the figures of this build, of the best peer and of termwiz, where they are known. A new workload
is a new row. The picture shows those that stand beside a peer or termwiz, and those in bytes apart.
"""
import argparse
import csv
import math
import re
import sys
from pathlib import Path

TOP = Path(__file__).resolve().parent.parent
DATA = TOP / "docs" / "speed.csv"
PAGE = TOP / "docs" / "SPEED.md"
PICTURE = TOP / "docs" / "speed.svg"
README = TOP / "README.md"
FIGURES = re.compile(r"\d+ of \d+ figures are below the best peer's, "
                     r"and \d+ of \d+ below termwiz's")
WORKLOADS = re.compile(r"below (the best peer|termwiz)'s in \d+ of \d+( workloads)?")
FUNCTIONS = re.compile(r"some [\d,]+ functions of the library, [\d,]+ of the library for C, "
                       r"and [\d,]+ of programs and tests")
BODIES = re.compile(r"Some \d+ wrong bodies")
FUNCTION = re.compile(r"^\s*(?:pub(?:\(\w+\))? )?(?:const )?(?:extern \"C\" )?fn ", re.M)
OTHERS = (("peer", "the best peer"), ("termwiz", "termwiz"))


def thousands(figure):
    return f"{int(figure):,}" if figure else ""


def ratio(row, other):
    """This build's figure by another's, where that is known."""
    return int(row["here"]) / int(row[other]) if row[other] else None


def written(number):
    return "" if number is None else f"{number:.2f}"


def peer(row):
    """The best peer's figure, with its name."""
    return thousands(row["peer"]) + (f" ({row['peer name']})" if row["peer name"] else "")


def table(head, rows):
    """A table, whose columns but the first are numbers."""
    return [f"|{'|'.join(cells)}|" for cells in (head, ["---", *["--:"] * (len(head) - 1)], *rows)]


def compared(rows):
    """The table of the rows that stand beside a peer's or termwiz's."""
    head = ["Workload", "here", "best peer", "ratio", "termwiz", "ratio"]
    return table(head, [(f"`{row['workload']}`: {row['what']}", thousands(row["here"]), peer(row),
                         written(ratio(row, "peer")), thousands(row["termwiz"]),
                         written(ratio(row, "termwiz"))) for row in rows])


def alone(rows):
    """The other workloads, and how those with a size grow."""
    cells = []
    for row in rows:
        known = row["peer"] or row["termwiz"]
        cells.append((f"`{row['workload']}`" + ("" if known else f": {row['what']}"),
                      thousands(row["here"]), growth(row) if row["size"] else ""))
    return table(["Workload", "here", "at four times the size"], cells)


def peers(rows):
    """The peers that are best somewhere, with their versions."""
    names = {row["peer name"]: row["peer version"] for row in rows if row["peer name"]}
    return [", ".join(f"{name} {names[name]}" for name in sorted(names)) + "."]


def growth(row):
    """How many times as much a workload takes at four times its size."""
    factor = int(row["at four times"]) / int(row["at size"])
    return f"{factor:.1f}, from {row['size']}"


def spent(rows):
    """Where the rows above the best peer spend their instructions."""
    lines = []
    for row in rows:
        if row["functions"] and (ratio(row, "peer") or 0) > 1:
            shares = (share.split(" ", 1) for share in row["functions"].split("; "))
            words = ", ".join(f"{share} % in `{short(name)}`" for share, name in shares)
            lines.append(f"- `{row['workload']}`: {words}.")
    return lines


def short(name):
    """A function's name, without its modules."""
    return "::".join(name.split("::")[-2:])


def page(rows, text):
    """The page with each block between its marks made anew."""
    beside = [row for row in rows if row["peer"] or row["termwiz"]]
    others = [row for row in rows if row["here"] and (row not in beside or row["size"])]
    for name, lines in (("peers", peers(rows)), ("compared", compared(beside)),
                        ("spent", spent(beside)), ("alone", alone(others))):
        block = "\n".join([f"<!-- {name}, by speed.py -->", "", *lines, "", "<!-- end -->"])
        text, count = re.subn(rf"<!-- {name}, .*?<!-- end -->", lambda _: block, text, flags=re.S)
        if count != 1:
            sys.exit(f"docs/SPEED.md has {count} blocks for {name}")
    return text


def below(rows, other):
    """In how many rows this build's figure is below another's, and of how many."""
    ratios = [ratio(row, other) for row in rows if row[other]]
    return f"{sum(r < 1 for r in ratios)} of {len(ratios)}"


def functions(own):
    """How many functions the crates have whose names fit; a crate's tests go by `tests`."""
    return sum(len(FUNCTION.findall(path.read_text())) for path in TOP.glob("crates/*/src/**/*.rt")
               if own("tests" if path.stem == "tests" else path.relative_to(TOP).parts[1]))


def proved(text):
    """The README with its counts of functions and of wrong bodies made anew."""
    def in_library(name):
        return name.startswith("termwiz_") or name == "cbor"

    def is_for_c(name):
        return name == "tikeburo_c"

    library, for_c = round(functions(in_library), -2), round(functions(is_for_c), -1)
    rest = round(functions(lambda name: not in_library(name) and not is_for_c(name)), -2)
    counts = (f"some {library:,} functions of the library, {for_c} of the library for C, "
              f"and {rest:,} of programs and tests")
    bodies = len(list(TOP.glob("crates/*/must-fail/*.edit"))) // 10 * 10
    return BODIES.sub(f"Some {bodies} wrong bodies", FUNCTIONS.sub(counts, text))


def readme(rows, text):
    """The README with its counts made anew: of all figures, or of workloads, which are counted in
    instructions."""
    text = proved(text)
    figures = (f"{below(rows, 'peer')} figures are below the best peer's, "
               f"and {below(rows, 'termwiz')} below termwiz's")
    work = [row for row in rows if row["unit"] == "instructions"]
    text = FIGURES.sub(figures, text)
    return WORKLOADS.sub(lambda match: f"below {match.group(1)}'s in " + below(
        work, "termwiz" if match.group(1) == "termwiz" else "peer") + (match.group(2) or ""), text)


STYLE = """.ground { fill: #ffffff }
text { font: 13px sans-serif; fill: #24292f }
.title { font-weight: bold }
.faint { fill: #57606a }
.tick { font-size: 11px }
.value { font-size: 12px; paint-order: stroke; stroke: #ffffff; stroke-width: 3px }
line { stroke: #d0d7de }
.one { stroke: #24292f; stroke-width: 2 }
.peer { fill: #0969da }
.termwiz { fill: #bf8700 }
@media (prefers-color-scheme: dark) {
  .ground { fill: #0d1117 }
  text { fill: #e6edf3 }
  .faint { fill: #9198a1 }
  .value { stroke: #0d1117 }
  line { stroke: #3d444d }
  .one { stroke: #e6edf3 }
  .peer { fill: #4493f8 }
  .termwiz { fill: #d29922 }
}"""
WIDTH, LEFT, RIGHT, BAR = 420, 116, 44, 13


class Chart:
    """Bars of ratios on a logarithmic axis, from the line where both are equal, to a tick past the
    greatest."""

    def __init__(self, rows):
        ratios = [ratio(row, name) for row in rows for name, _ in OTHERS if row[name]]
        ticks = [step * 10 ** power for power in range(-3, 4) for step in (1, 2, 5)]
        self.high = max(1, next(tick for tick in ticks if tick >= max(ratios)))
        self.low = min(0.5, min(ratios) * 0.95)
        self.ticks = [tick for tick in ticks if self.low <= tick <= self.high]
        self.out, self.y = [], 0

    def place(self, number):
        part = math.log(number / self.low) / math.log(self.high / self.low)
        return LEFT + part * (WIDTH - LEFT - RIGHT)

    def text(self, x, words, name="", anchor="start"):
        self.out.append(f'<text class="{name}" x="{x:.1f}" y="{self.y}" text-anchor="{anchor}">'
                        f"{words}</text>")

    def head(self, words):
        """A title, and what the bars are."""
        self.y += 20
        self.text(8, words, "title")
        self.y += 20
        x = 8
        for name, whose in OTHERS:
            self.out.append(f'<rect class="{name}" x="{x}" y="{self.y - 10}" width="10" '
                            f'height="10"/>')
            self.text(x + 15, f"{whose}'s", "faint")
            x += 130
        self.text(WIDTH - 8, "left of 1: fewer here", "faint", "end")

    def group(self, rows):
        """A bar for each known ratio of each row, over an axis."""
        self.y += 22
        first = self.y + 6
        heights = [BAR * sum(bool(row[name]) for name, _ in OTHERS) + 9 for row in rows]
        last = first + sum(heights)
        for tick in self.ticks:
            x = f"{self.place(tick):.1f}"
            self.text(self.place(tick), f"{tick:g}", "faint tick", "middle")
            self.out.append(f'<line class="{"one" if tick == 1 else "other"}" x1="{x}" '
                            f'y1="{first}" x2="{x}" y2="{last}"/>')
        self.y = first
        for row, height in zip(rows, heights):
            self.bars(row, height)

    def bars(self, row, height):
        top, one = self.y + 5, self.place(1)
        self.y += height // 2 + 5
        self.text(LEFT - 8, row["workload"], anchor="end")
        self.y += height - height // 2 - 5
        for name, _ in OTHERS:
            if row[name]:
                number = ratio(row, name)
                first, last = sorted((one, self.place(number)))
                self.out.append(f'<rect class="{name}" x="{first:.1f}" y="{top}" '
                                f'width="{last - first:.1f}" height="{BAR - 1}"/>')
                self.out.append(f'<text class="faint value" x="{last + 4:.1f}" y="{top + 10}">'
                                f"{number:.2f}</text>")
                top += BAR


def picture(rows):
    """The ratios as bars: of instructions, and then of bytes."""
    rows = [row for row in rows if row["peer"] or row["termwiz"]]
    chart = Chart(rows)
    for unit, words in ((True, "Instructions here, for each of the best peer's"),
                        (False, "Bytes here, for each of the best peer's")):
        own = [row for row in rows if (row["unit"] == "instructions") == unit]
        if own:
            chart.head(words)
            chart.group(own)
    height = chart.y + 10
    return "\n".join([
        f'<svg xmlns="http://www.w3.org/2000/svg" role="img" viewBox="0 0 {WIDTH} {height}" '
        f'width="{WIDTH}" height="{height}">',
        "<title>Instructions and bytes here, for each of the best peer's and of termwiz's</title>",
        f"<style>\n{STYLE}\n</style>",
        f'<rect class="ground" width="{WIDTH}" height="{height}" rx="6"/>', *chart.out, "</svg>",
        ""])


def main():
    parser = argparse.ArgumentParser(description=__doc__,
                                     formatter_class=argparse.RawDescriptionHelpFormatter)
    parser.add_argument("--check", action="store_true", help="compare, and write nothing")
    check = parser.parse_args().check
    with DATA.open(newline="") as file:
        rows = list(csv.DictReader(file))
    made = {PAGE: page(rows, PAGE.read_text()), README: readme(rows, README.read_text()),
            PICTURE: picture(rows)}
    for path, text in made.items():
        if not check:
            path.write_text(text)
        elif not path.exists() or path.read_text() != text:
            sys.exit(f"{path.relative_to(TOP)} differs from docs/speed.csv: run tools/speed.py")


main()
