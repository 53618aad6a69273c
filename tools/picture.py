#!/usr/bin/env python3
"""Draws docs/picture.svg, the picture of README.md: a surface, the answers that it gives, and two
viewers, of which one has taken them all and one lacks the last.

    tools/picture.py           draws it
    tools/picture.py --check   fails where the file differs
"""
import argparse
from pathlib import Path

from sources import TOP, write

PICTURE = TOP / "docs" / "picture.svg"
WIDTH, HEIGHT = 420, 250
STYLE = """.ground { fill: #ffffff }
text { font: 13px sans-serif; fill: #24292f }
.title { font-weight: bold }
.faint { font-size: 12px; fill: #57606a }
.mono { font: 13px monospace; fill: #e6edf3; white-space: pre }
.screen { fill: #1f2328; stroke: #57606a }
.cursor { fill: #e6edf3 }
.answer { fill: #ddf4ff; stroke: #0969da }
.line { stroke: #0969da; stroke-width: 2; fill: none }
.head { fill: #0969da }
@media (prefers-color-scheme: dark) {
  .ground { fill: #0d1117 }
  text { fill: #e6edf3 }
  .faint { fill: #9198a1 }
  .screen { fill: #010409; stroke: #656c76 }
  .answer { fill: #0c2d6b; stroke: #4493f8 }
  .line { stroke: #4493f8 }
  .head { fill: #4493f8 }
}"""
LETTER, ROW = 8, 18
SCREEN_WIDTH, SCREEN_HEIGHT = 12 * LETTER + 12, 2 * ROW + 10
ANSWER_WIDTH, ANSWER_HEIGHT = 104, 24
BEFORE, AFTER = ("make test", "####    40 %"), ("make test", "####### 70 %")
ANSWERS = ((32, "repaint"), (92, "two changes"), (192, "one more"))


class Drawing:
    """The parts of the picture, in the order in which they are drawn."""

    def __init__(self):
        self.out = []

    def text(self, x, y, words, name="", anchor="start"):
        self.out.append(f'<text class="{name}" x="{x}" y="{y}" text-anchor="{anchor}">'
                        f"{words}</text>")

    def screen(self, x, y, title, rows):
        """A screen of two rows, with its title above and a cursor behind the last one."""
        self.text(x, y - 8, title, "title")
        self.out.append(f'<rect class="screen" x="{x}" y="{y}" width="{SCREEN_WIDTH}" '
                        f'height="{SCREEN_HEIGHT}" rx="4"/>')
        for number, row in enumerate(rows):
            self.out.append(f'<text class="mono" x="{x + 6}" y="{y + 17 + ROW * number}" '
                            f'textLength="{LETTER * len(row)}" xml:space="preserve">{row}</text>')

    def answer(self, x, y, words):
        self.out.append(f'<rect class="answer" x="{x}" y="{y}" width="{ANSWER_WIDTH}" '
                        f'height="{ANSWER_HEIGHT}" rx="12"/>')
        self.text(x + ANSWER_WIDTH // 2, y + 17, words, "", "middle")

    def line(self, x, y, end_x, end_y):
        self.out.append(f'<path class="line" d="M{x} {y} L{end_x} {end_y}"/>')

    def arrow(self, x, y, end_x):
        """A line with a head, from left to right."""
        self.line(x, y, end_x - 6, y)
        self.out.append(f'<path class="head" d="M{end_x} {y} l-9 -5 v10 z"/>')


def picture():
    drawing = Drawing()
    left, middle, right = 8, 160, 304
    center = middle + ANSWER_WIDTH // 2
    drawing.text(left, 24, "texts, pens, moves,", "faint")
    drawing.text(left, 40, "clears, scrolls", "faint")
    drawing.line(62, 48, 62, 68)
    drawing.out.append('<path class="head" d="M62 76 l-5 -9 h10 z"/>')
    drawing.screen(left, 104, "surface", AFTER)
    drawing.text(center, 20, "its answers", "title", "middle")
    drawing.text(center, 238, "values, or bytes", "faint", "middle")
    drawing.line(center, ANSWERS[0][0], center, ANSWERS[-1][0])
    for y, words in ANSWERS:
        drawing.answer(middle, y, words)
    drawing.arrow(left + SCREEN_WIDTH, 140, center - 2)
    for y, title, rows, words in ((81, "a viewer, late", BEFORE, "the screen of then"),
                                  (181, "another viewer", AFTER, "the same screen")):
        drawing.screen(right, y, title, rows)
        drawing.text(right, y + 62, words, "faint")
        drawing.arrow(middle + ANSWER_WIDTH, y + 23, right - 2)
    return "\n".join([
        f'<svg xmlns="http://www.w3.org/2000/svg" role="img" viewBox="0 0 {WIDTH} {HEIGHT}" '
        f'width="{WIDTH}" height="{HEIGHT}">',
        "<title>A surface gives a repaint and two lists of changes. A viewer that has taken all of "
        "them shows the same screen, and one that lacks the last that of then.</title>",
        f"<style>\n{STYLE}\n</style>",
        f'<rect class="ground" width="{WIDTH}" height="{HEIGHT}" rx="6"/>', *drawing.out,
        "</svg>", ""])


def main():
    parser = argparse.ArgumentParser(description=__doc__,
                                     formatter_class=argparse.RawDescriptionHelpFormatter)
    parser.add_argument("--check", action="store_true", help="compare, and write nothing")
    check = parser.parse_args().check
    write(PICTURE, picture(), check, Path(__file__).name)


main()
