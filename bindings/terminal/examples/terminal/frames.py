#!/usr/bin/env python3
"""Writes what a program with a full screen writes to a terminal of 80 columns and 24 rows: frames
in which a log scrolls between a heading and a status line. The same for each run.

    frames.py COUNT
"""
import argparse
import sys

WORDS = "cell row pen screen surface log delta repaint viewer client か 漢字 é ☂️ 👩‍🚀".split()


def color(number):
    return f"\x1b[{31 + number % 6}m" if number % 3 else f"\x1b[38;2;{number % 256};128;64m"


def line(number):
    """A line of the log, with words in colours."""
    words = (WORDS[(number * 7 + at * at) % len(WORDS)] for at in range(4 + number % 5))
    text = " ".join(f"{color(number + at)}{word}\x1b[m" for at, word in enumerate(words))
    return f"\x1b[2m{number:>6}\x1b[22m {text}\x1b[K"


def frame(number):
    parts = [f"\x1b]2;frame {number}\x07\x1b[?25l\x1b[1;1H\x1b[7m frames \x1b[27m {number}\x1b[K"]
    parts.append("\x1b[2;23r\x1b[23;1H")  # the log scrolls in these rows
    parts += [f"\r\n{line(number * 5 + at)}" for at in range(5)]
    parts.append("\x1b[r")
    done = number % 61
    parts.append(f"\x1b[24;1H\x1b[44m[{'#' * done}\x1b[{61 - done}X\x1b[24;63H]\x1b[m {number:>8}")
    if number % 16 == 0:
        parts.append("\x1b[5;10H\x1b[3P\x1b[2@\x1b[2L\x1b[M")
    return "".join(parts) + "\x1b[?25h"


def main():
    parser = argparse.ArgumentParser(description=__doc__.split("\n\n")[0])
    parser.add_argument("count", type=int, help="how many frames")
    out = sys.stdout.buffer
    for number in range(parser.parse_args().count):
        out.write(frame(number).encode())


if __name__ == "__main__":
    main()
