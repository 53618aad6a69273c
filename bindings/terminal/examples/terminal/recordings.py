#!/usr/bin/env python3
"""Writes what programs write to a terminal of 80 columns and 24 rows, the same in each run. None of
these programs is run: the sessions have the shape of theirs.

    recordings.py listing COUNT     ls -l --color, of this many files
    recordings.py history COUNT     git log --color, of this many commits
    recordings.py editor COUNT      a file in vim, and this many commands
    recordings.py monitor COUNT     top, refreshed this many times

With --screen it writes what the terminal shows in the end: the rows, without the blanks at their
ends.
"""
import argparse
import sys

WIDTH, HEIGHT = 80, 24
WORDS = ("cell row pen screen surface log delta repaint viewer client source answer change text "
         "line grapheme column colour cursor title scroll").split()


def pick(items, *seeds):
    """One of the items, by numbers."""
    mixed = 0
    for seed in seeds:
        mixed = (mixed * 31 + seed + 7) * 0x9E3779B1 & 0xFFFFFFFF
        mixed ^= mixed >> 15
    return items[mixed % len(items)]


def words(count, *seeds):
    return " ".join(pick(WORDS, at, *seeds) for at in range(count))


# A line is a list of texts, and of pairs of the numbers of an SGR and a text.
def plain(line):
    return "".join(part if isinstance(part, str) else part[1] for part in line)


def colored(line):
    return "".join(part if isinstance(part, str) else f"\x1b[{part[0]}m{part[1]}\x1b[m"
                   for part in line)


class Lines:
    """A program that writes line by line. A line that is too long goes on in the next row."""

    def __init__(self):
        self.out, self.rows = [], []

    def write(self, *line):
        self.out.append(colored(line) + "\r\n")
        text = plain(line)
        self.rows += [text[at:at + WIDTH] for at in range(0, max(1, len(text)), WIDTH)]

    def screen(self):
        return self.rows[1 - HEIGHT:]


def file(number):
    """A line of `ls -l --color`."""
    kind = pick("xxxxxxlllld-", number)
    mode, color = {"x": ("-rwxr-xr-x", "01;32"), "l": ("lrwxrwxrwx", "01;36"),
                   "d": ("drwxr-xr-x", "01;34"), "-": ("-rw-r--r--", "0")}[kind]
    size = pick(range(9_000_000), number, 1)
    day = f"{pick(('Jan', 'Mar', 'Sep'), number, 2)} {number % 28 + 1:>2}  {number % 7 + 2017}"
    name = words(pick((1, 1, 2, 3), number, 3), number).replace(" ", "-")
    line = [f"{mode} {pick((1, 1, 2), number, 4):>2} root root {size:>9} {day} ", (color, name)]
    if kind == "l":
        target = f"../lib/{words(1, number, 5)}/{words(1, number, 6)}"
        line += [" -> ", ("01;32", target) if number % 2 else target]
    return line


def listing(count):
    lines = Lines()
    for number in range(count):
        lines.write(*file(number))
    return lines


def history(count):
    lines = Lines()
    for number in range(count):
        digits = "".join(f"{pick(range(256), number, at):02x}" for at in range(20))
        tag = [("33", " ("), ("1;33", f"tag: v{number}"), ("33", ")")]
        lines.write(("33", f"commit {digits}"), *(tag if number % 10 == 0 else []))
        name = pick(("Ann Example", "Bo Li", "Carol Baker-Smith", "José Núñez"), number)
        lines.write(f"Author: {name} <{words(1, number)}@example.org>")
        lines.write(f"Date:   Fri Nov {number % 28 + 1} 1{number % 10}:0{number % 9}:27 2026 +0000")
        lines.write()
        lines.write(f"    {words(pick((4, 6, 8), number), number, 1).capitalize()}")
        for at in range(pick((0, 0, 2, 3, 5), number, 2)):
            lines.write(f"    {words(11 if at else 0, number, at)}")
        lines.write()
    return lines


def statement(number):
    """A line of a program."""
    name, other = pick(WORDS, number, 1), pick(WORDS, number, 2)
    key, type_, comment, value = "38;5;130", "32", "35", "31"
    return ["    " * pick((0, 1, 1, 2), number), *pick((
        [(comment, f"/// {words(7, number).capitalize()}.")],
        [(key, "let"), f" {name} = ", (comment, "self"), f".{other}(", (value, f"{number}"), ");"],
        [(key, "pub"), " ", (key, "fn"), f" {name}(&", (comment, "self"), f", {other}: ",
         (type_, "usize"), ") ", (key, "->"), " ", (type_, "Result"), (key, "<()>"), " {"],
        [f"{name}.{other}(&", (value, '"a text"'), ")?;"],
        ["}"],
        [],
    ), number, 3)]


class Editor:
    """A file in all rows but the last, which has a message and the place of the cursor."""

    ROWS = HEIGHT - 1

    def __init__(self):
        self.out = ["\x1b[?1049h\x1b[22;0;0t\x1b[?1h\x1b=\x1b[?2004h\x1b[1;24r\x1b[m\x1b[H\x1b[2J"]
        self.lines = [statement(number) for number in range(1000)]
        self.top = self.at = 0
        self.draw(is_clear=True)
        self.end()

    def draw_row(self, row, is_clear):
        line = self.lines[self.top + row]
        self.out.append(f"\x1b[{row + 1};1H{colored(line)}")
        if not is_clear:
            self.out.append(f"\x1b[{row + 1};{len(plain(line)) + 1}H\x1b[K")

    def draw(self, is_clear):
        for row in range(self.ROWS):
            self.draw_row(row, is_clear)

    def end(self):
        """Writes the place, and shows the cursor."""
        self.place = f"{self.top + self.at + 1},1".ljust(14) + f"{self.top // 10:>2}%"
        self.out.append(f"\x1b[24;63H\x1b[K\x1b[24;63H{self.place}\x1b[{self.at + 1};1H\x1b[?25h")

    def shift(self, row, code, drawn):
        """Scrolls the rows from this one on, and draws one."""
        self.out.append(f"\x1b[{row + 1};23r{code}\x1b[1;24r")
        self.draw_row(drawn, True)

    def run(self, number):
        self.out.append("\x1b[?25l")
        command, row = pick("jjjkddddduuPoxi", number), self.at
        here = self.top + row
        if command == "j":
            self.at = min(row + 1, self.ROWS - 1)
        elif command == "k":
            self.at = max(row - 1, 0)
        elif command == "d":
            self.top += 1
            self.shift(0, "\x1b[23;1H\r\n", self.ROWS - 1)
        elif command == "u" and self.top > 0:
            self.top -= 1
            self.shift(0, "\x1b[1;1H\x1b[L", 0)
        elif command == "P":
            self.top = 200 if self.top > 800 else self.top + self.ROWS - 2
            self.draw(False)
        elif command == "o":
            self.lines.insert(here, statement(number))
            self.shift(row, f"\x1b[{row + 1};1H\x1b[L", row)
        elif command == "x":
            del self.lines[here]
            self.lines.append([])
            self.shift(row, f"\x1b[{row + 1};1H\x1b[M", self.ROWS - 1)
        elif command == "i":
            for end in range(1, len(words(4, number)) + 1):
                self.lines[here] = [words(4, number)[:end]]
                self.draw_row(row, False)
        self.end()

    def screen(self):
        rows = [plain(line) for line in self.lines[self.top:self.top + self.ROWS]]
        return [*rows, f"{'':62}{self.place}"]


def editor(count):
    window = Editor()
    for number in range(count):
        window.run(number)
    return window


OFF, END, BOLD = "\x1b(B\x1b[m", "\x1b(B\x1b[m\x1b[39;49m", "\x1b[1m"


class Monitor:
    """Frames over one another. Values are bold, and the rows of busy processes."""

    def __init__(self):
        self.out, self.rows = ["\x1b[?1h\x1b=\x1b[?25l\x1b[H\x1b[2J"], []

    def values(self, label, *pairs):
        parts = [f"{END}{BOLD}{value} {END}{unit}" for value, unit in pairs]
        self.out.append(f"{label}{''.join(parts)}{END}{END}\x1b[K\r\n")
        self.rows.append(label + "".join(f"{value} {unit}" for value, unit in pairs))

    def process(self, frame, number):
        load = pick((0, 0, 0, pick(range(300), frame, number)), frame, number, 1) / 10
        row = (f"{number * 977 + 13:>5} root      20   0 {pick(range(4_000_000), number):>7} "
               f"{pick(range(300_000), frame // 2, number):>6}  16380 {'R' if load else 'S'} "
               f"{load:>5} {load / 8:>5.1f} {frame % 60:>5}:{number:02}.{frame % 100:02} "
               f"{words(1, number):<8}")
        self.out.append(f"{OFF}{BOLD if load else ''}{row}{END}\x1b[K")
        self.rows.append(row)

    def refresh(self, frame):
        self.rows = []
        self.out.append("\x1b[H")
        self.values(f"top - 10:{frame // 60 % 60:02}:{frame % 60:02} up 3 days, load average: 0.52")
        counts = [pick(range(200), frame, at) for at in range(4)]
        names = ("total,", "running,", "sleeping,", "stopped")
        self.values("Tasks:", *((f"{count:>4}", name) for count, name in zip(counts, names)))
        shares = [pick(range(999), frame, at) / 10 for at in range(8)]
        names = ("us,", "sy,", "ni,", "id,", "wa,", "hi,", "si,", "st")
        self.values("%Cpu(s):", *((f"{share:>5}", name) for share, name in zip(shares, names)))
        for label, names in (("MiB Mem :", ("total,", "free,", "used,", "buff/cache")),
                             ("MiB Swap:", ("total,", "free,", "used.", "avail Mem"))):
            sizes = [pick(range(240_000), frame, len(name)) / 10 for name in names]
            self.values(label, *((f"{size:>9}", name) for size, name in zip(sizes, names)))
        heading = "  PID USER      PR  NI    VIRT    RES    SHR S  %CPU  %MEM     TIME+ COMMAND    "
        self.out.append(f"\x1b[K\r\n\x1b[7m{heading}{END}")
        self.rows += ["", heading]
        for number in range(HEIGHT - 7):
            self.out.append("\r\n")
            self.process(frame, number)
        self.out.append("\x1b[6;1H")

    def screen(self):
        return self.rows


def monitor(count):
    frames = Monitor()
    for frame in range(count):
        frames.refresh(frame)
    return frames


def main():
    programs = {"listing": listing, "history": history, "editor": editor, "monitor": monitor}
    parser = argparse.ArgumentParser(description=__doc__.split("\n\n")[0])
    parser.add_argument("program", choices=programs)
    parser.add_argument("count", type=int)
    parser.add_argument("--screen", action="store_true", help="writes what is shown in the end")
    call = parser.parse_args()
    session = programs[call.program](call.count)
    if call.screen:
        rows = session.screen()
        rows += [""] * (HEIGHT - len(rows))
        print(*(row.rstrip() for row in rows), sep="\n")
    else:
        sys.stdout.buffer.write("".join(session.out).encode())


if __name__ == "__main__":
    main()
