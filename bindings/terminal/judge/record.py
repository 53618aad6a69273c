#!/usr/bin/env python3
"""Records what real programs write to a terminal of 80 columns and 24 rows.

    record.py FOLDER    each program that is there, as keys are typed to it, to a file of its name
"""
import argparse
import fcntl
import os
import pty
import select
import shutil
import signal
import struct
import termios
import time
from concurrent.futures import ThreadPoolExecutor
from pathlib import Path

TOP = Path(__file__).resolve().parents[3]
PAUSE = 0.2  # seconds without output, after which the next key is typed
LONGEST = 15  # seconds that a program is recorded

VIM = ["\x04"] * 4 + ["\x15", "\x15", "/fn\r", "n", "dd", "3dd", "u", "p", "Oan inserted line\x1b",
       ":split\r", "\x17j", "\x04", "ggVG=", ":vsplit\r", "\x04", "zf5j", "Ikana かな\x1b", ":qa!\r"]
# By name: a command, and what is typed to it.
PROGRAMS = {
    "ls": (["ls", "-la", "--color=always", "/usr/bin"], []),
    "git": (["git", "-C", str(TOP), "log", "--graph", "--stat", "--color=always", "-30"],
            [" "] * 8 + ["b", "b", "/e\r", "n", "q"]),
    "less": (["less", str(TOP / "README.md")], [" ", " ", "b", "/the\r", "n", "N", "q"]),
    "man": (["man", "sh"], [" ", " ", "d", "b", "/option\r", "n", "q"]),
    "top": (["top", "-d", "0.2"], ["1", "M", "c", "z", "x", "h", "q", "q"]),
    "vim": (["vim", "-u", "NONE", "-c", "set nocp number hlsearch", "-c", "syntax on",
             str(Path(__file__).with_name("src") / "main.rs")], VIM),
}


def record(command, keys):
    """Returns the bytes that a command writes to its terminal."""
    process, terminal = pty.fork()
    if process == 0:
        os.environ.update(TERM="xterm-256color", LANG="C.UTF-8", LC_ALL="C.UTF-8", LESS="-R")
        os.execvp(command[0], command)
    fcntl.ioctl(terminal, termios.TIOCSWINSZ, struct.pack("HHHH", 24, 80, 0, 0))
    written, left, end = b"", list(keys), time.monotonic() + LONGEST
    while time.monotonic() < end:
        try:
            if select.select([terminal], [], [], PAUSE)[0]:
                some = os.read(terminal, 65536)
                if not some:
                    break
                written += some
            elif left:
                os.write(terminal, left.pop(0).encode())
            else:
                break
        except OSError:  # it has ended
            break
    os.kill(process, signal.SIGKILL)
    os.waitpid(process, 0)
    os.close(terminal)
    return written


def main():
    parser = argparse.ArgumentParser(description=__doc__,
                                     formatter_class=argparse.RawDescriptionHelpFormatter)
    parser.add_argument("folder", type=Path)
    folder = parser.parse_args().folder
    there = {name: it for name, it in PROGRAMS.items() if shutil.which(it[0][0])}
    with ThreadPoolExecutor(len(PROGRAMS)) as pool:
        recordings = pool.map(lambda it: record(*it), there.values())
        for name, written in zip(there, recordings):
            (folder / name).write_bytes(written)


if __name__ == "__main__":
    main()
