#!/usr/bin/env python3
"""Lets `rt lib` take the libraries that `rt ci` has just built in this checkout.

    tools/built.py FILE     those that were put there after this file was written

`rt ci` leaves each library in crates/NAME/out/rlib, but not the file `stamp` beside it, by which
`rt lib` knows of what it was built, so that it would prove all of them again. This writes the
stamps. Where the toolchain computes them otherwise, it leaves them out, and all is proved again.
"""
import argparse
import os
import shutil
import sys
from pathlib import Path

TOP = Path(__file__).resolve().parent.parent


def mark(crate, since):
    """Writes the stamp of a crate's library, if that is newer. Returns whether it did."""
    folder = TOP / "crates" / crate.name / "out" / "rlib"
    library = folder / f"{crate.name}.rlib"
    if not library.exists() or folder.stat().st_mtime < since:
        return False
    (folder / "stamp").write_text(crate.stamp())
    return True


def main():
    parser = argparse.ArgumentParser(description=__doc__,
                                     formatter_class=argparse.RawDescriptionHelpFormatter)
    parser.add_argument("file", type=Path)
    since = parser.parse_args().file.stat().st_mtime
    sys.path.insert(0, os.path.dirname(os.path.realpath(shutil.which("rt"))))
    try:
        import rtlib
        marked = [crate.name for crate in rtlib.crates_below(str(TOP)) if mark(crate, since)]
    except (Exception, SystemExit) as error:
        print(f"built.py: this toolchain's stamps aren't known ({error})")
        return
    print(f"built.py: {len(marked)} libraries are taken as rt ci built them")


main()
