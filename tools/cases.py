#!/usr/bin/env python3
"""Writes what the program `cases` reads, and what it has to print: every case of `damages.py`, and the files of `run_files.py`
but for some of the longest, each behind a line with its length and its name.

    tools/cases.py [FOLDER]          writes FOLDER/stdin and FOLDER/stdout; the folder of the crate without one
"""
import os
import sys
from damages import outcomes
from run_files import files
from runsheet import LONGEST, printed

# Of the longest texts one that just may be so long, and one that may not.
LONG = {"longest text", "text too long"}


def cases():
    for name, text, lines in outcomes():
        yield name, text, lines
    for name, text in files():
        if len(text) < LONGEST or name in LONG:
            yield name, text.encode(), printed(text.encode())


def main(folder=os.path.join(os.path.dirname(__file__), "..", "crates", "cases")):
    with open(os.path.join(folder, "stdin"), "wb") as given, open(os.path.join(folder, "stdout"), "w") as told:
        for name, text, lines in cases():
            given.write(f"{len(text)} {name}\n".encode() + text + b"\n")
            told.write(f"{name}: " + "".join(line + "\n" for line in lines or ["nothing"]))


if __name__ == "__main__":
    main(*sys.argv[1:])
