#!/usr/bin/env python3
"""Plays rows by the program of crates/worked_rows, and prints their transcript. If no program of that crate is newer
than its sources, an unproved one is made first, in some minutes, and kept until a source changes: nothing has to be
built.

A row is a call, `$ syndex WORDS` or `$ syndex_lab WORDS`, after the lines that it needs. The lines that there are
stand in crates/worked_rows/src/script.rt. A file that the rows do not write is taken from crates/worked_rows/data,
which has the folders of the examples. With crates/worked_rows/stdin as FILE the transcript has to be
crates/worked_rows/stdout."""
import argparse
import subprocess
import sys

import quick
from command_line import parser, run
from repository import TOP

NAME = "worked_rows"
FOLDER = f"{TOP}/crates/{NAME}"


def program():
    """The path of a program that is newer than its sources: a proved one, or an unproved one, which is made if there is
    none. None if it cannot be made."""
    made = [f"{FOLDER}/out/{NAME}", quick.unproved(NAME)]
    if not any(quick.is_made(NAME, it) for it in made):
        # What the script says of its work is no part of the transcript.
        subprocess.run([sys.executable, quick.__file__, NAME], stdout=sys.stderr, check=False)
    return next((it for it in made if quick.is_made(NAME, it)), None)


def options():
    words = parser(__doc__)
    words.add_argument("rows", type=argparse.FileType("rb"), metavar="FILE", help="the rows; - for the standard input")
    return words.parse_args()


def main():
    given = options()
    found = program()
    if not found:
        return 1
    status = subprocess.run([found], stdin=given.rows, cwd=f"{FOLDER}/data", check=False).returncode
    return status if status >= 0 else 128 - status


if __name__ == "__main__":
    run(main)
