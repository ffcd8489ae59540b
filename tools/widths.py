#!/usr/bin/env python3
"""Lines of contracts that are too wide to be read: over 120 columns, in a file of definitions, or in a
clause of the code (`requires`, `ensures`, and the lines on which they go on). Prints a line for each, and
ends with status 1 if there is one."""
import collections
import os
import re

from command_line import parser, print_lines, run
from lexer import blanked
from repository import Listing, files, text_of

WIDEST = 120
CLAUSE = re.compile(r"\b(?:requires|ensures)(?:\s*\*)?(?:\s+\w+)?\s*\{")


def end_of_clause(code, at):
    """Where the braces that open just before this place close."""
    depth = 1
    while at < len(code) and depth:
        depth += {"{": 1, "}": -1}.get(code[at], 0)
        at += 1
    return at


def clause_lines(text):
    """The numbers of the lines on which clauses stand."""
    code, lines = blanked(text), set()
    for found in CLAUSE.finditer(code):
        first = code.count("\n", 0, found.start())
        last = code.count("\n", 0, end_of_clause(code, found.end()))
        lines |= set(range(first, last + 1))
    return lines


def wide_lines(path):
    """The numbers and widths of the lines of a file that are too wide."""
    text = text_of(path)
    # Columns are characters: a symbol of the logic has several bytes.
    wide = {at: len(line) for at, line in enumerate(text.split("\n")) if len(line) > WIDEST}
    if wide and path.endswith(".rt"):
        wide = {at: wide[at] for at in clause_lines(text) & set(wide)}
    return sorted((at + 1, width) for at, width in wide.items())


def found():
    """The crate, the file, the line and the width of each line that is too wide."""
    listing = Listing()
    for name in listing.rows:
        folder = f"{listing.top}/crates/{name}"
        for path in [*files(folder, ["specs"], (".antt",)), *files(folder, ["src"], (".rt",))]:
            for line, width in wide_lines(path):
                yield name, os.path.relpath(path, listing.top), line, width


def faults():
    for _, path, line, width in found():
        yield f"{path}:{line}: {width} columns, where {WIDEST} may be"


def show_counts():
    """Prints how many such lines each crate has."""
    counts = collections.Counter((name, path.split("/")[2]) for name, path, _, _ in found())
    for name in sorted({name for name, _ in counts}):
        print(f"{name:24}{counts[name, 'specs']:6} in specs{counts[name, 'src']:6} in clauses")
    print(f"{'all':24}{sum(counts.values()):6}")
    return 0


def options():
    words = parser(__doc__)
    words.add_argument("--list", action="store_true", help="print only how many there are in each crate")
    return words.parse_args()


def main():
    return show_counts() if options().list else print_lines(faults())


if __name__ == "__main__":
    run(main)
