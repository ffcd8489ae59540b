#!/usr/bin/env python3
"""Whether each wrong body, crates/NAME/must-fail/*.edit, can be written, and whether the table of them in
docs/CLAIMS.md names bodies that are there. Prints a line for each that is wrong, and ends with status 1 if
there is one.

`rt ci` lets an edit pass that it cannot apply, and says so: such an edit shows nothing. It is told here
before the gate runs. An edit turns a function, so it names files of src/ alone: one that turns a
definition or a proof shows nothing of a contract either."""
import os
import re

from command_line import parser, print_lines, run
from repository import TOP, Listing, text_of

FOLDER = "must-fail"
NAME = re.compile(r"[a-z0-9_]+\.edit")
# How many a crate has at most, where no table names more of them.
MOST = 6
TABLE = "## Wrong bodies"
CELL = re.compile(r"`(\w+)/(\w+)`")


def names_in(folder):
    """What stands in the folder of wrong bodies of a crate."""
    return sorted(os.listdir(f"{folder}/{FOLDER}")) if os.path.isdir(f"{folder}/{FOLDER}") else []


def fault_of(edit, crate):
    """Why an edit cannot be written, or None. The same rules as those of rt, and src/ alone."""
    path, old, texts, pairs = "", None, {}, 0
    for line in text_of(edit).split("\n"):
        if line.startswith("file: "):
            path = line[len("file: "):].strip()
            if os.path.normpath(path) != path or not path.startswith("src/"):
                return f"{path} is no file below src/"
        elif line.startswith("old: "):
            old = line[len("old: "):]
        elif line.startswith("new:"):
            if not path or not old:
                return "a line new: stands before any line file: or old:"
            if path not in texts and not os.path.isfile(f"{crate}/{path}"):
                return f"there is no file {path}"
            texts.setdefault(path, text_of(f"{crate}/{path}"))
            if (found := texts[path].count(old)) != 1:
                return f"what it replaces is in {path} {found} times, and not once: {old.strip()}"
            texts[path] = texts[path].replace(old, line[len("new:"):].removeprefix(" "))
            old, pairs = None, pairs + 1
        elif line.strip():
            return f"rt does not read this line: {line.strip()}"
    return None if pairs else "it has no pair of lines old: and new:"


def table_of(text):
    """The wrong bodies that the table of CLAIMS names, as pairs of a crate and a name."""
    below = text.partition(f"\n{TABLE}\n")[2].partition("\n## ")[0]
    rows = [it for it in below.split("\n") if it.startswith("|")]
    return [pair for row in rows for pair in CELL.findall(row)]


def of_crate(name, folder, named):
    """What is wrong with the wrong bodies of one crate."""
    found = names_in(folder)
    for file in found:
        path = f"{folder}/{FOLDER}/{file}"
        why = fault_of(path, folder) if NAME.fullmatch(file) else "its name is not words in lower case with _, and .edit"
        if why:
            yield f"{os.path.relpath(path, TOP)}: {why}"
    if len(found) > max(MOST, len(named)):
        yield f"crates/{name}/{FOLDER}: {len(found)} wrong bodies, and at most {MOST} that no table names"


def faults():
    listing = Listing()
    named = table_of(text_of(f"{TOP}/docs/CLAIMS.md"))
    for name in sorted(os.listdir(f"{TOP}/crates")):
        folder = f"{TOP}/crates/{name}"
        if names_in(folder) and name not in listing.rows:
            yield f"crates/{name}: it has wrong bodies, and crates.txt does not list it"
        yield from of_crate(name, folder, {body for crate, body in named if crate == name})
    for crate, body in named:
        if not os.path.isfile(f"{TOP}/crates/{crate}/{FOLDER}/{body}.edit"):
            yield f"docs/CLAIMS.md: there is no crates/{crate}/{FOLDER}/{body}.edit"
    if not named:
        yield f"docs/CLAIMS.md: there is no table below {TABLE}"


def show_counts():
    counts = {it: len(names_in(f"{TOP}/crates/{it}")) for it in Listing().rows}
    for name, count in counts.items():
        if count:
            print(f"{name:24}{count:4}")
    print(f"{sum(counts.values())} wrong bodies in {sum(map(bool, counts.values()))} crates")
    return 0


def options():
    words = parser(__doc__)
    words.add_argument("count", nargs="?", choices=["count"], help="print only how many there are in each crate")
    return words.parse_args()


def main():
    return show_counts() if options().count else print_lines(faults())


if __name__ == "__main__":
    run(main)
