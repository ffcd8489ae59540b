#!/usr/bin/env python3
"""What can be said of the repository without a proof, in seconds. `.ci/run` ends with it. Prints a line
for each check and each fault, at the end `N passed, M failed` of the checks, and has status 1 if one
failed.

Each check is a call `faults` of the script of its name, which says what it looks at."""
import filecmp
import importlib
import os
import sys
import time

sys.dont_write_bytecode = True
sys.path.insert(0, os.path.dirname(os.path.abspath(__file__)))
from command_line import one_of, parser, run
from repository import TOP

# The checks, and what each is to find; `examples` is in this file, the others are scripts.
CHECKS = {
    "listing": "crates.txt has each crate once, in a room, after what it stands on",
    "needs": "crates.txt says what each crate stands on",
    "rooms": "the rooms in ARCHITECTURE are those of crates.txt",
    "proved": "PROVED has what the comments of all public calls say",
    "definitions": "DEFINITIONS lists what the contracts that THEOREM names rest on",
    "names": "what the documents name is there",
    "style": "words and long sentences in documents are within their bounds",
    "widths": "no line of a contract is too wide",
    "wrong_bodies": "each wrong body can be written, and those that CLAIMS names are there",
    "examples": "the worked rows run on the examples",
    "played": "the commands in documents are worked rows, with the same answers",
    "explain": "each message that the manual names has a row there",
    "commands": "the manual, README and the code have the same commands",
    "manual_pages": "each section of the manual pages has something from the manual",
    "editors": "the syntax files for editors know each line of the examples",
    "scripts": "each script is executable, has --help, and refuses unknown words",
}


def is_data(name):
    """Whether a file of an example is one that rows read or compare with: its page is none."""
    return name != "README.md"


def examples(left=f"{TOP}/examples", right=f"{TOP}/crates/worked_rows/data"):
    """The files of the worked rows are the examples: the data of a crate may be no link, so they
    are there twice."""
    found = filecmp.dircmp(left, right, ignore=[])
    for name in sorted([*filter(is_data, found.left_only), *found.right_only]):
        yield f"{os.path.relpath(left, TOP)}/{name}: it is on one of the two sides only"
    _, differ, unread = filecmp.cmpfiles(left, right, found.common_files, shallow=False)
    for name in sorted(differ + unread):
        yield f"{os.path.relpath(left, TOP)}/{name} is not {os.path.relpath(right, TOP)}/{name}"
    for name in sorted(found.common_dirs):
        yield from examples(f"{left}/{name}", f"{right}/{name}")


def count_faults(name):
    """Prints the faults that one check finds, and returns how many there are."""
    start = time.monotonic()
    found = list(examples() if name == "examples" else importlib.import_module(name).faults())
    took = f"{time.monotonic() - start:.1f} s"
    told = f"{len(found)} faults" if found else "ok"
    print(f"check {name}: {CHECKS[name]}: {told} ({took})", flush=True)
    print(*(f"  {it}" for it in found), sep="\n", end="\n" if found else "", flush=True)
    return len(found)


def options():
    words = parser(__doc__)
    checks = f"one of {', '.join(CHECKS)}; all if left out"
    words.add_argument("checks", nargs="*", type=one_of(CHECKS), metavar="CHECK", help=checks)
    return words.parse_args()


def main():
    counts = [count_faults(name) for name in options().checks or CHECKS]
    failed = sum(map(bool, counts))
    print(f"{len(counts) - failed} passed, {failed} failed")
    return 1 if failed else 0


if __name__ == "__main__":
    run(main)
