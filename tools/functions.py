#!/usr/bin/env python3
"""Where the time of a proof goes: the functions of a crate that took longest, by the times at which
the prover wrote what it had checked. It reads what `out/` of a crate keeps of a check from nothing with one
job.

Times are by the clock, so of a machine that did little else. `walk` is the walk over a function's
code, which grows with the paths on which large owned values are dropped; `search` is the search for
its goals; `other` is what states and links them."""
import collections
import os
import re

from command_line import parser, positive, run
from repository import TOP, Listing

# What a checked module of a function is, by the end of its name.
PHASES = {"Lts": "walk", "Proof": "search"}
PARTS = r"\.(Lts|Proof|Tie|Code|Named|Met|Statement|TheLinks?|Symbol|Kinds)\b.*$"
# A longer time between two modules is one in which nothing was checked.
LONGEST = 300


def modules(crate):
    """The names of the checked modules of a crate, with when they were written, in this order."""
    for folder, _, files in os.walk(f"{TOP}/crates/{crate}/out/incremental"):
        for file in files:
            yield os.stat(f"{folder}/{file}").st_mtime, file


def booked(crate, table):
    """Books the time before each module of a crate on its function."""
    before = None
    for written, file in sorted(modules(crate)):
        # It is written when a check begins: the time before it and after it is no function's.
        if file.startswith("rattle-last-used"):
            before = None
            continue
        name = re.sub(r"^Rattle-\w+-(proofs|specs)\.|\.oantt$|\.decls(?=\.oantt)", "", file)
        part = re.search(PARTS, name)
        if before is not None and written - before < LONGEST:
            phase = PHASES.get(part[1], "other") if part else "other"
            table[crate, re.sub(PARTS, "", name)][phase] += written - before
        before = written


def options():
    words = parser(__doc__)
    words.add_argument("crate", nargs="?", choices=Listing().rows, metavar="CRATE", help="this crate; all if left out")
    words.add_argument("--most", type=positive, default=30, metavar="N", help="how many functions, 30 if left out")
    return words.parse_args()


def main():
    given = options()
    table = collections.defaultdict(collections.Counter)
    for crate in [given.crate] if given.crate else sorted(os.listdir(f"{TOP}/crates")):
        booked(crate, table)
    rows = sorted(table.items(), key=lambda it: -it[1].total())
    whole = sum(times.total() for _, times in rows) or 1
    told = 0
    print("seconds    walk  search   other  so far")
    for (crate, function), times in rows[: given.most]:
        told += times.total()
        parts = "".join(f"{times[it]:8.1f}" for it in ("walk", "search", "other"))
        print(f"{times.total():7.1f}{parts} {100 * told / whole:6.1f}%  {crate}::{function}")
    print(f"{whole:7.1f} in all, of {len(rows)}")


if __name__ == "__main__":
    run(main)
