#!/usr/bin/env python3
"""What is wrong with crates.txt as a list: rooms without a sentence or a crate, crates that are not
listed, and crates that come before one that they name. Prints a line for each fault, and ends with
status 1 if there is one."""
import os

from command_line import print_lines, run, take_no_words
from repository import Listing


def of_headings(listing):
    """Rooms of one name, without a crate, or without a sentence; parts without a crate."""
    known = set()
    for room in listing.rooms:
        at = f"crates.txt:{room.number}: the room {room.name}"
        if room.name in known:
            yield f"{at} stands there twice"
        known.add(room.name)
        if not room.crates:
            yield f"{at} has no crate"
        if not room.sentence():
            yield f"{at} has no sentence: write it below the heading, after #:"
        for part in room.parts:
            if not part.crates:
                yield f"crates.txt:{part.number}: the part {part.name} has no crate"


def of_folders(listing):
    """Folders that no line names; rt itself tells of lines that name no folder."""
    folder = f"{listing.top}/crates"
    for name in sorted(os.listdir(folder)):
        # A folder without sources is what a check has left of a crate that was renamed.
        if name not in listing.rows and os.path.isdir(f"{folder}/{name}/src"):
            yield f"crates/{name}: crates.txt does not list it"
    for name, number in listing.numbers.items():
        if not os.path.isdir(f"{folder}/{name}/src"):
            yield f"crates.txt:{number}: {name}: there is no folder crates/{name}/src"


def of_order(listing):
    """Crates that name one of a later line."""
    for name, number in listing.numbers.items():
        late = [it for it in listing.below(name) if listing.numbers[it] > number]
        if late:
            yield f"crates.txt:{number}: {name} stands before what it names: {' '.join(late)}"


def faults():
    listing = Listing()
    yield from listing.faults
    for of in (of_headings, of_folders, of_order):
        yield from of(listing)


def main():
    take_no_words(__doc__)
    return print_lines(faults())


if __name__ == "__main__":
    run(main)
