#!/usr/bin/env python3
"""What has to be read to believe a contract, and the page docs/DEFINITIONS.md, which lists it.

    tools/definitions.py                 checks the page: a line for each fault, and status 1 if there is one
    tools/definitions.py write           sorts the rows of the page, and writes its list anew
    tools/definitions.py reached PATH..  all definitions that have to be read to believe these contracts
    tools/definitions.py bare            those without a sentence, of all that some public call reaches
    tools/definitions.py sums            how many definitions and lines each call reaches: those of the
                                         programs, and those of the crates at the top of each room

A PATH is a public call, as `syndex_program::syndex`, or a definition, as `multi_period.Meaning.act_row_at`.

A call reaches the definitions that its clauses name, the types and traits of its signature, and all that
these name in turn, down to the definitions of the kit. A definition of specs/ names what is in its
signature, in its clauses and in the sections around it. A type names the types of its fields, its ghost
fields, and the ghost members of its impls: what contracts see of it, and what is true of it. A trait names
its members, and the contracts of its methods.

The lines of a definition are those that are neither empty nor comments. Its sentence is the comment right
above it.

A row of the page has definitions of the list, by their crate and their file, and the source that they
follow. The rows are in the order of crates.txt, each in its room."""
import argparse
import collections
import os
import re
import signal
import sys

from definition_list import THEOREM, Reading, lines_of
from repository import TOP, text_of
from scopes import World

PATH = "docs/DEFINITIONS.md"
BEGIN, END = "<!-- definitions: made by tools/definitions.py -->", "<!-- definitions: end -->"
ROOM, PART = "### ", "## "
ROW = re.compile(r"\| [^|]+ \| *(`(\w+)`[^|]*)\|")
HEAD = "| plain name | definition | source |\n|---|---|---|\n"
# The calls of the programs.
PROGRAMS = ("syndex_program::syndex", "lab_program::syndex_lab")


# ---------------------------------------------------------------- the page

def rows_at(text):
    """Where the rows of the page begin and end: from the first room up to the next part."""
    start = text.index(f"\n{ROOM}") + 1
    return start, text.index(f"\n{PART}", start) + 1


def placed(text):
    """The rows of the page, each with its line, its room, its first crate, its definitions and its text."""
    start, end = rows_at(text)
    room, above = None, text.count("\n", 0, start)
    for number, line in enumerate(text[start:end].split("\n"), above + 1):
        if line.startswith(ROOM):
            room = line.removeprefix(ROOM).strip()
        elif row := ROW.match(line):
            yield number, room, row[2], row[1], line


def of_order(listing, text):
    """Rows of no crate, in a room of another crate, or before one of a lower crate."""
    homes = {name: room.name for room in listing.rooms for name in room.crates}
    order, last = list(listing.rows), -1
    for number, room, name, _, _ in placed(text):
        if name not in homes:
            yield f"{PATH}:{number}: `{name}` is no crate of crates.txt"
        elif homes[name] != room:
            yield f"{PATH}:{number}: `{name}` is a crate of the room {homes[name]}"
        elif order.index(name) < last:
            yield f"{PATH}:{number}: the row before is of a crate that crates.txt has after `{name}`"
        else:
            last = order.index(name)


def of_names(reading, text):
    """Names in rows that are no definition of the list."""
    listed = {(it.crate, it.name) for step in reading.steps for it in step.added}
    for number, _, crate, definitions, _ in placed(text):
        for token in re.findall(r"`([^`]+)`", definitions):
            if token in reading.world.listing.rows:
                crate = token
            elif (crate, token.rpartition(".")[2]) not in listed:
                yield f"{PATH}:{number}: `{crate}` `{token}` is reached by no call that {THEOREM} names"


def with_rows(listing, text):
    """The page with its rows in the order of crates.txt."""
    (start, end), rows = rows_at(text), list(placed(text))
    tables = []
    for room in listing.rooms:
        lines = [line for crate in room.crates for _, _, name, _, line in rows if name == crate]
        if lines:
            tables.append(f"{ROOM}{room.name}\n\n{HEAD}" + "\n".join(lines) + "\n\n")
    return text[:start] + "".join(tables) + text[end:]


def with_list(reading, text):
    """The page with its list anew."""
    before, _, rest = text.partition(BEGIN)
    made = "\n".join(lines_of(reading))
    return f"{before}{BEGIN}\n\n{made}\n\n{END}{rest.partition(END)[2]}"


def of_form(text):
    """What keeps the page from being written: it has no rooms, or its markers are not there once."""
    if f"\n{ROOM}" not in text.partition(BEGIN)[0]:
        yield f"{PATH}: it has no room with rows before its list"
    if text.count(BEGIN) != 1 or text.count(END) != 1 or text.index(BEGIN) > text.index(END):
        yield f"{PATH}: it needs one line {BEGIN} and after it one line {END}"


def wrong_with(reading, text):
    """What is wrong with the page."""
    listing = reading.world.listing
    yield from of_order(listing, text)
    yield from of_names(reading, text)
    for made in reading.bare():
        yield f"{os.path.relpath(made.path, TOP)}:{made.first}: {made.name} has no sentence right above it"
    if with_list(reading, text) != text:
        yield f"{PATH}: its list is not what the contracts reach: run tools/definitions.py write"
    yield from unresolved(reading.world)


def faults():
    text = text_of(f"{TOP}/{PATH}")
    return list(of_form(text)) or list(wrong_with(Reading(World()), text))


def check():
    """Reports what is wrong with the page."""
    wrong = faults()
    show(wrong)
    return 1 if wrong else 0


def write():
    """Writes the page anew, and reports what is still wrong with it."""
    text, reading = text_of(f"{TOP}/{PATH}"), Reading(World())
    wrong = list(of_form(text))
    if not wrong:
        text = with_list(reading, with_rows(reading.world.listing, text))
        with open(f"{TOP}/{PATH}", "w", encoding="utf-8") as it:
            it.write(text)
        wrong = list(wrong_with(reading, text))
    show(wrong)
    return 1 if wrong else 0


# ---------------------------------------------------------------- what is reached

def show(lines):
    """Prints these lines."""
    for line in lines:
        print(line)


def place_of(world, made):
    """The files and the lines of a definition, from the top of the repository."""
    found = {}
    for path, first, last in world.places(made):
        found.setdefault(os.path.relpath(path, TOP), []).append(f"{first}-{last}" if last > first else f"{first}")
    return " ".join(f"{path}:{','.join(lines)}" for path, lines in found.items())


def by_crate(world, order):
    """The lines of a table of definitions and lines by crate, and its sums."""
    numbers, lines = collections.Counter(), collections.Counter()
    for made in order:
        numbers[made.crate] += 1
        lines[made.crate] += world.lines(made)
    yield f"{'crate':24} {'definitions':>12} {'lines':>8}"
    for name in (it for it in world.listing.rows if it in numbers):
        yield f"{name:24} {numbers[name]:12,} {lines[name]:8,}"
    yield f"{'all':24} {len(order):12,} {lines.total():8,}"


def unresolved(world):
    """A line for each name of which nothing says what it means."""
    for path, line, name in sorted(world.unresolved):
        yield f"{path}:{line}: {name}: no definition, type or module of this name is found"


def reached(paths):
    """Lists what has to be read to believe the contracts of these calls, or these definitions."""
    world = World()
    roots = {it: world.root(it) for it in paths}
    if missing := [it for it, root in roots.items() if root is None]:
        print(*(f"{it}: no public call or definition has this name" for it in missing), sep="\n", file=sys.stderr)
        return 2
    order, kit = world.reached(roots.values())
    show(f"{place_of(world, it)}: {it.name}, {it.kind}, {world.lines(it)}" for it in order)
    show(["", *by_crate(world, order), "", f"of the kit: {len(kit)}", *(f"  {it}" for it in kit)])
    show(unresolved(world))
    return 0


def bare():
    """Lists the definitions that some public call reaches and that have no sentence."""
    world = World()
    order, _ = world.reached([call for crate in world.listing.rows for call in world.calls(crate).values()])
    missing = [it for it in order if not it.sentence]
    show(f"{place_of(world, it)}: {it.name}" for it in missing)
    print(f"{len(missing)} of {len(order)} have no sentence")
    show(unresolved(world))
    return 0


def top_crates(listing):
    """Each room with those of its crates on which no other crate of the room is built."""
    for room in listing.rooms:
        below = {it for name in room.crates for it in listing.below(name)}
        yield room.name, [it for it in room.crates if it not in below]


def sums():
    """Lists how much the calls of the programs and of the crates at the top of each room reach."""
    world = World()

    def row(path):
        order, kit = world.reached([world.root(path)])
        return f"{path:64} {len(order):12,} {sum(map(world.lines, order)):8,} {len(kit):8,}"

    show([f"{'call':64} {'definitions':>12} {'lines':>8} {'kit':>8}", *map(row, PROGRAMS)])
    for room, crates in top_crates(world.listing):
        print(f"# {room}")
        show(row(f"{crate}::{name}") for crate in crates for name in world.calls(crate))
    show(unresolved(world))
    return 0


def main(words):
    # Whoever reads the output, as `head` does, may have enough of it before its end.
    signal.signal(signal.SIGPIPE, signal.SIG_DFL)
    actions = {"check": check, "write": write, "bare": bare, "sums": sums}
    parser = argparse.ArgumentParser(description=__doc__, formatter_class=argparse.RawDescriptionHelpFormatter)
    parser.add_argument("action", nargs="?", default="check", choices=(*actions, "reached"), help="see above")
    parser.add_argument("paths", nargs="*", metavar="PATH", help="for `reached`: calls and definitions")
    given = parser.parse_args(words)
    if bool(given.paths) != (given.action == "reached"):
        parser.error("`reached` takes at least one PATH, and no other action takes one")
    return reached(given.paths) if given.action == "reached" else actions[given.action]()


if __name__ == "__main__":
    sys.exit(main(sys.argv[1:]))
