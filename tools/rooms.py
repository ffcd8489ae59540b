#!/usr/bin/env python3
"""Writes the rooms of the repository into docs/ARCHITECTURE.md, between marker comments.

Rooms, parts and their sentences come from crates.txt, in its order; what a crate is comes from the
first paragraph of the file that it begins with. So each sentence about a crate has one source.
Reports, with status 1, if the page could not be written, and which heading of the pages that go by
rooms is the name of no room."""
import textwrap

from command_line import parser, print_lines, run
from repository import Listing, root_of, text_of

BEGIN, END = "<!-- rooms: made by tools/rooms.py -->", "<!-- rooms: end -->"
WIDTH = 100


def first_paragraph(folder):
    """What the crate says of itself first, as one line; empty where it says nothing."""
    root, lines = root_of(folder), []
    for line in text_of(root).split("\n") if root else []:
        if not line.startswith("//!") or line == "//!":
            break
        lines.append(line[3:].strip())
    return " ".join(lines)


def wrapped(text, first="", rest=""):
    """A paragraph; no name in backticks is broken, as none of them has a blank or a hyphen to break at."""
    how = {"break_long_words": False, "break_on_hyphens": False}
    return textwrap.fill(text, WIDTH, initial_indent=first, subsequent_indent=rest, **how)


def crate_lines(listing, names):
    """A list item for each crate."""
    for name in names:
        said = first_paragraph(f"{listing.top}/crates/{name}")
        yield wrapped(f"`{name}`: {said}", "- ", "  ")


def room_list(listing):
    """The rooms with their crates, for whoever looks where something is done."""
    parts = []
    for room in listing.rooms:
        parts += [f"### {room.name}", wrapped(room.sentence())]
        in_parts = {it for part in room.parts for it in part.crates}
        loose = [it for it in room.crates if it not in in_parts]
        if loose:
            parts.append("\n".join(crate_lines(listing, loose)))
        for part in room.parts:
            parts.append(wrapped(f"**{part.name}.** {part.sentence()}".strip()))
            parts.append("\n".join(crate_lines(listing, part.crates)))
    return "\n\n".join(filter(None, parts))


PATH = "docs/ARCHITECTURE.md"
# Pages that are written by hand in the order of the rooms, which are their headings.
BY_ROOM = ("docs/PROOFS_BY_CRATE.md",)


def written(listing):
    """The text of the page, and the same with its made part anew, or None if the markers are not there once."""
    text = text_of(f"{listing.top}/{PATH}")
    if text.count(BEGIN) != 1 or text.count(END) != 1 or text.index(BEGIN) > text.index(END):
        return text, None
    before, _, rest = text.partition(BEGIN)
    return text, f"{before}{BEGIN}\n\n{room_list(listing)}\n\n{END}{rest.partition(END)[2]}"


def of_headings(listing, path):
    """Headings of a page by rooms that name none, or not in their order."""
    rooms, last = [it.name for it in listing.rooms], -1
    for number, line in enumerate(text_of(f"{listing.top}/{path}").split("\n"), 1):
        if not line.startswith("## "):
            continue
        room = line[3:].strip()
        if room not in rooms:
            yield f"{path}:{number}: {room} is no room of crates.txt"
        elif rooms.index(room) < last:
            yield f"{path}:{number}: {room} is not where crates.txt has it"
        else:
            last = rooms.index(room)


def faults():
    listing = Listing()
    for name in listing.rows:
        if not first_paragraph(f"{listing.top}/crates/{name}"):
            yield f"crates/{name}: its first file does not begin with //! and what the crate is"
    text, made = written(listing)
    if made is None:
        yield f"{PATH}: it needs one line {BEGIN} and after it one line {END}"
    elif made != text:
        yield f"{PATH}: its rooms are not those of crates.txt and the crates: run tools/rooms.py"
    for path in BY_ROOM:
        yield from of_headings(listing, path)


def options():
    words = parser(__doc__)
    check = "write nothing, and report whether the page is as it would be written"
    words.add_argument("--check", action="store_true", help=check)
    return words.parse_args()


def main():
    given, listing = options(), Listing()
    text, made = written(listing)
    if not given.check and made not in (None, text):
        with open(f"{listing.top}/{PATH}", "w", encoding="utf-8") as it:
            it.write(made)
        print(f"{PATH}: its rooms are written anew")
    return print_lines(faults())


if __name__ == "__main__":
    run(main)
