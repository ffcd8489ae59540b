#!/usr/bin/env python3
"""Writes the list of docs/PROVED.md: by room and crate its public calls, its laws and its wrong bodies.

What a call guarantees is said by the comment right above it, so each sentence has one source. A law is a
call that takes and returns nothing. With `--check` it writes nothing. Reports a public call without a
comment, and a page that is not as it would be written, and ends with status 1 if there is one."""
import os
import re
import sys

sys.dont_write_bytecode = True
from command_line import parser, print_lines, run
from repository import TOP, Listing, text_of
from rooms import wrapped
from rt_names import disk_sources
from rt_public import Public
from wrong_bodies import names_in

PATH = "docs/PROVED.md"
BEGIN, END = "<!-- proved: made by tools/proved.py -->", "<!-- proved: end -->"
CALLS = ("fn", "method", "trait method")
# What a line at the left edge begins that has functions inside: an impl or a trait, up to its brace.
BLOCK = re.compile(r"^(?:pub )?(impl|trait)\b(.*)")
FUNCTION = re.compile(r"^\s*(?:pub )?(?:const )?fn (\w+)")
TYPE = re.compile(r"(\w+)(?:<.*)?$")


class Call:
    """A public call: the name by which its crate hands it out, what its comment says, and whether it is a law."""

    def __init__(self, name, words, is_law):
        self.name, self.words, self.is_law = name, words, is_law

    def item(self):
        return wrapped(f"`{self.name}`: {self.words}", "- ", "  ")


def owner_of(kind, head):
    """The type or the trait whose functions a block has."""
    head = head.partition("{")[0].split(" where ")[0].strip()
    if kind == "trait":
        return re.match(r"\w+", head)[0]
    found = TYPE.search(head.split(" for ")[-1].strip().split("::")[-1])
    return found[1] if found else ""


def comments(text):
    """The functions of a file, as pairs of the type that they are of and their name, each with its comment."""
    owner, words = "", []
    for line in text.split("\n"):
        if found := BLOCK.match(line):
            owner = owner_of(*found.groups())
        elif line.startswith("}"):
            owner = ""
        if line.strip().startswith("///"):
            words.append(line.strip()[3:].strip())
        elif found := FUNCTION.match(line):
            yield (owner, found[1]), " ".join(filter(None, words))
            words = []
        elif not line.strip().startswith("#["):
            words = []


def comments_of(sources):
    """The comments of all functions, by their crate, the type that they are of, and their name."""
    found = {}
    for path, text in sources.items():
        if path.endswith(".rt"):
            for (owner, name), words in comments(text):
                if words:
                    found.setdefault((path.split("/")[1], owner, name), words)
    return found


def is_law(entry):
    """Whether a call takes and returns nothing."""
    return entry.kind == "fn" and any(re.search(r"\bfn \w+ ?\( ?\)$", it.text().strip()) for it in entry.lines)


def calls_of(sources):
    """The public calls of each crate, with the paths of those that have no comment."""
    made, bare, said = {}, [], comments_of(sources)
    for it in Public(sources).entries:
        if it.kind not in CALLS:
            continue
        owner = "" if it.kind == "fn" else it.path[-2]
        words = said.get((it.path[0], owner, it.path[-1]))
        if words:
            made.setdefault(it.path[0], []).append(Call(it.tail(), words, is_law(it)))
        else:
            bare.append(it.shown())
    return made, bare


def of_crate(listing, name, calls):
    """The part of the page about one crate."""
    yield f"### `{name}`"
    laws, others = [[it for it in calls if it.is_law is law] for law in (True, False)]
    for head, group in (("Calls:", others), ("Laws:", laws)):
        if group:
            yield head
            yield "\n".join(it.item() for it in group)
    if wrong := names_in(f"{listing.top}/crates/{name}"):
        words = "; ".join(it.removesuffix(".edit").replace("_", " ") for it in wrong)
        yield wrapped(f"Wrong bodies that are refused: {words}.")


def list_of(listing, made):
    """The list, room by room. A crate that hands out no call is left out."""
    parts = []
    for room in listing.rooms:
        parts.append(f"## {room.name}")
        for name in room.crates:
            if name in made:
                parts += of_crate(listing, name, made[name])
    return "\n\n".join(parts)


def written(listing, made):
    """The text of the page, and the same with its list anew, or None if the markers are not there once."""
    text = text_of(f"{listing.top}/{PATH}")
    if text.count(BEGIN) != 1 or text.count(END) != 1:
        return text, None
    before, _, rest = text.partition(BEGIN)
    return text, f"{before}{BEGIN}\n\n{list_of(listing, made)}\n\n{END}{rest.partition(END)[2]}"


def look(write):
    """What is wrong, after the list was written anew if it is to be."""
    listing = Listing()
    made, bare = calls_of(disk_sources())
    yield from (f"{it}: it has no comment that says what it guarantees" for it in bare)
    text, new = written(listing, made)
    if new is None:
        yield f"{PATH}: it needs one line {BEGIN} and after it one line {END}"
    elif new != text and write:
        with open(os.path.join(TOP, PATH), "w", encoding="utf-8") as it:
            it.write(new)
        print(f"{PATH}: its list is written anew")
    elif new != text:
        yield f"{PATH}: its list is not that of the crates: run tools/proved.py"


def faults():
    return look(write=False)


def options():
    words = parser(__doc__)
    words.add_argument("--check", action="store_true", help="write nothing, and report whether the page is as it would be written")
    return words.parse_args()


def main():
    return print_lines(look(write=not options().check))


if __name__ == "__main__":
    run(main)
