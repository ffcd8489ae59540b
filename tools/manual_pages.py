#!/usr/bin/env python3
"""Prints the manual page of a program, made from the rows of docs/MANUAL.md, for `man`. `./build --prefix` installs
both."""
import re

from command_line import parser, run
from commands import MANUAL, OPTIONS, PROGRAMS, about, commands
from explain import tables
from repository import TOP, text_of

MANUAL_AT = "MANUAL.md, which is installed in one folder with the examples."
TEXTS = {
    "syndex": f"The texts that a command reads and writes are described in {MANUAL_AT}",
    "syndex_lab": f"It reads the texts of syndex(1), and its messages are the same. They are described in {MANUAL_AT}",
}
# Which rows each page has besides: those of the tables with this head.
REFERENCE = {"syndex": ("MESSAGES", "message"), "syndex_lab": ("LINES OF LINT", "line")}
LINKED = re.compile(r"\[([^]]*)\]\(#[^)]*\)")


def plain(text):
    """A text of the manual as troff takes it, with what stands in backticks in bold."""
    text = re.sub(r":? *\[see below\]\(#[^)]*\)", "", text)
    text = LINKED.sub(r"\1", text).replace(r"\|", "|").replace("\\", r"\e").replace("-", r"\-")
    return re.sub(r"`([^`]*)`", r"\\fB\1\\fR", text)


def paragraph(text):
    """A line of troff that is no request."""
    made = plain(text)
    return f"\\&{made}" if made.startswith((".", "'")) else made


def entries(rows):
    """Paragraphs with a head, which these pairs give."""
    return [line for head, text in rows for line in (".TP", paragraph(head), paragraph(text))]


def shown(command):
    """A command in bold, with its words in italics."""
    form = re.sub(r"[A-Z]+", r"\\fI\g<0>\\fR", plain(command.form))
    return rf"\fB{plain(command.program)} {command.name}\fR {form}".strip()


def statuses():
    """What each status means, and the line on the error stream."""
    for header, rows in tables(text_of(f"{TOP}/{MANUAL}")):
        if header[0] == "status":
            for status, line, text in rows:
                yield f"{status} {line if '`' in line else ''}".strip(), text


def rows_of(head):
    """The rows of the tables of two columns with this head, the first one of each message."""
    found = {}
    for header, rows in tables(text_of(f"{TOP}/{MANUAL}")):
        if header[0] == head and len(header) == 2:
            for first, said in rows:
                found.setdefault(first, said)
    return found.items()


def sections(program):
    """The sections of the page, each a name and its lines."""
    known = commands(program)
    named = about(program).rstrip(".").replace(program, f"{program} -", 1)
    taken = [it for it in OPTIONS if any(it in command.options() for command in known)]
    name, head = REFERENCE[program]
    yield "NAME", [plain(named)]
    yield "SYNOPSIS", [".nf", *map(shown, known), ".fi"]
    yield "DESCRIPTION", [paragraph(TEXTS[program])]
    yield "COMMANDS", entries((f"`{it.name}`", it.text) for it in known)
    yield "OPTIONS", entries((f"`{it}` {OPTIONS[it][0]}", OPTIONS[it][1]) for it in taken)
    yield "EXIT STATUS", entries(statuses())
    yield name, entries(rows_of(head))
    yield "SEE ALSO", [rf"\fB{plain(it)}\fR(1)" for it in PROGRAMS if it != program]


def page(program):
    """The manual page."""
    lines = [f'.TH {program.upper()} 1 "" "syndex" "User Commands"']
    for name, found in sections(program):
        lines += [f".SH {name}", *found]
    return "\n".join(lines) + "\n"


def faults():
    """Sections of the pages that the manual does not fill."""
    for program in PROGRAMS:
        for name, found in sections(program):
            if not any(found):
                yield f"{MANUAL}: nothing for {name} of the manual page of {program}"


def options():
    words = parser(__doc__)
    words.add_argument("program", choices=PROGRAMS, help="the program")
    return words.parse_args()


def main():
    print(page(options().program), end="")
    return 0


if __name__ == "__main__":
    run(main)
