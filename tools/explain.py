#!/usr/bin/env python3
"""Says what a message of the program means, from the tables of docs/MANUAL.md, which are its only source.

    A7                  by the code of a message
    UnknownName         by its name
    limit words         by a limit
    cannot write        by the words of a message without a code
    'algorithm line 7: A8 WrongLength a.i'
                        a whole line, as it was printed

`./syndex explain` and `./syndex_lab explain` call it."""
import re
import sys

from command_line import parser, run
from repository import TOP, text_of

MANUAL = f"{TOP}/docs/MANUAL.md"
CODE = re.compile(r"\b[ACEHKS][0-9]{1,2}\b")
# Messages without a code, and what stands for them in the table of statuses.
PLAIN = ("usage", "cannot read", "cannot write", "out of memory")


def tables(text):
    """The tables of a document: the cells of the header, and those of each row."""
    header, rows = None, []
    for line in [*text.splitlines(), ""]:
        if not line.startswith("|"):
            if header:
                yield header, rows
            header, rows = None, []
            continue
        cells = [it.strip() for it in re.split(r"(?<!\\)\|", line.strip().strip("|"))]
        if header is None:
            header = cells
        elif not set("".join(cells)) <= set("-: "):
            rows.append(cells)


def messages():
    """Each message with what it says: its forms, when it comes, and the examples of it."""
    for header, rows in tables(text_of(MANUAL)):
        for cells in rows:
            if header[0] == "message":
                yield "message", cells[0], cells[1]
            elif header[-1] == "the answer":
                yield "example", cells[-1], cells[0]
            elif header[0] == "status":
                yield "status", cells[1], f"status {cells[0]}: {cells[2]}"


def key_of(words):
    """What the rows that are asked for have in common, as an expression, or None."""
    # In documents a line of the error stream stands after `!`.
    line = " ".join(words).strip().removeprefix("! ")
    if found := CODE.search(line if " " in line else line.upper()):
        return rf"\b{found[0]}\b"
    if line.startswith("limit"):
        return rf"\blimit {re.escape((line.split() + [''])[1].rstrip(':'))}"
    for plain in PLAIN:
        if line.startswith(plain):
            return re.escape(line if f"`{line}`" in text_of(MANUAL) else plain)
    return rf"\b[ACEHKS][0-9]+ {line}\b" if line.isalpha() else None


def explained(words):
    """What is to be printed about a message: a line for each row of the manual that has it."""
    key = key_of(words)
    if key is None:
        return []
    found = [it for it in messages() if re.search(key, it[1])]
    said = [f"{form}\n    {text}" for kind, form, text in found if kind == "message"]
    said += [f"for example: {text}\n    {form}" for kind, form, text in found if kind == "example"]
    if not said or any(key.startswith(re.escape(it)) for it in PLAIN):
        said += [f"{form}\n    {text}" for kind, form, text in found if kind == "status"]
    return said


def is_form(kind, form):
    """Whether the list of all messages has this one: a row of a message, or of a status whose message has no code."""
    return kind == "message" or kind == "status" and form.strip("`").startswith(PLAIN)


def faults():
    """Messages of the status table's kinds that the manual does not explain, for tools/check.py."""
    for code in sorted(set(CODE.findall(text_of(MANUAL)))):
        if not explained([code]):
            yield f"docs/MANUAL.md names {code}, and no table says when it comes"


def options():
    words = parser(__doc__)
    words.prog = "explain"
    words.add_argument("message", nargs="*", metavar="MESSAGE", help="the message; without it all messages are listed")
    return words.parse_args()


def main():
    words = options().message
    said = explained(words) if words else dict.fromkeys(form for kind, form, _ in messages() if is_form(kind, form))
    if not said:
        print("explain: no message like this stands in docs/MANUAL.md; ask by its code (A7), by its name (UnknownName), by its"
              " limit (limit words) or by the whole line", file=sys.stderr)
        return 2
    print(*(it.replace("`", "") for it in said), sep="\n")
    return 0


if __name__ == "__main__":
    run(main)
