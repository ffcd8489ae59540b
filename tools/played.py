#!/usr/bin/env python3
"""Holds the commands in documents against the worked rows: each line `$ ./syndex WORDS` or `$ ./syndex_lab WORDS` in an
indented part of a document has to be a call of `crates/worked_rows`, and the lines after it have to be what the transcript has.

A line `(FILE)` there says that the output is that file, `(among others the lines of FILE)` that its lines are in
the output in this order, and `! LINE` is the line on the error stream. What follows an empty line belongs to no
command. `tools/check.py played` runs it; it runs no program, since the gate compares the transcript with the
program. Prints a line for each command that differs, and ends with status 1 if there is one."""
import glob
import os
import re

from command_line import print_lines, run, take_no_words
from repository import TOP, text_of

DOCUMENTS = ["README.md", *(f"docs/{it}.md" for it in ("MANUAL", "TUTORIAL", "CALLING")), "examples/*/README.md"]
PROMPT = "    $ ./"


def whole(told):
    """The lines of an output, where the transcript names the file that has them."""
    name = told[0][1:-1] if len(told) == 1 and told[0].startswith("(") else ""
    path = f"{TOP}/examples/{name}"
    return text_of(path).splitlines() if name and os.path.isfile(path) else told


def calls():
    """What the transcript has of each call, by its words: its lines without the status, of every time it stands there."""
    found, lines = {}, text_of(f"{TOP}/crates/worked_rows/stdout").splitlines()
    for at, line in enumerate(lines):
        if not line.startswith(("$ syndex ", "$ syndex_lab ")):
            continue
        end = next(it for it in range(at + 1, len(lines)) if lines[it].startswith("= "))
        found.setdefault(line[len("$ "):], []).append(lines[at + 1:end])
    return found


def documents():
    """The documents that have commands."""
    return sorted(it for name in DOCUMENTS for it in glob.glob(f"{TOP}/{name}"))


def commands(text, prompt=PROMPT):
    """The commands of a document, each with the number of its line and with the lines after it."""
    lines = text.splitlines()
    for at, line in enumerate(lines):
        if line.startswith((f"{prompt}syndex ", f"{prompt}syndex_lab ")):
            after = []
            for more in lines[at + 1:]:
                if not more.startswith("    ") or more.startswith("    $"):
                    break
                after.append(more[4:])
            yield at + 1, line[len(prompt):], after


def as_told(line):
    """A line of a document as the transcript has it."""
    line = re.sub(r"^\(among others the lines of (.*)\)$", r"(has \1)", line)
    return line.replace("examples/", "") if line.startswith("(") else line


def faults():
    """Commands of documents that the gate does not play, or that are answered otherwise."""
    known = calls()
    for path in documents():
        for number, words, after in commands(text_of(path)):
            where = f"{path[len(TOP) + 1:]}:{number}"
            told = known.get(words.replace("examples/", ""))
            if told is None:
                yield f"{where}: no worked row calls {words}"
            elif after and not any([as_told(line) for line in after] in (it, whole(it)) for it in told):
                yield f"{where}: the worked row of {words} has another answer"


def main():
    take_no_words(__doc__)
    return print_lines(faults())


if __name__ == "__main__":
    run(main)
