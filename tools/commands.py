#!/usr/bin/env python3
"""The commands of a program as `./syndex help` and `./syndex_lab help` list them.

The table in the code of each program is the one source of what the scripts know of commands: their names, the words
and options that they take, and what they write, in a line. `syndex_lab` lists its commands itself; its list is made
of the same rows here, so that it does not have to be built. `tools/commands.py write` makes the table of README, and
the first cells of the tables of commands in docs/MANUAL.md."""
import os
import re
from dataclasses import dataclass

from command_line import parser, run
from explain import tables
from repository import TOP, text_of

MANUAL, README = "docs/MANUAL.md", "README.md"
# Each program with the file of its code that has the table of its commands.
PROGRAMS = {"syndex": "crates/command_words/src/table.rt", "syndex_lab": "crates/lab_words/src/table.rt"}
HELP = "crates/lab_words/src/help.rt"
READER = "tests/plain/commands.py"
WORKED = "crates/worked_rows/stdin"
ABOUT = "syndex compiles a dataflow algorithm for several processors, and runs what it has compiled."
# A row of the code: a name, which command it is, the words after the name, and what it writes.
ROW = re.compile(r'\(\s*"([^"]+)",\s*CommandKind::[\w:()]+,\s*"([^"]*)",\s*"([^"]*)",?\s*\)')
# The first cell of a row of a document.
FORM = re.compile(r"`(\w+)([^`]*)`")
# How a form says that a command takes the options of a search, and how the list of the commands names them.
SOME = "[OPTIONS]"
NAMED = re.compile(r"^OPTIONS are (.*?)\.$", re.M | re.S)
# What stands for a word in the table of README.
LETTERS = {"ALGORITHM": "A", "ARCHITECTURE": "H", "SENSORS": "S", "CODE": "C", "DURATIONS": "G"}
# What the options are for, with the word that stands for the value.
OPTIONS = {
    "--workers": ("W", "drive the sequences by at most W threads, 1 to 80"),
    "--tries": ("N", "search for a better schedule by N tries"),
    "--seed": ("S", "the seed of the random numbers of the search"),
    "--for": ("GOAL", "what the search makes small, length or period"),
}
# The values of an option that has only some.
VALUES = {"--for": ("length", "period")}
# What an example of a command has in the place of a word, of the folder examples/echo.
EXAMPLE = {
    "ALGORITHM": "algorithm.txt", "ARCHITECTURE": "architecture.txt", "SENSORS": "sensors.csv",
    "CODE": "code.txt", "DURATIONS": "architecture.txt",
}
NUMBER = "3"


@dataclass(frozen=True)
class Command:
    """A command of a program: its name, its words as the table has them and with the options written out, what the
    manual says that it writes, and the same in a line."""

    program: str
    name: str
    short: str
    form: str
    text: str
    line: str

    def words(self):
        """The plain words, each with whether it has to be there."""
        plain = re.sub(r" \[--[^]]*\]", "", self.form)
        optional = " ".join(re.findall(r"\[([^]]*)\]", plain)).split()
        return [(it.strip("[]"), it.strip("[]") not in optional) for it in plain.split()]

    def options(self):
        return re.findall(r"--[a-z]+", self.form)

    def example(self):
        """A call of it over one of the examples."""
        words = [it for it, needed in self.words() if needed]
        given = [f"examples/echo/{EXAMPLE[it]}" if it in EXAMPLE else NUMBER for it in words]
        return " ".join([f"./{self.program}", self.name, *given])


def told():
    """The lines of the code of `syndex_lab help` that belong to no command: those before them, and those after them."""
    lines = re.findall(r'^ +"(.*)",$', text_of(f"{TOP}/{HELP}"), re.M)
    return lines[:2], lines[2:]


def rows(program):
    """The rows of the table in the code of a program: names, words, and what is written."""
    return ROW.findall(text_of(f"{TOP}/{PROGRAMS[program]}"))


def cells(text, program):
    """The rows of the table of a program's commands in the manual, by their names."""
    found = [found for header, found in tables(text) if header[0] == "command"]
    return {it[1]: (cell, said) for cell, said in dict(zip(PROGRAMS, found)).get(program, []) if (it := FORM.fullmatch(cell))}


def commands(program):
    """The commands of a program, in the order of its table. A name that looks like an option is a second name."""
    said = cells(text_of(f"{TOP}/{MANUAL}"), program)
    some = " ".join(f"[{it} {OPTIONS[it][0]}]" for it in re.findall(r"--[a-z]+", "\n".join(told()[1])) if it in OPTIONS)
    some = " ".join(dict.fromkeys(re.findall(r"\[[^]]*\]", some)))
    return [
        Command(program, name, words, words.replace(SOME, some), said.get(name, ("", line))[1], line)
        for name, words, line in rows(program) if not name.startswith("-")
    ]


def about(program):
    """What a program is, in a sentence."""
    return told()[0][0] if program == "syndex_lab" else ABOUT


def print_commands(program):
    """Prints what a program is, and the list of its commands: that of `syndex_lab` as it does it itself."""
    before, after = told()
    if program == "syndex_lab":
        found = [line for name, words, line in rows(program) for line in (f"  {name} {words}".rstrip(), f"      {line}")]
        print(*before, *found, *after, sep="\n")
        return
    print(f"{about(program)}\n")
    for it in commands(program):
        print(f"  {it.name} {it.form}\n      {it.line}\n      {it.example()}")


def as_letters(command):
    """A command with a letter for each word, and without its options."""
    plain = re.sub(r" \[--[^]]*\]", "", f"{command.name} {command.form}")
    return re.sub(r"[A-Z]{2,}", lambda it: LETTERS[it[0]], plain)


def of_readme():
    """The lines of the table of README."""
    return [f"| `{as_letters(it)}` | {it.line} |" for it in commands("syndex")]


def of_manual(program):
    """The lines of the table of a program's commands in the manual."""
    return [f"| `{f'{it.name} {it.short}'.rstrip()}` | {it.text} |" for it in commands(program)]


def with_tables(text, made):
    """A document in which the rows of its tables of commands are these, table by table."""
    lines, kept, inside = iter(made), [], False
    for line in text.splitlines():
        if line.startswith("| command | what it writes |"):
            inside = True
            kept += [line, "|---|---|", *next(lines, [])]
        elif not (inside and line.startswith("|")):
            inside = False
            kept.append(line)
    return "\n".join(kept) + "\n"


def documents():
    """Each document that has tables of commands, with what it is to be."""
    yield README, with_tables(text_of(f"{TOP}/{README}"), [of_readme()])
    yield MANUAL, with_tables(text_of(f"{TOP}/{MANUAL}"), map(of_manual, PROGRAMS))


def write():
    for path, text in documents():
        if text != text_of(f"{TOP}/{path}"):
            with open(f"{TOP}/{path}", "w", encoding="utf-8") as file:
                file.write(text)
            print(f"wrote {path}")


def is_told(command, manual):
    """Whether the manual says something of a command outside its tables."""
    prose = "\n".join(it for it in manual.splitlines() if not it.startswith("|"))
    return re.search(rf"`{command.name}\b|{command.program} {command.name}\b", prose)


def lacks(command):
    """What a command lacks: a line, a section, a plain reader, and a worked call."""
    program, name = command.program, command.name
    if not command.line:
        yield f"{PROGRAMS[program]}: no line says what the command `{name}` writes"
    if not is_told(command, text_of(f"{TOP}/{MANUAL}")):
        yield f"{MANUAL}: no section says something of the command `{name}` of {program}"
    syndex, _, lab = text_of(f"{TOP}/{READER}").partition("class Lab")
    if not re.search(rf"\ba_{name}\b( =|\()", lab if program == "syndex_lab" else syndex):
        yield f"{READER}: no plain reader of the command `{name}` of {program}"
    if not re.search(rf"^\$ {program} {name}\b", text_of(f"{TOP}/{WORKED}"), re.M):
        yield f"{WORKED}: no call of the command `{name}` of {program}"


def faults():
    """Documents that are not made of the tables of commands, and what a command lacks."""
    for path, text in documents():
        if text != text_of(f"{TOP}/{path}"):
            yield f"{path}: its commands are not those of the tables; `tools/commands.py write` makes them"
    for it in [it for program in PROGRAMS for it in commands(program)]:
        yield from lacks(it)
        for option in set(it.options()) - set(OPTIONS):
            yield f"{PROGRAMS[it.program]}: tools/commands.py does not say what the option {option} is for"


def options():
    words = parser(__doc__)
    what = [*PROGRAMS, "write"]
    words.add_argument("program", nargs="?", default="syndex", choices=what, help="the program, syndex if left out; or write")
    return words.parse_args()


def main():
    program = options().program
    if program == "write":
        write()
    else:
        print_commands(program)
    return 0


if __name__ == "__main__":
    run(main)
