#!/usr/bin/env python3
"""Holds the transcript of `crates/worked_rows` against plain readers that were written from docs/MANUAL.md by
themselves (`plain/`): each call of both programs that they can answer has to be answered so in the transcript, and
each line of a sweep over spoilt texts has to have their counts and their digest. Of `run` they know what comes after
the macro-code, of `why` the first line, of `chart`, `trace`, `flat` and `report` of `syndex_lab` what follows from
the chart, if another row has it. It runs no program. Prints each call that differs, how many agree, and how many are
not compared, with the reason; ends with status 1 if one differs."""
import collections
import os
import re
import sys

from plain.commands import PROGRAMS, Commands, End, Unknown
from plain.dates import Decision
from plain.script import Script

TOP = os.path.dirname(os.path.dirname(os.path.realpath(__file__)))
sys.path.append(f"{TOP}/tools")
from command_line import parser, run

FOLDER = f"{TOP}/crates/worked_rows"
PLACED = [("plain", "across"), ("plain", "row.across"), ("functions", "bus"), ("first/algorithm.txt", "first/architecture.txt")]
# What may hold for a call without a difference for its answer.
HARMLESS = ("output", "has", "count", "gate", "shelf by bytes", "out takes", "err takes", "tell driven", "tell words")
# A line that says what an actuator takes, and the limits that are those of a program and not of a text.
TAKEN = re.compile(rb"\d+ \w+( -?\d+)+\n")
OF_PROGRAM = (b"limit words", b"limit steps", b"limit total")
Found = collections.namedtuple("Found", "status line output")
BYTES = [1, 10, ord("2"), ord("w"), ord("#")]
PRIME, FIRST, WHOLE = 1_099_511_628_211, 14_695_981_039_346_656_037, 2**64


def placed(flat):
    """The decisions on the speed controller, on two functions at a bus and on a value that goes over two media, each
    worked by hand."""
    names = flat.number
    if "d:get" in names and "w:y" in names:
        v, f = (names["v"], 0), (names["f"], 0)
        return [
            Decision("v", "P"), Decision("d:get", "Q"), Decision("h", "Q", ("can", v, "P", "Q")),
            Decision("f", "Q"), Decision("n", "Q"), Decision("d:set", "Q"), Decision("r", "P"),
            Decision("e", "P", ("can", f, "Q", "P")),
            *(Decision(name, "P") for name in ("k", "w.0", "w.1", "w.2", "w:y", "m")),
        ]
    s = (names["s"], 0)
    if "g" in names:
        return [Decision("s", "P"), Decision("f", "P"), Decision("g", "Q", ("bus", s, "P", "Q")), Decision("b", "Q"),
                Decision("a", "P")]
    return [Decision("s", "A"), Decision("a", "C", ("x", s, "A", "B"), ("y", s, "B", "C"))]


class Account:
    """How often each status was answered, and a digest of all answers: FNV-1a over status, line and output."""

    def __init__(self):
        self.counts, self.digest = {}, FIRST

    def add(self, status, line, output):
        self.counts[status] = self.counts.get(status, 0) + 1
        for byte in bytes([status]) + line + b"\0" + output + b"\0":
            self.digest = (self.digest ^ byte) * PRIME % WHOLE

    def text(self):
        counts = "".join(f" {self.counts[status]} x {status}," for status in sorted(self.counts))
        return f"{counts} digest {self.digest}\n"


def sweep(call):
    """The lines of a sweep over a file of this call: its cuts, and each other byte at each of its places."""
    name = call.said["spoilt"]
    whole = call.files[name]

    def account(texts):
        made, known = Account(), {}
        for text in texts:
            if text not in known:
                known[text] = Commands({**call.files, name: text}, placed).answer(call.words)
            made.add(*known[text])
        return made.text()

    lines = ["cut:" + account(whole[:length] for length in range(len(whole) + 1))]
    for byte in BYTES:
        texts = (whole[:at] + bytes([byte]) + whole[at + 1 :] for at in range(len(whole)))
        lines.append(f"byte {byte}:" + account(texts))
    return "".join(lines).encode()


def found(call, transcript, at):
    """What the transcript has from this place on of a call: its status, its line and its output."""
    output, line = b"", b""
    while not transcript.startswith(b"= ", at):
        end = transcript.index(b"\n", at) + 1
        if transcript.startswith(b"! ", at):
            line = transcript[at + 2 : end]
        else:
            output += transcript[at:end]
        at = end
    output = output[:-3] if output.endswith(b"\\c\n") else output
    name = call.said.get("output")
    if name is not None and output == f"({name})\n".encode():
        output = call.files[name]
    return Found(int(transcript[at + 2 : transcript.index(b"\n", at)]), line, output)


def has_lines(call, output):
    """Whether the lines of a file, of which the transcript says that they are in the output, are in the one that the
    readers know: of macro-code they know nothing."""
    wanted = re.findall(rb"[^\n]*\n", call.files[call.said["has"]])
    if isinstance(output, End):
        wanted = [it for it in wanted if TAKEN.fullmatch(it)]
    lines = iter(re.findall(rb"[^\n]*\n", getattr(output, "text", output)))
    return all(it in lines for it in wanted)


def agrees(call, known, seen):
    """Whether the readers know the answer as the transcript has it."""
    if known[:2] != (seen.status, seen.line):
        return False
    if "has" in call.said and seen.output == f"(has {call.said['has']})\n".encode():
        return has_lines(call, known[2])
    return known[2] == seen.output


def program_of(call):
    """The program that a row calls: any name but two is that of `syndex`."""
    name = (call.shown.split() or ["syndex"])[0]
    if name == "syndex_plain":
        raise Unknown("calls that are no command")
    return PROGRAMS.get(name, Commands)


def conditions(call):
    for word, rest in call.said.items():
        yield f"{word} {rest}" if word in ("shelf", "out", "err", "tell") else word


def known_answer(call, seen, charts):
    """What the readers know of a call."""
    program = program_of(call)
    if not all(it.startswith(HARMLESS) for it in conditions(call)):
        raise Unknown("calls of the outside that fail, and what is kept or counted")
    if seen.status == 9:
        raise Unknown("want of memory")
    places = tuple(call.words[1:3]) in PLACED
    known = program(call.files, placed if places else None, charts).answer(call.words)
    if seen.status == 8 and seen.line.startswith(OF_PROGRAM) and isinstance(known[2], End):
        raise Unknown("the size of a program")
    return known


class Rows:
    """The calls of the script with what the transcript has of them."""

    def __init__(self):
        self.script, self.rows, at = Script(FOLDER), [], 0
        with open(f"{FOLDER}/stdout", "rb") as it:
            self.transcript = it.read()
        for call in self.script.calls:
            head = f"$ {call.shown}\n".encode("latin-1")
            at = self.transcript.index(head, at) + len(head)
            self.rows.append((call, at))

    def sweeps(self):
        return [(call, at) for call, at in self.rows if "spoilt" in call.said]

    def plain(self):
        """The calls whose answer is one status, with it."""
        many = {"spoilt", "cuts", "faults"}
        return [(call, found(call, self.transcript, at)) for call, at in self.rows if not many & set(call.said)]

    def charts(self):
        """What `syndex chart` writes in the transcript, by both texts."""
        made = {}
        for call, seen in self.plain():
            if call.shown.startswith("syndex chart") and seen.status == 0 and len(call.words) == 3:
                made[tuple(call.files.get(it) for it in call.words[1:])] = seen.output
        return made


def compare_calls(rows):
    """How many calls agree and differ, and why the others are not compared."""
    alike, wrong, left, charts = 0, 0, collections.Counter(), rows.charts()
    for call, seen in rows.plain():
        try:
            known = known_answer(call, seen, charts)
        except Unknown as why:
            left[" ".join(call.shown.split()[:2]), str(why)] += 1
            continue
        if agrees(call, known, seen):
            alike += 1
        else:
            wrong += 1
            print(f"WRONG: {call.shown}: the readers say\n{known}\nand the transcript\n{tuple(seen)}", flush=True)
    return alike, wrong, left


def compare_sweeps(rows):
    """How many sweeps agree and differ."""
    alike = wrong = 0
    for call, at in rows.sweeps():
        wanted = sweep(call)
        if rows.transcript.startswith(wanted, at):
            alike += 1
        else:
            wrong += 1
            print(f"WRONG: {call.shown}: the readers say\n{wanted.decode('latin-1')}", flush=True)
    return alike, wrong


def print_sweeps(rows):
    """Prints what the transcript has to have of each sweep."""
    for call, _ in rows.sweeps():
        print(f"$ {call.shown}\n{sweep(call).decode()}", end="", flush=True)
    return 0


def options():
    words = parser(__doc__)
    sweeps = "only print what the transcript has to have of each sweep over spoilt texts"
    words.add_argument("sweeps", nargs="?", choices=["sweeps"], help=sweeps)
    return words.parse_args()


def main():
    given, rows = options(), Rows()
    if given.sweeps:
        return print_sweeps(rows)
    alike, wrong, left = compare_calls(rows)
    swept, spoilt = compare_sweeps(rows)
    for (command, why), count in sorted(left.items()):
        print(f"not compared: {count} of `{command}`: {why}")
    print(f"{left.total()} calls are not compared")
    print(f"{alike} calls and {swept} sweeps agree, {wrong} calls and {spoilt} sweeps do not")
    return 1 if wrong or spoilt else 0


if __name__ == "__main__":
    run(main)
