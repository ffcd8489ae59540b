#!/usr/bin/env python3
"""Compares the built program with the plain readers of `plain/` over texts that are spoilt at random, of each of
the five kinds: an algorithm by `check`, an architecture by `check`, macro-code by `exec`, a table by `sim`,
durations by `dates`. The status, the line and the output have to be the same. Prints how often each cause
came, and every text on which both differ; ends with status 1 if there is one."""
import collections
import os
import random
import re
import subprocess
import sys
import tempfile

from plain.commands import Commands
from plain.script import Script
from rows import FOLDER, placed

sys.path.append(os.path.join(os.path.dirname(os.path.dirname(os.path.realpath(__file__))), "tools"))
from command_line import built_program, parser, positive, run

BYTES = b"(),;#_b.= \t\r\n0123456789-opaQj[]\"\x01\x7f\x00\xe9"
NUMBERS = b"-1 -0 0 00 1 2 3 16 17 64 65 9223372036854775807 9223372036854775808".split() + [b""]
SPEED = "speed_controller/"
# The words of a command, and the place in them of the file that is spoilt.
KINDS = {
    "algorithm": [("check blocks", 1), (f"check {SPEED}algorithm.txt", 1)],
    "architecture": [("check plain wired", 2), (f"check {SPEED}algorithm.txt {SPEED}architecture.txt", 2)],
    "macro-code": [(f"exec {SPEED}algorithm.txt {SPEED}architecture.txt {SPEED}code.txt {SPEED}sensors.csv", 3)],
    "table": [("sim couple quoted", 2), (f"sim {SPEED}algorithm.txt {SPEED}sensors.csv", 2)],
    "durations": [(f"dates {SPEED}algorithm.txt {SPEED}architecture.txt {SPEED}architecture.txt 3", 3)],
}


def changed(text, rng):
    """The text with one to three things changed: lines, words, numbers and bytes."""
    lines = text.split(b"\n")
    for _ in range(rng.randint(1, 3)):
        at, kind = rng.randrange(len(lines)), rng.randrange(9)
        line = lines[at]
        words = re.findall(rb"[A-Za-z_0-9]+", line)
        if kind == 0 and len(lines) > 1:
            del lines[at]
        elif kind == 1:
            lines.insert(at, rng.choice(lines))
        elif kind == 2:
            other = rng.randrange(len(lines))
            lines[at], lines[other] = lines[other], line
        elif kind == 3 and at:
            del lines[at:]
        elif kind == 4 and words:
            old, new = rng.choice(words), rng.choice(re.findall(rb"[A-Za-z_0-9]+", text) or [b"x"])
            lines[at] = line.replace(old, new, 1)
        elif kind == 5:
            numbers = list(re.finditer(rb"-?[0-9]+", line))
            if numbers:
                it = rng.choice(numbers)
                lines[at] = line[: it.start()] + rng.choice(NUMBERS) + line[it.end() :]
        else:
            place = rng.randint(0, len(line))
            lines[at] = line[:place] + bytes([rng.choice(BYTES)]) + line[place + kind % 2 :]
    return b"\n".join(lines)


class Program:
    """The built program over files of a folder."""

    def __init__(self, room, program):
        self.program, self.room = program, room

    def answer(self, words, files):
        name, *rest = words
        given = [name]
        for place, word in enumerate(rest):
            if word in files:
                with open(f"{self.room}/{place}", "wb") as it:
                    it.write(files[word])
                word = f"{self.room}/{place}"
            given.append(word)
        done = subprocess.run([self.program, *given], stdin=subprocess.DEVNULL, capture_output=True, check=False)
        return done.returncode, done.stderr, done.stdout


def cause(status, line):
    words = line.decode("latin-1").split()
    return f"{status} {' '.join(words[:2])}" if status == 8 else f"{status} {' '.join(words[:1] + words[3:5])}"


def compare(program, files, kind, count, rng):
    """How many texts of a kind are answered otherwise by the program and by the readers."""
    causes, wrong = collections.Counter(), 0
    for number in range(count):
        called, place = KINDS[kind][number % len(KINDS[kind])]
        words = called.split()
        spoilt = changed(files[words[place]], rng)
        held = {**files, "spoilt": spoilt}
        words[place] = "spoilt"
        wanted, got = Commands(held, placed).answer(words), program.answer(words, held)
        causes[cause(*wanted[:2])] += 1
        if wanted != got:
            wrong += 1
            print(f"WRONG: {called}: the program says {got}, the readers {wanted} of\n{spoilt!r}", flush=True)
    told = ", ".join(f"{number} x {it}" for it, number in causes.most_common())
    print(f"{kind}: {wrong} of {count} differ; {told}", flush=True)
    return wrong


def options():
    words = parser(__doc__)
    count = "how many texts of each kind, 10000 if left out"
    words.add_argument("count", nargs="?", type=positive, default=10_000, metavar="COUNT", help=count)
    words.add_argument("seed", nargs="?", type=int, default=1, metavar="SEED", help="the seed of their changes, 1 if left out")
    program = "the program, the one that ./build makes if left out"
    words.add_argument("program", nargs="?", metavar="PROGRAM", help=program)
    return words.parse_args()


def main():
    given = options()
    built, files = built_program(named=given.program), Script(FOLDER).files
    with tempfile.TemporaryDirectory() as room:
        program = Program(room, built)
        wrong = [compare(program, files, kind, given.count, random.Random(given.seed)) for kind in KINDS]
    return 1 if sum(wrong) else 0


if __name__ == "__main__":
    run(main)
