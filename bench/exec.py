#!/usr/bin/env python3
"""Times how `syndex exec` reads and checks macro-code, beside a plain reader (`bench/plain/read_code.c`, built here by `cc -O2`).

`exec` reads the algorithm and the architecture, flattens, reads the macro-code, checks its program, and then reads the sensors. So

- a text that is refused at its first line takes the time of all that comes before;
- one that is refused at its last line takes that and the time of reading it;
- a right one, where there is no file of sensors, takes that and the time of the check.

Reading is the second less the first, the check the third less the second. For the plain reader reading is likewise the second less the
first; it has to refuse the same lines. Prints the ratio of reading to the plain reader's, and that of the check to reading: for the
macro-code of 2,048 operations on 16 operators, and for texts of 1, 4 and 16 MiB, which are its lines again and again and are only read.
The time of the whole is told beside that of `flat`. Times are those of the processor, the least of several runs."""
import os
import re
import resource
import subprocess
import tempfile

import chart
from program import PLAIN, SYNDEX, built_program, compiled, need_command, parser, run, written
from run import load
from shapes import lanes, operators_for

RUNS, SHORT = 5, 120
MIB = 1024 * 1024
WRONG = "nothing_\n"
SHAPES = {
    "lanes at a bus": (lanes(15), operators_for(16)),
    "lanes in a ring": (lanes(15), operators_for(16, True)),
    "functions that read one sensor, at a bus": (chart.readers_of_one(2_048), chart.architecture(16, False)),
    "functions of 64 inputs, at a bus": (chart.readers_of_sixty_four(2_048), chart.architecture(16, False)),
}


def seconds(words, runs):
    """The least processor time of this many runs, with the status and the line of the last."""
    best = float("inf")
    for _ in range(runs):
        before = resource.getrusage(resource.RUSAGE_CHILDREN)
        done = subprocess.run(words, stdin=subprocess.DEVNULL, stdout=subprocess.DEVNULL, stderr=subprocess.PIPE)
        after = resource.getrusage(resource.RUSAGE_CHILDREN)
        best = min(best, after.ru_utime - before.ru_utime + after.ru_stime - before.ru_stime)
    return best, done.returncode, done.stderr.decode()


def instructions(words):
    """How many instructions a run makes."""
    with tempfile.NamedTemporaryFile() as profile:
        words = ["valgrind", "--tool=callgrind", f"--callgrind-out-file={profile.name}", *words]
        how = {"stdin": subprocess.DEVNULL, "stdout": subprocess.DEVNULL, "stderr": subprocess.PIPE}
        said = subprocess.run(words, check=False, text=True, **how).stderr
    return int(re.search(r"Collected : (\d+)", said)[1])


class Reading:
    """The plain reader, and the texts of one algorithm."""

    def __init__(self, room):
        self.room, self.plain = room, compiled(room, os.path.join(PLAIN, "read_code.c"))
        self.first = written(room, "first", WRONG)

    def take(self, algorithm, archi):
        self.files = [written(self.room, "a", algorithm), written(self.room, "h", archi)]
        return subprocess.run([SYNDEX, "code", *self.files], check=True, stdout=subprocess.PIPE).stdout.decode("ascii")

    def exec_of(self, code, runs):
        return seconds([SYNDEX, "exec", *self.files, code, os.path.join(self.room, "absent")], runs)

    def read(self, text, runs):
        """The times of reading a text, by the program and by the plain reader."""
        last = written(self.room, "last", text + WRONG)
        before, _, _ = self.exec_of(self.first, runs)
        whole, status, line = self.exec_of(last, runs)
        plain_before, _, _ = seconds([self.plain, *self.files, self.first], runs)
        plain_whole, plain_status, plain_line = seconds([self.plain, *self.files, last], runs)
        assert (status, line) == (plain_status, plain_line), f"{status} {line} but the plain reader {plain_status} {plain_line}"
        assert status == 11, line
        return whole - before, plain_whole - plain_before, whole

    def counted(self, what, text):
        """The instructions of reading."""
        last, absent = written(self.room, "last", text + WRONG), os.path.join(self.room, "absent")
        ours, plain = [SYNDEX, "exec", *self.files], [self.plain, *self.files]
        read = instructions([*ours, last, absent]) - instructions([*ours, self.first, absent])
        other = instructions([*plain, last]) - instructions([*plain, self.first])
        print(f"{what}, {len(text)} bytes: read by {read:,} instructions, {read / other:.2f} times the plain reader's {other:,}", flush=True)

    def told(self, what, text):
        """Reading and checking of a right text."""
        read, plain, before = self.read(text, SHORT)
        whole, status, line = self.exec_of(written(self.room, "right", text), SHORT)
        assert (status, line) == (3, "cannot read sensors\n"), line
        flat, _, _ = seconds([SYNDEX, "flat", self.files[0]], SHORT)
        print(
            f"{what}, {len(text)} bytes: read in {read * 1e3:.2f} ms, {read / plain:.2f} times the plain reader's {plain * 1e3:.2f} ms;"
            f" checked in {(whole - before) * 1e3:.2f} ms, {(whole - before) / read:.2f} times the reading;"
            f" the whole {whole * 1e3:.2f} ms, {whole / flat:.2f} times that of `flat`",
            flush=True,
        )

    def told_growth(self, what, text):
        """Reading of long texts, of the lines inside the loop of the first main part of this one."""
        end = text.index("endloop_\n", text.index("\nmain_\n"))
        inside, before = text[text.rindex("loop_\n", 0, end) + len("loop_\n") : end], None
        for mib in (1, 4, 16):
            copies = (mib * MIB - end - len(WRONG)) // len(inside)
            long = text[:end] + inside * copies
            read, plain, _ = self.read(long, RUNS)
            growth = "" if before is None else f", {read / before:.2f} times the line before"
            print(f"{what}, {len(long)} bytes: read in {read:.3f} s, {read / plain:.2f} times the plain reader's {plain:.3f} s{growth}", flush=True)
            before = read


def options():
    words = parser(__doc__)
    instructions = "count the instructions of reading in place of its time, by valgrind: the same on a loaded machine"
    words.add_argument("instructions", nargs="?", choices=["instructions"], help=instructions)
    return words.parse_args()


def main():
    given = options()
    built_program()
    if given.instructions:
        need_command("valgrind", "it")
    print(load())
    with tempfile.TemporaryDirectory() as room:
        reading = Reading(room)
        for what, (algorithm, archi) in SHAPES.items():
            text = reading.take(algorithm, archi)
            if given.instructions:
                reading.counted(what, text)
                continue
            reading.told(what, text)
            reading.told_growth(f"{what}, the lines of a loop again and again", text)
    print(load())


if __name__ == "__main__":
    run(main)
