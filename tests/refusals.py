#!/usr/bin/env python3
"""Compares how `syndex exec` and a plain reader (`bench/plain/read_code.c`, built here by `cc -O2`), which was written by itself, refuse
macro-code: the code of an example, with lines and bytes changed at random. Where the plain reader refuses a text both have to say
the same; where it takes one, `exec` has to come to a limit, to the check of the program, or to the sensors, which are not there.
Prints how often each cause came, and every text on which they differ; ends with status 1 if there is one."""
import collections
import os
import random
import subprocess
import sys
import tempfile

sys.path.append(os.path.join(os.path.dirname(os.path.dirname(os.path.realpath(__file__))), "bench"))
from program import PLAIN, built_program, compiled, parser, positive, run, written
from shapes import lanes, operators_for

BYTES = "(),;#_b \t\n0123456789-opaQ\x7f\x00é"
NUMBERS = ["-1", "-0", "0", "00", "1", "2", "3", "4", "5", "99", "9223372036854775807", "9223372036854775808", ""]
LINES = ["op f(;)", "op", "op f", "loop_", "endloop_", "main_", "endmain_", "endthread_", "thread_(m0)", "spawn_thread_(m0)", "wait_endthread_(m1)",
         "alloc_(b0,1)", "alloc_(b99,1,2)", "alloc_(b1,0)", "semaphores_()", "processor_(o0)", "processor_(o9)", "Suc0_(0)", "Pre1_(7)", "send_(b0,o1)",
         "recv_(b1,o0)", "sync_(o0,o1)", "sync_(o0)", "nothing_(1)", "", "# a comment", "loop_()", "Suc0_", "main_ main_", "a b c"]


def changed(lines, rng):
    """A text in which one to three things are changed."""
    lines = list(lines)
    for _ in range(rng.randint(1, 3)):
        k, kind = rng.randrange(len(lines)), rng.randrange(9)
        line = lines[k]
        if kind == 0:
            del lines[k]
        elif kind == 1:
            lines.insert(k, line)
        elif kind == 2:
            other = rng.randrange(len(lines))
            lines[k], lines[other] = lines[other], line
        elif kind == 3:
            lines.insert(k, rng.choice(LINES))
        elif kind == 4:
            lines[k] = rng.choice(LINES)
        elif kind == 5:
            del lines[k:]
        elif kind == 6:
            places = [i for i, c in enumerate(line) if c.isdigit()]
            if places:
                at = rng.choice(places)
                lines[k] = line[:at] + rng.choice(NUMBERS) + line[at + 1 :]
        else:
            at = rng.randint(0, len(line))
            lines[k] = line[:at] + rng.choice(BYTES) + line[at + (kind == 8) :]
        if not lines:
            break
    return "\n".join(lines) + rng.choice(["\n", ""])


def texts(code, count, rng):
    lines = code.split("\n")[:-1]
    return [code] + [changed(lines, rng) for _ in range(count - 1)]


def answer(words):
    done = subprocess.run(words, stdin=subprocess.DEVNULL, stdout=subprocess.DEVNULL, stderr=subprocess.PIPE)
    return done.returncode, done.stderr.decode("utf-8", "replace")


def agree(status, line, plain_status, plain_line):
    return (status, line) == (plain_status, plain_line) if plain_status else status in (3, 8, 12)


class Texts:
    """An algorithm on four operators in a ring, with buffers of two places, and its macro-code as the plain compiler writes it."""

    def __init__(self, room):
        self.room = room
        for name in ("code", "read_code"):
            compiled(room, os.path.join(PLAIN, f"{name}.c"))
        self.files = [written(room, "a", lanes(0)), written(room, "h", operators_for(4, True))]
        self.code = subprocess.run([os.path.join(room, "code"), "code", *self.files], check=True, stdout=subprocess.PIPE).stdout.decode("ascii")

    def read(self, text):
        with open(os.path.join(self.room, "c"), "wb") as it:
            it.write(text.encode("latin-1"))
        return answer([os.path.join(self.room, "read_code"), *self.files, os.path.join(self.room, "c")])

    def exec(self, program):
        return answer([program, "exec", *self.files, os.path.join(self.room, "c"), os.path.join(self.room, "absent")])


def compare(reading, all_texts, program):
    causes, wrong = collections.Counter(), 0
    for text in all_texts:
        plain_status, plain_line = reading.read(text)
        status, line = reading.exec(program)
        causes[" ".join(line.split()[3:5]) if status == 11 else line.split(" ")[0] + f" ({status})"] += 1
        if not agree(status, line, plain_status, plain_line):
            wrong += 1
            print(f"WRONG: {status} {line!r}, but the plain reader says {plain_status} {plain_line!r} of\n{text}")
    for cause, count in causes.most_common():
        print(f"{count} times {cause}")
    print(f"{wrong} of {len(all_texts)} differ")
    return 1 if wrong else 0


def options():
    words = parser(__doc__)
    words.add_argument("count", nargs="?", type=positive, default=2_000, metavar="COUNT", help="how many texts, 2000 if left out")
    words.add_argument("seed", nargs="?", type=int, default=1, metavar="SEED", help="the seed of their changes, 1 if left out")
    return words.parse_args()


def main():
    given, program = options(), built_program()
    with tempfile.TemporaryDirectory() as room:
        reading = Texts(room)
        return compare(reading, texts(reading.code, given.count, random.Random(given.seed)), program)


if __name__ == "__main__":
    run(main)
