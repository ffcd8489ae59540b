#!/usr/bin/env python3
"""Files that cannot be read at a place, as pipes: the program reads them on from where the last piece ended.

    tests/pipes.py [PROGRAM]   calls PROGRAM (./syndex at the top, where ./build makes it) with each of its files
                               through a pipe in turn, small and larger than a piece, and expects the output that
                               the same bytes give in a regular file; ends with status 1 where one differs"""
import argparse
import os
import subprocess
import sys
import tempfile
import threading

TOP = os.path.dirname(os.path.dirname(os.path.abspath(__file__)))
EXAMPLE = f"{TOP}/examples/echo"
# More bytes than the program asks for by one call, so that a pipe is read on.
COMMENT = b"# " + b"x" * 97 + b"\n"


def text_of(name, lines):
    """The text of a file of the example, with as many lines of comment more."""
    with open(f"{EXAMPLE}/{name}", "rb") as it:
        return it.read() + COMMENT * lines


def answer(words, **more):
    """What a call of the program answers: its status, output and error."""
    done = subprocess.run(words, stdout=subprocess.PIPE, stderr=subprocess.PIPE, check=False, timeout=60, **more)
    return done.returncode, done.stdout, done.stderr


def through_stdin(program, before, text, after):
    """One file through standard input, which is a pipe."""
    return answer([program, *before, "/dev/stdin", *after], input=text)


def through_fifo(program, before, text, after, folder):
    """One file through a pipe with a name, which a second process fills."""
    name = f"{folder}/fifo"
    os.mkfifo(name)

    def fill():
        with open(name, "wb") as it:
            it.write(text)

    thread = threading.Thread(target=fill)
    thread.start()
    try:
        return answer([program, *before, name, *after])
    finally:
        thread.join()
        os.remove(name)


def cases():
    """Each call: the words before the file that goes through a pipe, its text, and the words after it."""
    for lines in (0, 10, 10000):
        yield ["check"], text_of("algorithm.txt", lines), []
        yield ["check", f"{EXAMPLE}/algorithm.txt"], text_of("architecture.txt", lines), []
    with open(f"{EXAMPLE}/sensors.csv", "rb") as it:
        yield ["sim", f"{EXAMPLE}/algorithm.txt"], it.read(), []
    yield ["check"], b"", []


def wrong(program):
    """A line for each call that answers otherwise through a pipe than by a regular file."""
    with tempfile.TemporaryDirectory() as folder:
        for before, text, after in cases():
            name = f"{folder}/regular"
            with open(name, "wb") as it:
                it.write(text)
            wanted = answer([program, *before, name, *after])
            for how, got in (("standard input", through_stdin(program, before, text, after)),
                             ("a named pipe", through_fifo(program, before, text, after, folder))):
                if got != wanted:
                    yield f"{' '.join(before)} by {how}, {len(text)} bytes: {got[0]} for {wanted[0]}, {got[2]!r}"


def main():
    words = argparse.ArgumentParser(description=__doc__, formatter_class=argparse.RawDescriptionHelpFormatter)
    words.add_argument("program", nargs="?", default=f"{TOP}/syndex")
    program = os.path.abspath(words.parse_args().program)
    found = list(wrong(program))
    print(*found, sep="\n", end="\n" if found else "")
    print(f"{2 * sum(1 for _ in cases()) - len(found)} calls through pipes agree, {len(found)} do not")
    return 1 if found else 0


if __name__ == "__main__":
    sys.exit(main())
