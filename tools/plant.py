#!/usr/bin/env python3
"""A contributor's `rt plant`, with time for large crates. Neither the gate nor `./build` calls it. In a
crate's folder, `../../tools/plant.py WORDS ..` runs `rt plant WORDS ..` with other numbers: how many wrong
bodies are tried at once, and for how long.

rt gives a batch of forty bodies four minutes, and then halves it, so that of a crate whose functions
take minutes hardly a body is judged. Here a batch has twelve. What each body came to is told on
standard error at once, with the time since the start, so that a run which is cut off has still shown
something. The libraries below the crate have to stand built, as `tools/kit.py all check` leaves them:
rt plant knows nothing of what other checkouts built. With --as-built they are taken as they stand, as
a run of `.ci/run` over the same sources leaves them: these hold the statements and not the proofs of
what is below, so that a batch takes a fraction of the time."""
import argparse
import importlib.machinery
import os
import re
import sys
import time
import types

sys.dont_write_bytecode = True
sys.path.insert(0, os.path.dirname(os.path.abspath(__file__)))
import kit
from command_line import parser, positive, run

# What of rt-plant is changed or made here: calls with their parameters, and what their code has to say.
CALLS = {"main": ["words"], "read": ["plants", "said"], "Copy.judge": ["self", "plants"]}
SAID = {
    "Copy.judge": "at + BATCH",
    "Copy.check": "min(SECONDS",
    "Plant.__init__": "self.f, self.kind, self.why",
    "read": "it.kind, it.why",
}


def loaded():
    """The script `rt-plant` beside the `rt` that the shell would run."""
    path = os.path.join(os.path.dirname(os.path.realpath(kit.rt().__file__)), "rt-plant")
    made = types.ModuleType("rt_plant")
    made.__file__ = path
    importlib.machinery.SourceFileLoader("rt_plant", path).exec_module(made)
    return made


def faults():
    """What of rt-plant is not as this script expects it."""
    yield from kit.shape_faults(loaded(), "rt-plant", CALLS, SAID)


def shown(plant):
    """The function and the body, as a line of the log has them."""
    return f"{plant.f.shown}: {{ {plant.body} }}"


def judged(log):
    """What each body came to, by the lines of an earlier run."""
    found = {}
    with open(log, encoding="utf-8") as lines:
        for line in lines:
            told = re.fullmatch(r" *\d+ s  (\S+) +(.* \})(?:  \((.*)\))?\n", line)
            if told:
                found[told[2]] = told[1], told[3] or ""
    return found


def options():
    words = parser(__doc__)
    seconds = "how long a batch gets, 1500 if left out"
    words.add_argument("--seconds", type=positive, default=1500, metavar="N", help=seconds)
    log = "what an earlier run over the same sources wrote on standard error: what it judged is not tried again"
    words.add_argument("--log", help=log)
    words.add_argument("--as-built", action="store_true", help="take the libraries below as they are built")
    rest = "the words of rt plant, after -- if they begin with an option"
    words.add_argument("words", nargs=argparse.REMAINDER, metavar="WORDS", help=rest)
    return words.parse_args()


def main():
    given, made, begun = options(), loaded(), time.monotonic()
    kit.change(made.rt.Crate, given.as_built)
    made.SECONDS, made.BATCH = given.seconds, 12
    known = judged(given.log) if given.log else {}
    usual, judge = made.read, made.Copy.judge

    def what_is_left(copy, plants):
        for it in plants:
            it.kind, it.why = known.get(shown(it), (it.kind, it.why))
        judge(copy, [it for it in plants if shown(it) not in known])

    made.Copy.judge = what_is_left

    def read(plants, said):
        usual(plants, said)
        for it in plants:
            why = f"  ({it.why})" * bool(it.why)
            print(f"{time.monotonic() - begun:6.0f} s  {it.kind:<10}  {shown(it)}{why}", file=sys.stderr, flush=True)

    made.read = read
    words = given.words[1:] if given.words[:1] == ["--"] else given.words
    return made.main(*words)


if __name__ == "__main__":
    run(main)
