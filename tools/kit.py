#!/usr/bin/env python3
"""A contributor's `rt`, for work in a clone in which the gate has run: `rt WORDS ..` with four calls of it
changed while it runs. Neither the gate nor `./build` calls it.

What it changes: the quick pass over all sources before the first proof is left out, which over many crates
that are not built takes a quarter of an hour and 15 GB; a crate beside which hardly another one can be proved
gets as many processors as rt gives a crate that is proved by itself, also under `all --jobs N`; the sum of a
crate's files and of all below it takes those of each crate once, not once for each path that leads there, of
which there are millions; and with --as-built the libraries of the repository are taken as they stand, whatever
their sources say now, for whoever has just built them by a run of the gate. What it says is no verdict: the
gate alone gives one.

If a call that is changed here is no longer as it was, it says so and runs nothing."""
import argparse
import importlib.machinery
import importlib.util
import inspect
import os
import shutil
import sys
import threading

from command_line import parser, run

# The calls of rt that are changed or made here, by their path, each with its parameters.
CALLS = {
    "main": ["words"],
    "rtlib.crates_below": ["top"],
    "rtlib.Crate.below": ["self"],
    "rtlib.Crate.front_end": ["self"],
    "rtlib.Crate.is_built": ["self"],
    "rtlib.Crate.build_rlib": ["self", "flags", "anew"],
    "rtlib.Crate.check": ["self", "flags"],
}
# What a call has to say in its code for the change to do what it is for.
SAID = {
    "rtlib.Crate.is_built": "os.path.isdir(self.rlib)",
    "rtlib.Crate.build_rlib": "self.is_built()",
    "rtlib.every": ".front_end()",
}


def rt():
    """The script `rt` that the shell would run."""
    path = os.path.realpath(shutil.which("rt") or sys.exit("there is no command rt: install the kit"))
    loader = importlib.machinery.SourceFileLoader("rt", path)
    made = importlib.util.module_from_spec(importlib.util.spec_from_loader("rt", loader))
    loader.exec_module(made)
    return made


# How a kit sums up the files of a crate and of all below it: once for each path that leads there, or once each.
STAMP = "rtlib.Crate.stamp"
STAMPS = {"each path": (["self"], "dep.stamp() for dep in self.deps"), "once": (["crate", "made"], "STAMPS")}


def member(module, path):
    """What stands at this path in a module, or None."""
    for name in path.split("."):
        module = getattr(module, name, None)
    return module


def shape_faults(module, name, calls, said):
    """What is not as the changes expect it, of calls with their parameters and of words in their code."""
    for path, wanted in calls.items():
        call = member(module, path)
        if not callable(call):
            yield f"{name} has no call {path}"
        elif (found := list(inspect.signature(call).parameters)) != wanted:
            yield f"{name}: {path} takes ({', '.join(found)}), and not ({', '.join(wanted)})"
    for path, words in said.items():
        call = member(module, path)
        if not callable(call):
            yield f"{name} has no call {path}"
        elif words not in inspect.getsource(call):
            yield f"{name}: {path} no longer says {words}"


def stamps_of(module):
    """Which of the ways of STAMPS a kit takes, or None where it is another one."""
    for way, (wanted, words) in STAMPS.items():
        if not list(shape_faults(module, "rt", {STAMP: wanted}, {STAMP: words})):
            return way
    return None


def faults():
    """What of rt is not as this script and tools/plant.py expect it."""
    if not shutil.which("rt"):
        yield "there is no command rt: install the kit"
        return
    module = rt()
    yield from shape_faults(module, "rt", CALLS, SAID)
    if stamps_of(module) is None:
        yield f"rt: {STAMP} is none of those that are known here"
    import plant

    yield from plant.faults()


def names_alone(crates):
    """The crates each of which stands above or below nearly all others."""
    below = {it.name: {other.name for other in it.below()} for it in crates}
    above = {name: [other for other in below if name in below[other]] for name in below}
    return {name for name in below if len(below[name]) + len(above[name]) >= 0.95 * (len(below) - 1)}


def once_each(usual):
    """A call over a crate and, by itself, over those below it, which asks each crate once in each
    outermost call."""
    known = threading.local()

    def call(crate):
        if hasattr(known, "told"):
            if crate.name not in known.told:
                known.told[crate.name] = usual(crate)
            return known.told[crate.name]
        known.told = {}
        try:
            return usual(crate)
        finally:
            del known.told

    return call


def change(crate, as_built):
    """Changes what all scripts change in the kit's class of crates."""
    if hasattr(crate, "stamp"):
        crate.stamp = once_each(crate.stamp)
    crate.front_end = lambda it: 0
    if as_built:
        crate.is_built = lambda it: os.path.isdir(it.rlib)


def with_flags(usual, flags_of):
    """A call of a crate whose flags are what this function makes of them."""
    return lambda it, flags, *more, **named: usual(it, flags_of(it, flags), *more, **named)


def options():
    words = parser(__doc__)
    as_built = "take the libraries of the repository as they are built, without a look at their sources"
    words.add_argument("--as-built", action="store_true", help=as_built)
    rest = "what rt is to do; without a word it prints its help"
    words.add_argument("words", nargs=argparse.REMAINDER, metavar="WORDS", help=rest)
    return words.parse_args()


def main():
    given = options()
    wrong = list(faults())
    if wrong:
        print(*wrong, sep="\n", file=sys.stderr)
        return 2
    words, made = given.words, rt()
    crate = made.rtlib.Crate
    change(crate, given.as_built)
    # Where all are proved, a crate that is proved alone anyway is not told to take one processor.
    alone = names_alone(made.rtlib.crates_below(os.getcwd())) if words[:1] == ["all"] else set()
    flags_of = lambda it, flags: [] if it.name in alone else flags
    for name in ("build_rlib", "check"):
        usual = getattr(crate, name, None)
        if usual:
            setattr(crate, name, with_flags(usual, flags_of))
    return made.main(words)


if __name__ == "__main__":
    run(main)
