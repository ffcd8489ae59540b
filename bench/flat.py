#!/usr/bin/env python3
"""Times `syndex flat` over algorithms of 512, 1,024 and 2,048 operations, a chain of functions in graphs, and `syndex sim` of the
largest over 1,000 and 10,000 reactions; each with references declared in the order of the chain and in reverse. Then `syndex
flat` of a function with long expressions, used 64, 512 and 1,984 times, of 22,000 vertices that stand for 1,000 operations, and of
some 258,000 graphs of many ports that hold none.
Prints the seconds and the ratios, so that the growth shows on a noisy machine."""
import os
import subprocess
import tempfile
import time

import shapes
from program import SYNDEX, built_program, run, take_no_words

RUNS = 5
OPERATIONS = [512, 1_024, 2_048]
REACTIONS = [1_000, 10_000]


def chain(name, references, backwards):
    """A graph that leads its input through these references, one after another."""
    lines = [f"graph {name}", "in x 1", "out y 1"]
    refs = [f"ref r{i} {definition}" for i, definition in enumerate(references)]
    lines += reversed(refs) if backwards else refs
    ends = ["x"] + [f"r{i}.y" for i in range(len(references))]
    lines += [f"edge {ends[i]} r{i}.x" for i in range(len(references))]
    return lines + [f"edge {ends[-1]} y", "end"]


def algorithm(operations, backwards):
    """A sensor, functions in graphs of 64, what is left over in one graph more, and an actuator."""
    whole, rest = divmod(operations - 2, 64)
    lines = ["algorithm 1", "sensor S 1", "actuator A 1", "function F", "in x 1", "out y 1 = add(x[0],1)", "end"]
    lines += chain("G", ["F"] * 64, backwards)
    lines += chain("Rest", ["F"] * rest, backwards)
    lines += chain("All", ["G"] * whole + ["Rest"], backwards)
    lines += ["graph main"]
    refs = ["ref s S", "ref g All", "ref a A"]
    lines += reversed(refs) if backwards else refs
    return "\n".join(lines + ["edge s.o g.x", "edge g.y a.i", "end", ""])


def seconds(words):
    best = None
    for _ in range(RUNS):
        start = time.perf_counter()
        subprocess.run(words, check=True, stdout=subprocess.DEVNULL)
        took = time.perf_counter() - start
        best = took if best is None else min(best, took)
    return best


def told(what, took, before):
    ratio = "" if before is None else f", {took / before:.2f} times the line before"
    print(f"{what}: {took:.3f} s{ratio}")
    return took


def listed(text, content):
    """Writes the text of an algorithm, and times its listing."""
    with open(text, "w", encoding="ascii") as it:
        it.write(content)
    return seconds([SYNDEX, "flat", text])


def main():
    take_no_words(__doc__)
    built_program()
    with tempfile.TemporaryDirectory() as room:
        text, rows = os.path.join(room, "algorithm.txt"), os.path.join(room, "sensors.csv")
        for backwards in [False, True]:
            order = "in reverse" if backwards else "in order"
            before = None
            for operations in OPERATIONS:
                with open(text, "w", encoding="ascii") as it:
                    it.write(algorithm(operations, backwards))
                listing = subprocess.run([SYNDEX, "flat", text], check=True, capture_output=True).stdout
                assert listing.count(b"\n") == operations
                before = told(f"flat, {operations} operations {order}", seconds([SYNDEX, "flat", text]), before)
            before = None
            for reactions in REACTIONS:
                with open(rows, "w", encoding="ascii") as it:
                    it.write("k,s.0\n" + "".join(f"{k},{k}\n" for k in range(reactions)))
                before = told(f"sim, {reactions} reactions {order}", seconds([SYNDEX, "sim", text, rows]), before)

        before = None
        for uses in [1, 8, 31]:
            content = shapes.shared_body(uses)
            what = f"flat, a long function used {64 * uses} times in a text of {len(content)} bytes"
            before = told(what, listed(text, content), before)
        told("flat, 22,000 vertices and 1,000 operations", listed(text, shapes.passing(1_000)), None)
        for kind, made in shapes.PORTS.items():
            told(f"flat, {kind}", listed(text, made()), None)


if __name__ == "__main__":
    run(main)
