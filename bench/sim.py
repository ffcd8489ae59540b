#!/usr/bin/env python3
"""Times `syndex sim` beside a plain program (`bench/plain/sim.c`, built here by `cc -O2`) that does the same, and prints the
ratios of the times, so that they show on a noisy machine:

- 2,048 operations, a chain of functions in graphs, over 10,000 reactions, with references declared in the order of the
  chain and in reverse;
- 64 functions of 64 elements each over 10,000 reactions;
- values that pass through graphs and repetitions which hold next to no operation, over 100 reactions, with the memory that each
  command takes;
- growing sensor tables of the largest simple algorithm that the bound on the output allows, where each line also has its
  ratio to the line before.

Times are those of the processor, the least of several runs."""
import os
import resource
import subprocess
import tempfile

from flat import algorithm as chain
from program import PLAIN, SYNDEX, built_program, compiled, run, take_no_words, written
from shapes import table
from shapes_sim import SHAPES

RUNS, LENGTH, REFERENCES = 5, 64, 3
REACTIONS = [100, 1_000, 10_000]


def wires():
    """Sensors that are joined to actuators."""
    lines = ["algorithm 1", f"sensor Sense {LENGTH}", f"actuator Act {LENGTH}", "graph main"]
    lines += [f"ref s{i} Sense" for i in range(REFERENCES)]
    lines += [f"ref a{i} Act" for i in range(REFERENCES)]
    lines += [f"edge s{i}.o a{i}.i" for i in range(REFERENCES)]
    return "\n".join(lines + ["end", ""])


def vectors():
    """A chain of functions over vectors of 64 elements, and the first element of the last."""
    lines = ["algorithm 1", "sensor S 1", "actuator A 1"]
    lines += ["function Spread", "in x 1", f"out y {LENGTH} = add(x[0],j)", "end"]
    lines += ["function Mix", f"in x {LENGTH}", f"out y {LENGTH} = sub(mul(3,x[j]),x[sub(63,j)])", "end"]
    lines += ["function First", f"in x {LENGTH}", "out y 1 = x[0]", "end"]
    lines += ["graph main", "ref s S", "ref f Spread", "ref l First", "ref a A"]
    lines += [f"ref m{i} Mix" for i in range(60)]
    lines += ["edge s.o f.x", "edge f.y m0.x"] + [f"edge m{i}.y m{i + 1}.x" for i in range(59)]
    return "\n".join(lines + ["edge m59.y l.x", "edge l.y a.i", "end", ""])


def seconds(words):
    """The least processor time of several runs, and what they wrote."""
    best, said = None, None
    for _ in range(RUNS):
        before = resource.getrusage(resource.RUSAGE_CHILDREN)
        said = subprocess.run(words, check=True, stdout=subprocess.PIPE).stdout
        after = resource.getrusage(resource.RUSAGE_CHILDREN)
        took = after.ru_utime - before.ru_utime + after.ru_stime - before.ru_stime
        best = took if best is None else min(best, took)
    return best, said


def told(what, plain, files, before=None):
    took, said = seconds([SYNDEX, "sim", *files])
    other, same = seconds([plain, *files])
    assert said == same, "the plain program says something else"
    ratio = "" if before is None else f", {took / before:.2f} times the line before"
    print(f"{what}: {took:.3f} s, {took / other:.2f} times the plain program's {other:.3f} s{ratio}")
    return took


def peak(words):
    """The most memory that a command takes, in MB."""
    child = subprocess.Popen(words, stdout=subprocess.DEVNULL)
    _, status, usage = os.wait4(child.pid, 0)
    assert status == 0, words
    return usage.ru_maxrss / 1024


def passing(room):
    """Texts of many ports on few operations: nothing of a reaction may be in proportion to the ports."""
    for what, (make, columns) in SHAPES.items():
        text = written(room, "passing.txt", make())
        rows = written(room, "passing.csv", table(columns, 100))
        for words in [["check", text], ["flat", text], ["sim", text, rows]]:
            took, _ = seconds([SYNDEX, *words])
            print(f"{what}, {words[0]}: {took:.3f} s, {peak([SYNDEX, *words]):.0f} MB")


def main():
    take_no_words(__doc__)
    built_program()
    with tempfile.TemporaryDirectory() as room:
        plain = compiled(room, os.path.join(PLAIN, "sim.c"))
        passing(room)
        rows = written(room, "one.csv", table(["s.0"], REACTIONS[-1]))
        for backwards in [False, True]:
            text = written(room, "chain.txt", chain(2_048, backwards))
            order = "in reverse" if backwards else "in order"
            told(f"2,048 operations {order}, {REACTIONS[-1]} reactions", plain, [text, rows])
        text = written(room, "vectors.txt", vectors())
        told(f"62 functions of {LENGTH} elements, {REACTIONS[-1]} reactions", plain, [text, rows])
        text = written(room, "wires.txt", wires())
        names, before = [f"s{i}.{j}" for i in range(REFERENCES) for j in range(LENGTH)], None
        for reactions in REACTIONS:
            rows = written(room, "wide.csv", table(names, reactions))
            before = told(f"{REFERENCES * LENGTH} elements through, {reactions} reactions", plain, [text, rows], before)


if __name__ == "__main__":
    run(main)
