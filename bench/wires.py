#!/usr/bin/env python3
"""Times `syndex check`, `flat` and `sim` over texts of many units that stand for no operation: repetitions in one another,
graphs of 64 references each round a wire, and 2,048 operations among four million of them. Such a unit is wiring, so that
each call should take at most a second and 300 MB; a line that is above says so."""
import os
import subprocess
import tempfile
import time

from program import SYNDEX, built_program, run, take_no_words, written

SECONDS, MEGABYTES = 1.0, 300
SENSED = ["s0.0", "s1.0"]


def lines(text, numbers):
    """This line for each of the numbers, with the number in the place of `%`."""
    return "".join(text.replace("%", str(number)) + "\n" for number in numbers)


def ports(count):
    """The lines of a graph's ports, `x0` and so on to `y0` and so on."""
    return lines("in x% 1", range(count)) + lines("out y% 1", range(count))


def wire(count):
    """A graph without references whose outputs give its inputs in another order."""
    edges = "".join(f"edge x{(5 * port + 3) % count} y{port}\n" for port in range(count))
    return f"graph G0\n{ports(count)}{edges}end\n"


def chain(name, inner, count):
    """A graph of 64 references to another, each after the one before."""
    edges = "".join(f"edge x{port} r0.x{port}\nedge r63.y{port} y{port}\n" for port in range(count))
    for use in range(63):
        edges += "".join(f"edge r{use}.y{port} r{use + 1}.x{port}\n" for port in range(count))
    return f"graph {name}\n{ports(count)}{lines(f'ref r% {inner}', range(64))}{edges}end\n"


def levels(depth, count):
    """Wires in graphs of this depth, of which the last is called G and the depth less one."""
    return wire(count) + "".join(chain(f"G{level}", f"G{level - 1}", count) for level in range(1, depth))


def used(name, count, mark=""):
    """A main graph that refers to a definition of ports as above: one sensor feeds the first, another all others."""
    refs = f"ref s0 S\nref s1 S\nref g {name}{mark}\nref t T\n"
    edges = f"edge s0.o g.x0\n{lines('edge s1.o g.x%', range(1, count))}edge g.y0 t.i\n"
    return f"graph main\n{refs}{edges}end\n"


def head(version=1):
    return f"algorithm {version}\nsensor S 1\nactuator T 1\n"


def repeated():
    """Three repetitions of 64 copies in one another."""
    parts = [head(), wire(1)]
    for level in range(1, 4):
        parts.append(f"repeat R{level} 64 {'G0' if level == 1 else f'R{level - 1}'}\niterate x0 x0 y0 y0\nend\n")
    return "".join(parts) + used("R3", 1)


def in_a_case():
    """A switch whose one case is such a graph, and whose other is a wire."""
    choice = "switch Choice\non k\nin x0 1\nout y0 1\ncase 1 G5\notherwise G0\nend\n"
    inner = "ref k S\nref s0 S\nref g Choice\nref t0 T\nedge k.o g.k\nedge s0.o g.x0\nedge g.y0 t0.i\n"
    return f"{head()}{levels(6, 1)}{choice}graph main\n{inner}end\n"


def in_copies():
    """64 copies of such a graph with one operation after it."""
    add = "function Add\nin x 1\nout y 1 = add(x[0],1)\nend\n"
    step = "graph Step\nin x0 1\nout y0 1\nref g G4\nref a Add\nedge x0 g.x0\nedge g.y0 a.x\nedge a.y y0\nend\n"
    return f"{head()}{levels(5, 1)}{add}{step}repeat Steps 64 Step\niterate x0 x0 y0 y0\nend\n{used('Steps', 1)}"


def among():
    """2,048 operations, of which 2,046 stand beside 31 graphs of 64 references each."""
    many = f"graph Many\nin x 1\nout y 1\n{lines('ref p% G0', range(64))}{lines('edge x p%.x0', range(64))}edge p0.y0 y\nend\n"
    add = "function Add\nin x 1\nout y 1 = add(x[0],1)\nend\n"
    use = f"graph Use\nin x 1\nout y 1\nref a Add\n{lines('ref m% Many', range(31))}edge m30.y a.x\n"
    use += f"{lines('edge x m%.x', range(31))}edge a.y y\nend\n"
    row = f"graph Row\nin x 1\nout y 1\n{lines('ref u% Use', range(33))}{lines('edge x u%.x', range(33))}edge u32.y y\nend\n"
    refs = f"ref s S\n{lines('ref r% Row', range(62))}ref t T\n{lines('edge s.o r%.x', range(62))}edge r61.y t.i\n"
    return f"{head()}{wire(1)}{many}{add}{use}{row}graph main\n{refs}end\n"


TEXTS = {
    "three repetitions of 64 copies": (repeated(), SENSED),
    "64 references each, eight deep": (head() + levels(7, 1) + used("G6", 1), SENSED),
    "the same with 64 ports that cross over": (head() + levels(7, 64) + used("G6", 64), SENSED),
    "the same in every second reaction": (head(3) + levels(7, 1) + used("G6", 1, " every 2"), SENSED),
    "the same in a case": (in_a_case(), ["k.0", "s0.0"]),
    "the same in copies with an operation": (in_copies(), SENSED),
    "2,048 operations among 4 million": (among(), ["s.0"]),
}


def timed(words):
    """The status of a call, its seconds, and the megabytes that it had at most."""
    start = time.monotonic()
    with subprocess.Popen([SYNDEX, *words], stdout=subprocess.DEVNULL, stderr=subprocess.DEVNULL) as call:
        _, status, usage = os.wait4(call.pid, 0)
        call.returncode = os.waitstatus_to_exitcode(status)
    return call.returncode, time.monotonic() - start, usage.ru_maxrss / 1024


def main():
    take_no_words(__doc__)
    built_program()
    with tempfile.TemporaryDirectory() as room:
        for kind, (text, columns) in TEXTS.items():
            name = written(room, "text", text)
            rows = "".join(f"{row},{','.join(str(row + at) for at in range(len(columns)))}\n" for row in range(3))
            table = written(room, "table", f"k,{','.join(columns)}\n{rows}")
            told = []
            for words in (["check", name], ["flat", name], ["sim", name, table]):
                status, seconds, size = timed(words)
                above = " ABOVE" if seconds > SECONDS or size > MEGABYTES else ""
                told.append(f"{words[0]} {seconds:.3f} s {size:.0f} MB status {status}{above}")
            print(f"{kind}: {', '.join(told)}", flush=True)


if __name__ == "__main__":
    run(main)
