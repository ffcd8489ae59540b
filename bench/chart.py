#!/usr/bin/env python3
"""Times `syndex chart`, or `syndex code`, over 512, 1,024 and 2,048 operations on 1, 4 and 16
operators: a chain of functions, functions that all read one sensor, and functions that all read the same 32 values at 64
inputs. The operators stand in a ring or at one bus. Then over four texts most of whose operations have something carried for them,
on 16 operators, and `code` over one that has too many transfers and is refused. A plain program (`bench/plain/code.c`, built here by `cc -O2`) does the
same, and has to write the same bytes where `syndex` meets no limit. Prints the status, the seconds of the processor, the
ratio to the plain program's, and the ratio to those of half as many operations."""
import os
import resource
import subprocess
import tempfile

from program import PLAIN, SYNDEX, built_program, compiled, parser, run, written
from shapes import all_across, carrying

SIZES = (512, 1024, 2048)
OPERATORS = (1, 4, 16)
HEAD = "algorithm 1\nsensor Sense 1\n"
ONE = "function F\nin x 1\nout y 1 = add(x[0],1)\nend\n"


def many_inputs():
    ports = "".join(f"in x{k} 1\n" for k in range(64))
    return f"function F\n{ports}out y 1 = x0[0]\nend\n"


def chain_of_graphs(operations):
    """One sensor, and graphs of 63 functions, each of which reads the one before."""
    graphs, left = [], operations - 1
    while left > 0:
        count = min(63, left)
        refs = "".join(f"ref f{k} F\n" for k in range(count))
        edges = "edge x f0.x\n" + "".join(f"edge f{k}.y f{k + 1}.x\n" for k in range(count - 1))
        graphs.append(f"graph G{len(graphs)}\nin x 1\nout y 1\n{refs}{edges}edge f{count - 1}.y y\nend\n")
        left -= count
    refs = "ref s Sense\n" + "".join(f"ref g{k} G{k}\n" for k in range(len(graphs)))
    edges = "edge s.o g0.x\n" + "".join(f"edge g{k}.y g{k + 1}.x\n" for k in range(len(graphs) - 1))
    return HEAD + ONE + "".join(graphs) + f"graph main\n{refs}{edges}end\n"


def readers_of_one(operations):
    """One sensor, which all functions read."""
    graphs, left = [], operations - 1
    while left > 0:
        count = min(63, left)
        refs = "".join(f"ref f{k} F\n" for k in range(count))
        edges = "".join(f"edge x f{k}.x\n" for k in range(count))
        graphs.append(f"graph G{len(graphs)}\nin x 1\n{refs}{edges}end\n")
        left -= count
    refs = "ref s Sense\n" + "".join(f"ref g{k} G{k}\n" for k in range(len(graphs)))
    edges = "".join(f"edge s.o g{k}.x\n" for k in range(len(graphs)))
    return HEAD + ONE + "".join(graphs) + f"graph main\n{refs}{edges}end\n"


def readers_of_sixty_four(operations):
    """32 sensors, which all functions read at 64 inputs."""
    graphs, left = [], operations - 32
    ports = "".join(f"in x{k} 1\n" for k in range(64))
    while left > 0:
        count = min(63, left)
        refs = "".join(f"ref f{k} F\n" for k in range(count))
        edges = "".join(f"edge x{i} f{k}.x{i}\n" for k in range(count) for i in range(64))
        graphs.append(f"graph G{len(graphs)}\n{ports}{refs}{edges}end\n")
        left -= count
    refs = "".join(f"ref s{k} Sense\n" for k in range(32)) + "".join(f"ref g{k} G{k}\n" for k in range(min(32, len(graphs))))
    edges = "".join(f"edge s{i % 32}.o g{k}.x{i}\n" for k in range(min(32, len(graphs))) for i in range(64))
    return HEAD + many_inputs() + "".join(graphs) + f"graph main\n{refs}{edges}end\n"


SHAPES = {"a chain": chain_of_graphs, "readers of one": readers_of_one, "readers at 64 inputs": readers_of_sixty_four}


def architecture(operators, ring):
    names = [f"o{k}" for k in range(operators)]
    lines = ["architecture 1\n"] + [f"operator {name}\n" for name in names]
    if operators > 1 and ring:
        pairs = [(k, (k + 1) % operators) for k in range(operators if operators > 2 else 1)]
        for k, (a, b) in enumerate(pairs):
            lines.append(f"medium m{k} p2p 2 1\nconnect m{k} {names[a]}\nconnect m{k} {names[b]}\n")
    elif operators > 1:
        lines.append("medium bus multi 2 1\n" + "".join(f"connect bus {name}\n" for name in names))
    lines += [f"duration Sense {name} 1\n" for name in names]
    lines += [f"duration F {name} {5 + 7 * k % 13}\n" for k, name in enumerate(names)]
    return "".join(lines)


def seconds(words, runs=9):
    """The least processor time of several runs, with the status and what was written."""
    best = None
    for _ in range(runs):
        before = resource.getrusage(resource.RUSAGE_CHILDREN)
        done = subprocess.run(words, stdout=subprocess.PIPE, stderr=subprocess.DEVNULL)
        after = resource.getrusage(resource.RUSAGE_CHILDREN)
        took = after.ru_utime - before.ru_utime + after.ru_stime - before.ru_stime
        best = took if best is None else min(best, took)
    return best, done.returncode, done.stdout


def compared(plain, files, command, what, before):
    took, status, said = seconds([SYNDEX, command, *files])
    other, _, same = seconds([plain, command, *files])
    assert status or said == same, f"{what}: the plain program writes something else"
    growth = f", x{took / before:.1f}" if before else ""
    print(f"{command}, {what}: status {status}, {took:.3f} s, {took / other:.2f} times the plain program's {other:.3f} s{growth}", flush=True)
    return took


def options():
    words = parser(__doc__)
    words.add_argument("command", nargs="?", choices=["chart", "code"], default="chart", help="what is timed, chart if left out")
    return words.parse_args()


def main():
    command = options().command
    built_program()
    with tempfile.TemporaryDirectory() as room:
        plain = compiled(room, os.path.join(PLAIN, "code.c"))
        for shape, text_of in SHAPES.items():
            for operators in OPERATORS:
                for ring in (True, False) if operators > 1 else (True,):
                    archi, before = written(room, "h", architecture(operators, ring)), None
                    for operations in SIZES:
                        algorithm = written(room, "a", text_of(operations))
                        where = "a ring" if ring else "a bus"
                        what = f"{shape}, {operations} operations, {operators} operators in {where}"
                        before = compared(plain, [algorithm, archi], command, what, before)
        for what, (algorithm, archi) in carrying().items():
            compared(plain, [written(room, "a", algorithm), written(room, "h", archi)], command, what, None)
        algorithm, archi = all_across()
        for other in ("chart", "code"):
            took, status, _ = seconds([SYNDEX, other, written(room, "a", algorithm), written(room, "h", archi)])
            print(f"{other}, 126,978 transfers over a bus: status {status}, {took:.3f} s", flush=True)


if __name__ == "__main__":
    run(main)
