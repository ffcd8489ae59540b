#!/usr/bin/env python3
"""Times `syndex check` over algorithm texts of 1, 4 and 16 MiB: of sensors, of comments, of a chain of graphs each of which
refers to the next (refused by its depth), of graphs whose names have a long prefix. Reading, checking and printing together.
Graphs of thousands of edges come besides, and a function with long expressions that is used up to 1,984 times in one text.
Prints the status, the seconds and the ratios of the times and of the sizes of the texts, and the greatest size in memory.
Then graphs of many ports without operations, some 258,000 of them.
Last, texts whose graphs or repetitions hold no operation but would make 64^7 vertices and more, which end at once."""
import os
import resource
import subprocess
import tempfile
import time

import shapes
from program import SYNDEX, built_program, run, take_no_words

MIB = 1024 * 1024
HEAD = "algorithm 1\n"
TAIL = "graph main\nend\n"
KINDS = {
    "sensors": lambda k: f"sensor S{k} 1\n",
    "comments": lambda k: f"# nothing {k}\n",
    "a chain of graphs": lambda k: f"graph G{k}\nref r G{k + 1}\nend\n",
    "long prefixes": lambda k: f"graph a_graph_with_a_long_name{k:06}\nin x 1\nout y 1\nedge x y\nend\n",
}
LAST = {"a chain of graphs": lambda k: f"graph G{k}\nend\n"}


def text_of(kind, size):
    """The head, as many blocks as there is room for, and the main graph."""
    line, last = KINDS[kind], LAST.get(kind, lambda k: "")
    parts, room, k = [HEAD], size - len(HEAD) - len(TAIL) - 40, 0
    while len(line(k)) <= room:
        parts.append(line(k))
        room -= len(line(k))
        k += 1
    return "".join(parts) + last(k) + TAIL


def countless():
    """Eight levels of 64 references each, down to a graph that is empty."""
    parts, names = [HEAD, "graph G0\nend\n"], [f"G{i}" for i in range(1, 7)] + ["main"]
    for depth, name in enumerate(names):
        refs = "".join(f"ref r{i} G{depth}\n" for i in range(64))
        parts.append(f"graph {name}\n{refs}end\n")
    return "".join(parts)


def checked(path):
    start = time.monotonic()
    done = subprocess.run([SYNDEX, "check", path], capture_output=True)
    return time.monotonic() - start, done.returncode, done.stderr.decode().strip()


def told(kind, path, texts):
    """Checks each of the texts."""
    times, sizes = [], []
    for text in texts:
        with open(path, "w", encoding="utf-8") as it:
            it.write(text)
        took, status, line = min(checked(path) for _ in range(2))
        times.append(took)
        sizes.append(len(text))
    ratios = "".join(
        f", {times[i] / times[i - 1]:.2f} times for a text of {sizes[i] / sizes[i - 1]:.2f} times" for i in range(1, len(texts))
    )
    print(f"{kind}: {', '.join(f'{t:.3f}' for t in times)} s{ratios}, status {status} {line}")


def main():
    take_no_words(__doc__)
    built_program()
    with tempfile.TemporaryDirectory() as room:
        path = os.path.join(room, "text")
        for kind in KINDS:
            times = []
            for mib in (1, 4, 16):
                with open(path, "w", encoding="utf-8") as it:
                    it.write(text_of(kind, mib * MIB))
                took, status, line = min(checked(path) for _ in range(2))
                times.append(took)
            ratios = ", ".join(f"{b / a:.2f}" for a, b in zip(times, times[1:]))
            print(f"{kind}: {', '.join(f'{t:.3f}' for t in times)} s, ratios {ratios}, status {status} {line}")
        told("graphs of 4,032 edges", path, [shapes.wide_graphs(mib * MIB) for mib in (1, 4, 16)])
        told("a long function used again and again", path, [shapes.shared_body(uses) for uses in (1, 8, 31)])
        told("22,000 vertices and 1,000 operations", path, [shapes.passing(1_000)])
        for kind, text in shapes.PORTS.items():
            told(kind, path, [text()])
        told("countless graphs", path, [countless()])
        told("countless copies", path, [shapes.nested_repetitions()])
    most = resource.getrusage(resource.RUSAGE_CHILDREN).ru_maxrss
    print(f"at most {most / 1024:.0f} MiB")


if __name__ == "__main__":
    run(main)
