#!/usr/bin/env python3
"""Times `syndex_lab` beside `syndex chart` over the same texts of 2,048 operations on 1, 4 and 16 operators: what it writes of
a schedule, and its findings; a report once more with 31 sensors and 31 actuators that all depend on each other, over 10, 100
and 1,000 reactions, and a plot of 100, 1,000 and 10,000 reactions, each beside the line before. Prints the seconds of the processor, least of several runs, the bytes that are written, and the ratio."""
import tempfile

from chart import SHAPES, architecture, seconds
from program import LAB, SYNDEX, built_program, run, take_no_words, written
from shapes import carrying, table

RUNS = 5
COLUMNS = [f"s.{element}" for element in range(16)]
COMMANDS = ("chart", "trace", "flat", "code", "report", "lint")


def all_to_all():
    """As many sensors and actuators as one graph holds, of which each actuator depends on each sensor."""
    ends = range(31)
    lines = ["algorithm 1", "sensor S 1", "actuator A 1", "function J", *[f"in x{k} 1" for k in ends], "out y 1 = x0[0]", "end"]
    lines += ["graph main", *[f"ref s{k} S" for k in ends], "ref j J", *[f"ref a{k} A" for k in ends]]
    lines += [f"edge s{k}.o j.x{k}" for k in ends] + [f"edge j.y a{k}.i" for k in ends] + ["end", ""]
    return "\n".join(lines)


def two_operators():
    return "".join(
        ["architecture 1\noperator P\noperator Q\nmedium B multi 2 1\nconnect B P\nconnect B Q\n"]
        + [f"duration {it} {on} {1 + k}\n" for k, it in enumerate("SAJ") for on in "PQ"]
    )


def told(what, words, before=None):
    took, status, said = seconds(words, RUNS)
    ratio = f", {took / before:.2f} times" if before else ""
    print(f"{what}: status {status}, {took:.3f} s, {len(said)} bytes{ratio}", flush=True)
    return took


def beside_chart(what, files):
    chart = told(f"syndex chart, {what}", [SYNDEX, "chart", *files])
    for command in COMMANDS:
        told(f"syndex_lab {command}, {what}", [LAB, command, *files], chart)


def plotted():
    """A sensor joined to an actuator, both of 16 elements."""
    return "algorithm 1\nsensor S 16\nactuator A 16\ngraph main\nref s S\nref a A\nedge s.o a.i\nend\n"


def main():
    take_no_words(__doc__)
    built_program()
    built_program("syndex_lab")
    with tempfile.TemporaryDirectory() as room:
        for shape, text_of in SHAPES.items():
            for operators in (1, 4, 16):
                files = [written(room, "a", text_of(2048)), written(room, "h", architecture(operators, operators == 16))]
                beside_chart(f"{shape}, 2,048 operations, {operators} operators", files)
        for what, (algorithm, archi) in carrying().items():
            beside_chart(what, [written(room, "a", algorithm), written(room, "h", archi)])
        files = [written(room, "a", all_to_all()), written(room, "h", two_operators())]
        beside_chart("31 sensors and 31 actuators", files)
        before = None
        for reactions in (10, 100, 1000):
            before = told(f"report, {reactions} reactions", [LAB, "report", *files, str(reactions)], before)
        algorithm, before = written(room, "a", plotted()), None
        for reactions in (100, 1_000, 10_000):
            before = told(f"plot, {reactions} reactions", [LAB, "plot", algorithm, written(room, "s", table(COLUMNS, reactions))], before)


if __name__ == "__main__":
    run(main)
