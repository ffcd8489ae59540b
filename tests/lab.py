#!/usr/bin/env python3
"""Whether other tools take what `syndex_lab` writes of the examples, and whether its numbers are those of the charts.

The chart, its trace, the drawing of its operations and the plot are what a plain program makes of the listing, the
chart and the rows (`plain/pictures.py`). The macro-code of an example is well formed, and where one line of its loops is
left out it is not, as the lines and rules of the answer say. Each picture is well-formed XML, each trace is JSON whose complete events do
not overlap on a thread, each table to be filled in has the columns of the sensor table, and each graph is taken by Graphviz where `dot` is there. Without tries the schedule is the one
whose chart stands in the example: the same length, the same macro-code where the example has it, a bar and an event for
each of its lines, and what its lanes are busy; with tries it is no longer. The reports of both are what a plain program makes of
their charts (`plain/report.py`). The pictures of the examples
(`tools/draw.py`), and the answers to commands in documents, are what the program writes. The same words give the same
bytes, words that are no command end with `usage`, and `help` lists what the script lists."""
import collections
import json
import os
import re
import shutil
import subprocess
import sys
import tempfile
from xml.etree import ElementTree

from plain import pictures
from plain import report as plainly
from plain.algorithm import read
from plain.architecture import Architecture
from plain.flat import Flat
from plain.pictures import Design, arranged, rows_of

TOP = os.path.dirname(os.path.dirname(os.path.realpath(__file__)))
sys.path.append(f"{TOP}/tools")
import draw
import played
from command_line import built_program, parser, positive, run

WORD = re.compile(r"op |(Suc|Pre)[01]_|send_|recv_|sync_|thread_|main_")
USAGE = (
    ("chart", "A"), ("chart", "A", "H", "S"), ("charts", "A", "H"), ("chart", "A", "H", "--tries", "0"), ("chart", "A", "H", "--tries"),
    ("chart", "A", "H", "--tries", "1000001"), ("chart", "A", "H", "--tries", "5", "--tries", "5"), ("chart", "A", "H", "--seed", "x"),
    ("report", "A", "H", "0"), ("report", "A", "H", "1001"), ("report", "A", "H", "5", "5"),
    ("dates", "A", "H", "G"), ("dates", "A", "H", "G", "0"), ("dates", "A", "H", "G", "1001"), ("graph", "A", "--tries", "5"),
    ("graph", "A", "H"), ("plot", "A"), ("plot", "A", "S", "--seed", "5"), ("--tries", "5", "chart", "A", "H"), ("help", "chart"), ("chart", "--help"),
    ("table",), ("table", "A", "H"), ("trace", "A", "H", "G"), ("trace", "A", "H", "G", "0"), ("trace", "A", "H", "G", "1001"), (),
    ("why", "A", "H"), ("why", "A", "H", "C", "C"), ("why", "A", "H", "C", "--tries", "5"), ("chart", "A", "H", "--for"), ("chart", "A", "H", "--for", "speed"),
    ("chart", "A", "H", "--for", "period", "--for", "period"), ("graph", "A", "--for", "period"),
)


class Wrong(Exception):
    """Something is not as it should be."""


def holds(fact, what):
    if not fact:
        raise Wrong(what)


def text_of(path):
    with open(path, encoding="utf-8") as it:
        return it.read()


class Lab:
    """The program, called with the words of a command."""

    def __init__(self, program):
        self.program = program

    def run(self, *words):
        ran = subprocess.run([self.program, *words], capture_output=True, check=False)
        return ran.returncode, ran.stdout.decode(), ran.stderr.decode()

    def text(self, *words):
        status, out, err = self.run(*words)
        holds(status == 0 and not err, f"{' '.join(words)}: status {status}, {err.strip()}")
        return out


class Chart:
    """What a chart says: its length, how many lines it has between those of its lanes, and how long each lane is busy."""

    def __init__(self, text):
        self.acts, self.busy, lane = 0, {}, None
        for line in text.splitlines():
            words = line.split()
            if words[0] in ("operator", "medium"):
                lane = " ".join(words)
                self.busy[lane] = 0
            elif words[0] == "length":
                self.length = int(words[1])
            else:
                self.acts += 1
                self.busy[lane] += int(words[1]) - int(words[0])

    def loads(self):
        """The lines of a report on the lanes: shares of the length in thousandths, rounded down."""
        for lane, busy in self.busy.items():
            share = busy * 1000 // self.length
            yield f"{lane} busy {busy} share {share // 1000}.{share % 1000:03}"


def check_trace(trace, acts):
    """The complete events are as many as the acts, and those of one thread come one after another."""
    events = [it for it in json.loads(trace)["traceEvents"] if it["ph"] == "X"]
    holds(len(events) == acts, f"{len(events)} complete events for {acts} acts")
    threads = collections.defaultdict(list)
    for it in events:
        threads[it["tid"]].append((it["ts"], it["ts"] + it["dur"]))
    for spans in threads.values():
        spans.sort()
        holds(all(a[1] <= b[0] for a, b in zip(spans, spans[1:])), "events of one thread overlap")


def check_table(table, sensors):
    """The table that an algorithm wants has the columns of the one that it has, in whichever order, and one row of zeros."""
    header, *rows = table.splitlines()
    wanted = sensors.splitlines()[0].split(",")
    holds(sorted(header.split(",")) == sorted(wanted), "the columns of the table")
    holds(rows == [",".join("0" for _ in wanted)], "one row of zeros")


def check_graph(graph):
    """Graphviz takes it, where it is there."""
    if shutil.which("dot"):
        ran = subprocess.run(["dot", "-Tcanon"], input=graph, capture_output=True, text=True, check=False)
        holds(ran.returncode == 0 and not ran.stderr, f"dot: {ran.stderr.strip()}")


def length_in(report):
    """The length of which a report tells, which is at least its bound."""
    lines = [line.split() for line in report.splitlines()]
    length, bounds = int(lines[0][1]), [int(line[1]) for line in lines if line[0] == "bound"]
    holds(lines[0][0] == "length" and len(bounds) == 1 and bounds[0] <= length, "the report's length and bound")
    return length


def check_reports(lab, a, h, chart, tries):
    """What a plain program makes of the charts is what is written, also beside the pressure run where another one was found."""
    flat, archi = Flat(read(text_of(a).encode())[1]), Architecture(text_of(h).encode())
    run = plainly.design_of(flat, chart)
    for count in (1, 7):
        holds(lab.text("report", a, h, str(count)).splitlines() == plainly.report(run, archi, count), f"the report of {count}")
    found = plainly.design_of(flat, plainly.chart_in(lab.text("chart", a, h, "--tries", tries), archi))
    holds(lab.text("report", a, h, "--tries", tries).splitlines() == plainly.report(found, archi, 50, run), "the report of what was found")


def check_pictures(lab, a, h, design):
    """What a plain program makes of the listing and the chart is what is written."""
    holds(arranged(lab.text("chart", a, h)) == arranged(pictures.chart(design)), "the picture of the chart")
    holds(arranged(lab.text("trace", a, h)) == arranged(pictures.trace(design)), "the trace")
    holds(lab.text("flat", a, h) == pictures.drawing(design), "the drawing of the operations")


def check_why(lab, a, h, code):
    """Code that was generated is well formed; without any one line of its loops it is not, and a line that is told
    says an instruction, or begins a sequence."""
    holds(lab.text("why", a, h, code) == "well formed\n", "the macro-code is not well formed")
    lines, looped = text_of(code).splitlines(), False
    with tempfile.TemporaryDirectory() as folder:
        for number, line in enumerate(lines):
            looped = line == "loop_" or looped and line != "endloop_"
            if looped and line != "loop_":
                cut = f"{folder}/cut.txt"
                with open(cut, "w", encoding="utf-8") as it:
                    it.write("\n".join((*lines[:number], "#", *lines[number + 1:], "")))
                told = lab.text("why", a, h, cut).splitlines()
                holds(re.fullmatch("K[2-7] [A-Z][a-z]+", told[0]), f"line {number + 1}: {told[0]}")
                for at in re.findall(r"line (\d+): ", "\n".join(told)):
                    holds(WORD.match(lines[int(at) - 1]), f"line {number + 1}: {lines[int(at) - 1]}")


def check_schedule(lab, folder, tries):
    """What is written of the schedule of an example."""
    a, h = f"{folder}/algorithm.txt", f"{folder}/architecture.txt"
    numbers = lab.text("report", a, h)
    length = length_in(numbers)
    if os.path.exists(f"{folder}/chart.txt"):
        chart = Chart(text_of(f"{folder}/chart.txt"))
        loads = [line for line in numbers.splitlines() if line.startswith(("operator ", "medium "))]
        holds(length == chart.length and loads == list(chart.loads()), "the report's length and loads")
        if " every " not in text_of(a):
            check_reports(lab, a, h, text_of(f"{folder}/chart.txt"), tries)
        check_trace(lab.text("trace", a, h), chart.acts)
        check_trace(lab.text("trace", a, h, h, "3"), 3 * chart.acts)
        titles = lab.text("chart", a, h).count("<title>")
        holds(titles == chart.acts, f"{titles} titles for {chart.acts} acts")
        if os.path.exists(f"{folder}/flat.txt"):
            check_pictures(lab, a, h, Design(text_of(f"{folder}/flat.txt"), text_of(f"{folder}/chart.txt")))
    if os.path.exists(f"{folder}/code.txt"):
        holds(lab.text("code", a, h) == text_of(f"{folder}/code.txt"), "the macro-code")
        check_why(lab, a, h, f"{folder}/code.txt")
    for seed in ("1", "7"):
        words = (a, h, "--tries", tries, "--seed", seed)
        holds(length_in(lab.text("report", *words)) <= length, "a search is longer")
        for goal in ("length", "period"):
            holds(lab.text("code", *words, "--for", goal) == lab.text("code", *words, f"--for={goal}"), "the same words give other bytes")
        holds(lab.text("code", *words, "--for", "length") == lab.text("code", *words), "the length is not what is searched for")
    ElementTree.fromstring(lab.text("chart", a, h))
    ElementTree.fromstring(lab.text("dates", a, h, h, "3"))
    check_graph(lab.text("flat", a, h))
    return length


def check_example(lab, folder, tries):
    algorithm, sensors = f"{folder}/algorithm.txt", f"{folder}/sensors.csv"
    if os.path.exists(f"{folder}/architecture.txt"):
        length = check_schedule(lab, folder, tries)
    else:
        length = None
    if os.path.exists(sensors):
        check_table(lab.text("table", algorithm), text_of(sensors))
        check_graph(lab.text("graph", algorithm))
        picture = lab.text("plot", algorithm, sensors)
        ElementTree.fromstring(picture)
        if os.path.exists(f"{folder}/sim.txt"):
            holds(picture == pictures.plot(*rows_of(text_of(f"{folder}/sim.txt"))), "the plot")
    else:
        holds(lab.run("graph", algorithm)[0] == 5, "a text that is refused")
    return length


def of_documents(lab):
    """Commands in documents that have another answer."""
    for path in played.documents():
        for number, words, after in played.commands(text_of(path), "    $ ./syndex_lab "):
            placed = [f"{TOP}/{it}" if it.startswith("examples/") else it for it in words.split()]
            if lab.text(*placed).splitlines() != after:
                yield f"{os.path.relpath(path, TOP)}:{number}: syndex_lab {words} has another answer"


def check_words(lab):
    for words in USAGE:
        answer = lab.run(*words)
        holds(answer == (2, "", "usage\n"), f"{' '.join(words)}: {answer}")
    told = subprocess.run([f"{TOP}/syndex_lab", "help"], capture_output=True, text=True, check=True).stdout
    listed = lab.text("help")
    holds(told.startswith(listed) and lab.text("--help") == listed, "the script lists other commands")


def options():
    words = parser(__doc__)
    program = "the program, the one that ./build --program syndex_lab makes if left out"
    words.add_argument("program", nargs="?", metavar="PROGRAM", help=program)
    words.add_argument("tries", nargs="?", type=positive, default=200, metavar="TRIES", help="how many tries, 200 if left out")
    return words.parse_args()


def main():
    given, wrong = options(), 0
    lab, tries = Lab(built_program("syndex_lab", given.program)), str(given.tries)
    for name in sorted(os.listdir(f"{TOP}/examples")):
        try:
            print(f"{name}: length {check_example(lab, f'{TOP}/examples/{name}', tries)}")
        except (Wrong, ValueError, ElementTree.ParseError) as why:
            print(f"{name}: WRONG: {why}")
            wrong += 1
    for fault in draw.faults(lab.program):
        print(f"pictures: WRONG: {fault}")
        wrong += 1
    try:
        for fault in of_documents(lab):
            print(f"documents: WRONG: {fault}")
            wrong += 1
        check_words(lab)
    except Wrong as why:
        print(f"words: WRONG: {why}")
        wrong += 1
    return 1 if wrong else 0


if __name__ == "__main__":
    run(main)
