#!/usr/bin/env python3
"""The pictures of the examples, as `syndex_lab` writes them: `chart.svg` in each folder that has an
architecture, and those of the table in this script. No other file of examples/ ends in `.svg`. Writes
them anew."""
import glob
import os
import subprocess

from command_line import built_program, parser, print_lines, run, stop
from repository import TOP

EXAMPLES = f"{TOP}/examples"
CHART = "chart algorithm.txt architecture.txt"
DATES = "dates algorithm.txt architecture.txt architecture.txt"
PLOT = "plot algorithm.txt sensors.csv"
# The words by which a picture is written in the folder of its example.
PICTURES = {
    "attitude_control/plot.svg": PLOT,
    "cruise_control/chart.svg": "chart algorithm.txt pinned.txt",
    "cruise_control/dates.svg": "dates algorithm.txt pinned.txt actual.txt 4",
    "cruise_control/found.svg": "chart algorithm.txt two.txt --tries 1000",
    "cruise_control/plot.svg": PLOT,
    "cruise_control/two.svg": "chart algorithm.txt two.txt",
    "engine_control/plot.svg": PLOT,
    "fft/found.svg": f"{CHART} --tries 1000",
    "fir_filter/plot.svg": PLOT,
    "lms_equaliser/plot.svg": PLOT,
    "radar/dates.svg": f"{DATES} 6",
    "radar/dates_one.svg": "dates algorithm.txt one_place.txt one_place.txt 6",
}


def pictures():
    """The words of every picture, by its path below examples/."""
    charts = sorted(glob.glob(f"{EXAMPLES}/*/architecture.txt"))
    found = {f"{os.path.basename(os.path.dirname(it))}/chart.svg": CHART for it in charts}
    return {**found, **PICTURES}


def drawn(program, path, words):
    """What the program writes by these words, in the folder of the picture."""
    folder = os.path.dirname(f"{EXAMPLES}/{path}")
    ran = subprocess.run([program, *words.split()], cwd=folder, capture_output=True, check=False)
    if ran.returncode:
        raise ValueError(f"examples/{path}: {words}: {ran.stderr.decode().strip()}")
    return ran.stdout


def faults(program):
    """Pictures that the program writes otherwise, that are not there, or that nothing writes."""
    known = pictures()
    for path, words in known.items():
        file = f"{EXAMPLES}/{path}"
        if not os.path.exists(file):
            yield f"examples/{path}: it is not there: run tools/draw.py"
            continue
        try:
            made = drawn(program, path, words)
        except (OSError, ValueError) as why:
            yield str(why)
            continue
        with open(file, "rb") as it:
            if it.read() != made:
                yield f"examples/{path}: syndex_lab {words} writes another picture: run tools/draw.py"
    for file in sorted(glob.glob(f"{EXAMPLES}/*/*.svg")):
        if os.path.relpath(file, EXAMPLES) not in known:
            yield f"{os.path.relpath(file, TOP)}: tools/draw.py does not write it"


def draw_all(program):
    """Writes every picture."""
    for path, words in pictures().items():
        made = drawn(program, path, words)
        with open(f"{EXAMPLES}/{path}", "wb") as it:
            it.write(made)


def options():
    words = parser(__doc__)
    check = "write nothing, and report which the program writes otherwise"
    words.add_argument("--check", action="store_true", help=check)
    program = "the program, the one that ./build --program syndex_lab makes if left out"
    words.add_argument("program", nargs="?", metavar="PROGRAM", help=program)
    return words.parse_args()


def main():
    given = options()
    program = built_program("syndex_lab", given.program)
    if given.check:
        return print_lines(faults(program))
    try:
        draw_all(program)
    except ValueError as why:
        stop(why)
    return 0


if __name__ == "__main__":
    run(main)
