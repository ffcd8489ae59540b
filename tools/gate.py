#!/usr/bin/env python3
"""The processor time of the gate, crate by crate: for its proof, the code of a program, its tests and
its wrong bodies. It is for runs by hand: `.ci/run` does not call it. Prints a line for each crate in
minutes of a processor, the greatest first, and the sums. The log of `rt ci` has no times itself.
docs/CONTRIBUTING.md is the one document with these figures: `ci --write` puts the sums there."""
import argparse
import os
import shutil
import subprocess
import sys
import tempfile
import time

from command_line import need_command, one_of, parser, run
from repository import TOP, Listing, files, text_of

CI = """Runs `rt ci` and measures it: while it runs, the time of each process of the prover is looked at
every half second, and booked on the crate and the kind of work that its words name. A process's last
half second is not seen. Each proof has one processor: left to itself, rt gives a proof those that are
idle, which takes more of them in all, and starts it only if its estimate of memory fits, which is two
to five times what a proof takes. RT_JOBS, if it is set, says how many proofs run side by side."""
MEASURED = """Measures the parts themselves, one crate at a time, in a copy of the repository: the tests from
nothing, the proof from nothing, and the wrong bodies. Crates below those named are proved first,
unmeasured. What earlier checks kept is not used for those named."""
TICK = os.sysconf("SC_CLK_TCK")
KINDS = ("proof", "code", "tests", "edits")
# The document with the sums, between these marks, and how it names the kinds of work.
PAGE = f"{TOP}/docs/CONTRIBUTING.md"
BEGIN, END = "<!-- cost: made by tools/gate.py -->", "<!-- cost: end -->"
NAMED = {"proof": "proofs", "code": "code of programs", "tests": "tests", "edits": "wrong bodies"}
# Memory for each proof that runs beside others, in bytes: the largest takes 5 GB, most take 1 to 2.
MEMORY = 4_000_000_000


class Table:
    """Seconds of a processor by crate and kind of work."""

    def __init__(self):
        self.seconds = {}

    def add(self, name, kind, seconds):
        row = self.seconds.setdefault(name, dict.fromkeys(KINDS, 0.0))
        row[kind] += seconds

    def show(self):
        head = "".join(f"{kind:>8}" for kind in (*KINDS, "all"))
        print(f"{'crate':24}{head}  minutes of a processor")
        for name, row in sorted(self.seconds.items(), key=lambda it: -sum(it[1].values())):
            self.line(name, [row[kind] for kind in KINDS])
        self.line("all", self.sums().values())

    def sums(self):
        return {kind: sum(row[kind] for row in self.seconds.values()) for kind in KINDS}

    def line(self, name, seconds):
        print(f"{name:24}" + "".join(f"{it / 60:8.1f}" for it in [*seconds, sum(seconds)]), flush=True)


def work_of(words, folder):
    """The crate and the kind of work of a process of the prover, by its words and its folder; None for
    any other process."""
    if len(words) < 4 or os.path.basename(words[0]) != "rattle" or "--crate-name" not in words[:-1]:
        return None
    name = words[words.index("--crate-name") + 1]
    if os.path.basename(folder).startswith("rt-edit-"):
        return name, "edits"
    if "--crate-checked" in words:
        return name, "code"
    return name, "tests" if "--test" in words else "proof"


def seen(parent):
    """The seconds so far of each process below this one, with its start, words and folder."""
    stats = {}
    for number in filter(str.isdigit, os.listdir("/proc")):
        try:
            with open(f"/proc/{number}/stat", encoding="utf-8", errors="replace") as it:
                fields = it.read().rpartition(") ")[2].split()
            stats[int(number)] = (int(fields[1]), fields[19], (int(fields[11]) + int(fields[12])) / TICK)
        except OSError:
            pass
    below, more = set(), {parent}
    while more:
        below |= more
        more = {it for it, (above, _, _) in stats.items() if above in more} - below
    for number in below & set(stats):
        try:
            with open(f"/proc/{number}/cmdline", "rb") as it:
                words = it.read().decode(errors="replace").split("\0")
            yield number, stats[number], words, os.readlink(f"/proc/{number}/cwd")
        except OSError:
            pass


def watch(process):
    """Books the time of the prover's processes below this one until it ends."""
    latest = {}
    while process.poll() is None:
        for number, (_, start, seconds), words, folder in seen(process.pid):
            work = work_of(words, folder)
            if work:
                latest[number, start] = work, seconds
        time.sleep(0.5)
    table = Table()
    for (name, kind), seconds in latest.values():
        table.add(name, kind, seconds)
    return table


def lanes():
    """How many proofs run side by side: one a processor, as far as the memory serves that is there."""
    memory = os.sysconf("SC_PAGE_SIZE") * os.sysconf("SC_PHYS_PAGES")
    return max(1, min(len(os.sched_getaffinity(0)), memory // MEMORY))


def write_sums(sums, clock):
    """Puts the sums of a run from nothing into the page, in minutes."""
    rows = [(NAMED[kind], sums[kind]) for kind in KINDS] + [("together", sum(sums.values())), ("by the clock", clock)]
    head = "| part | minutes |\n|---|---:|\n"
    made = head + "".join(f"| {name} | {seconds / 60:.0f} |\n" for name, seconds in rows)
    before, _, rest = text_of(PAGE).partition(BEGIN)
    with open(PAGE, "w", encoding="utf-8") as it:
        it.write(f"{before}{BEGIN}\n\n{made}\n{END}{rest.partition(END)[2]}")


def measure_ci(write):
    """Runs the gate with its own output, prints the table, and puts its sums into the page if they are to be there."""
    start = time.monotonic()
    how = {"cwd": TOP, "stdin": subprocess.DEVNULL, "env": {"RT_JOBS": str(lanes()), **os.environ}}
    with subprocess.Popen(["rt", "ci"], **how) as process:
        try:
            table = watch(process)
        except (OSError, ValueError, IndexError) as fault:
            # What was measured is lost, and the gate goes on.
            print(f"the gate is not measured: {fault}", file=sys.stderr, flush=True)
            process.wait()
            return process.returncode
    table.show()
    clock = time.monotonic() - start
    print(f"{clock / 60:.1f} minutes in all; rt ci ended with status {process.returncode}")
    if write and not process.returncode:
        write_sums(table.sums(), clock)
    return process.returncode


def spent(words, folder):
    """Runs a command and answers its status and the seconds of a processor that it took, with all that
    it waited for."""
    how = dict.fromkeys(("stdin", "stdout", "stderr"), subprocess.DEVNULL)
    process = subprocess.Popen(words, cwd=folder, **how)
    _, status, usage = os.wait4(process.pid, 0)
    process.returncode = os.waitstatus_to_exitcode(status)
    return process.returncode, usage.ru_utime + usage.ru_stime


def has_tests(folder):
    return any("#[test]" in text_of(it) for it in files(folder, ["src"], (".rt",)))


def measure_parts(names):
    """Measures the parts of each crate in a copy, which is thrown away, and prints the table."""
    listing = Listing()
    table, wanted = Table(), names or list(listing.rows)
    with tempfile.TemporaryDirectory(prefix="gate-") as room:
        top = f"{room}/top"
        shutil.copytree(TOP, top, ignore=shutil.ignore_patterns(".git", "out"), symlinks=True)
        os.mkdir(f"{top}/.git")
        for name in listing.lowest_first(wanted):
            folder = f"{top}/crates/{name}"
            if name not in wanted:
                if os.path.isdir(f"{TOP}/crates/{name}/out/rlib"):
                    shutil.copytree(f"{TOP}/crates/{name}/out/rlib", f"{folder}/out/rlib")
                spent(["rt", "lib", "--jobs", "1"], folder)
                continue
            measure(table, name, folder, top)
            table.line(name, [table.seconds[name][kind] for kind in KINDS])
    print()
    table.show()
    return 0


def measure(table, name, folder, top):
    """Measures the parts of one crate whose libraries are proved."""
    parts = {"proof": (["rt", "check", "--jobs", "1"], folder)}
    if has_tests(folder):
        parts = {"tests": (["rt", "check", "--test", "--jobs", "1"], folder), **parts}
    if os.path.isdir(f"{folder}/must-fail"):
        parts["edits"] = (["rt", "must-fail", name], top)
    for kind, (words, at) in parts.items():
        if kind != "edits":
            shutil.rmtree(f"{folder}/out", ignore_errors=True)
        status, seconds = spent(words, at)
        table.add(name, kind, seconds)
        if status:
            print(f"{name}: {' '.join(words)} ended with status {status}", file=sys.stderr)


def add_part(parts, name, text, line):
    """A part of the script with its own help, which this line names in the list of the parts."""
    how = {"description": text, "formatter_class": argparse.RawDescriptionHelpFormatter, "allow_abbrev": False}
    return parts.add_parser(name, help=line, **how)


def options():
    words = parser(__doc__)
    parts = words.add_subparsers(dest="part", required=True)
    whole = add_part(parts, "ci", CI, "measure a whole run of rt ci")
    whole.add_argument("--write", action="store_true", help="put the sums of a run from nothing into docs/CONTRIBUTING.md")
    names = add_part(parts, "parts", MEASURED, "measure the parts of some crates, or of all")
    names.add_argument("names", nargs="*", type=one_of(Listing().rows), metavar="NAME", help="a crate; all if left out")
    return words.parse_args()


def main():
    given = options()
    need_command("rt", "the kit")
    return measure_ci(given.write) if given.part == "ci" else measure_parts(given.names)


if __name__ == "__main__":
    run(main)
