#!/usr/bin/env python3
"""Times `syndex run` beside a plain executive (`bench/plain/run.c`, built here by `cc -O2`) that reads the macro-code which
`syndex code` writes and makes the same micro-steps on C11 atomics, in one thread or in as many as there are workers. Both have
to write the same bytes.

- 2,048 operations on 16 operators over 1,000 reactions: a chain of functions; 16 lanes of functions that take from each other over
  a bus, and the same in a ring;
- growth with the reactions (250, 1,000, 4,000, 10,000), the workers (1, 2, 3, 4, 16) and the operators (1, 4, 16);
- more workers than have something to do (1, 2, 4, 16, 80), without the plain executive: three operations on one operator; 50
  functions on one of 16 operators at four buses, which makes 80 sequences; 62 delays of depth 16 on one of these;
- the memory of a window: 10,000 reactions beside 250.

`run` also reads the texts, places the operations and builds the program, which the plain executive is given; so the time of
`syndex code` is told, and the ratio without it. With one worker times are those of the processor, with more those of
the clock, each the least of several runs. A size in memory below that of this script is not told. Prints the load of the
machine first and last."""
import os
import subprocess
import tempfile
import time

import shapes
from flat import algorithm as chain
from program import PLAIN, SYNDEX, built_program, compiled, run, take_no_words, written
from shapes import delays, first_of_many, lanes, operators_for, table

RUNS = 5
REACTIONS = [250, 1_000, 4_000, 10_000]
WORKERS = [1, 2, 3, 4, 16]
IDLE = [1, 2, 4, 16, 80]
OPERATORS = [1, 4, 16]
SENSORS = [f"s{i}.0" for i in range(shapes.LANES)]


class Times:
    """The least times of several runs of a program, what it wrote, and its greatest size in memory in MiB."""

    def __init__(self, words):
        self.words, self.processor, self.clock, self.size = words, float("inf"), float("inf"), 0

    def run(self, room):
        output, errors = os.path.join(room, "output"), os.path.join(room, "errors")
        with open(output, "wb") as out, open(errors, "wb") as err:
            start = time.perf_counter()
            child = subprocess.Popen(self.words, stdin=subprocess.DEVNULL, stdout=out, stderr=err)
            _, status, used = os.wait4(child.pid, 0)
            clock = time.perf_counter() - start
        child.returncode = os.waitstatus_to_exitcode(status)
        with open(output, "rb") as it, open(errors, "rb") as other:
            self.said, self.line = it.read(), other.read().decode()
        assert child.returncode == 0, f"{' '.join(self.words)}: status {child.returncode}, {self.line}"
        self.processor = min(self.processor, used.ru_utime + used.ru_stime)
        self.clock = min(self.clock, clock)
        self.size = max(self.size, used.ru_maxrss / 1024)


class Bench:
    """The plain executive, and the texts of one algorithm."""

    def __init__(self, room):
        self.room, self.plain = room, compiled(room, os.path.join(PLAIN, "run.c"), "-pthread")

    def take(self, algorithm, archi, names, reactions):
        self.algorithm, self.archi = written(self.room, "a", algorithm), written(self.room, "h", archi)
        self.rows = written(self.room, "s", table(names, reactions))
        said = subprocess.run([SYNDEX, "code", self.algorithm, self.archi], check=True, stdout=subprocess.PIPE).stdout
        self.code = written(self.room, "c", said.decode("ascii"))

    def times(self, workers):
        """Of `run`, of `code`, and of the plain executive in one thread and in as many as there are workers, in turn."""
        run = Times([SYNDEX, "run", self.algorithm, self.archi, self.rows, "--workers", str(workers)])
        code = Times([SYNDEX, "code", self.algorithm, self.archi])
        plain = Times([self.plain, self.algorithm, self.archi, self.code, self.rows])
        threads = Times([*plain.words, str(workers)])
        for _ in range(RUNS):
            for it in (run, code, plain, threads):
                it.run(self.room)
        assert run.said == plain.said == threads.said, "the plain executive writes something else"
        return run, code, plain, threads

    def told(self, what, before=None):
        """With one worker."""
        run, code, plain, _ = self.times(1)
        steps = int(plain.line.split()[1])
        growth = "" if before is None else f", {run.processor / before:.2f} times the line before"
        without = run.processor - code.processor
        print(
            f"{what}: {run.processor:.3f} s, {run.processor / plain.processor:.2f} times the plain executive's {plain.processor:.3f} s,"
            f" without the {code.processor:.3f} s of `code` {without / plain.processor:.2f} times;"
            f" {steps / without / 1e6:.1f} million micro-steps a second, {run.size:.0f} MiB{growth}",
            flush=True,
        )
        return run.processor

    def told_workers(self, what):
        """With one worker and more, by the clock."""
        one = None
        for workers in WORKERS:
            run, _, plain, threads = self.times(workers)
            one = one or run.clock
            print(
                f"{what}, {workers} workers: {run.clock:.3f} s by the clock, {run.clock / one:.2f} times one worker's,"
                f" {run.clock / plain.clock:.2f} times the plain executive's {plain.clock:.3f} s, {run.clock / threads.clock:.2f} times the"
                f" {threads.clock:.3f} s that it takes in as many threads; {run.size:.0f} MiB",
                flush=True,
            )

    def told_idle(self, what):
        """With one worker and with more than have something to do, by the clock."""
        one = None
        for workers in IDLE:
            run = Times([SYNDEX, "run", self.algorithm, self.archi, self.rows, "--workers", str(workers)])
            for _ in range(RUNS):
                run.run(self.room)
            one = one or run.clock
            print(f"{what}, {workers} workers: {run.clock:.3f} s by the clock, {run.clock / one:.2f} times one worker's; {run.size:.0f} MiB", flush=True)


def load():
    return "load " + ", ".join(f"{it:.2f}" for it in os.getloadavg())


def main():
    take_no_words(__doc__)
    built_program()
    print(load())
    with tempfile.TemporaryDirectory() as room:
        bench = Bench(room)
        bench.take(chain(2_048, False), operators_for(16), ["s.0"], 1_000)
        bench.told("a chain, 2,048 operations, 16 operators, 1,000 reactions")
        for ring in (False, True):
            where = "in a ring" if ring else "at a bus"
            bench.take(lanes(15), operators_for(16, ring), SENSORS, 1_000)
            bench.told(f"lanes, 2,048 operations, 16 operators {where}, 1,000 reactions")
            bench.told_workers(f"lanes, 2,048 operations, 16 operators {where}, 1,000 reactions")
        bench.take(lanes(15), operators_for(16, depth=2), SENSORS, 1_000)
        bench.told("lanes, 2,048 operations, 16 operators at a bus, buffers of two places, 1,000 reactions")
        before = None
        for reactions in REACTIONS:
            bench.take(lanes(0), operators_for(16, True), SENSORS, reactions)
            before = bench.told(f"lanes, 128 operations, 16 operators in a ring, {reactions:,} reactions", before)
        bench.told_workers(f"lanes, 128 operations, 16 operators in a ring, {REACTIONS[-1]:,} reactions")
        before = None
        for operators in OPERATORS:
            bench.take(lanes(15), operators_for(operators), SENSORS, 500)
            before = bench.told(f"lanes, 2,048 operations, {operators} operators at a bus, 500 reactions", before)
        bench.take(chain(3, False), operators_for(1), ["s.0"], 10_000)
        bench.told_idle("a chain, 3 operations, 1 operator, 10,000 reactions")
        bench.take(chain(52, False), first_of_many("SFA"), ["s.0"], 10_000)
        bench.told_idle("a chain, 52 operations, 1 of 16 operators, 10,000 reactions")
        bench.take(delays(62, 16), first_of_many("SA"), ["s.0"], 5_000)
        bench.told_idle("62 delays of depth 16, 1 of 16 operators, 5,000 reactions")
    print(load())


if __name__ == "__main__":
    run(main)
