#!/usr/bin/env python3
"""Times reading and printing of texts of 1, 4 and 16 MiB: algorithm texts of sensors, of comments, of a chain of graphs,
of functions, of graphs whose names have a long prefix, and architecture texts of durations. Prints the seconds and
the ratios of the times, so that the growth shows on a noisy machine. Then it reads texts with 100,000 names of eight
letters: names that fall into one group of the kit's table where its own fixed seed hashes them (`plain/colliding.c`
finds them, in some seconds), and plain ones. Both should take the same time.

What is timed is a program that is put into a copy of the repository, which is thrown away. The copy takes over what
earlier checks kept; in a new clone everything below is proved first."""
import os
import re
import shutil
import subprocess
import tempfile

from program import PLAIN, TOP, Listing, compiled, need_command, run, stop, take_no_words

MIB = 1024 * 1024
PROGRAM = """//! Reads a text and prints its canonical text, and tells how long both took.
#![tactic(auto)]

ghost use Rattle.std.specs.Prelude.{◌≤◌, length};

use algo_print::{canonical_text_reads_back, print_algo};
use algo_reader::read_algo;
use archi_reader::{print_archi, read_archi};
use std::alloc::Global;
use std::fs;
use std::time::Instant;

fn nanoseconds(rt: &HostRuntime, start: Instant) -> u128 {
    match start.elapsed(rt) {
        Ok(took) => took.as_nanos(),
        Err(_) => 0,
    }
}

#[tactic(auto, using(algo_reader::proofs::LineCounts::lines_at_most))]
fn algorithm(rt: &HostRuntime, alloc: Global, text: &[u8], start: Instant)
    requires { length text.now ≤ 16777216 }
{
    canonical_text_reads_back();
    if let Ok(defs) = read_algo(alloc, text) {
        let read = nanoseconds(rt, start);
        let mut out = Vec::new(alloc);
        let printed = print_algo(alloc, &defs, &mut out);
        let _ = println!(rt; "took {} {} {}", read, nanoseconds(rt, start), printed.is_ok());
    }
}

#[tactic(auto, using(algo_reader::proofs::LineCounts::lines_at_most))]
fn architecture(rt: &HostRuntime, alloc: Global, text: &[u8], start: Instant)
    requires { length text.now ≤ 16777216 }
{
    if let Ok(archi) = read_archi(alloc, text) {
        let read = nanoseconds(rt, start);
        let mut out = Vec::new(alloc);
        let printed = print_archi(alloc, &archi, &mut out);
        let _ = println!(rt; "took {} {} {}", read, nanoseconds(rt, start), printed.is_ok());
    }
}

fn main(rt: HostRuntime) {
    let Ok(text) = fs::read(&rt, "text") else {
        return;
    };
    let Ok(start) = Instant::now(&rt) else {
        return;
    };
    if text.len() <= 16_777_216 {
        if text.len() > 1 && text[1] == b'r' {
            architecture(&rt, rt.alloc(), text.as_slice(), start);
        } else {
            algorithm(&rt, rt.alloc(), text.as_slice(), start);
        }
    }
}
"""


LISTING = Listing()
USED = [it for it in re.findall(r"(?m)^use (\w+)::", PROGRAM) if it in LISTING.rows]
CRATES = LISTING.lowest_first(USED)


def filled(size, head, line):
    """The head, and as many lines (or blocks of lines) as there is room for."""
    parts, room, k = [head], size - len(head), 0
    while True:
        part = line(k)
        if len(part) > room:
            return "".join(parts)
        parts.append(part)
        room -= len(part)
        k += 1


ALGORITHM = "algorithm 1\n"
ARCHITECTURE = "".join(
    ["architecture 1\n"]
    + [f"operator P{i}\n" for i in range(16)]
    + ["medium m multi 1 1\n"]
    + [f"connect m P{i}\n" for i in range(16)]
)
KINDS = {
    "sensors": (ALGORITHM, lambda k: f"sensor S{k} 1\n"),
    "comments": (ALGORITHM, lambda k: f"# nothing {k}\n"),
    "a chain of graphs": (ALGORITHM, lambda k: f"graph G{k}\nref r G{k + 1}\nend\n"),
    "functions": (ALGORITHM, lambda k: f"function F{k}\nin x 4\nout y 4 = select(eq(j,0),add(x[j],{k}),x[sub(j,1)])\nend\n"),
    "long prefixes": (ALGORITHM, lambda k: f"graph a_graph_with_a_long_name{k:06}\nin x 1\nout y 1\nedge x y\nend\n"),
    "durations": (ARCHITECTURE, lambda k: f"duration D{k // 16} P{k % 16} 17\n"),
}


# Texts with names of eight letters, whose names may have been chosen to collide.
NAMED = {
    "sensors": (ALGORITHM, lambda name: f"sensor {name} 1\n"),
    "durations": (ARCHITECTURE, lambda name: f"duration {name} P0 17\n"),
}
MOST_NAMES = 100_000


def colliding_names(room):
    maker = compiled(room, os.path.join(PLAIN, "colliding.c"))
    made = subprocess.run([maker, str(MOST_NAMES)], capture_output=True, text=True, check=True)
    return made.stdout.split()


def plain_names():
    return [f"n{k:07}" for k in range(MOST_NAMES)]


def copy(room):
    """The crates that are needed, with what is kept of their checks, and the program."""
    shutil.copy(os.path.join(TOP, "HANDLES"), room)
    for name in CRATES:
        shutil.copytree(os.path.join(TOP, "crates", name), os.path.join(room, "crates", name))
    with open(os.path.join(TOP, "crates.txt"), encoding="utf-8") as it:
        lines = [line for line in it if line.split(":")[0] in CRATES]
    with open(os.path.join(room, "crates.txt"), "w", encoding="utf-8") as it:
        it.writelines(lines + [f"timing: {' '.join(CRATES)}\n"])
    crate = os.path.join(room, "crates", "timing")
    os.makedirs(os.path.join(crate, "src"))
    with open(os.path.join(crate, "src", "main.rt"), "w", encoding="utf-8") as it:
        it.write(PROGRAM)
    return crate


def seconds(crate, text):
    with open(os.path.join(crate, "text"), "w", encoding="utf-8") as it:
        it.write(text)
    ran = subprocess.run(["rt", "run"], cwd=crate, capture_output=True, text=True)
    took = [line.split()[1:] for line in ran.stdout.split("\n") if line.startswith("took")]
    if not took or took[0][2] != "true":
        stop(f"the text was not read: {ran.stdout[-2000:]}{ran.stderr[-2000:]}")
    read, both = int(took[0][0]), int(took[0][1])
    return read / 1e9, (both - read) / 1e9


def main():
    take_no_words(__doc__)
    need_command("rt", "the kit")
    need_command("cc", "a C compiler")
    with tempfile.TemporaryDirectory() as room:
        crate = copy(room)
        for kind, (head, line) in KINDS.items():
            times = [seconds(crate, filled(m * MIB, head, line)) for m in (1, 4, 16)]
            read = ", ".join(f"{read:.3f}" for read, _ in times)
            printed = ", ".join(f"{printed:.3f}" for _, printed in times)
            ratios = ", ".join(f"{b[0] / a[0]:.2f}" for a, b in zip(times, times[1:]))
            print(f"{kind}: read in {read} s (ratios {ratios}), printed in {printed} s")
        chosen, plain = colliding_names(room), plain_names()
        for kind, (head, line) in NAMED.items():
            slow, quick = (seconds(crate, head + "".join(map(line, names)))[0] for names in (chosen, plain))
            print(f"{kind} with names that were chosen to collide: read in {slow:.3f} s, plain ones in {quick:.3f} s")


if __name__ == "__main__":
    run(main)
