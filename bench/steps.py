#!/usr/bin/env python3
"""Times micro-steps of a program for two operators with a bus, in runs of 10,000 reactions: of the core's `run_list`, and
of one driver on a table of words, which makes the same steps in the same order. Prints how many are made a second, the ratio of
the words to the core, and that of the core to as many turns of a plain loop.

What is timed is a test that is put into a copy of `worked_programs` and the crates below it, which is thrown away.
The copy takes over what earlier checks kept; in a new clone everything below is proved first."""
import os
import shutil
import subprocess
import tempfile

from program import TOP, Listing, need_command, run, stop, take_no_words

CRATES = Listing().lowest_first(["worked_programs"])
RUNS = 20
# two prologues of one micro-step, and 10,000 reactions of 23
STEPS = RUNS * (2 + 10_000 * 23)
MODULE = """//! Micro-steps of the program for two operators, timed.
ghost use Rattle.std.specs.Prelude.{◌≡◌};
ghost use Rattle.word_table.specs.Driver.{AreDrivers};

use crate::texts::{Texts, Worked};
use crate::two_operators::texts;
use semaphore_core::{Job, State, run_list};
use std::alloc::Global;
use std::test::Fail;
use std::time::Instant;
use word_table::{Driven, Driver, Fabric, MicroAnswer, weave};

fn nanoseconds(rt: &HostRuntime, start: Instant) -> u128 {
    match start.elapsed(rt) {
        Ok(took) => took.as_nanos(),
        Err(_) => 0,
    }
}

/// The runs of a job over a list.
fn runs(alloc: Global, job: &Job, list: &[u32]) -> Result<(), Fail> {
    for _ in 0..@RUNS@ {
        let mut state = State::new(alloc, job)?;
        run_list(job, &mut state, list);
    }
    Ok(())
}

/// Tries the sequences of a list in its order, by one driver.
fn tried<'a>(fabric: &Fabric<'a>, driver: &mut Driver<'a>, list: &[u32]) -> u64
    requires { driver.old.fabric ≡ fabric.now }
    ensures fabric { driver.new.fabric ≡ driver.old.fabric }
    ensures group { driver.new.group ≡ driver.old.group }
{
    let mut made: u64 = 0;
    for seq in list {
        if *seq < fabric.sequences() && fabric.groups() > 0 && *seq % fabric.groups() == driver.group() {
            if let MicroAnswer::Stepped = fabric.try_micro(driver, *seq) {
                made = made.saturating_add(1);
            }
        }
    }
    made
}

/// The same by each driver.
fn tried_by_all<'a>(fabric: &Fabric<'a>, drivers: &mut Vec<Driver<'a>>, list: &[u32]) -> u64
    requires { AreDrivers fabric.now drivers.old.items }
    ensures { AreDrivers fabric.now drivers.new.items }
{
    let mut made: u64 = 0;
    for g in 0..drivers.len() {
        made = made.saturating_add(tried(fabric, &mut drivers[g], list));
    }
    made
}

/// A run on a table of words, by one driver.
fn run_on_words(alloc: Global, job: &Job, list: &[u32]) -> Result<u64, Fail> {
    let (fabric, mut drivers) = weave(alloc, job, 1)?;
    let made = tried_by_all(&fabric, &mut drivers, list);
    let mut driven = Driven::new(alloc);
    let _closed = fabric.close(drivers, &mut driven);
    Ok(made)
}

/// As many runs as on the core.
fn runs_on_words(alloc: Global, job: &Job, list: &[u32]) -> Result<u64, Fail> {
    let mut made: u64 = 0;
    for _ in 0..@RUNS@ {
        made = made.saturating_add(run_on_words(alloc, job, list)?);
    }
    Ok(made)
}

fn turns(times: u64) -> u64 {
    let mut x: u64 = 1;
    for i in 0..times {
        x = x.wrapping_mul(3) ^ i;
    }
    x
}

fn timed(rt: &HostRuntime, alloc: Global, job: &Job, list: &[u32]) -> Result<(), Fail> {
    let Ok(start) = Instant::now(rt) else {
        return Ok(());
    };
    runs(alloc, job, list)?;
    let steps = nanoseconds(rt, start);
    let Ok(start) = Instant::now(rt) else {
        return Ok(());
    };
    let turned = turns(@STEPS@);
    let turns = nanoseconds(rt, start);
    let Ok(start) = Instant::now(rt) else {
        return Ok(());
    };
    let made = runs_on_words(alloc, job, list)?;
    let words = nanoseconds(rt, start);
    let _ = println!(rt; "took {} {} {} {} {}", steps, turns, words, made, turned);
    Ok(())
}

const PROLOGUES: [u32; 2] = [1, 2];

const REACTION: [u32; 23] = [
    0, 0, 0, 0, 0, 1, 1, 1, 1, 1, 1, 3, 3, 3, 3, 3, 3, 2, 2, 2, 2, 2, 0,
];

fn list(alloc: Global) -> Result<Vec<u32>, Fail> {
    let mut list = Vec::from_slice(alloc, &PROLOGUES)?;
    for _ in 0..10_000 {
        list.extend_from_slice(&REACTION)?;
    }
    Ok(list)
}

#[test]
fn micro_steps_are_timed(rt: HostRuntime) -> Result<(), Fail> {
    let alloc = rt.alloc();
    let five: &[i64] = &[5];
    let rows = vec![in alloc; five; 10_000]?;
    let texts = Texts {
        rows: rows.as_slice(),
        ..texts()
    };
    let worked = Worked::read(&rt, alloc, &texts)?;
    let job = worked.job(&rt, alloc)?;
    timed(&rt, alloc, &job, list(alloc)?.as_slice())
}
"""


def copy(room):
    """The crates that are needed, with what is kept of their checks."""
    shutil.copy(os.path.join(TOP, "HANDLES"), room)
    for name in CRATES:
        shutil.copytree(os.path.join(TOP, "crates", name), os.path.join(room, "crates", name))
    with open(os.path.join(TOP, "crates.txt"), encoding="utf-8") as it:
        lines = [line for line in it if line.split(":")[0].split(" ")[0] in CRATES]
    with open(os.path.join(room, "crates.txt"), "w", encoding="utf-8") as it:
        it.writelines(lines)
    crate = os.path.join(room, "crates", "worked_programs")
    with open(os.path.join(crate, "src", "steps.rt"), "w", encoding="utf-8") as it:
        it.write(MODULE.replace("@RUNS@", str(RUNS)).replace("@STEPS@", str(STEPS)))
    with open(os.path.join(crate, "src", "lib.rt"), "a", encoding="utf-8") as it:
        it.write("#[cfg(test)]\nmod steps;\n")
    invariants = {
        "tried_by_all": "(length l.drivers.items ≡ length l.initial.drivers.items) × AreDrivers l.fabric l.drivers.items",
        "tried": "(l.driver.fabric ≡ l.initial.driver.fabric) × (l.driver.group ≡ l.initial.driver.group)",
    }
    for name, holds in invariants.items():
        folder = os.path.join(crate, "proofs", "steps", name)
        os.makedirs(folder)
        mark = {"tried": "loop-seq", "tried_by_all": "loop-g"}[name]
        with open(os.path.join(folder, "Invariants.antt"), "w", encoding="utf-8") as it:
            it.write(
                "use Rattle.std.specs.Prelude.{◌≡◌, length}\n"
                "use Rattle.word_table.specs.Driver.{AreDrivers}\n"
                f"use Rattle.worked_programs.proofs.steps.{name}.Given as goal\n\n"
                f"abbrev pub invariant-{mark} : goal.invariant-{mark}\n"
                f"invariant-{mark} l = {holds}\n"
            )
    return crate


def main():
    take_no_words(__doc__)
    need_command("rt", "the kit")
    with tempfile.TemporaryDirectory() as room:
        ran = subprocess.run(["rt", "test"], cwd=copy(room), capture_output=True, text=True)
    words = [line.split() for line in ran.stdout.split("\n")]
    took = [line[1:5] for line in words if line[:1] == ["took"]]
    if not took:
        stop(f"the test has not run: {ran.stdout[-2000:]}{ran.stderr[-2000:]}")
    steps, turns, on_words, made = (int(word) for word in took[0])
    assert made == STEPS, f"{made} micro-steps were made on words"
    print(f"{STEPS} micro-steps: {steps / 1e9:.3f} s, {STEPS / steps * 1e3:.1f} million a second")
    print(f"as many on words: {on_words / 1e9:.3f} s, {STEPS / on_words * 1e3:.1f} million a second, ratio {on_words / steps:.2f}")
    print(f"as many turns of a plain loop: {turns / 1e9:.4f} s, ratio {steps / turns:.1f}")


if __name__ == "__main__":
    run(main)
