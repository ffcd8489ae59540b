#!/usr/bin/env python3
"""Makes a native program of the sources without any proof, for whoever wants to try it at once. `./build --quick`
calls it, and so do `./syndex`, `./syndex_lab` and `tools/row.py` if no program is built.

The kit has no call for this. Its `rt try` makes a native program on its way, with checks that stop it at a
fault, runs it once and removes it; this script gives the file a second name while it is there. The program is
named `PROGRAM-unproved`, as `syndex-unproved`, and `./PROGRAM` takes it if there is no proved one and no source
is newer. Nothing is done if it is newer than all its sources. If no program is made, the last lines of what
rt says are printed. A stop (Ctrl-C) ends what was started and leaves nothing behind."""
import os
import shutil
import signal
import subprocess
import sys
import tempfile
import time

from command_line import need_command, parser, run
from repository import TOP, Listing, files, root_of

# The program that is made if no name is given.
USUAL = "syndex"
# A program of such a crate is larger than any other file that is made on the way and could be run.
LEAST = 1 << 20
ELF = b"\x7fELF"
# How many lines of rt are told where it makes no program.
TOLD = 20
# Each how many seconds it is told that the work goes on, and how many it takes on four processors that are idle.
BEAT, TAKES = 10, 90


def unproved(name):
    """The path of the unproved program of this crate."""
    return f"{TOP}/crates/{name}/out/{name}-unproved"


def is_made(name, program):
    """Whether a program is there and no source of the crates below it is newer."""
    if not os.path.exists(program):
        return False
    listing = Listing()
    crates = listing.lowest_first([name])
    sources = (path for it in crates for path in files(f"{TOP}/crates/{it}", ["src"], (".rt",)))
    made = os.path.getmtime(program)
    return all(os.path.getmtime(path) <= made for path in [f"{TOP}/crates.txt", *sources])


def programs(room):
    """The files below a folder that can be run, as they come and go."""
    for at, _, names in os.walk(room):
        for name in names:
            path = f"{at}/{name}"
            try:
                found = os.stat(path)
                if found.st_mode & 0o111 and found.st_size >= LEAST:
                    with open(path, "rb") as it:
                        if it.read(len(ELF)) == ELF:
                            yield path
            except OSError:
                # It was removed meanwhile.
                continue


def keep(path, program):
    """Gives a program a second name, which stays when the first one is removed."""
    made = f"{program}.new"
    if os.path.exists(made):
        os.remove(made)
    os.link(path, made)
    os.replace(made, program)


def keep_what_comes(tool, room, program):
    """Keeps the program that rt makes in this folder, until rt ends, and tells that the work goes on."""
    start, told = time.monotonic(), 0
    while tool.poll() is None:
        for path in programs(room):
            try:
                keep(path, program)
            except OSError:
                continue
        past = int(time.monotonic() - start)
        if past >= told + BEAT:
            told = past
            print(f"build: at work for {past} s; on four idle processors it takes about {TAKES} s", flush=True)
        time.sleep(0.05)


def end(tool):
    """Ends what rt has started, and rt."""
    if tool.poll() is None:
        os.killpg(tool.pid, signal.SIGTERM)
        try:
            tool.wait(10)
        except subprocess.TimeoutExpired:
            os.killpg(tool.pid, signal.SIGKILL)
            tool.wait()


def make(name, program, said):
    """Makes the program of this name, and returns whether it is there. What rt says goes into a file."""
    folder = f"{TOP}/crates/{name}"
    os.makedirs(f"{folder}/out", exist_ok=True)
    if os.path.exists(program):
        os.remove(program)
    room = tempfile.mkdtemp(prefix="quick-", dir=f"{folder}/out")
    how = {"cwd": folder, "env": {**os.environ, "TMPDIR": room}, "start_new_session": True}
    how |= {"stdin": subprocess.DEVNULL, "stdout": said, "stderr": said}
    try:
        tool = subprocess.Popen(["rt", "try", "--seconds", "60", "--", "no-command"], **how)
        try:
            keep_what_comes(tool, room, program)
        finally:
            end(tool)
    finally:
        shutil.rmtree(room, ignore_errors=True)
    if os.path.exists(program):
        os.utime(program)
    return os.path.exists(program)


def stop(_number, _frame):
    raise KeyboardInterrupt


def hint(name):
    """How the program is run, if a script of its name runs it."""
    return f"; ./{name} runs it" if os.path.isfile(f"{TOP}/{name}") else ""


def programs_of_crates():
    """The crates that are programs."""
    return [it for it in Listing().rows if (root_of(f"{TOP}/crates/{it}") or "").endswith("/main.rt")]


def options():
    words = parser(__doc__)
    words.add_argument("name", nargs="?", default=USUAL, choices=programs_of_crates(), metavar="PROGRAM",
                       help=f"one of {', '.join(programs_of_crates())}; {USUAL} if left out")
    return words.parse_args()


def main():
    name = options().name
    program = unproved(name)
    if is_made(name, program):
        print(f"build: the unproved program is newer than its sources{hint(name)}")
        return 0
    need_command("rt", "the kit, as README.md says")
    signal.signal(signal.SIGTERM, stop)
    print("build: makes an unproved program of the sources; stop it with Ctrl-C", flush=True)
    try:
        with tempfile.TemporaryFile() as said:
            if not make(name, program, said):
                said.seek(0)
                lines = said.read().decode(errors="replace").splitlines()
                failed = f"build: FAILED: rt try made no program of crates/{name}"
                print(*lines[-TOLD:], failed, sep="\n", file=sys.stderr)
                return 1
    except KeyboardInterrupt:
        print("\nbuild: stopped; nothing was kept, and ./build --quick begins anew", file=sys.stderr)
        return 130
    print(f"build: done; the unproved program is used until a source changes or a proved one is built{hint(name)}")
    return 0


if __name__ == "__main__":
    run(main)
