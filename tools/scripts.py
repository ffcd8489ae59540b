#!/usr/bin/env python3
"""Whether each script of the repository is executable, prints its help for --help, and refuses a word that it does
not know with a line of usage and status 2. Looked at are ./build, ./syndex, ./syndex_lab and the scripts of tools/,
tests/ and bench/. Prints a line for each that does not, and ends with status 1 if there is one."""
import concurrent.futures
import glob
import os
import subprocess

from command_line import print_lines, run, take_no_words
from repository import TOP, text_of

# Scripts whose words are those of a program: what is unknown is for the program to refuse.
OF_PROGRAMS = ("syndex", "syndex_lab")
UNKNOWN = "--no-such-word"
# How many seconds a script may take for its help, on a machine that does much else.
MOST = 120


def is_script(path):
    return text_of(path).startswith("#!")


def paths():
    """The scripts, by their paths from the top, and the modules beside them."""
    found = [f"{TOP}/{it}" for it in ("build", *OF_PROGRAMS)]
    found += [it for folder in ("tools", "tests", "bench") for it in sorted(glob.glob(f"{TOP}/{folder}/*.py"))]
    return [os.path.relpath(it, TOP) for it in found]


def ran(path, word):
    """What a script does with a word, in a folder that is not the repository, or None if it works on something."""
    how = {"cwd": "/", "env": {**os.environ, "PYTHONDONTWRITEBYTECODE": "1"}, "stdin": subprocess.DEVNULL}
    how |= {"capture_output": True, "text": True, "timeout": MOST}
    try:
        return subprocess.run([f"{TOP}/{path}", word], check=False, **how)
    except subprocess.TimeoutExpired:
        return None


def prints_help(path):
    done = ran(path, "--help")
    return done and done.returncode == 0 and done.stdout and not done.stderr


def refuses(path):
    done = ran(path, UNKNOWN)
    return done and done.returncode == 2 and "usage: " in done.stderr and not done.stdout


def of_script(path):
    """What is wrong with one script."""
    found = []
    if not os.access(f"{TOP}/{path}", os.X_OK):
        return [f"{path}: it is not executable"]
    if not prints_help(path):
        found.append(f"{path}: --help does not print a help and end with status 0")
    if path not in OF_PROGRAMS and not refuses(path):
        found.append(f"{path}: {UNKNOWN} is not refused with usage and status 2")
    return found


def faults():
    scripts = [it for it in paths() if is_script(f"{TOP}/{it}")]
    for path in set(paths()) - set(scripts):
        if "__main__" in text_of(f"{TOP}/{path}"):
            yield f"{path}: it can be run and does not begin with #!"
    with concurrent.futures.ThreadPoolExecutor(len(os.sched_getaffinity(0))) as pool:
        for found in pool.map(of_script, scripts):
            yield from found


def main():
    take_no_words(__doc__)
    return print_lines(faults())


if __name__ == "__main__":
    run(main)
