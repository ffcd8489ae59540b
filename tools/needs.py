#!/usr/bin/env python3
"""Whether crates.txt says what each crate stands on: reports the libraries that no file of a crate names,
and those that a file names and the line of the crate does not have. Ends with status 1 if there are any.

It also lists, without effect on the status, the libraries that only tests name, and the longest chain of
crates."""
import re

from command_line import print_lines, run, take_no_words
from repository import Listing, files, text_of

# A library that a file names: in a path of Rust, or in an import of definitions and proofs.
PATH = re.compile(r"(?<![\w.:])(?:::)?([a-z_][a-z0-9_]*)::")
USE = re.compile(r"\buse\s+([a-z_][a-z0-9_]*)\s*[:;{]")
IMPORT = re.compile(r"\bRattle\.([a-z_][a-z0-9_]*)\.")
ALWAYS = {"std", "core"}


def sources(folder):
    """The files of a crate with their texts, without comments of whole lines."""
    for path in files(folder):
        yield path, re.sub(r"(?m)^\s*(//|--).*$", "", text_of(path))


def is_test(path):
    return "/tests/" in path or path.endswith("/tests.rt") or "/proofs/tests/" in path


def named(folder, libraries):
    """The libraries that the crate's files name, and those that its tests alone do."""
    code, tests = set(), set()
    for path, text in sources(folder):
        before, _, after = text.partition("\n#[cfg(test)]\nmod tests {")
        for part, found in ((before, tests if is_test(path) else code), (after, tests)):
            words = set(IMPORT.findall(part))
            if path.endswith(".rt"):
                words |= {*PATH.findall(part), *USE.findall(part)}
            found |= words & libraries
    return code, tests - code


def told(listing):
    """For each crate what is unnamed, what is missing, and what its tests alone name."""
    libraries = {it for below in listing.rows.values() for it in below} | set(listing.rows)
    for name, below in listing.rows.items():
        code, tests = named(f"{listing.top}/crates/{name}", libraries - {name})
        unnamed = [it for it in below if it not in code | tests]
        missing = sorted((code | tests) - set(below) - ALWAYS)
        yield name, unnamed, missing, [it for it in below if it in tests]


def faults():
    listing = Listing()
    for name, unnamed, missing, _ in told(listing):
        at = f"crates.txt:{listing.numbers[name]}: {name}"
        if unnamed:
            yield f"{at} names nowhere: {' '.join(unnamed)}"
        if missing:
            yield f"{at} lacks: {' '.join(missing)}"


def chain(listing):
    """The longest chain of crates, the highest first."""
    longest = {}
    for name in listing.lowest_first(listing.rows):
        longest[name] = [name, *max((longest[it] for it in listing.below(name)), key=len, default=[])]
    return max(longest.values(), key=len, default=[])


def main():
    take_no_words(__doc__)
    listing = Listing()
    for name, _, _, alone in told(listing):
        if alone:
            print(f"{name} names only in tests: {' '.join(alone)}")
    found = chain(listing)
    print(f"the longest chain has {len(found)} crates: {' '.join(found)}")
    return print_lines(faults())


if __name__ == "__main__":
    run(main)
