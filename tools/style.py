#!/usr/bin/env python3
"""Counts in the documents the words that this repository once used in a sense of its own, and sentences of more
than 35 words, and holds the counts against bounds.

    tools/style.py              the counts of each document, and those of all with their bounds
    tools/style.py WORD         each line with this word, one of those that are counted
    tools/style.py long         each sentence that is too long, with its document

Looked at are the documents that are written by hand, without their made parts, indented texts and what is in
backticks. Of a table each cell is looked at by itself, and the table of wrong bodies in docs/CLAIMS.md is left
out, since its rows say what names of files say. A bound is what a change may not go above; a change that brings a
count down brings the bound down too. Ends with status 1 if a count is above its bound."""
import glob
import os
import re

from command_line import one_of, parser, run
from repository import TOP, text_of

DOCUMENTS = ("README.md", "docs/*.md", "tests/README.md", "bench/README.md", "examples/*/README.md")
# The words, in all their forms, and what everybody writes in their place.
WORDS = {
    "where": (r"where", "if, when"),
    "stand": (r"stands?|stood|standing", "is, comes"),
    "answer": (r"answer(?:s|ed|ing)?", "returns, reports"),
    "alone": (r"alone", "only, by itself"),
    "beside": (r"beside", "next to, besides"),
    "tell": (r"tells?|told", "says, reports"),
    "whatever": (r"whatever|whoever|whichever", "each, everybody who"),
}
LONG = "long"
MOST_WORDS = 35
BOUNDS = {"where": 28, "stand": 3, "answer": 17, "alone": 0, "beside": 1, "tell": 5, "whatever": 0, LONG: 8}
MADE = re.compile(r"<!-- (\w+): made by .*?<!-- \1: end -->", re.S)
TABLE = re.compile(r"^## Wrong bodies\n.*", re.S | re.M)
CODE = re.compile(r"`[^`\n]*`")
END = re.compile(r"(?<=[.!?:;])\s+")


def documents():
    """The paths of the documents, from the top."""
    return sorted(os.path.relpath(it, TOP) for name in DOCUMENTS for it in glob.glob(f"{TOP}/{name}"))


def prose(path):
    """The text of a document that is looked at: what is not, is blank, so that each line keeps its number."""
    text = text_of(f"{TOP}/{path}")
    for part in (MADE, TABLE):
        text = part.sub(lambda it: "\n" * it[0].count("\n"), text)
    lines, before = [], ""
    for line in text.split("\n"):
        # An indented line goes on with a list item or a paragraph, or is a text by itself after an empty line.
        is_text = line.startswith("    ") and (not before.strip() or before == "TEXT")
        before = "TEXT" if is_text else line
        lines.append("" if is_text else CODE.sub("CODE", line))
    return "\n".join(lines)


def sentences(text):
    """The sentences of paragraphs, list items and cells of tables."""
    blocks, block = [], []
    for line in [*text.split("\n"), ""]:
        if line.startswith("|") or not line.strip() or re.match(r"\s*([-*>#]|\d+\.) ", line):
            blocks.append(" ".join(block))
            block = []
        if line.startswith("|"):
            blocks += line.strip("|").split(" | ")
        else:
            block.append(re.sub(r"^\s*([-*>#]+|\d+\.) ", "", line).strip())
    return [one for it in blocks for one in END.split(it) if one]


def too_long(text):
    return [it for it in sentences(text) if len(it.split()) > MOST_WORDS]


def count(text, what):
    """How often a text has a word, or a sentence that is too long."""
    return len(too_long(text)) if what == LONG else len(pattern(what).findall(text))


def pattern(what):
    return re.compile(rf"\b(?:{WORDS[what][0]})\b", re.I)


def counts():
    """Of each document how often it has each."""
    return {path: {what: count(prose(path), what) for what in BOUNDS} for path in documents()}


def sums(found):
    return {what: sum(it[what] for it in found.values()) for what in BOUNDS}


def faults():
    for what, number in sums(counts()).items():
        if number > BOUNDS[what]:
            name = f"sentences of more than {MOST_WORDS} words" if what == LONG else f"the word {what} ({WORDS[what][1]})"
            yield f"documents have {name} {number} times, and at most {BOUNDS[what]} are left: see tools/style.py {what}"


def print_counts():
    found = counts()
    rows = [(path, *it.values()) for path, it in found.items() if any(it.values())]
    rows += [("all", *sums(found).values()), ("at most", *BOUNDS.values())]
    for row in [("", *BOUNDS), *rows]:
        print(f"{row[0]:36}", *(f"{it:>8}" for it in row[1:]))
    return 1 if any(sums(found)[what] > BOUNDS[what] for what in BOUNDS) else 0


def print_lines_with(what):
    for path in documents():
        if what == LONG:
            print(*(f"{path}: {it}" for it in too_long(prose(path))), sep="\n", end="\n" if too_long(prose(path)) else "")
            continue
        for number, line in enumerate(prose(path).split("\n"), 1):
            if pattern(what).search(line):
                print(f"{path}:{number}: {line.strip()}")
    return 0


def options():
    words = parser(__doc__)
    help = f"one of {', '.join(BOUNDS)}; without it the counts are printed"
    words.add_argument("what", nargs="?", type=one_of(BOUNDS), metavar="WORD", help=help)
    return words.parse_args()


def main():
    what = options().what
    return print_lines_with(what) if what else print_counts()


if __name__ == "__main__":
    run(main)
