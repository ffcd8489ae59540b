#!/usr/bin/env python3
"""Whether what the documents name in backticks is there. Looked at are, in README.md and docs/*.md:

- `crate::name`, `crate::Type::name`, `Type::name`: the crate is listed, and its code has the names; a
  type or module without a crate may be of any crate, or of the kit;
- `crate` `File.name`, and names that follow it with commas: the name is in a file `File` of that
  crate's specs/ or proofs/; a `File.name` by itself, in one of any crate. `File` may be a record;
- `crate/specs`, `crate/proofs`, `crate/proofs/File`: the folder or file is there;
- paths from the top, as `docs/THEOREM.md` and `tools/gate.py`: they are there;
- any other word with an underscore or with a capital inside: some crate, or the kit, has that word;
- in a row or list item that begins with the crates that it is about, any word: one of these, another
  crate that is named there, or one on which these stand has it.

Prints a line for each name that is not there, and ends with status 1 if there is one."""
import functools
import glob
import os
import re

from command_line import print_lines, run, take_no_words
from repository import TOP, Listing, files, text_of

TOKEN = re.compile(r"`([^`\n]+)`")
RUST_PATH = re.compile(r"[A-Za-z_]\w*(?:::[A-Za-z_]\w*)+")
FILE_NAME = re.compile(r"([A-Z]\w+)\.([^\W\d][\w'-]*)")
IN_CRATE = re.compile(r"(\w+)/(specs|proofs|src)((?:/[\w.-]+)*)/?")
FROM_TOP = re.compile(r"(?:docs|tools|tests|bench|examples|crates)/[\w./-]*")
# How a page says what the forms are: names of texts are in capitals there.
FORM = re.compile(r"File\.name|[A-Z]+\.[A-Z]+")
WORD = re.compile(r"[^\W\d]\w*")
# A word that is a name of the code and no word of a language.
CODED = re.compile(r"\w*(?:[^\W_]_[^\W_]|[a-z][A-Z])\w*")
DECLARED = re.compile(r"\b(?:fn|struct|enum|trait|const(?! fn)|static|type|mod|macro_rules!)\s+(\w+)")
# What a row or a list item begins with, where it begins with the crates that it is about.
ABOUT = re.compile(r"\| *((?:`\w+`(?:, *)?)+) *\||- \*\*[^*]+\*\* \(([^)]*)\)")
# What joins names that stand with the same crate.
JOINS = re.compile(r"(?:,| and|, and| or)? ?")
KIT = "/opt/rattle"


@functools.lru_cache(maxsize=None)
def words_of(path):
    return frozenset(WORD.findall(text_of(path)))


class Names:
    """What the crates have: the words and declarations of their files."""

    def __init__(self, listing):
        self.listing, self.of = listing, {}
        for name in listing.rows:
            folder = f"{listing.top}/crates/{name}"
            self.of[name] = [it for it in files(folder) if "/out/" not in it]

    def all_words(self):
        return frozenset().union(*(words_of(it) for paths in self.of.values() for it in paths))

    @functools.lru_cache(maxsize=None)
    def public(self, crate):
        """What a crate's code declares or hands out, with the variants and fields of its types."""
        found = set()
        for path in self.of[crate]:
            if path.endswith(".rt"):
                text = text_of(path)
                found |= {*DECLARED.findall(text), os.path.basename(path)[:-3]}
                for items in re.findall(r"\bpub use ([^;]+);", text):
                    found |= set(WORD.findall(items))
        return found

    @functools.lru_cache(maxsize=None)
    def logic(self, crate, file):
        """The words of the definitions and proofs of this file name, or None where there is none."""
        ends = (f"/{file}.antt",)
        paths = [it for it in self.of[crate] if it.endswith(ends)]
        return frozenset().union(*map(words_of, paths)) if paths else None

    def has(self, crate, file, name):
        """Whether a file of this name has the word, or one that declares a record of this name."""
        if self.logic(crate, file) is not None:
            return name in self.logic(crate, file)
        record = re.compile(rf"\b(?:record|data) {file}\b")
        paths = [it for it in self.of[crate] if it.endswith(".antt") and {file, name} <= words_of(it)]
        return any(record.search(text_of(it)) for it in paths)


@functools.lru_cache(maxsize=None)
def kit_words():
    """The words of the libraries of the kit that a crate names, and of its pages."""
    listing = Listing()
    below = {it for of in listing.rows.values() for it in of} - set(listing.rows) | {"std"}
    paths = [it for name in sorted(below) for it in files(f"{KIT}/rattle/{name}")]
    return frozenset().union(*map(words_of, [*paths, *glob.glob(f"{KIT}/*.md")]))


def of_rust_path(names, path):
    """Why `a::b` or `a::b::c` is not there, or None."""
    first, *rest = path.split("::")
    if first in names.listing.rows:
        missing = [it for it in rest if it not in names.public(first)]
        return f"the code of {first} has no {' and no '.join(missing)}" if missing else None
    homes = [it for it in names.listing.rows if first in names.public(it)]
    if any(set(rest) <= names.public(it) for it in homes):
        return None
    if not homes and first not in kit_words():
        return f"{first} is no crate, and no type or module of one"
    return f"no crate with {first} has {'::'.join(rest)}" if homes else None


def of_file_name(names, crate, token):
    """Why `File.name`, or a record's field, is not there, or None."""
    file, name = FILE_NAME.fullmatch(token).groups()
    if crate:
        if names.has(crate, file, name):
            return None
        others = [it for it in names.listing.rows if names.has(it, file, name)]
        return f"{crate} has it not" + (f": {' '.join(others)} has" if others else "")
    if any(names.has(it, file, name) for it in names.listing.rows):
        return None
    return "no crate has it"


def of_folder(names, token):
    """Why `crate/proofs/File` is not there, or None; a path of another kind has no fault."""
    crate, part, rest = IN_CRATE.fullmatch(token).groups()
    if crate not in names.listing.rows:
        return f"{crate} is no crate"
    path = f"{names.listing.top}/crates/{crate}/{part}{rest}"
    ends = ("", ".antt", ".rt")
    return None if any(os.path.exists(path + it) for it in ends) else "there is no such file or folder"


def of_token(names, crate, token, known):
    """Why a token is not there, or None. Crate is that with which it stands."""
    if FORM.fullmatch(token):
        return None
    if RUST_PATH.fullmatch(token):
        return of_rust_path(names, token)
    if FILE_NAME.fullmatch(token) and not token.endswith((".md", ".py", ".antt", ".rt")):
        return of_file_name(names, crate, token)
    if FROM_TOP.fullmatch(token):
        return None if os.path.exists(f"{TOP}/{token}") else "there is no such file or folder"
    if IN_CRATE.fullmatch(token):
        return of_folder(names, token)
    if CODED.fullmatch(token) and token not in known and token not in kit_words():
        return "no crate has this word"
    if crate and WORD.fullmatch(token) and not any(token in words_of(it) for it in names.of[crate]):
        return f"{crate} has it not"
    return None


def tokens(line, rows):
    """The tokens of a line, each with the crate with which it stands, or None."""
    crate, before, file = None, 0, False
    for found in TOKEN.finditer(line):
        between = line[before : found.start()]
        if not JOINS.fullmatch(between):
            crate, file = None, False
        token, before = found[1], found.end()
        is_crate = token in rows
        # Names stand with a crate where the first of them is a `File.name` right after it.
        file = not is_crate and (file or crate is not None and between == " " and bool(FILE_NAME.fullmatch(token)))
        yield token, crate if file else None
        crate = token if is_crate else crate


def documents(top=TOP):
    return [f"{top}/README.md", *sorted(glob.glob(f"{top}/docs/*.md"))]


def blocks(text):
    """The rows, list items and paragraphs of a document, each with the number of its first line."""
    lines, start = [], 1
    for number, line in enumerate([*text.split("\n"), ""], 1):
        if line.startswith(("- ", "| ", "#")) or not line.strip():
            if lines:
                yield start, "\n".join(lines)
            lines, start = [], number
        lines.append(line)


def of_block(names, block):
    """The words of a block that begins with its crates and that none of these has."""
    rows, about = names.listing.rows, ABOUT.match(block)
    head = {it for it in WORD.findall(about[0]) if it in rows} if about else set()
    if not head:
        return
    said = TOKEN.findall(block)
    crates = head | {it for token in said for it in WORD.findall(token) if it in rows}
    crates |= {it for name in head for it in names.listing.below(name)}
    paths = [path for it in crates for path in names.of[it]]
    known = frozenset().union(*map(words_of, paths))
    known |= {os.path.basename(it).rpartition(".")[0] for it in paths}
    for token in said:
        if WORD.fullmatch(token) and token not in known and token not in rows:
            yield token, f"neither {' nor '.join(sorted(head))} has it, nor a crate below"


def faults():
    listing = Listing()
    names = Names(listing)
    known = names.all_words() | set(listing.rows) | set(os.listdir(f"{TOP}/examples"))
    for path in documents():
        text, shown = text_of(path), os.path.relpath(path, TOP)
        for number, line in enumerate(text.split("\n"), 1):
            for token, crate in tokens(line, listing.rows):
                if why := of_token(names, crate, token, known):
                    yield f"{shown}:{number}: `{token}`: {why}"
        for number, block in blocks(text):
            for token, why in of_block(names, block):
                yield f"{shown}:{number}: `{token}`: {why}"


def main():
    take_no_words(__doc__)
    return print_lines(faults())


if __name__ == "__main__":
    run(main)
