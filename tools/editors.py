#!/usr/bin/env python3
"""The syntax files for editors: of the four texts, which are an algorithm, an architecture, macro-code and a table of
sensor values, each for Vim and as a grammar of TextMate, which Visual Studio Code and others take too.
`./build --prefix` installs them.

Prints a line for each line of an example that begins with a word which the files do not know, and for each word that no
plain reader of tests/plain has, and ends with status 1 if there is one."""
import glob
import json
import os
import re
from dataclasses import dataclass

from command_line import print_lines, run, take_no_words
from repository import TOP, text_of

MADE = "Made by tools/editors.py of syndex."
# Files of the examples that are outputs and have two texts.
OUTPUTS = ("check.txt", "run.txt")
# What a number is, in expressions of Vim and of TextMate.
NUMBER = (r"-?<\d+>", r"-?\b\d+\b")
# How Vim and TextMate call what a rule finds.
GROUPS = {
    "comment": ("Comment", "comment.line.number-sign"),
    "first": ("Statement", "keyword.control"),
    "defined": ("Identifier", "entity.name.type"),
    "word": ("Type", "storage.modifier"),
    "call": ("Function", "support.function"),
    "number": ("Number", "constant.numeric"),
    "name": ("Identifier", "variable.other"),
    "string": ("String", "string.quoted.double"),
}


@dataclass(frozen=True)
class Text:
    """A kind of text: its files, how its first line with words begins, and its words."""

    name: str
    title: str
    file: str
    opening: str
    # The words with which a line begins, and those of them after which a name is defined.
    first: tuple = ()
    defines: tuple = ()
    # Words that may follow, and those of a call.
    words: tuple = ()
    calls: tuple = ()
    has_comments: bool = True


TEXTS = (
    Text(
        "algorithm", "algorithm of syndex", "algorithm.txt", "algorithm",
        tuple("algorithm sensor actuator constant delay function graph switch repeat end in out on ref edge case"
              " otherwise fork diffuse iterate join".split()),
        tuple("sensor actuator constant delay function graph switch repeat".split()),
        ("every",),
        tuple("sum neg select add sub mul div rem eq ne lt le gt ge min max".split()),
    ),
    Text(
        "architecture", "architecture of syndex", "architecture.txt", "architecture",
        tuple("architecture depth operator medium connect duration".split()), ("operator", "medium"), ("p2p", "multi"),
    ),
    Text(
        "code", "macro-code of syndex", "code.txt", "processor_",
        tuple("processor_ semaphores_ alloc_ thread_ endthread_ main_ endmain_ spawn_thread_ wait_endthread_ loop_ endloop_"
              " op send_ recv_ sync_ Suc0_ Suc1_ Pre0_ Pre1_".split()),
        ("op",),
    ),
    Text("sensors", "table of sensor values of syndex", "sensors.csv", "k", has_comments=False),
)


def any_of(words):
    return "|".join(words)


def rules(text):
    """What is to be found in a text, as a group, an expression of Vim and one of TextMate; an earlier rule wins."""
    if text.has_comments:
        yield "comment", "#.*$", "#.*$"
    else:
        yield "string", '"[^"]*"', '"[^"]*"'
        yield "name", r"<\h\w*\.\d+>|^k>", r"\b[A-Za-z_]\w*\.\d+\b|^k\b"
    if text.defines:
        yield "defined", rf"(^\s*%({any_of(text.defines)})\s+)@<=\h\w*", None
    if text.first:
        yield "first", rf"(^\s*)@<=%({any_of(text.first)})>", rf"^\s*({any_of(text.first)})\b"
    if text.words:
        yield "word", rf"<%({any_of(text.words)})>", rf"\b({any_of(text.words)})\b"
    if text.calls:
        yield "call", rf"<%({any_of(text.calls)})>\ze\s*\(", rf"\b({any_of(text.calls)})(?=\s*\()"
    if text.name == "code":
        yield "name", r"<b\d+>", r"\bb\d+\b"
    yield "number", *NUMBER


def for_vim(text):
    """The syntax file of Vim."""
    lines = [f'" Vim syntax file: {text.title}. {MADE}', 'if exists("b:current_syntax")', "  finish", "endif"]
    # In Vim the last rule wins.
    found = list(rules(text))[::-1]
    for group, vim, _ in found:
        lines.append(f"syntax match syndex_{text.name}_{group} /\\v{vim}/")
    for group in dict.fromkeys(group for group, _, _ in found):
        lines.append(f"highlight default link syndex_{text.name}_{group} {GROUPS[group][0]}")
    return "\n".join([*lines, f'let b:current_syntax = "syndex_{text.name}"']) + "\n"


def vim_detection():
    """How Vim finds out which of the texts a file is: by its first line with words."""
    lines = [f'" Which text of syndex a file is, by its first line with words. {MADE}',
             "autocmd BufNewFile,BufRead *.txt,*.csv call s:detect()", "function! s:detect() abort",
             r"  let l:lines = filter(getline(1, 100), {_, it -> it !~# '\v^\s*(#|$)'})", "  let l:line = get(l:lines, 0, '')"]
    for text in TEXTS:
        lines += [rf"  if l:line =~# '\v^\s*{opening(text, '>')}'", f"    set filetype=syndex_{text.name}", "  endif"]
    return "\n".join([*lines, "endfunction"]) + "\n"


def opening(text, boundary):
    """How the first line with words begins; `boundary` is the end of a word."""
    if text.name == "code":
        return rf"{text.opening}\s*\("
    return rf"{text.opening},\w+\.0{boundary}" if text.name == "sensors" else rf"{text.opening}\s+\d"


def for_textmate(text):
    """The grammar of TextMate."""
    patterns = []
    for group, _, it in rules(text):
        name = f"{GROUPS[group][1]}.syndex"
        if group == "defined":
            after = {"1": {"name": f"{GROUPS['first'][1]}.syndex"}, "2": {"name": name}}
            patterns.append({"match": rf"^\s*({any_of(text.defines)})\s+([A-Za-z_]\w*)", "captures": after})
        else:
            patterns.append({"match": it, "name": name})
    first = r"^\s*" + opening(text, r"\b")
    named = {"name": text.title, "scopeName": scope(text), "fileTypes": [], "firstLineMatch": first}
    return {**named, "patterns": patterns}


def scope(text):
    return f"source.syndex.{text.name}"


def extension():
    """The description by which Visual Studio Code takes the folder of the grammars as an extension."""
    languages, grammars = [], []
    for text in TEXTS:
        language = f"syndex-{text.name}"
        languages.append({"id": language, "aliases": [text.title], "filenamePatterns": [f"**/{text.file}"],
                          "firstLine": for_textmate(text)["firstLineMatch"], "configuration": "./language.json"})
        grammars.append({"language": language, "scopeName": scope(text), "path": f"./{grammar_file(text)}"})
    named = {"name": "syndex", "publisher": "syndex", "version": "1.0.0", "engines": {"vscode": "^1.50.0"}}
    return {**named, "contributes": {"languages": languages, "grammars": grammars}}


def grammar_file(text):
    return f"syndex_{text.name}.tmLanguage.json"


def vim_files():
    """The files for Vim, by their paths below its folder."""
    found = {f"syntax/syndex_{it.name}.vim": for_vim(it) for it in TEXTS}
    return {**found, "ftdetect/syndex.vim": vim_detection()}


def textmate_files():
    """The grammars of TextMate, with what makes an extension of them."""
    found = {grammar_file(it): for_textmate(it) for it in TEXTS}
    found |= {"package.json": extension(), "language.json": {"comments": {"lineComment": "#"}}}
    return {path: json.dumps(it, indent=2) + "\n" for path, it in found.items()}


def kind_of(lines):
    """The kind of a text by its first line with words, or None."""
    words = [line.split() for line in lines if line.partition("#")[0].split()]
    begin = re.split(r"\W", words[0][0])[0] if words else None
    return next((it for it in TEXTS if it.first and it.opening == begin), None)


def faults():
    """Lines of the examples whose first word is not known, and words that no plain reader has."""
    for path in sorted(glob.glob(f"{TOP}/examples/*/*.txt")):
        lines = text_of(path).splitlines()
        text = None if os.path.basename(path) in OUTPUTS else kind_of(lines)
        for number, line in enumerate(lines if text else [], 1):
            first = re.match(r"\s*(\w+)", line.partition("#")[0])
            if first and first[1] not in text.first:
                yield f"{os.path.relpath(path, TOP)}:{number}: tools/editors.py does not know {first[1]}"
    known = set(re.findall(r"\w+", "".join(map(text_of, glob.glob(f"{TOP}/tests/plain/*.py")))))
    for text in TEXTS:
        for word in sorted({*text.first, *text.words, *text.calls} - known):
            yield f"tools/editors.py: no reader of tests/plain has the word {word}"


def main():
    take_no_words(__doc__)
    return print_lines(faults())


if __name__ == "__main__":
    run(main)
