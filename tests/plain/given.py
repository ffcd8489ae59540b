"""What the words of a command line ask for, as docs/MANUAL.md says: a command, its plain words, and its options."""
import os
import re

from plain.words import NUMBER, Refused

MANUAL = os.path.join(os.path.dirname(os.path.realpath(__file__)), "../../docs/MANUAL.md")
# The options that the manual calls OPTIONS.
SEARCH = ("tries", "seed", "for")


def form_of(form):
    """How many plain words a form has, without and with those in brackets, its options, and the place of the number N."""
    options = SEARCH if "[OPTIONS]" in form else tuple(re.findall(r"--([a-z]+)", form))
    plain = re.sub(r"\[(--[^]]*|OPTIONS)\]", "", form)
    counts = [len(re.sub(r"\[[^]]*\]", "", plain).split())]
    for together in re.findall(r"\[([^]]*)\]", plain):
        counts.append(counts[-1] + len(together.split()))
    words = re.sub(r"[][]", "", plain).split()
    return counts, options, words.index("N") if "N" in words else None


def forms():
    """The commands of each program by their names, as the two tables of the manual have them."""
    with open(MANUAL, encoding="utf-8") as file:
        parts = file.read().split("| command | what it writes |\n")[1:]
    found = [dict(re.findall(r"^\| `(\w+)([^`]*)` \|", it.split("\n\n")[0], re.M)) for it in parts]
    return [{name: form_of(form) for name, form in it.items()} for it in found]


SYNDEX, LAB = forms()
COMMANDS = {"syndex": SYNDEX, "syndex_lab": {**LAB, "--help": LAB["help"]}}
# The greatest value of an option.
MOST = {"workers": 80, "tries": 1_000_000, "seed": 1_000_000}
GOALS = ("length", "period")


def hold(fact):
    if not fact:
        raise Refused(2, "usage")


def hold_number(word, most):
    """A number from 1 on."""
    hold(NUMBER.match(word.encode()) and 1 <= int(word) <= most)


def hold_value(option, value):
    if option == "for":
        hold(value in GOALS)
    else:
        hold_number(value, MOST[option])


def given(program, words):
    """The command, its plain words, and the values of its options by name."""
    hold(words and words[0] in COMMANDS[program])
    command, rest = words[0], list(words[1:])
    counts, known, place = COMMANDS[program][command]
    plain, options = [], {}
    while rest:
        word = rest.pop(0)
        if word == "--":
            plain += rest
            break
        if word == "-" or not word.startswith("-"):
            plain.append(word)
            continue
        option, has_value, value = word[2:].partition("=")
        hold(word.startswith("--") and option in known and option not in options)
        if not has_value:
            hold(rest and (rest[0] == "-" or not rest[0].startswith("-")))
            value = rest.pop(0)
        options[option] = value
        hold_value(option, value)
    hold(len(plain) in counts)
    if place is not None and place < len(plain):
        hold_number(plain[place], 1000)
    return command, plain, options
