"""What the scripts in this folder have in common: how they take their words and end, as all scripts of the repository do,
the programs that they time, and the files that they give them."""
import os
import sys

sys.path.append(os.path.join(os.path.dirname(os.path.dirname(os.path.abspath(__file__))), "tools"))
# Most of these are for the scripts.
from command_line import built_program, compiled, need_command, parser, positive, run, stop, take_no_words
from repository import TOP, Listing

# The programs as ./build makes them. `built_program` says whether they are there.
SYNDEX, LAB = (os.path.join(TOP, "crates", name, "out", name) for name in ("syndex", "syndex_lab"))
PLAIN = os.path.join(TOP, "bench", "plain")


def written(room, name, text):
    """The name of a file of this folder, with this text."""
    file = os.path.join(room, name)
    with open(file, "w", encoding="ascii") as it:
        it.write(text)
    return file
