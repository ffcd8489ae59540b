"""What crates.txt says, and where the files of a crate stand. Every script reads the list of crates
here, so none of them holds a name of a crate of its own.

A line of crates.txt is one of these:

    # NAME            a room: the crates below it, up to the next room
    ## NAME           a part of the room that it stands in
    #: WORDS          a sentence about the room or the part above it; it may go on over more lines
    crate words: ..   a crate, and the libraries that it stands on"""
import os

TOP = os.path.dirname(os.path.dirname(os.path.abspath(__file__)))
# The folders of a crate that rt reads.
PARTS = ("src", "specs", "proofs")


class Group:
    """A room or a part of one: its name, the line of its heading, its sentence and its crates."""

    def __init__(self, name, number):
        self.name, self.number, self.words, self.crates = name, number, [], []
        # The parts of a room, whose crates stand in the room's list too.
        self.parts = []

    def sentence(self):
        return " ".join(self.words)


class Listing:
    """crates.txt: its rooms, what each crate stands on, and what is wrong with its lines."""

    def __init__(self, top=TOP):
        self.top, self.rooms, self.rows, self.numbers, self.faults = top, [], {}, {}, []
        with open(f"{top}/crates.txt", encoding="utf-8") as it:
            for number, line in enumerate(it, 1):
                self.take(number, line.strip())

    def take(self, number, line):
        """Takes one line more."""
        if line.startswith("#:"):
            self.add_words(number, line[2:].strip())
        elif line.startswith("##"):
            self.add_part(number, line[2:].strip())
        elif line.startswith("#"):
            self.rooms.append(Group(line[1:].strip(), number))
        elif line:
            self.add_crate(number, line.partition("#")[0])

    def add_words(self, number, words):
        if not self.rooms:
            self.faults.append(f"crates.txt:{number}: a sentence stands below no room")
            return
        group = (self.rooms[-1].parts or self.rooms)[-1]
        if group.crates:
            self.faults.append(f"crates.txt:{number}: a sentence stands right below a heading")
        group.words.append(words)

    def add_part(self, number, name):
        if self.rooms:
            self.rooms[-1].parts.append(Group(name, number))
        else:
            self.faults.append(f"crates.txt:{number}: the part {name} stands in no room")

    def add_crate(self, number, line):
        name, _, below = line.partition(":")
        name = name.split()[0]
        if name in self.rows:
            self.faults.append(f"crates.txt:{number}: {name} is listed twice")
        self.rows[name], self.numbers[name] = below.replace(",", " ").split(), number
        if not self.rooms:
            self.faults.append(f"crates.txt:{number}: {name} stands in no room")
            return
        self.rooms[-1].crates.append(name)
        if self.rooms[-1].parts:
            self.rooms[-1].parts[-1].crates.append(name)

    def below(self, name):
        """The crates of the repository that this one names."""
        return [it for it in self.rows[name] if it in self.rows]

    def lowest_first(self, names):
        """These crates and all below them, each after those that it stands on."""
        found = {}

        def add(name):
            if name not in found:
                for it in self.below(name):
                    add(it)
                found[name] = None

        for name in names:
            add(name)
        return list(found)


def files(folder, parts=PARTS, ends=(".rt", ".antt")):
    """The files of a crate with these ends, in the order of their paths."""
    for part in parts:
        for at, folders, names in os.walk(f"{folder}/{part}"):
            folders.sort()
            yield from (f"{at}/{name}" for name in sorted(names) if name.endswith(ends))


def text_of(path):
    with open(path, encoding="utf-8") as it:
        return it.read()


def root_of(folder):
    """The file that a crate begins with, or None."""
    found = (f"{folder}/src/{name}.rt" for name in ("lib", "main"))
    return next(filter(os.path.isfile, found), None)
