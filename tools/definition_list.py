"""The list of docs/DEFINITIONS.md: the definitions that have to be read to believe what docs/THEOREM.md says.

The list goes by steps. Each step has what it adds to the steps before it, so a reader can stop after any of
them. In a step a definition comes after those that it names, unless they name it too."""
import collections
import os
import re

from logic import Definition
from repository import text_of

THEOREM = "docs/THEOREM.md"
# A name in a document that may be one of a call: it has `::`, or a part after `_`.
NAME = re.compile(r"`(\w+(?:::\w+)+|[a-z0-9]+_\w+)`")


class Step:
    """A step of the reading: its name, what it is about, the calls and definitions from which it begins, and
    the definitions that it adds to the steps before it."""

    def __init__(self, name, words, *roots):
        self.name, self.words, self.roots, self.added = name, words, roots, []


def steps_of(calls):
    """The steps; the last one has the calls to which the chain of the theorem links."""
    yield Step(
        "What the actuators take",
        "What the text of an algorithm says, what a sensor table says, which values each actuator takes in\n"
        "each reaction, and the text of these values: what the clause `values` of `syndex` names\n"
        "(`Values.WritesValues` of `top_plans`). What it says rests on nothing else.",
        "top_plans.Values.WritesValues",
    )
    yield Step(
        "Every interleaving",
        "What the headline says of an execution: the micro-steps of its sequences, and what holds after every\n"
        "list of steps (`Meaning.RunsTrue` of `top_plans`).",
        "top_plans.Meaning.RunsTrue",
    )
    yield Step(
        "Every command of `syndex`",
        "What each command reads, how it refuses, what it makes of accepted texts, and what each status\n"
        "means. Here are the texts of architectures, schedules, the program of a schedule, and macro-code.",
        "syndex_program::syndex",
        "syndex_program::plain_command",
    )
    yield Step(
        "Every command of `syndex_lab`",
        "Findings in texts, pictures, traces, drawings, numbers and bounds, the search for a schedule, and\n"
        "where macro-code is wrong.",
        "lab_program::syndex_lab",
    )
    yield Step("The links of the chain", f"What the other calls and laws rest on that `{THEOREM}` names.", *calls)


class Reading:
    """The steps with what each adds, the calls that the page of the theorem names, and what all reach of the kit."""

    def __init__(self, world):
        self.world, self.calls, self.kit = world, theorem_calls(world), set()
        self.steps, seen = list(steps_of(self.calls)), set()
        for step in self.steps:
            order, kit = self.reached(*step.roots)
            step.added = [it for it in order if it not in seen]
            self.kit.update(map(str, kit))
            seen.update(order)

    def reached(self, *paths):
        """What these calls and definitions reach."""
        return self.world.reached([self.world.root(it) for it in paths])

    def lines(self, definitions):
        """How many lines these definitions have."""
        return sum(map(self.world.lines, definitions))

    def bare(self):
        """The definitions of the steps that have no sentence."""
        return [it for step in self.steps for it in step.added if not it.sentence]


def theorem_calls(world):
    """The public calls that the page of the theorem names, in its order: by a path, or by a name that only one
    crate hands out."""
    homes = collections.defaultdict(list)
    for crate in world.listing.rows:
        for name in world.calls(crate):
            homes[name.rpartition("::")[2]].append((crate, name))
    found = []
    for token in NAME.findall(text_of(f"{world.listing.top}/{THEOREM}")):
        likely = [it for it in homes[token.rpartition("::")[2]] if is_named(token, *it)]
        found += ["::".join(it) for it in likely if len(likely) == 1]
    return list(dict.fromkeys(found))


def is_named(token, crate, name):
    """Whether these words of a document name this call of a crate."""
    first, _, rest = token.partition("::")
    wanted = rest if first == crate else token
    return name == wanted or name.endswith(f"::{wanted}")


def table(head, rows):
    """The lines of a table whose first column has words and whose others have numbers."""
    yield f"| {' | '.join(head)} |"
    yield "|---|" + "---:|" * (len(head) - 1)
    for row in rows:
        yield "| " + " | ".join(f"{it:,}" if isinstance(it, int) else it for it in row) + " |"


def by_step(reading):
    """A row for each step, with its sums and with those up to its end."""
    so_far = []
    for number, step in enumerate(reading.steps, 1):
        so_far += step.added
        sums = (len(step.added), reading.lines(step.added), len(so_far), reading.lines(so_far))
        yield f"{number}. {step.name}", *sums


def by_crate(reading):
    """A row for each crate, with its definitions, their lines, and the lines that each step adds."""
    for crate in reading.world.listing.rows:
        of = [[it for it in step.added if it.crate == crate] for step in reading.steps]
        if any(of):
            lines = [reading.lines(it) for it in of]
            yield f"`{crate}`", sum(map(len, of)), sum(lines), *(it or "" for it in lines)


def by_call(reading):
    """A row for each call that the page of the theorem names, with what it reaches by itself."""
    for path in reading.calls:
        order, _ = reading.reached(path)
        yield f"`{path}`", len(order), reading.lines(order)


def by_file(world, definitions):
    """These definitions by file. A file comes after those that it names, unless they name it too, and in the
    order of crates.txt; the definitions of a file are as they are there."""
    files, crates = collections.defaultdict(list), list(world.listing.rows)
    for made in definitions:
        files[made.path].append(made)
    below = {path: {it.path for it in named_by(world, of)} & files.keys() for path, of in files.items()}
    seen, ordered = set(), []

    def add(path):
        if path not in seen:
            seen.add(path)
            for it in sorted(below[path]):
                add(it)
            ordered.append(path)

    for path in sorted(files, key=lambda it: (crates.index(files[it][0].crate), it)):
        add(path)
    return {path: sorted(files[path], key=lambda it: it.first) for path in ordered}


def named_by(world, definitions):
    """The definitions of the repository that these name."""
    return [it for made in definitions for it in world.names(made) if isinstance(it, Definition)]


def of_file(world, path, definitions):
    """The lines of the list for a file: its heading, and its definitions with their lines and sentences."""
    shown, heading = os.path.relpath(path, world.listing.top), definitions[0].file.heading()
    name = shown.split("/", 2)[2].removeprefix("specs/").removesuffix(".antt")
    yield from (f"[`{name}`](../{shown})" + (f": {heading}" if heading else ""), "")
    for it in definitions:
        yield f"- `{it.name}` ({world.lines(it)}): {it.sentence}"
    yield ""


def of_step(world, number, step):
    """The lines of the list for a step."""
    yield from (f"### Step {number}: {step.name}", "", step.words, "")
    crate = None
    for path, definitions in by_file(world, step.added).items():
        if definitions[0].crate != crate:
            crate = definitions[0].crate
            yield from (f"#### `{crate}`", "")
        yield from of_file(world, path, definitions)


def of_kit(paths):
    """The lines of the list for the kit: each of its files, with what is named of it."""
    yield from ("### Definitions of the kit", "", "They are read in the kit, where each is documented.", "")
    files = collections.defaultdict(list)
    for path in sorted(paths):
        file, joint, name = path.rpartition("::" if "::" in path else ".")
        files[file].append(name)
    for file, names in sorted(files.items()):
        yield f"- {f'`{file}`' if file else 'the prelude'}: {', '.join(f'`{it}`' for it in names)}"


def lines_of(reading):
    """The lines of the list."""
    yield from ("### Sums", "")
    yield from table(("step", "definitions", "lines", "definitions so far", "lines so far"), by_step(reading))
    yield from ("", "By crate, with the lines that each step adds:", "")
    steps = (f"step {number}" for number in range(1, len(reading.steps) + 1))
    yield from table(("crate", "definitions", "lines", *steps), by_crate(reading))
    yield from ("", f"By call: what each that `{THEOREM}` names reaches by itself.", "")
    yield from table(("call", "definitions", "lines"), by_call(reading))
    yield ""
    for number, step in enumerate(reading.steps, 1):
        yield from of_step(reading.world, number, step)
    yield from of_kit(reading.kit)
