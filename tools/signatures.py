#!/usr/bin/env python3
"""The public items of the repository with their signatures and clauses, and what a change did to them.

    tools/signatures.py list [REV]           every item that a crate hands out, now or at a revision: functions,
                                             methods, traits with their methods, types with their public fields,
                                             impls of traits, constants, macros, and what a crate hands on of
                                             another one
    tools/signatures.py compare REV [REV2]   what is missing, reads otherwise or is new at REV2, or now; the status
                                             is 0 if nothing is missing and nothing reads otherwise

Items are shown in a normal form: without layout and comments, and each name of the repository without its crate
and module, also where it is imported under another name. Two names are the same if they have the same path; or
if the old path is gone, the new one was not there before, and both end with the same name. So an item that moved
to another crate, module or file is the same item. If several items of one name moved, those of the same text are
the same, and otherwise those of the same path below their crate. The order of clauses does not matter."""
import argparse
import collections
import signal
import subprocess
import sys

sys.dont_write_bytecode = True
from rt_items import Fault
from rt_names import disk_sources, git_sources
from rt_public import Public
from rt_same import Same, renamed, segments

HANDED_ON = "handed on"
# Kinds of items that are members of another one.
MEMBERS = {"method", "trait method", "impl"}
# Kinds whose lines have an order that means something.
ORDERED = {"struct", "enum", "macro_rules"}


# ---------------------------------------------------------------- which item is which

class Pairs:
    """Which public item of old is which of new: by its path; then, among those of new that no item of old is
    yet, by its path without the crate, and by its last name."""

    def __init__(self, old, new, moves):
        self.old, self.new, self.moves = old, new, moves
        self.same, self.of, self.taken = Same(old, new, moves), {}, set()
        self.olds = {it.path: it for it in old.entries}
        self.news = {it.path: it for it in new.entries}
        tops = [it for it in old.entries if it.kind not in MEMBERS and it.kind != HANDED_ON]
        members = [it for it in old.entries if it.kind in MEMBERS]
        self.by_path(tops)
        self.by_key(tops, lambda it: (it.kind, it.tail()))
        self.by_key(tops, lambda it: (it.kind, it.path[-1]))
        self.by_path(members)
        self.by_key(members, lambda it: (it.kind, it.tail()))
        self.hand_on([it for it in old.entries if it.kind == HANDED_ON])

    def put(self, old, new):
        self.of[old] = new
        self.taken.add(new)
        self.same.pair(old.id, new.id)

    def by_path(self, entries):
        """Takes those that are found by their path, or by that of the item that they are members of."""
        for it in entries:
            path = renamed(it.path, self.moves)
            found = self.at(path)
            home = self.of.get(self.olds.get(it.path[:-1])) if it.kind in MEMBERS else None
            if found is None and home is not None:
                found = self.at((*home.path, path[-1]))
            if found is not None and found not in self.taken:
                self.put(it, found)

    def at(self, path):
        """The new item of this path, also where a crate hands on the item or what it is a member of."""
        for end in range(len(path), 1, -1):
            it = self.news.get(path[:end])
            if it is None:
                continue
            if it.kind != HANDED_ON:
                return it if end == len(path) else None
            home = self.new.homes.get(it.id)
            self.taken.add(it)
            return self.news.get((*home, *path[end:])) if home else None
        return None

    def by_key(self, entries, key):
        """Pairs what is left with what is new and has the same key: first those of the same text."""
        news = collections.defaultdict(list)
        for it in self.new.entries:
            if it not in self.taken:
                news[key(it)].append(it)
        left = [it for it in entries if it not in self.of]
        for is_like in (lambda a, b: a.body() == b.body(), lambda a, b: True):
            for it in left:
                likely = [one for one in news[key(it)] if one not in self.taken and is_like(it, one)]
                if it not in self.of and likely:
                    self.put(it, max(likely, key=lambda one: shared(it, one)))

    def crates(self):
        """How many items of one crate are in another now."""
        return collections.Counter((it.path[0], new.path[0]) for it, new in self.of.items())

    def hand_on(self, entries):
        """Pairs what crates hand on, where the crate may have moved as a whole."""
        crates = {}
        for (old, new), _ in self.crates().most_common():
            crates.setdefault(old, new)
        for it in entries:
            path = renamed(it.path, self.moves)
            found = self.news.get(path) or self.news.get((crates.get(path[0], path[0]), *path[1:]))
            if found is not None:
                self.of[it] = found
                self.taken.add(found)

    def is_same(self, old):
        new = self.of[old]
        if old.kind == HANDED_ON:
            return new.id in self.same.targets(old.id)
        return old.kind == new.kind and self.same.lines(old.lines, new.lines, old.kind in ORDERED)


def shared(old, new):
    """How many lines two items have in common."""
    return len({it.text() for it in old.lines} & {it.text() for it in new.lines})


# ---------------------------------------------------------------- definitions

def reached(pairs):
    """The definitions that the clauses of old name and all that these name, with what they may be now."""
    same, found = pairs.same, {}
    left = [word.id for it in pairs.of for line in it.lines for word in line.words() if word.id]
    while left:
        id, _ = same.old.base(left.pop())
        id = same.old.whole.get(id, id)
        if id in found or not same.old.has(id) or id in pairs.old.homes:
            continue
        found[id] = sorted(filter(same.new.has, same.targets(id)))
        left += [word.id for line in same.old.lines(id) for word in line.words() if word.id]
    return found


# ---------------------------------------------------------------- what is reported

def difference(same, old, new):
    """The lines of two texts: those of the old, marked if the new has them not, and then those that only the new has."""
    made, left = [], list(new)
    for it in old:
        found = next((line for line in left if same.line(it, line)), None)
        if found is not None:
            left.remove(found)
        made.append((it, found))
    before = [(" " if found else "-", it, by_text(it, left)) for it, found in made]
    now = [("+", it, by_text(it, [old for old, found in made if found is None])) for it in left]
    return [f"    {mark} {it.text(differing(same, it, other, mark))}" for mark, it, other in (*before, *now)]


def by_text(line, lines):
    """The line that reads like this one, or None."""
    return next((it for it in lines if it.text() == line.text()), None)


def differing(same, line, other, mark):
    """The ids of the names that differ from those of a line which reads alike: these are shown by their paths."""
    if other is None or mark == " ":
        return ()
    pairs = zip(line.words(), other.words())
    return {it.id for it, by in pairs if not (same.words(it, by) if mark == "-" else same.words(by, it))} - {None}


def of_entries(title, entries):
    if entries:
        print(f"{title}\n")
    for it in entries:
        print(f"  {it.shown()}", *(f"      {line.text()}" for line in it.lines), "", sep="\n")


def report(pairs, with_definitions):
    """Reports what became of the items, and returns whether nothing is missing and nothing reads otherwise."""
    missing = [it for it in pairs.old.entries if it not in pairs.of]
    new = [it for it in pairs.new.entries if it not in pairs.taken]
    otherwise = [it for it in pairs.old.entries if it in pairs.of and not pairs.is_same(it)]
    of_entries("Missing:", missing)
    if otherwise:
        print("Reads otherwise (- before, + now):\n")
    for it in otherwise:
        now = pairs.of[it]
        print(f"  {it.shown()}" + (f", now {now.shown()}" if now.path != it.path else ""))
        print(*difference(pairs.same, it.lines, now.lines), "", sep="\n")
    of_entries("New:", new)
    below, wrong = report_definitions(pairs) if with_definitions else (0, 0)
    moved = {it: n for it, n in pairs.crates().items() if it[0] != it[1]}
    if moved:
        print("Moved to another crate:\n")
        print(*(f"  {old} -> {now}: {n}" for (old, now), n in sorted(moved.items())), "", sep="\n")
    print(
        f"{len(pairs.old.entries)} items before, {len(pairs.new.entries)} now: {len(missing)} missing, "
        f"{len(otherwise)} read otherwise, {len(new)} new"
        + (f"; of {below} definitions below those before {wrong} read otherwise" if with_definitions else "")
    )
    return not (missing or otherwise or wrong)


def report_definitions(pairs):
    """Reports which definitions read otherwise, and returns of how many how many do."""
    same, wrong, found = pairs.same, 0, reached(pairs)
    for id, likely in sorted(found.items()):
        old, news = same.old.lines(id), [same.new.lines(it) for it in likely]
        if any(same.lines(old, it) for it in news):
            continue
        if not wrong:
            print("Definitions that read otherwise (- before, + now):\n")
        wrong += 1
        now = "" if likely[:1] == [id] else f", now {likely[0]}" if likely else ": it is gone"
        print(f"  {id}{now}", *difference(same, old, news[0] if news else []), "", sep="\n")
    return len(found), wrong


def at(revision):
    return Public(git_sources(revision) if revision else disk_sources())


def moves_of(path):
    """The lines of a file of what is called otherwise."""
    with open(path, encoding="utf-8") as it:
        lines = [line.partition("#")[0].split() for line in it]
    return [tuple(map(segments, line)) for line in lines if line]


def parsed(words):
    """What the words on the command line ask for."""
    parser = argparse.ArgumentParser(description=__doc__, formatter_class=argparse.RawDescriptionHelpFormatter)
    commands = parser.add_subparsers(dest="command", required=True)
    listed = commands.add_parser("list", help="every public item")
    listed.add_argument("revision", nargs="?", metavar="REV")
    compared = commands.add_parser("compare", help="what is missing, reads otherwise or is new")
    compared.add_argument("old", metavar="REV")
    compared.add_argument("new", nargs="?", metavar="REV2")
    compared.add_argument(
        "--moved",
        metavar="FILE",
        help="lines `old_path new_path` of what is called otherwise now, as `crate::name`, `crate.File.name` for a "
        "definition, or what such paths begin with",
    )
    compared.add_argument(
        "--definitions",
        action="store_true",
        help="compare also the definitions that the clauses before name, and all that these name",
    )
    return parser.parse_args(words)


def main(words):
    # Whoever reads the output, as `head` does, may have enough of it before its end.
    signal.signal(signal.SIGPIPE, signal.SIG_DFL)
    given = parsed(words)
    try:
        if given.command == "list":
            print(*(it.text() for it in at(given.revision).entries), sep="\n\n")
            return 0
        moves = moves_of(given.moved) if given.moved else []
        return 0 if report(Pairs(at(given.old), at(given.new), moves), given.definitions) else 1
    except subprocess.CalledProcessError as why:
        print(f"the revision {why.cmd[-3]} cannot be read", file=sys.stderr)
    except (Fault, OSError) as why:
        print(why, file=sys.stderr)
    return 2


if __name__ == "__main__":
    sys.exit(main(sys.argv[1:]))
