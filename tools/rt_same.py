"""Which names of the repository at one time are which at another, where things moved.

Names are the same if they have the same path; or if the old path is gone, the new one was not there, and
both end with the same name. Where several things of one name moved, those of the same text are the same, or
else those of the same path below their crate."""
import collections
import re

from rt_names import Import
from rt_public import lines_of
from rt_words import Line, Scope


def segments(path):
    return tuple(re.split(r"::|\.", path))


def last_name(id):
    """The last name of a path, and whether it is one of the code: a type and a definition may share a name."""
    return "::" in id, segments(id)[-1]


def renamed(path, moves):
    """What becomes of the segments of a path by the move that names most of them."""
    found = [it for it in moves if path[: len(it[0])] == it[0]]
    old, new = max(found, key=lambda it: len(it[0]), default=((), ()))
    return (*new, *path[len(old) :])


class Known:
    """What the repository declares at one time, public or not, by its paths."""

    def __init__(self, public):
        self.public, self.definitions, self.texts = public, {}, {}
        # The definition of which a constructor or field is part, and of which each name is that it declares.
        self.whole = {}
        for id, definition, file, home in public.world.logic.definitions():
            self.definitions[id] = definition, file, home
            self.whole[id] = ".".join([*home, definition.name])
            for part, name in file.parts.items():
                if name == definition.name:
                    its = ".".join([*home, part])
                    self.definitions.setdefault(its, self.definitions[id])
                    self.whole.setdefault(its, id)
        self.by_name, self.by_segments = collections.defaultdict(list), {}
        for id in (*public.items, *self.definitions):
            self.by_name[last_name(id)].append(id)
            self.by_segments["::" in id, segments(id)] = id

    def has(self, id):
        return id in self.public.items or id in self.definitions

    def base(self, id):
        """What is declared that a path names, or of which it names a part, and what is after it."""
        parts = id.split("::") if "::" in id else [id]
        ends = (end for end in range(len(parts), 0, -1) if self.has("::".join(parts[:end])))
        end = next(ends, len(parts))
        return "::".join(parts[:end]), parts[end:]

    def lines(self, id):
        """The lines of what is declared."""
        if id in self.public.items:
            module, item = self.public.items[id]
            return [] if item.kind == "trait" else lines_of(Scope(self.public.world, module), item, id)
        definition, file, home = self.definitions[id]
        own = ((it, Import(["Rattle", home[0], "specs", *home[1:], it], False)) for it in (*file.declared, *file.parts))
        scope = Scope(self.public.world, None, [*file.uses.items(), *own])
        return [Line(("logic", scope.logic_words(it, ()))) for it in definition.lines]

    def text(self, id):
        if id not in self.texts:
            self.texts[id] = "\n".join(it.text() for it in self.lines(id))
        return self.texts[id]


class Same:
    """Whether the ids of an old name and of a new one mean the same."""

    def __init__(self, old, new, moves):
        self.old, self.new, self.moves = Known(old), Known(new), moves
        # The new paths of old ones, as the pairs of public items have them.
        self.paired, self.found = {}, {}

    def pair(self, old, new):
        self.paired[old] = new
        self.found.clear()

    def targets(self, id):
        """The new paths that an old one may have."""
        if id not in self.found:
            base, rest = self.old.base(id)
            self.found[id] = {"::".join([it, *rest]) for it in self.of_base(base)}
        return self.found[id]

    def of_base(self, id):
        if id in self.paired:
            return [self.paired[id]]
        moved = renamed(segments(id), self.moves)
        if found := self.new.by_segments.get(("::" in id, moved)):
            return [found]
        if self.new.has(id) or not self.old.has(id):
            return [id]
        gone = [it for it in self.old.by_name[last_name(id)] if not self.new.has(it)]
        came = [it for it in self.new.by_name[last_name(id)] if not self.old.has(it)]
        if len(gone) == len(came) == 1:
            return came
        alike = [it for it in came if self.new.text(it) == self.old.text(id)]
        return alike or [it for it in came if segments(it)[1:] == segments(id)[1:]]

    def words(self, old, new):
        """Whether an old word and a new one are the same."""
        if old.id is None or new.id is None:
            return old.id is new.id and old.text == new.text
        return new.id == old.id if not self.old.has(self.old.base(old.id)[0]) else new.id in self.targets(old.id)

    def line(self, old, new):
        old, new = old.words(), new.words()
        return len(old) == len(new) and all(map(self.words, old, new))

    def lines(self, old, new, in_order=True):
        """Whether lines are the same, where their order matters or not."""
        if len(old) != len(new):
            return False
        if in_order:
            return all(map(self.line, old, new))
        left = list(new)
        for it in old:
            found = next((at for at, line in enumerate(left) if self.line(it, line)), None)
            if found is None:
                return False
            left.pop(found)
        return True
