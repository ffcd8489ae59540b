"""The items of a text of Rattle (`.rt`): what each declares, with its attributes, clauses and members,
as lists of words. Bodies of functions and comments are passed over."""
import re

from lexer import blanked

WORD = re.compile(
    r"""[bc]?r(?P<hashes>#*)".*?"(?P=hashes)|[bc]?"(?:[^"\\]|\\.)*"|b?'(?:[^'\\\n]|\\[^\n][^'\n]*)'"""
    r"""|'\w+|\w+|::|->|=>|\.\.[.=]?|\S""",
    re.S,
)
PAIRS = {"(": ")", "[": "]", "{": "}"}
# Words that may be between the visibility of a function, trait or impl and the word for it.
MARKS = ("const", "unsafe", "final", "extern", "async")
CLAUSES = ("requires", "ensures", "ghost")
# Attributes that say how something is proved or built, and nothing to who calls it.
QUIET = ("tactic", "cycle", "inline", "cold", "allow", "doc", "test")


class Clause:
    """A clause or ghost member: its word, the name it has or an empty one, and the text of the logic."""

    def __init__(self, word, name, text, type=""):
        self.word, self.name, self.text, self.type = word, name, text, type


class Item:
    """An item, a field or a variant. What a kind has none of is empty."""

    def __init__(self, attributes, seen):
        self.attributes, self.seen = attributes, seen
        self.kind, self.name, self.marks = "", "", []
        # The words after the name, up to the clauses, the members or the end.
        self.head = []
        self.clauses, self.members, self.text = [], [], ""

    def is_test(self):
        return any(it[:1] == ["test"] or it[:4] == ["cfg", "(", "test", ")"] for it in self.attributes)


class Fault(Exception):
    """A text that this reader does not understand."""


def uncommented(text, is_logic=False):
    """The text with blanks in the place of comments, so that every place stays."""
    return blanked(text, is_logic, ("comment",))


class Reader:
    """Reads a text of Rattle item by item."""

    def __init__(self, text, path):
        self.text, self.path, self.at = uncommented(text), path, 0
        found = list(WORD.finditer(self.text))
        self.words = [it[0] for it in found]
        self.starts, self.ends = [it.start() for it in found], [it.end() for it in found]

    def fault(self, what):
        line = self.text.count("\n", 0, self.starts[min(self.at, len(self.starts) - 1)]) + 1
        return Fault(f"{self.path}:{line}: {what}")

    def word(self, ahead=0):
        at = self.at + ahead
        return self.words[at] if at < len(self.words) else ""

    def take(self, *wanted):
        """The next word, which has to be one of these, if any are given."""
        word = self.word()
        if not word or wanted and word not in wanted:
            raise self.fault(f"{word or 'the end'} is where {' or '.join(wanted) or 'more'} is expected")
        self.at += 1
        return word

    def closing(self):
        """The place of the bracket that closes the next one."""
        opens, depth = self.word(), 0
        closes = PAIRS[opens]
        for at in range(self.at, len(self.words)):
            depth += {opens: 1, closes: -1}.get(self.words[at], 0)
            if not depth:
                return at
        raise self.fault(f"{opens} is not closed")

    def group(self):
        """The words of the next brackets, without these."""
        end = self.closing()
        inner, self.at = self.words[self.at + 1 : end], end + 1
        return inner

    def braced(self):
        """The text in the next braces."""
        end = self.closing()
        text, self.at = self.text[self.ends[self.at] : self.starts[end]].strip(), end + 1
        return text

    def until(self, *stops, angles=True):
        """The words up to the first of these outside of brackets."""
        taken, depth = [], 0
        while self.word() and (depth or self.word() not in stops):
            opens = self.word()
            if opens in PAIRS:
                taken += [opens, *self.group(), PAIRS[opens]]
                continue
            depth += {"<": 1, ">": -1}.get(opens, 0) if angles else 0
            taken.append(self.take())
        return taken

    def attributes(self):
        """The attributes that are here, each as its words, without those that say nothing to a caller."""
        found = []
        while self.word() == "#":
            self.take()
            if self.word() == "!":
                self.take()
            words = self.group()
            if words[0] not in QUIET or words[0] == "test":
                found.append(words)
        return found

    def visibility(self):
        if self.word() != "pub":
            return ""
        self.take()
        if self.word() == "(" and self.word(1) in ("crate", "super", "self", "in"):
            return "pub(" + "".join(self.group()) + ")"
        return "pub"

    def items(self, end):
        """The items up to this place."""
        found = []
        while self.at < end:
            if self.word() == ";":
                self.take()
            elif item := self.item():
                found.append(item)
        return found

    def item(self):
        """The next item, or None if there is only an attribute of the whole text, or a call of a macro."""
        item = Item(self.attributes(), "")
        if not self.word():
            return None
        item.seen = self.visibility()
        while self.word() in MARKS and (self.word() != "const" or self.word(1) in (*MARKS, "fn")):
            item.marks.append(self.take())
            if self.word().startswith('"'):
                item.marks.append(self.take())
        item.kind = self.take()
        reads = getattr(self, f"of_{item.kind.rstrip('!')}", None)
        if reads is None:
            if self.word() != "!":
                raise self.fault(f"{item.kind} begins no item that is known")
            return self.of_call()
        reads(item)
        return item

    def of_call(self):
        """Passes over a call of a macro among the items."""
        self.take("!")
        self.group()

    def of_ghost(self, item):
        """An import of clauses, or a ghost member."""
        if self.word() == "use":
            self.take()
            begins = self.starts[self.at]
            # An operator such as `◌;◌` is none that is imported.
            while self.word() != ";":
                self.take()
            item.kind, item.text = "ghost use", self.text[begins : self.starts[self.at]].strip()
            self.take(";")
            return
        item.clauses.append(self.ghost_member())
        item.name = item.clauses[0].name
        if self.word() in (";", ","):
            self.take()

    def ghost_member(self):
        """`name: { type }`, `name = { term }`, or both."""
        name, kind, text = self.take(), "", ""
        if self.word() == ":":
            self.take()
            kind = self.braced()
        if self.word() == "=":
            self.take()
            text = self.braced()
        return Clause("ghost", name, text, kind)

    def clauses(self):
        """The clauses of a function."""
        found = []
        while self.word() in CLAUSES:
            word = self.take()
            if word == "ghost":
                found.append(self.ghost_member())
                continue
            if self.word() == "*":
                word += self.take()
            name = "" if self.word() == "{" else self.take()
            found.append(Clause(word, name, self.braced()))
        return found

    def of_fn(self, item):
        item.name = self.take()
        item.head = self.until(*CLAUSES, "{", ";")
        item.clauses = self.clauses()
        if self.word() == "{":
            self.at = self.closing() + 1
        else:
            self.take(";")

    def of_struct(self, item):
        item.name = self.take()
        item.head = self.until("(", "{", ";")
        if self.word() == "(":
            item.members = self.fields(has_names=False)
            item.head += self.until(";")
        elif self.word() == "{":
            item.members = self.fields(has_names=True)
        if self.word() == ";":
            self.take()

    def fields(self, has_names):
        """The fields of a struct, in the brackets that begin here."""
        end, found = self.closing(), []
        self.at += 1
        while self.at < end:
            field = Item(self.attributes(), self.visibility())
            field.kind, field.name = "field", str(len(found))
            if has_names:
                field.name = self.take()
                if field.name == "ghost" and self.word() != ":":
                    field.kind = "ghost"
                    field.clauses.append(self.ghost_member())
                    field.name = field.clauses[0].name
                else:
                    self.take(":")
            field.head = self.until(",", self.words[end])
            found.append(field)
            if self.at < end:
                self.take(",")
        self.at = end + 1
        return found

    def of_enum(self, item):
        item.name = self.take()
        item.head = self.until("{")
        end = self.closing()
        self.at += 1
        while self.at < end:
            variant = Item(self.attributes(), "pub")
            variant.kind, variant.name = "variant", self.take()
            variant.head = self.until(",", "}")
            item.members.append(variant)
            if self.at < end:
                self.take(",")
        self.at = end + 1

    def of_trait(self, item):
        item.name = self.take()
        item.head = self.until("{")
        self.inside(item)

    def of_impl(self, item):
        item.head = self.until("{")
        self.inside(item)

    def of_mod(self, item):
        item.name = self.take()
        if self.word() == ";":
            self.take()
        else:
            item.text = "inline"
            self.inside(item)

    def inside(self, item):
        """Reads the members of an item, which are in braces."""
        end = self.closing()
        self.at += 1
        item.members = self.items(end)
        self.at = end + 1

    def of_const(self, item):
        item.name = self.take()
        item.head = self.until(";", angles=False)
        self.take(";")

    of_static = of_type = of_const

    def of_use(self, item):
        item.head = self.until(";", angles=False)
        self.take(";")

    def of_macro_rules(self, item):
        self.take("!")
        item.name = self.take()
        if self.word() in "([":
            item.head = self.group()
            self.take(";")
        else:
            item.head = self.group()


def items_of(text, path):
    """The items of a text."""
    reader = Reader(text, path)
    return reader.items(len(reader.words))
