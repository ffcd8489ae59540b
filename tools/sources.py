"""The sources of a crate (`.rt`): its modules, what they declare and bring in, and the clauses of its
calls. Bodies are not read, and nothing that is only for tests."""
import os
import re

from lexer import blanked, comment_above, comment_from
from logic import Definition
from repository import root_of, text_of

ITEM = re.compile(
    r"(?P<pub>pub(?:\([\w ]+\))?\s+)?(?:(?:const|unsafe|async|final|extern)\s+)*?"
    r"(?P<kind>ghost\s+use|ghost|use|mod|fn|struct|enum|trait|impl|const(?!\s+(?:unsafe\s+)?fn\b)|static|type)\b"
    r"\s*(?P<name>\w+)?"
)
MACRO = re.compile(r"(?:macro_rules!\s*\w+|[\w:]+!)\s*")
CLAUSE = re.compile(r"\s*(ghost|requires|ensures)\b\*?\s*([\w']*)\s*:?\s*\{")
CLAUSE_WORD = re.compile(r"\b(?:ghost|requires|ensures)\b")
FIELD = re.compile(r"(?:pub(?:\([\w ]+\))?\s+)?(?P<ghost>ghost\s+)?(?:(?P<name>\w+)\s*:(?!:))?")
OPENS = frozenset("([{")
BRACKET = re.compile(r"[(){}\[\]]")
# Words of a type or a bound that are no paths.
WORDS = frozenset("mut dyn impl const where for as ref in true false fn unsafe".split())
PATH = re.compile(r"(?<![\w':.])[A-Za-z_]\w*(?:\s*::\s*[A-Za-z_]\w*)*")


def closing(text, at):
    """The place of the bracket that closes the one here."""
    depth = 0
    for it in BRACKET.finditer(text, at):
        depth += 1 if it[0] in OPENS else -1
        if not depth:
            return it.start()
    return len(text) - 1


def outer_find(text, chars, at, end):
    """The first place of one of these characters outside brackets, or the end."""
    while at < end and text[at] not in chars:
        at = closing(text, at) + 1 if text[at] in OPENS else at + 1
    return min(at, end)


def angle(text, n):
    """What the character here adds to the depth of generics: an arrow closes none."""
    return (text[n] == "<") - (text[n] == ">" and text[n - 1] not in "-=")


def after_generics(text, at):
    """The place after the generics that begin here, if any do."""
    start = at + len(text[at : at + 80]) - len(text[at : at + 80].lstrip())
    if text[start : start + 1] != "<":
        return at
    depth, n = 0, start
    while n < len(text):
        depth += angle(text, n)
        if not depth:
            return n + 1
        n = closing(text, n) + 1 if text[n] in OPENS else n + 1
    return n


def pieces(text, start, end):
    """The parts between commas outside brackets and generics, each with its place; no attributes."""
    begin, n, depth = start, start, 0
    while n <= end:
        if n == end or text[n] == "," and not depth:
            while found := re.match(r"\s*#\s*\[", text[begin:n]):
                begin = closing(text, begin + found.end() - 1) + 1
            if text[begin:n].strip():
                yield begin + len(text[begin:n]) - len(text[begin:n].lstrip()), n
            begin = n + 1
        if n < end:
            depth += angle(text, n)
            n = closing(text, n) if text[n] in OPENS else n
        n += 1


def at_where(text):
    """What is before `where`, and the bounds after it."""
    before, _, after = re.sub(r"\bwhere\b", "\0", text, count=1).partition("\0")
    return before, after


def parts_of(text):
    """The texts of the parts of a list."""
    return [text[begin:end].strip() for begin, end in pieces(text, 0, len(text))]


def flat(path):
    """The paths of a `use`, each with the name by which it is known: `a::{b, c as d}` is two."""
    found = re.fullmatch(r"(?:(.*?)\s*::\s*)?\{(.*)\}\s*", path.strip(), re.S)
    if found:
        head = found[1].split("::") if found[1] else []
        for words, known in (it for part in parts_of(found[2]) for it in flat(part)):
            is_self = words[-1:] == ["self"]
            yield [*head, *(words[:-1] if is_self else words)], head[-1] if known == "self" else known
        return
    path, _, known = re.sub(r"\s+", " ", path).partition(" as ")
    words = [it.strip() for it in path.split("::") if it.strip()]
    yield words, known.strip() or words[-1]


def paths_of(text):
    """The paths that a type or a bound names, as lists of words; labels and lifetimes are none."""
    text = re.sub(r"'\w+", "", text)
    for it in PATH.finditer(text):
        words = [word.strip() for word in it[0].split("::")]
        is_label = re.match(r"\s*(:(?!:)|=(?![=>]))", text[it.end() :])
        if words[0] not in WORDS and not is_label:
            yield words


class Ghost:
    """A clause, or a ghost member or field: its word or name, and its place in the file."""

    def __init__(self, kind, name, start, end):
        self.kind, self.name, self.start, self.end = kind, name, start, end


class Function:
    """The head of a function: its generics, parameters, result and bounds, and its clauses."""

    def __init__(self, module, block, found):
        text, self.module, self.block, self.name = module.file.text, module, block, found["name"]
        self.is_public, self.start, self.clauses = bool(found["pub"]), found.start(), []
        after = after_generics(text, found.end())
        opening = text.index("(", after)
        at = closing(text, opening) + 1
        stop = self.stop(text, at)
        self.params, (self.result, bounds) = text[opening + 1 : at - 1], at_where(text[at:stop])
        self.generics = (text[found.end() : after], bounds)
        while clause := CLAUSE.match(text, stop):
            last = closing(text, clause.end() - 1)
            self.clauses.append(Ghost(clause[1], clause[2], clause.end(), last))
            stop = self.stop(text, last + 1)
        self.end = closing(text, stop) + 1 if text[stop] == "{" else stop + 1

    @staticmethod
    def stop(text, at):
        """The next place outside brackets of a clause, of the body or of the semicolon."""
        while text[at] not in "{;" and not CLAUSE_WORD.match(text, at):
            at = closing(text, at) + 1 if text[at] in "([" else at + 1
        return at

    def parameters(self):
        """The names of the parameters, and of the ghost values."""
        names = [word for part in parts_of(self.params) for word in re.findall(r"\w+", part.partition(":")[0])]
        return [*names, *(it.name for it in self.clauses if it.kind == "ghost")]


class Block:
    """An `impl` or a trait: its generics, the trait and the type of an impl, the imports of its clauses, and its
    members. The `trait` of a trait is those that it goes on from."""

    def __init__(self, module, generics, trait, of, opening, is_trait):
        self.module, self.generics, self.trait, self.of, self.is_trait = module, generics, trait, of, is_trait
        self.functions, self.ghosts, self.consts, self.imports, self.types = [], [], {}, [], set()
        text, end = module.file.text, closing(module.file.text, opening)
        self.end, at = end + 1, opening + 1
        while at < end:
            if text[at].isspace() or text[at] == ";":
                at += 1
            elif text[at] == "#":
                at = closing(text, text.index("[", at)) + 1
            else:
                at = self.take(text, at, end)

    def take(self, text, at, end):
        """Takes a member, and returns where it ends."""
        found = ITEM.match(text, at)
        if not found:
            return closing(text, outer_find(text, "{(", at, end)) + 1
        kind, name = " ".join(found["kind"].split()), found["name"]
        if kind == "fn":
            self.functions.append(Function(self.module, self, found))
            return self.functions[-1].end
        after = outer_find(text, ";", found.end(), end)
        if kind == "ghost use":
            self.imports.append(text[found.start("name") : after])
        elif kind == "ghost":
            self.ghosts.append(Ghost(kind, name, found.end(), after))
        elif kind == "const":
            self.consts[name] = Declared(self.module, name, kind, found.start(), after + 1, bool(found["pub"]))
        elif kind == "type":
            self.types.add(name)
        return after + 1


class Declared(Definition):
    """A type, a trait or a constant of the sources: its place in its file, and its block if it is a trait."""

    def __init__(self, module, name, kind, start, end, is_public):
        file = module.file
        first, last = file.line_of(start), file.line_of(end - 1)
        super().__init__(module.crate, module.path, name, kind, file.path, first, last)
        self.file, self.source, self.start, self.end = file, module, start, end
        self.is_public, self.block = is_public, None
        self.lines, self.sentence = file.code_lines(start, end), file.sentence_above(self.first)
        self.variants = dict(self.variants_of()) if kind == "enum" else {}

    def text(self):
        return self.source.file.text

    def generics(self):
        """The generics of a type, and the bounds after `where`."""
        text, at = self.text(), self.text().index(self.name, self.start) + len(self.name)
        after = after_generics(text, at)
        return text[at:after], at_where(text[after : outer_find(text, "{;(", after, self.end)])[1]

    def body(self):
        """The places between which the fields or variants of a type are."""
        text = self.text()
        at = after_generics(text, text.index(self.name, self.start) + len(self.name))
        opening = outer_find(text, "{;(", at, self.end)
        return (opening + 1, closing(text, opening)) if text[opening] in "{(" else (opening, opening)

    def variants_of(self):
        """The variants of an enum, each with the places between which its fields are."""
        text = self.text()
        for begin, end in pieces(text, *self.body()):
            opening = outer_find(text, "({=", begin, end)
            has_fields = opening < end and text[opening] in "({"
            fields = (opening + 1, closing(text, opening)) if has_fields else (end, end)
            yield re.match(r"\w+", text[begin:end])[0], fields

    def fields(self):
        """The fields of a type: each name or None, the place of its type or fact, and whether it is ghost."""
        for part in self.variants.values() if self.kind == "enum" else [self.body()]:
            for begin, end in pieces(self.text(), *part):
                found = FIELD.match(self.text(), begin, end)
                yield found["name"], found.end(), end, bool(found["ghost"])


class Module:
    """A module of a crate: its items, its modules, what it brings in, its impls and its clauses' imports."""

    def __init__(self, crate, path, file, parent):
        self.crate, self.path, self.file, self.parent = crate, path, file, parent
        self.mods, self.public_mods, self.items, self.uses, self.globs = {}, set(), {}, {}, []
        self.imports, self.impls = [], []


class SourceFile:
    """A file of the sources, with and without its comments."""

    def __init__(self, path):
        raw = text_of(path)
        self.path, self.text, self.raw_lines = path, blanked(raw), raw.split("\n")

    def line_of(self, at):
        """The number of the line of a place, from 1."""
        return self.text.count("\n", 0, at) + 1

    def code_lines(self, start, end):
        """How many lines of this part say something."""
        return sum(1 for it in self.text[start:end].split("\n") if it.strip())

    def sentence_above(self, line):
        """The words of the comment right above this line, or above the attributes right above it."""
        n = line - 1
        while n and re.match(r"\s*(#\[|[\w, ():]*\)\]$)", self.raw_lines[n - 1]):
            n -= 1
        return comment_above(self.raw_lines, n, "///")

    def heading(self):
        """What the file says of itself in its first lines."""
        return comment_from(self.raw_lines, "//!")


class Sources:
    """The modules of a crate: its root, and all of them."""

    def __init__(self, crate, folder):
        self.crate, self.modules = crate, []
        self.root = self.read((), SourceFile(root_of(folder)), None)

    def read(self, path, file, parent, start=0, end=None):
        """Reads a module, which may be a part of a file, and those below it."""
        module = Module(self.crate, path, file, parent)
        self.modules.append(module)
        at, end, attributes = start, len(file.text) if end is None else end, ""
        while at < end:
            if file.text[at].isspace() or file.text[at] == ";":
                at += 1
            elif file.text[at] == "#":
                after = closing(file.text, file.text.index("[", at)) + 1
                attributes += re.sub(r"\s", "", file.text[at:after])
                at = after
            else:
                is_test = "cfg(test)" in attributes or "#[test]" in attributes
                at, attributes = self.take(module, at, end, is_test), ""
        return module

    def take(self, module, at, end, is_test):
        """Takes an item, unless it is for tests, and returns where it ends."""
        text, found = module.file.text, ITEM.match(module.file.text, at)
        if not found:
            macro = MACRO.match(text, at)
            opening = macro.end() if macro else outer_find(text, "{", at, end)
            return closing(text, opening) + 1
        kind, name, is_public = " ".join(found["kind"].split()), found["name"], bool(found["pub"])
        if kind in ("use", "ghost use"):
            after = outer_find(text, ";", found.end("kind"), end)
            if not is_test:
                self.take_use(module, kind, text[found.end("kind") : after].strip(), is_public)
            return after + 1
        if kind == "mod":
            return self.take_mod(module, name, found, end, is_test)
        if kind == "fn":
            made = Function(module, None, found)
        elif kind in ("impl", "trait"):
            made = self.block_of(module, kind, found, end)
        else:
            made = Declared(module, name, kind, found.start(), self.end_of(text, kind, found.end(), end), is_public)
        if kind == "impl" and not is_test:
            module.impls.append(made)
        elif not is_test and name != "_":
            module.items[name] = made
        return made.end

    @staticmethod
    def end_of(text, kind, at, end):
        """Where a type or a constant ends."""
        after = outer_find(text, ";" if kind in ("const", "static", "type") else "{;(", at, end)
        if text[after] == "(":
            after = outer_find(text, ";", after, end)
        return closing(text, after) + 1 if text[after] == "{" else after + 1

    @staticmethod
    def take_use(module, kind, text, is_public):
        """Takes a `use` of the code, or of the clauses."""
        if kind == "ghost use":
            module.imports.append(text)
            return
        for words, known in flat(text):
            if known == "*":
                module.globs.append(words[:-1])
            else:
                module.uses[known] = (words, is_public)

    def take_mod(self, module, name, found, end, is_test):
        """Takes a module, which is in the file or has one of its own."""
        text = module.file.text
        after = outer_find(text, ";{", found.end(), end)
        last = closing(text, after) if text[after] == "{" else after
        path = (*module.path, name)
        if not is_test and last > after:
            module.mods[name] = self.read(path, module.file, module, after + 1, last)
        elif not is_test:
            base = module.file.path[:-3] if module.path else os.path.dirname(module.file.path)
            module.mods[name] = self.read(path, SourceFile(f"{base}/{name}.rt"), module)
        if found["pub"] and not is_test:
            module.public_mods.add(name)
        return last + 1

    @staticmethod
    def block_of(module, kind, found, end):
        """An `impl`, or a trait with its block."""
        text = module.file.text
        at = found.end() if kind == "trait" else found.end("kind")
        after, opening = after_generics(text, at), outer_find(text, "{", at, end)
        head, bounds = at_where(text[after:opening])
        if kind == "impl":
            trait, of = halves(head)
            return Block(module, (text[at:after], bounds), trait, of, opening, False)
        made = Declared(module, found["name"], kind, found.start(), closing(text, opening) + 1, bool(found["pub"]))
        above = head.strip().removeprefix(":")
        made.block = Block(module, (text[at:after], bounds), above, found["name"], opening, True)
        return made


def halves(head):
    """The trait and the type of the head of an impl; no trait, where it has none."""
    for it in re.finditer(r"(?<!\w)for\s+(?!<)", head):
        if not sum(angle(head, n) for n in range(it.start())):
            return head[: it.start()].strip(), head[it.end() :].strip()
    return "", head.strip()
