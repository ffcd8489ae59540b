"""A file of the logic (`.antt`): its imports, its definitions, and which names a term leaves free.

A term is read by its binders only: signatures, patterns, `λ`, `let`, `where`, sections and the fields
of records. A name that none of them binds is free: it is something that the file declares or
imports, and `scopes.py` says what."""
import bisect
import re

from lexer import blanked, comment_above, comment_from
from repository import text_of

TOKEN = re.compile(r"«[^»]*»|[^\s(){}.;,@\"«»]+|[(){}.;,@]")
PUNCTUATION = frozenset("(){}.;,@")
OPENS, CLOSES = frozenset("({"), frozenset(")}")
MARKS = frozenset("pattern unfoldable abbrev pub axiom".split())
# Words that are no names.
RESERVED = frozenset("λ ∀ → × ↦ = | : [ ] _ ? in let do as elim unfold record data where Type 𝕀 𝔽 ◌".split())
NUMERAL = re.compile(r"\d[\w']*")


class Token:
    """A word of a term, where it begins, and whether no blank is between it and the word before."""

    __slots__ = ("text", "at", "glued")

    def __init__(self, text, at, glued):
        self.text, self.at, self.glued = text, at, glued


def tokens_of(text, start=0, end=None):
    """The tokens of this part of a text that has no comments."""
    found, last = [], -1
    for it in TOKEN.finditer(text, start, len(text) if end is None else end):
        word = it[0][1:-1] if it[0][0] == "«" else it[0]
        found.append(Token(word, it.start(), it.start() == last))
        last = it.end()
    return found


def closing(tokens, at):
    """The place of the bracket that closes the one here."""
    depth = 0
    for n in range(at, len(tokens)):
        depth += (tokens[n].text in OPENS) - (tokens[n].text in CLOSES)
        if not depth:
            return n
    return len(tokens) - 1


def inside(tokens, at):
    """The tokens between the bracket here and the one that closes it, and the place after that."""
    end = closing(tokens, at)
    return tokens[at + 1 : end], end + 1


def outer(tokens, start=0):
    """The places of the tokens that are in no bracket; what is in brackets counts as one."""
    at = start
    while at < len(tokens):
        yield at
        at = closing(tokens, at) + 1 if tokens[at].text in OPENS else at + 1


def first_outer(tokens, words, start=0):
    """The first place of one of these words outside brackets, or None."""
    return next((n for n in outer(tokens, start) if tokens[n].text in words), None)


def split_outer(tokens, word):
    """The parts of a list of tokens between these words outside brackets."""
    parts, begin = [], 0
    for n in outer(tokens):
        if tokens[n].text == word:
            parts.append(tokens[begin:n])
            begin = n + 1
    return [it for it in [*parts, tokens[begin:]] if it]


def path_at(tokens, at):
    """The path that begins with the name here, as a list of words, and the place after it."""
    words, n = [tokens[at].text], at + 1
    while n + 1 < len(tokens) and tokens[n].text == "." and tokens[n].glued and tokens[n + 1].glued:
        if tokens[n + 1].text in PUNCTUATION:
            break
        words.append(tokens[n + 1].text)
        n += 2
    return words, n


def is_name(token):
    """Whether a token may be a name."""
    return not (token.text in PUNCTUATION or token.text in RESERVED or NUMERAL.fullmatch(token.text))


def is_signature(tokens):
    """Whether tokens begin with a name, its levels and a colon."""
    at = 1
    if len(tokens) > 1 and tokens[1].text == "{":
        at = closing(tokens, 1) + 1
    return at < len(tokens) and tokens[at].text == ":"


def texts(tokens):
    """The words of these tokens."""
    return {it.text for it in tokens}


def imports_of(tokens):
    """What a `use` line brings in: each name, its path, and whether that is a module."""
    words, after = path_at(tokens, 0)
    rest = tokens[after:]
    if len(rest) > 1 and rest[0].text == "." and rest[1].text == "{":
        for part in split_outer(inside(rest, 1)[0], ","):
            inner, n = path_at(part, 0)
            known = part[n + 1].text if n + 1 < len(part) and part[n].text == "as" else inner[-1]
            yield known, (*words, *inner), False
    else:
        known = rest[1].text if len(rest) > 1 and rest[0].text == "as" else words[-1]
        yield known, tuple(words), True


class Free:
    """What terms name and do not bind: `found` has each path with its place. `is_constructor` says of a
    path of a pattern whether it is one, so that it binds nothing."""

    def __init__(self, is_constructor):
        self.is_constructor, self.found = is_constructor, []

    def name(self, words, at, scope):
        """Notes a path, unless its head is bound."""
        if words[0] not in scope:
            self.found.append((tuple(words), at))

    def term(self, tokens, scope):
        """Goes through a term. What is bound in it holds up to the next separator."""
        inner, n = scope, 0
        while n < len(tokens):
            word = tokens[n].text
            if word in (",", ";", "|"):
                inner, n = scope, n + 1
            elif word == "λ":
                n, inner = self.binders(tokens, n + 1, inner)
            elif word == "let":
                n, inner = self.let(tokens, n + 1, inner)
            elif word == "record":
                n = self.record(tokens, n + 1, inner)
            elif word in OPENS:
                n, inner = self.bracket(tokens, n, inner)
            elif word == "." and n + 1 < len(tokens) and tokens[n + 1].glued:
                # A field of what is in brackets: no scope has its name.
                n += 2
            elif not is_name(tokens[n]):
                n += 1
            else:
                words, after = path_at(tokens, n)
                self.name(words, tokens[n].at, inner)
                n = after

    def bracket(self, tokens, at, scope):
        """Goes through what is in brackets: a binder, a named argument, or a term."""
        within, after = inside(tokens, at)
        colon = first_outer(within, (":",))
        if colon is not None:
            self.term(within[colon + 1 :], scope)
            return after, scope | texts(within[:colon])
        is_named = tokens[at].text == "{" and len(within) > 1 and within[1].text == "="
        self.term(within[2:] if is_named else within, scope)
        return after, scope

    def binders(self, tokens, at, scope):
        """Goes through the binders of a `λ`, up to its point."""
        end = first_outer(tokens, (".",), at)
        end = len(tokens) if end is None else end
        return end + 1, self.pattern(tokens[at:end], scope)

    def let(self, tokens, at, scope):
        """Goes through what a `let` binds, up to its `in`."""
        equals = first_outer(tokens, ("=",), at)
        depth, end = 1, len(tokens)
        for n in outer(tokens, equals + 1):
            depth += {"let": 1, "in": -1}.get(tokens[n].text, 0)
            if not depth:
                end = n
                break
        head = tokens[at:equals]
        colon = first_outer(head, (":",))
        if colon is not None:
            self.term(head[colon + 1 :], scope)
        self.term(tokens[equals + 1 : end], scope)
        return end + 1, self.pattern(head[:colon], scope)

    def record(self, tokens, at, scope):
        """Goes through `record { .. }` or `record r { .. }`: a value, whose labels are no names, or a type."""
        if at < len(tokens) and tokens[at].text == "(":
            within, at = inside(tokens, at)
            self.term(within, scope)
        elif at < len(tokens) and tokens[at].text != "{":
            words, after = path_at(tokens, at)
            self.name(words, tokens[at].at, scope)
            at = after
        if at >= len(tokens) or tokens[at].text != "{":
            return at
        within, after = inside(tokens, at)
        for part in split_outer(within, ";"):
            mark = first_outer(part, ("=", ":"))
            self.term(part[mark + 1 :] if mark is not None else part, scope)
            if mark is not None and part[mark].text == ":":
                scope = scope | texts(part[:mark])
        return after

    def pattern(self, tokens, scope):
        """The scope with what a pattern binds: each name of it that is no constructor."""
        n = 0
        while n < len(tokens):
            if tokens[n].text in OPENS:
                within, after = inside(tokens, n)
                colon = first_outer(within, (":",))
                if colon is not None:
                    self.term(within[colon + 1 :], scope)
                    scope = scope | texts(within[:colon])
                else:
                    is_named = tokens[n].text == "{" and len(within) > 1 and within[1].text == "="
                    scope = self.pattern(within[2:] if is_named else within, scope)
                n = after
            elif is_name(tokens[n]):
                words, after = path_at(tokens, n)
                if len(words) > 1 or self.is_constructor(words):
                    self.found.append((tuple(words), tokens[n].at))
                else:
                    scope = scope | {words[0]}
                n = after
            else:
                n += 1
        return scope

    def clause(self, tokens, scope, file):
        """Goes through one clause, with the helpers in its `where`."""
        equals = first_outer(tokens, ("=",))
        body, scope = tokens[equals + 1 :], self.pattern(tokens[1:equals], scope)
        at = first_outer(body, ("where",))
        if at is not None and at + 1 < len(body):
            scope = self.helpers(body[at + 1 :], scope, file)
        self.term(body[:at], scope)

    def helpers(self, tokens, scope, file):
        """Goes through the helpers of a `where`, and returns the scope with them."""
        items = file.items(file.line_of(tokens[0].at) - 1, file.line_of(tokens[-1].at))
        scope = scope | {it.tokens[0].text for it in items if is_signature(it.tokens)}
        for item in items:
            if is_signature(item.tokens):
                self.term(item.tokens[2:], scope)
            elif item.tokens[0].text != "unfolding":
                self.clause(item.tokens, scope, file)
        return scope

    def parameters(self, tokens, scope):
        """Goes through the parameters of a section, a record or a data type, and returns the scope with them."""
        for n in outer(tokens):
            if tokens[n].text in OPENS:
                _, scope = self.bracket(tokens, n, scope)
        return scope

    def members(self, items, scope, is_record):
        """Goes through constructors, or the fields of a record, each of which holds for those below it."""
        for item in items:
            colon = first_outer(item.tokens, (":",))
            if colon is not None:
                self.term(item.tokens[colon + 1 :], scope)
                scope = scope | texts(item.tokens[:colon]) if is_record else scope

    def part(self, part, file):
        """Goes through a part of a definition: a signature, a clause, a section around it, or a type."""
        kind, tokens, scope, *more = part
        if kind == "signature":
            self.term(tokens, scope)
        elif kind == "clause":
            self.clause(tokens, scope, file)
        elif kind == "section":
            self.parameters(tokens, scope)
        else:
            colon, where = (first_outer(tokens, it) for it in ((":", "where"), ("where",)))
            scope = self.parameters(tokens[:colon], scope)
            self.term(tokens[colon + 1 : where] if colon is not None else [], scope)
            self.members(more[0], scope, kind == "record")


class Definition:
    """A definition: where it is, how many of its lines say something, and its sentence: the words of the
    comment right above it, or nothing.

    Of one in a file of the logic, `parts` is what it is made of, as `Free.part` takes them, and `members`
    are its fields or constructors."""

    def __init__(self, crate, module, name, kind, path, first, last):
        self.crate, self.module, self.name, self.kind = crate, module, name, kind
        self.path, self.first, self.last = path, first, last
        self.lines, self.sentence = 0, ""
        self.file, self.parts, self.members = None, [], []


class Item:
    """Lines of a file that belong together: the first, and those below it that are further in."""

    def __init__(self, first, last, tokens):
        self.first, self.last, self.tokens = first, last, tokens


class LogicFile:
    """The imports and the definitions of a file of the logic."""

    def __init__(self, crate, module, path):
        self.crate, self.module, self.path = crate, module, path
        raw = text_of(path)
        self.text = blanked(raw, True)
        self.lines, self.raw_lines = self.text.split("\n"), raw.split("\n")
        self.starts = [0]
        for line in self.lines:
            self.starts.append(self.starts[-1] + len(line) + 1)
        # What `use` lines bring in, names and modules apart, and the modules that `mod` lines name.
        self.names, self.modules, self.mods = {}, {}, set()
        # Each name that the file declares: its definition, and whether it is a constructor of that.
        self.own, self.definitions = {}, []
        # Lines that are none of these, with the word that they begin with.
        self.odd = []
        self.block(self.items(0, len(self.lines)), [], frozenset())
        self.operators = {}
        for name in (*self.own, *self.names):
            if "◌" in name:
                self.operators.update((part, name) for part in name.split("◌") if part)

    def line_of(self, at):
        """The number of the line of a place, from 1."""
        return bisect.bisect_right(self.starts, at)

    def items(self, low, high):
        """The items of these lines: each begins as far to the left as the first of them."""
        rows = [n for n in range(low, high) if self.lines[n].strip()]
        heads, depth = [], 0
        for n in rows:
            line = self.lines[n]
            indent = len(line) - len(line.lstrip())
            if not heads or not depth and indent <= first and line[indent] not in ")}":
                first = indent if not heads else first
                heads.append(n)
            depth += sum((it in OPENS) - (it in CLOSES) for it in line)
        found = []
        for n, after in zip(heads, [*heads[1:], high]):
            last = max(it for it in rows if n <= it < after)
            end = self.starts[last] + len(self.lines[last])
            found.append(Item(n, last, tokens_of(self.text, self.starts[n], end)))
        return found

    def block(self, items, sections, scope):
        """Takes the items of the file, of a section or of a `mutual`; `scope` has the sections' parameters."""
        current = None
        for item in items:
            marks = 0
            while marks + 1 < len(item.tokens) and item.tokens[marks].text in MARKS:
                marks += 1
            head, rest = item.tokens[marks].text, item.tokens[marks + 1 :]
            if head == "use":
                for known, words, is_module in imports_of(rest):
                    (self.modules if is_module else self.names)[known] = words
            elif head == "mod":
                self.mods.add(rest[0].text)
            elif head in ("module", "mutual"):
                self.take_section(item, rest, head, sections, scope)
            elif head in ("data", "record"):
                self.take_type(item, head, rest, sections, scope)
            elif is_signature(item.tokens[marks:]):
                current = self.declare(head, "definition", item, sections)
                current.parts.append(("signature", rest[first_outer(rest, (":",)) + 1 :], scope))
            elif current and (head == "unfolding" or first_outer(item.tokens, ("=",)) is not None):
                if head != "unfolding":
                    current.parts.append(("clause", item.tokens, scope))
                current.last = item.last + 1
                current.lines += self.code_lines(item)
            elif not head.startswith("infix"):
                self.odd.append((item.first + 1, head))

    def declare(self, name, kind, item, sections):
        """A new definition, with the sections around it."""
        made = Definition(self.crate, self.module, name, kind, self.path, item.first + 1, item.last + 1)
        made.file, made.lines, made.sentence = self, self.code_lines(item), self.sentence_above(item.first)
        made.parts += sections
        self.definitions.append(made)
        self.give(name, made, False, item)
        return made

    def give(self, name, made, is_constructor, item):
        """Notes what a name of the file means; a second meaning is odd."""
        if name in self.own:
            self.odd.append((item.first + 1, name))
        self.own[name] = (made, is_constructor)

    def code_lines(self, item):
        """How many lines of an item say something."""
        return sum(1 for it in self.lines[item.first : item.last + 1] if it.strip())

    def sentence_above(self, first):
        """The words of the comment right above this line, or above the `mutual` right above it."""
        while first and re.fullmatch(r"[\w ]*\bmutual", self.raw_lines[first - 1].strip()):
            first -= 1
        return comment_above(self.raw_lines, first, "--")

    def heading(self):
        """What the file says of itself in its first lines."""
        return comment_from(self.raw_lines, "--")

    def take_section(self, item, rest, head, sections, scope):
        """Takes what is in a section or in a `mutual`."""
        parameters, below = [], item.first + 1
        if head == "module":
            where = first_outer(rest, ("where",))
            parameters, below = rest[:where], self.line_of(rest[where].at)
        if parameters:
            sections = [*sections, ("section", parameters, scope)]
            # Only the names count here: the types are gone through with each definition.
            scope = Free(lambda words: False).parameters(parameters, scope)
        self.block(self.items(below, item.last + 1), sections, scope)

    def take_type(self, item, head, rest, sections, scope):
        """Takes a record or a data type, with its fields or constructors."""
        made = self.declare(rest[0].text, head, item, sections)
        where, members = first_outer(rest, ("where",)), []
        if where is not None and where + 1 < len(rest):
            members = self.items(self.line_of(rest[where].at), item.last + 1)
        made.parts.append((head, rest[1:], scope, members))
        for line in members:
            for it in line.tokens[: first_outer(line.tokens, (":",))]:
                if it.text not in MARKS:
                    made.members.append(it.text)
                    if head == "data":
                        self.give(it.text, made, True, line)
