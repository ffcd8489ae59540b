"""Expressions: tokens, the grammar, the canonical text and the value, as docs/MANUAL.md has them."""
import re

from plain.words import number_of, wrapped

TOKEN = re.compile(rb"(?P<number>-?[0-9]+)|(?P<name>[A-Za-z_][A-Za-z0-9_]{0,31})|(?P<sign>[()\[\],])")
BINARY = "add sub mul div rem eq ne lt le gt ge min max".split()
ARGUMENTS = {**dict.fromkeys(BINARY, 2), "neg": 1, "select": 3}


class Bad(Exception):
    def __init__(self, place):
        super().__init__(place)
        self.place = place


class TooLong(Exception):
    def __init__(self, count):
        super().__init__(count)
        self.count = count


def tokens_of(text):
    """Tokens as kind, word and place; a bad one has the kind None. The last one is the end."""
    tokens, at = [], 0
    while at < len(text):
        if text[at] in b"\t\r ":
            at += 1
            continue
        found = TOKEN.match(text, at)
        if not found:
            tokens.append((None, b"", at))
            at += 1
            continue
        kind, word = found.lastgroup, found.group()
        if kind == "number" and number_of(word) is None:
            kind = None
        tokens.append((word.decode() if kind == "sign" else kind, word, at))
        at = found.end()
    return tokens + [("end", b"", len(text))]


class Reader:
    """Reads the tokens from the left; `ports` are the names before `[` and in `sum(..)`, with their places."""

    def __init__(self, text):
        self.tokens, self.at, self.ports = tokens_of(text), 0, []
        if len(self.tokens) - 1 > 512:
            raise TooLong(len(self.tokens) - 1)

    def take(self, kind):
        found, word, place = self.tokens[self.at]
        if found != kind:
            raise Bad(place)
        self.at += 1
        return word, place

    def whole(self):
        made = self.expression()
        self.take("end")
        return made

    def expression(self):
        kind, word, place = self.tokens[self.at]
        if kind == "number":
            self.at += 1
            return ("number", number_of(word))
        name, place = self.take("name")
        name, after = name.decode(), self.tokens[self.at][0]
        if after == "[":
            self.at += 1
            self.ports.append((place, name))
            inner = self.expression()
            self.take("]")
            return ("element", name, inner)
        if after == "(" and name == "sum":
            self.at += 1
            port, place = self.take("name")
            self.ports.append((place, port.decode()))
            self.take(")")
            return ("sum", port.decode())
        if after == "(" and name in ARGUMENTS:
            return (name, *self.arguments(ARGUMENTS[name]))
        if name == "j":
            return ("j",)
        raise Bad(self.tokens[self.at][2])

    def arguments(self, count):
        made = []
        for number in range(count):
            self.take("," if number else "(")
            made.append(self.expression())
        self.take(")")
        return made


def shown(made):
    kind = made[0]
    if kind == "number":
        return str(made[1])
    if kind == "j":
        return "j"
    if kind == "element":
        return f"{made[1]}[{shown(made[2])}]"
    if kind == "sum":
        return f"sum({made[1]})"
    return f"{kind}({','.join(map(shown, made[1:]))})"


def quotient(a, b):
    """Cut towards 0; by 0 it is 0."""
    if b == 0:
        return 0
    return wrapped(abs(a) // abs(b) * (1 if (a < 0) == (b < 0) else -1))


def remainder(a, b):
    return a if b == 0 else a - b * (abs(a) // abs(b) * (1 if (a < 0) == (b < 0) else -1))


BY = {
    "add": lambda a, b: wrapped(a + b), "sub": lambda a, b: wrapped(a - b), "mul": lambda a, b: wrapped(a * b),
    "div": quotient, "rem": remainder, "min": min, "max": max,
    "eq": lambda a, b: int(a == b), "ne": lambda a, b: int(a != b), "lt": lambda a, b: int(a < b),
    "le": lambda a, b: int(a <= b), "gt": lambda a, b: int(a > b), "ge": lambda a, b: int(a >= b),
}


def value(made, ins, j):
    """The value at element j; `ins` has the vector of each port."""
    kind = made[0]
    if kind == "number":
        return made[1]
    if kind == "j":
        return j
    if kind == "sum":
        return wrapped(sum(ins[made[1]]))
    if kind == "element":
        port, place = ins[made[1]], value(made[2], ins, j)
        return port[place] if 0 <= place < len(port) else 0
    if kind == "neg":
        return wrapped(-value(made[1], ins, j))
    if kind == "select":
        return value(made[2 if value(made[1], ins, j) else 3], ins, j)
    return BY[kind](value(made[1], ins, j), value(made[2], ins, j))
