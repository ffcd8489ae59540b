"""A plain reader of architecture texts, written from docs/MANUAL.md: what it defines, or its first refusal."""
from plain.words import Refused, bad_byte, is_name, limit, lines_of, number_of, words_of


class Architecture:
    """Media are (name, kind, fixed, per); connections (medium, operator); durations by definition and operator."""

    def __init__(self, text, status=6, called="architecture"):
        self.status, self.called = status, called
        self.version, self.places = 0, None
        self.operators, self.media, self.connections, self.durations = [], [], [], {}
        self.media_lines = []
        lines = lines_of(text)
        for self.number, self.line in lines:
            self.read_line()
        self.number = len(lines) + 1
        self.form(self.version)
        self.number = 0
        self.whole()

    @property
    def depth(self):
        return 1 if self.places is None else self.places

    def refuse(self, cause, more=None):
        tail = b"" if more is None else b" " + (more if isinstance(more, bytes) else str(more).encode())
        raise Refused(self.status, f"{self.called} line {self.number}: {cause}".encode() + tail)

    def form(self, holds):
        if not holds:
            self.refuse("H2 BadLine")

    def names(self, *words):
        for word in words:
            if not is_name(word):
                self.refuse("H3 BadName", word)

    def numbers(self, words, least, most):
        made = []
        for word in words:
            number = number_of(word)
            if number is None or not least <= number <= most:
                self.refuse("H4 BadNumber", word)
            made.append(number)
        return made

    def known(self, word, names):
        if word.decode() not in names:
            self.refuse("H6 UnknownName", word)
        return word.decode()

    def once(self, holds, word):
        if holds:
            self.refuse("H5 DuplicateName", word)

    def bound(self, word, count, bound):
        if count > bound:
            raise limit(word, count, bound)

    def read_line(self):
        place = bad_byte(self.line)
        if place is not None:
            self.refuse("H1 NotText", place)
        words = words_of(self.line)
        if not words:
            return
        if not self.version:
            self.form(words in ([b"architecture", b"1"], [b"architecture", b"2"]))
            self.version = int(words[1])
            return
        sizes = {b"operator": 2, b"medium": 5, b"connect": 3, b"duration": 4}
        if self.version == 2 and self.places is None:
            sizes[b"depth"] = 2
        self.form(sizes.get(words[0]) == len(words))
        getattr(self, "a_" + words[0].decode())(*words[1:])

    def a_depth(self, places):
        (self.places,) = self.numbers([places], 1, 4)

    def a_operator(self, name):
        self.names(name)
        self.once(name.decode() in self.named(), name)
        self.bound("operators", len(self.operators) + 1, 16)
        self.operators.append(name.decode())

    def named(self):
        return self.operators + [it[0] for it in self.media]

    def a_medium(self, name, kind, fixed, per):
        self.form(kind in (b"p2p", b"multi"))
        self.names(name)
        numbers = self.numbers([fixed, per], 0, 1_000_000)
        self.once(name.decode() in self.named(), name)
        self.bound("media", len(self.media) + 1, 16)
        self.media.append((name.decode(), kind.decode(), *numbers))
        self.media_lines.append(self.number)

    def a_connect(self, medium, operator):
        self.names(medium, operator)
        pair = self.known(medium, [it[0] for it in self.media]), self.known(operator, self.operators)
        self.once(pair in self.connections, operator)
        self.bound("connections", len(self.connections) + 1, 64)
        self.connections.append(pair)

    def a_duration(self, name, operator, ticks):
        self.names(name, operator)
        (number,) = self.numbers([ticks], 0, 1_000_000_000)
        pair = name.decode(), self.known(operator, self.operators)
        self.once(pair in self.durations, name)
        self.durations[pair] = number

    def stand_at(self, medium):
        """The operators at this medium, in their order."""
        return [it for it in self.operators if (medium, it) in self.connections]

    def whole(self):
        if not self.operators:
            self.refuse("H8 NoOperator")
        for line, (name, kind, _, _) in zip(self.media_lines, self.media):
            count = len(self.stand_at(name))
            if count != 2 if kind == "p2p" else count < 2:
                self.number = line
                self.refuse("H7 BadMedium", name)
        reached = {self.operators[0]}
        for _ in self.operators:
            for name, _, _, _ in self.media:
                if reached & set(self.stand_at(name)):
                    reached |= set(self.stand_at(name))
        for name in self.operators:
            if name not in reached:
                self.refuse("H9 Disconnected", f"{self.operators[0]} {name}")

    def need(self, definitions):
        """Each of these definitions has a duration somewhere."""
        self.number = 0
        dated = {name for name, _ in self.durations}
        for name in definitions:
            if name not in dated:
                self.refuse("H11 NoDuration", name)

    def canonical(self):
        lines = [f"architecture {self.version}"] + ([f"depth {self.depth}"] if self.version == 2 else [])
        lines += [f"operator {name}" for name in self.operators]
        lines += ["medium " + " ".join(map(str, it)) for it in self.media]
        for name, _, _, _ in self.media:
            lines += [f"connect {name} {operator}" for operator in self.stand_at(name)]
        lines += [f"duration {name} {operator} {ticks}" for (name, operator), ticks in self.durations.items()]
        return "".join(line + "\n" for line in lines).encode()
