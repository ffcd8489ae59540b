"""A plain reader of algorithm texts, written from docs/MANUAL.md: the definitions of a text, or its first refusal;
the canonical text; and what each actuator takes."""
from plain import expression
from plain.words import Refused, bad_byte, is_name, limit, lines_of, number_of, words_of

KINDS = ("function", "graph", "switch", "repeat")


class Definition:
    def __init__(self, kind, name, line):
        self.kind, self.name, self.line = kind, name, line
        self.ins, self.outs = [], []  # (name, length), of a switch without `on`
        self.bodies = {}  # of a function: the expression of each output
        self.on = None
        self.refs, self.edges, self.cases, self.rows = [], [], [], []
        self.values, self.depth, self.count, self.body, self.length = [], 1, 0, "", 0
        self.order = []  # of a repetition: names of the outer ports

    def inputs(self):
        return ([(self.on, 1)] if self.on else []) + self.ins


def refuse(line, cause, more=None):
    tail = b"" if more is None else b" " + (more if isinstance(more, bytes) else str(more).encode())
    raise Refused(5, f"algorithm line {line}: {cause}".encode() + tail)


class Reader:
    """Reads line by line; `block` is the definition that is open, `stage` the kind of lines that it has come to."""

    def __init__(self, text):
        self.version, self.defs, self.block, self.stage = 0, {}, None, 0
        lines = lines_of(text)
        for self.number, self.line in lines:
            self.read_line()
        if not self.version or self.block:
            refuse(len(lines) + 1, "A2 BadLine")

    # ---- what is refused in a line ----

    def refuse(self, cause, more=None):
        refuse(self.number, cause, more)

    def form(self, holds):
        if not holds:
            self.refuse("A2 BadLine")

    def names(self, *words):
        for word in words:
            if not is_name(word):
                self.refuse("A3 BadName", word)

    def ends(self, *words):
        for word in words:
            parts = word.split(b".")
            if len(parts) > 2 or not all(map(is_name, parts)):
                self.refuse("A3 BadName", word)

    def numbers(self, words, least=None, most=None):
        made = []
        for word in words:
            number = number_of(word)
            if number is None or least is not None and number < least or most is not None and number > most:
                self.refuse("A4 BadNumber", word)
            made.append(number)
        return made

    def bound(self, word, count, bound=64):
        if count > bound:
            raise limit(word, count, bound)

    def once(self, name, taken):
        if name in taken:
            self.refuse("A6 DuplicateName", name)

    # ---- lines ----

    def read_line(self):
        place = bad_byte(self.line)
        if place is not None:
            self.refuse("A1 NotText", place)
        words = words_of(self.line)
        if not words:
            return
        if not self.version:
            self.form(words in ([b"algorithm", b"1"], [b"algorithm", b"2"], [b"algorithm", b"3"]))
            self.version = int(words[1])
        elif self.block:
            getattr(self, "in_" + self.block.kind)(words)
        else:
            self.definition(words)

    def define(self, kind, name):
        name = name.decode()
        self.once(name, self.defs)
        made = Definition(kind, name, self.number)
        self.defs[name] = made
        return made

    def definition(self, words):
        kind = words[0].decode()
        if kind in ("sensor", "actuator"):
            self.form(len(words) == 3)
            self.names(words[1])
            (length,) = self.numbers(words[2:], 1)
            self.bound("length", length)
            made = self.define(kind, words[1])
            made.length = length
            (made.outs if kind == "sensor" else made.ins).append(("o" if kind == "sensor" else "i", length))
        elif kind in ("constant", "delay"):
            self.values(kind, words)
        elif kind in ("function", "graph", "switch"):
            self.form(len(words) == 2)
            self.names(words[1])
            self.block, self.stage = self.define(kind, words[1]), 0
        elif kind == "repeat":
            self.form(len(words) == 4)
            self.names(words[1], words[3])
            (count,) = self.numbers(words[2:3], 1)
            self.bound("copies", count)
            self.block, self.stage = self.define(kind, words[1]), 0
            self.block.count, self.block.body = count, words[3].decode()
        else:
            self.form(False)

    def values(self, kind, words):
        sign = 3 if kind == "delay" and self.version > 1 else 2
        self.form(len(words) > sign + 1 and words[sign] == b"=")
        self.names(words[1])
        (depth,) = self.numbers(words[2:3], 1) if sign == 3 else (1,)
        values = self.numbers(words[sign + 1 :])
        self.bound("delay", depth, 16)
        if len(values) % depth:
            self.refuse("A17 BadDelay")
        self.bound("length", len(values) // depth)
        made = self.define(kind, words[1])
        made.values, made.depth, made.length = values, depth, len(values) // depth
        made.outs.append(("o", made.length))
        if kind == "delay":
            made.ins.append(("i", made.length))

    def port(self, words, ports, expression_of=None):
        """`in P LEN` or `out P LEN`; what stands in an expression is told before a name that is there."""
        self.form(len(words) == 3)
        self.names(words[1])
        (length,) = self.numbers(words[2:], 1)
        self.bound("ports", len(ports) + 1)
        self.bound("length", length)
        body = expression_of() if expression_of else None
        name = words[1].decode()
        self.once(name, [port for port, _ in self.block.inputs() + self.block.outs])
        ports.append((name, length))
        if body:
            self.block.bodies[name] = body

    def end(self, words):
        self.form(len(words) == 1)
        self.block = None

    def in_function(self, words):
        first = words[0]
        head, sign, tail = self.line.partition(b"=")
        if first == b"in":
            self.form(self.stage == 0)
            self.port(words, self.block.ins)
        elif first == b"end":
            self.form(self.stage == 1)
            self.end(words)
        else:
            heads = words_of(head)
            self.form(sign and heads[:1] == [b"out"])
            self.port(heads, self.block.outs, lambda: self.expression(tail))
            self.stage = 1

    def expression(self, text):
        try:
            reader = expression.Reader(text)
            made = reader.whole()
        except expression.TooLong as it:
            raise limit("tokens", it.count, 512) from it
        except expression.Bad as it:
            self.refuse("A5 BadExpression", it.place)
        known = [name for name, _ in self.block.ins]
        for _, name in sorted(reader.ports):
            if name not in known:
                self.refuse("A7 UnknownName", name)
        return made

    def in_graph(self, words):
        stages = {b"in": 0, b"out": 1, b"ref": 2, b"edge": 3, b"end": 4}
        self.form(words[0] in stages and stages[words[0]] >= self.stage)
        self.stage = stages[words[0]]
        if self.stage == 0:
            self.port(words, self.block.ins)
        elif self.stage == 1:
            self.port(words, self.block.outs)
        elif self.stage == 2:
            self.reference(words)
        elif self.stage == 3:
            self.form(len(words) == 3)
            self.ends(words[1], words[2])
            self.block.edges.append((words[1].decode(), words[2].decode(), self.number))
        else:
            self.end(words)

    def reference(self, words):
        marked = self.version == 3 and len(words) == 5 and words[3] == b"every"
        self.form(len(words) == 3 or marked)
        self.names(words[1], words[2])
        every = self.numbers(words[4:], 1, 16)[0] if marked else None
        self.bound("references", len(self.block.refs) + 1)
        name = words[1].decode()
        self.once(name, [it[0] for it in self.block.refs])
        self.block.refs.append((name, words[2].decode(), every, self.number))

    def in_switch(self, words):
        stages = {b"on": 0, b"in": 1, b"out": 2, b"case": 3, b"otherwise": 4, b"end": 5}
        self.form(words[0] in stages)
        stage = stages[words[0]]
        self.form((stage == 0) == (self.block.on is None) and stage >= self.stage)
        self.form(stage != 5 or self.stage == 4)
        self.form(stage != 4 or self.stage != 4)
        if stage == 0:
            self.form(len(words) == 2)
            self.names(words[1])
            self.block.on = words[1].decode()
        elif stage == 1:
            self.port(words, self.block.ins)
        elif stage == 2:
            self.port(words, self.block.outs)
        elif stage == 3:
            self.form(len(words) == 3)
            self.names(words[2])
            (number,) = self.numbers(words[1:2])
            self.bound("cases", len(self.block.cases) + 1)
            self.block.cases.append((number, words[2].decode(), self.number))
        elif stage == 4:
            self.form(len(words) == 2)
            self.names(words[1])
            self.block.cases.append((None, words[1].decode(), self.number))
        else:
            self.end(words)
        self.stage = stage

    def in_repeat(self, words):
        if words[0] == b"end":
            self.end(words)
            return
        counts = {b"fork": 3, b"diffuse": 3, b"join": 3, b"iterate": 5}
        self.form(counts.get(words[0]) == len(words))
        self.names(*words[1:])
        self.bound("ports", len(self.block.rows) + 1)
        kind, *row = (word.decode() for word in words)
        outer = {"join": row[1:], "iterate": [row[0], row[-1]]}.get(kind, row[:1])
        for name in outer:
            self.once(name, self.block.order)
            self.block.order.append(name)
        self.block.rows.append((kind, row, self.number))


class Checks:
    """What is asked of all definitions together."""

    def __init__(self, version, defs):
        self.version, self.defs = version, defs
        self.listed = sorted(defs.values(), key=lambda it: it.line)
        self.depths, self.sizes = {}, {}
        self.names()
        self.places()
        self.recursion()
        self.depth()
        for it in sorted(self.listed, key=lambda it: (self.depths[it.name], it.line)):
            if it.kind in ("repeat", "switch", "graph"):
                getattr(self, "a_" + it.kind)(it)
        self.main()
        self.marks()

    def uses(self, it):
        """The definitions that this one leads to, with their lines."""
        if it.kind == "repeat":
            return [(it.body, it.line)]
        return [(ref[1], ref[3]) for ref in it.refs] + [(case[1], case[2]) for case in it.cases]

    def names(self):
        for line, name in sorted((line, name) for it in self.listed for name, line in self.uses(it)):
            if name not in self.defs:
                refuse(line, "A7 UnknownName", name)

    def places(self):
        wrong = []
        for it in self.listed:
            for name, line in self.uses(it):
                kind = self.defs[name].kind
                bad = name == "main"
                if it.kind == "graph":
                    bad = bad or kind in ("sensor", "actuator") and it.name != "main"
                else:
                    bad = bad or kind not in KINDS
                if bad:
                    wrong.append((line, name))
        if wrong:
            refuse(min(wrong)[0], "A15 Misplaced", min(wrong)[1])

    def recursion(self):
        for it in self.listed:
            seen, left = set(), [name for name, _ in self.uses(it)]
            while left:
                name = left.pop()
                if name not in seen:
                    seen.add(name)
                    left += [below for below, _ in self.uses(self.defs[name])]
            if it.name in seen:
                refuse(it.line, "A11 Recursive", it.name)

    def depth(self):
        def of(name):
            if name not in self.depths:
                self.depths[name] = 1 + max((of(below) for below, _ in self.uses(self.defs[name])), default=0)
            return self.depths[name]

        for it in self.listed:
            of(it.name)
        for it in self.listed:
            if self.depths[it.name] > 8:
                raise limit("depth", self.depths[it.name], 8)

    def a_repeat(self, it):
        body = self.defs[it.body]
        ins, outs, used = dict(body.inputs()), dict(body.outs), set()
        for kind, row, line in it.rows:
            taken = [] if kind == "join" else [row[1]]
            given = {"join": row[:1], "iterate": row[2:3]}.get(kind, [])
            if any(x not in ins or x in used for x in taken) or any(y not in outs for y in given):
                refuse(line, "A16 BadRepeat")
            used |= set(taken)
            if kind == "iterate":
                if ins[row[1]] != outs[row[2]]:
                    refuse(line, "A16 BadRepeat")
                it.ins.append((row[0], ins[row[1]]))
                it.outs.append((row[3], outs[row[2]]))
                continue
            length = (outs[row[0]] if kind == "join" else ins[row[1]]) * (1 if kind == "diffuse" else it.count)
            if length > 64:
                raise limit("length", length, 64)
            if kind == "join":
                it.outs.append((row[1], length))
            else:
                it.ins.append((row[0], length))
        if set(ins) - used:
            refuse(it.line, "A16 BadRepeat")

    def a_switch(self, it):
        values = set()
        for number, name, line in it.cases:
            body = self.defs[name]
            if number is not None and number in values or body.inputs() != it.ins or body.outs != it.outs:
                refuse(line, "A14 BadCase")
            values.add(number)

    def a_graph(self, it):
        refs = {name: self.defs[definition] for name, definition, _, _ in it.refs}
        into = {}
        for source, target, line in it.edges:
            given = self.end(refs, source, it.ins, lambda body: body.outs)
            if given is None:
                refuse(line, "A7 UnknownName", source)
            taken = self.end(refs, target, it.outs, lambda body: body.inputs())
            if taken is None:
                refuse(line, "A7 UnknownName", target)
            if given != taken:
                refuse(line, "A8 WrongLength", target)
            if target in into:
                refuse(line, "A10 TwiceConnected", target)
            into[target] = source
        for name, _, _, line in it.refs:
            for port, _ in refs[name].inputs():
                if f"{name}.{port}" not in into:
                    refuse(line, "A9 Unconnected", f"{name}.{port}")
        for port, _ in it.outs:
            if port not in into:
                refuse(it.line, "A9 Unconnected", port)
        self.cycle(it, refs, into)
        it.into = into

    @staticmethod
    def end(refs, word, own, ports_of):
        name, dot, port = word.partition(".")
        if not dot:
            return dict(own).get(name)
        return dict(ports_of(refs[name])).get(port) if name in refs else None

    @staticmethod
    def cycle(it, refs, into):
        after = {name: set() for name in refs}
        for target, source in into.items():
            if "." in target and "." in source and refs[source.split(".")[0]].kind != "delay":
                after[source.split(".")[0]].add(target.split(".")[0])
        wrong = []
        for name in refs:
            seen, left = set(), list(after[name])
            while left:
                other = left.pop()
                if other not in seen:
                    seen.add(other)
                    left += after[other]
            if name in seen:
                wrong.append(name)
        if wrong:
            refuse(it.line, "A12 Cycle", " ".join(wrong))

    def operations(self, name):
        if name not in self.sizes:
            self.sizes[name] = self.size(self.defs[name])
        return self.sizes[name]

    def size(self, it):
        if it.kind == "graph":
            return sum(self.operations(ref[1]) for ref in it.refs)
        if it.kind == "switch":
            return sum(self.operations(case[1]) for case in it.cases) + len(it.outs)
        if it.kind == "repeat":
            return it.count * self.operations(it.body) + sum(row[0] in ("fork", "join") for row in it.rows)
        return 2 * it.depth if it.kind == "delay" else 1

    def main(self):
        main = self.defs.get("main")
        if not main or main.kind != "graph" or main.ins or main.outs:
            refuse(0, "A13 NoMain")
        if self.operations("main") > 2048:
            raise limit("operations", self.operations("main"), 2048)

    def marks(self):
        marked = [(ref[3], it, ref) for it in self.listed for ref in it.refs if ref[2] is not None]
        for line, it, ref in sorted(marked, key=lambda mark: mark[0]):
            if it.name != "main" or self.defs[ref[1]].kind not in KINDS:
                refuse(line, "A18 BadEvery", ref[0])
        count = self.operations("main")
        count += sum(2 * ref[2] + 3 * len(self.defs[ref[1]].outs) for _, _, ref in marked)
        if count > 2048:
            raise limit("operations", count, 2048)


def read(text):
    """The version and the definitions by name, in their order."""
    reader = Reader(text)
    Checks(reader.version, reader.defs)
    return reader.version, reader.defs


def canonical(version, defs):
    lines = [f"algorithm {version}"]
    for it in sorted(defs.values(), key=lambda it: it.line):
        lines += shown(version, it)
    return "".join(line + "\n" for line in lines).encode()


def shown(version, it):
    if it.kind in ("sensor", "actuator"):
        return [f"{it.kind} {it.name} {it.length}"]
    if it.kind in ("constant", "delay"):
        depth = f" {it.depth}" if it.kind == "delay" and version > 1 else ""
        return [f"{it.kind} {it.name}{depth} = {' '.join(map(str, it.values))}"]
    if it.kind == "repeat":
        rows = [" ".join([kind, *row]) for kind, row, _ in it.rows]
        return [f"repeat {it.name} {it.count} {it.body}", *rows, "end"]
    made = [f"{it.kind} {it.name}"] + ([f"on {it.on}"] if it.on else [])
    made += [f"in {name} {length}" for name, length in it.ins]
    for name, length in it.outs:
        body = f" = {expression.shown(it.bodies[name])}" if it.kind == "function" else ""
        made.append(f"out {name} {length}{body}")
    for name, definition, every, _ in it.refs:
        made.append(f"ref {name} {definition}" + ("" if every is None else f" every {every}"))
    made += [f"edge {source} {target}" for source, target, _ in it.edges]
    for number, name, _ in it.cases:
        made.append(f"otherwise {name}" if number is None else f"case {number} {name}")
    return [*made, "end"]


def leaves(defs, name="main", seen=None):
    """The definitions that may need a duration, in the order of their first operations."""
    seen = set() if seen is None else seen
    if name in seen:
        return
    seen.add(name)
    it = defs[name]
    if it.kind in ("sensor", "actuator", "function"):
        yield name
    for below in [ref[1] for ref in it.refs] + [case[1] for case in it.cases] + ([it.body] if it.body else []):
        yield from leaves(defs, below, seen)


def references(defs, kind):
    """The references of main to sensors, or to actuators, each with its length."""
    found = [(ref[0], defs[ref[1]]) for ref in defs["main"].refs]
    return [(name, it.length) for name, it in found if it.kind == kind]
