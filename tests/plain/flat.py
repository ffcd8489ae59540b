"""The operations of an algorithm without marks, in the order that docs/MANUAL.md gives, with their sources."""
from plain.wires import Wires


class Operation:
    """A source is (operation, output) by number; those of the guards come before those of the inputs. `cases` has the
    number of the case that each guard selects."""

    def __init__(self, name, unit, kind, guards, takers, lengths):
        self.name, self.unit, self.kind, self.lengths = name, unit, kind, lengths
        self.cases, self.takers = [case for _, case in guards], [take for take, _ in guards] + takers
        self.sources = []

    def line(self, number):
        """Its line in the listing."""
        count = len(self.cases)
        guards = [f"{v}.{p}?{case}" for (v, p), case in zip(self.sources, self.cases)]
        inputs = [f"{v}.{p}" for v, p in self.sources[count:]]
        lists = [",".join(it) or "-" for it in (guards, inputs, map(str, self.lengths))]
        return f"{number} {self.name} {self.kind}:{self.unit} {' '.join(lists)}\n"


class Flat:
    def __init__(self, defs):
        self.defs, self.all, self.wires = defs, [], Wires(defs)
        self.unit("main", "", None, [])
        for it in self.all:
            it.sources = [take() for take in it.takers]
        self.number = {it.name: number for number, it in enumerate(self.all)}

    def listing(self):
        """What `flat` writes."""
        return "".join(it.line(number) for number, it in enumerate(self.all))

    def add(self, name, unit, kind, guards, takers, lengths):
        """The number of a new operation; a guard is what gives its source, and the number of a case."""
        self.all.append(Operation(name, unit, kind, guards, takers, lengths))
        return len(self.all) - 1

    def unit(self, name, path, take, guards):
        """What gives the source of each output of this unit; `take` gives the source of each input."""
        it, wire = self.defs[name], self.wires.of(name)
        if wire is not None:
            return lambda port: take(wire[port])
        if it.kind == "delay":
            return self.delay(it, path, take, guards)
        if it.kind in ("graph", "switch", "repeat"):
            return getattr(self, "a_" + it.kind)(it, path, take, guards)
        takers = [lambda port=port: take(port) for port, _ in it.ins]
        number = self.add(path, name, it.kind, guards, takers, [length for _, length in it.outs])
        places = {port: place for place, (port, _) in enumerate(it.outs)}
        return lambda port: (number, places[port])

    def delay(self, it, path, take, guards):
        gets = []
        for stage in range(it.depth):
            tail = f".{stage}" if stage else ""
            gets.append(self.add(f"{path}:get{tail}", it.name, "get", guards, [], [it.length]))
            last = stage == it.depth - 1
            taker = (lambda: take("i")) if last else (lambda stage=stage: (gets[stage + 1], 0))
            self.add(f"{path}:set{tail}", it.name, "set", guards, [taker], [])
        return lambda port: (gets[0], 0)

    def a_graph(self, it, path, take, guards):
        outs = {}

        def given(source):
            name, dot, port = source.partition(".")
            return outs[name](port) if dot else take(name)

        for name, definition, _, _ in it.refs:
            inner = f"{path}/{name}" if path else name
            outs[name] = self.unit(definition, inner, lambda port, name=name: given(it.into[f"{name}.{port}"]), guards)
        return lambda port: given(it.into[port])

    def a_switch(self, it, path, take, guards):
        on, cases = (lambda: take(it.on)), []
        for place, (_, name, _) in enumerate(it.cases):
            cases.append(self.unit(name, f"{path}.{place}", take, guards + [(on, place)]))
        merges = {}
        for port, length in it.outs:
            takers = [on] + [lambda case=case, port=port: case(port) for case in cases]
            merges[port] = self.add(f"{path}:{port}", it.name, "merge", guards, takers, [length])
        return lambda port: (merges[port], 0)

    def a_repeat(self, it, path, take, guards):
        rows, copies, parts, given = it.rows, [], {}, {}
        lengths = dict(it.ins)
        for kind, row, _ in rows:
            if kind == "fork":
                part = lengths[row[0]] // it.count
                taker = lambda port=row[0]: take(port)
                parts[row[1]] = self.add(f"{path}:{row[0]}", it.name, "explode", guards, [taker], [part] * it.count)

        def taken(number, port):
            kind, row, _ = next(row for row in rows if row[0] != "join" and row[1][1] == port)
            if kind == "fork":
                return parts[port], number
            return take(row[0]) if kind == "diffuse" or number == 0 else copies[number - 1](row[2])

        for number in range(it.count):
            taker = lambda port, number=number: taken(number, port)
            copies.append(self.unit(it.body, f"{path}.{number}", taker, guards))
        for kind, row, _ in rows:
            if kind == "join":
                takers = [lambda copy=copy, port=row[0]: copy(port) for copy in copies]
                made = self.add(f"{path}:{row[1]}", it.name, "implode", guards, takers, [dict(it.outs)[row[1]]])
                given[row[1]] = lambda made=made: (made, 0)
            elif kind == "iterate":
                given[row[3]] = lambda port=row[2]: copies[-1](port)
        return lambda port: given[port]()
