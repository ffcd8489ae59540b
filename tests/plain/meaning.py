"""What each actuator takes in each reaction, by the meaning of an algorithm that docs/MANUAL.md gives: values are
asked for where they are needed, and no operation is placed or ordered."""
from plain import expression
from plain.wires import Wires


class Meaning:
    """The delays and the kept outputs of a text between reactions; `values` and `row` are those of one reaction."""

    def __init__(self, defs):
        self.defs, self.cells, self.kept = defs, {}, {}
        self.wires = Wires(defs)
        self.row, self.values, self.number = {}, {}, 0

    def react(self, row):
        """What each actuator reference of main takes; the delays go on."""
        self.row, self.values = row, {}
        main, taken, after, kept = self.defs["main"], [], {}, {}
        for name, definition, every, _ in main.refs:
            it = self.defs[definition]
            if it.kind == "actuator":
                taken.append((name, self.taken("main", "", name, "i", None)))
            if every is not None and self.number % every == 0:
                for port, _ in it.outs:
                    kept[name, port] = self.given("main", "", f"{name}.{port}", None)
        self.advance("main", "", None, after)
        self.cells.update(after)
        self.kept.update(kept)
        self.number += 1
        return taken

    def cell(self, path, it):
        groups = [it.values[n * it.length : (n + 1) * it.length] for n in range(it.depth)]
        return self.cells.get(path, groups)

    def rests(self, graph, every):
        return graph == "main" and every is not None and self.number % every != 0

    # ---- a graph: `take` gives the value of an own input ----

    def taken(self, graph, path, name, port, take):
        return self.given(graph, path, self.defs[graph].into[f"{name}.{port}"], take)

    def given(self, graph, path, source, take):
        name, dot, port = source.partition(".")
        if not dot:
            return take(name)
        _, definition, every, _ = next(ref for ref in self.defs[graph].refs if ref[0] == name)
        if self.rests(graph, every):
            return self.kept[name, port]
        return self.out(definition, self.below(path, name), self.taker(graph, path, name, take), port)

    def taker(self, graph, path, name, take):
        return lambda port: self.taken(graph, path, name, port, take)

    @staticmethod
    def below(path, name):
        return f"{path}/{name}" if path else name

    # ---- any definition ----

    def out(self, name, path, take, port):
        wire = self.wires.of(name)
        if wire is not None:
            return take(wire[port])
        if (path, port) not in self.values:
            self.values[path, port] = self.value(self.defs[name], path, take, port)
        return self.values[path, port]

    def value(self, it, path, take, port):
        if it.kind == "sensor":
            return self.row[path]
        if it.kind == "constant":
            return it.values
        if it.kind == "delay":
            return self.cell(path, it)[0]
        if it.kind == "function":
            ins = {name: take(name) for name, _ in it.ins}
            return [expression.value(it.bodies[port], ins, j) for j in range(dict(it.outs)[port])]
        if it.kind == "graph":
            return self.given(it.name, path, it.into[port], take)
        if it.kind == "switch":
            name, inner = self.selected(it, path, take)
            return self.out(name, inner, take, port)
        return self.joined(it, path, take, port)

    def selected(self, it, path, take):
        chosen = take(it.on)[0]
        place = next(n for n, case in enumerate(it.cases) if case[0] in (None, chosen))
        return it.cases[place][1], f"{path}.{place}"

    def joined(self, it, path, take, port):
        for kind, row, _ in it.rows:
            if kind == "join" and row[1] == port:
                return sum((self.copy_out(it, path, take, n, row[0]) for n in range(it.count)), [])
            if kind == "iterate" and row[3] == port:
                return self.copy_out(it, path, take, it.count - 1, row[2])
        raise KeyError(port)

    def copy_out(self, it, path, take, number, port):
        return self.out(it.body, f"{path}.{number}", self.copy_taker(it, path, take, number), port)

    def copy_taker(self, it, path, take, number):
        def taken(port):
            kind, row, _ = next(row for row in it.rows if row[0] != "join" and row[1][1] == port)
            whole = take(row[0]) if kind != "iterate" or number == 0 else None
            if kind == "fork":
                length = len(whole) // it.count
                return whole[number * length : (number + 1) * length]
            return self.copy_out(it, path, take, number - 1, row[2]) if whole is None else whole

        return taken

    # ---- delays ----

    def advance(self, name, path, take, after):
        it = self.defs[name]
        if self.wires.of(name) is not None:
            return
        if it.kind == "delay":
            after[path] = self.cell(path, it)[1:] + [take("i")]
        elif it.kind == "graph":
            for ref, definition, every, _ in it.refs:
                if not self.rests(name, every):
                    self.advance(definition, self.below(path, ref), self.taker(name, path, ref, take), after)
        elif it.kind == "switch":
            chosen, inner = self.selected(it, path, take)
            self.advance(chosen, inner, take, after)
        elif it.kind == "repeat":
            for number in range(it.count):
                self.advance(it.body, f"{path}.{number}", self.copy_taker(it, path, take, number), after)


def output(defs, rows):
    """The output text over these rows, each the vectors of the sensor references by name."""
    meaning, lines = Meaning(defs), []
    for k, row in enumerate(rows):
        for name, vector in meaning.react(row):
            lines.append(f"{k} {name} {' '.join(map(str, vector))}\n")
    return "".join(lines).encode()
