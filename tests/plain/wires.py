"""Which definitions have no operation in them, and which input each of their outputs gives. A unit of such a definition is
a wire, as docs/MANUAL.md says, so that nothing has to be looked for inside it."""


class Wires:
    def __init__(self, defs):
        self.defs, self.known = defs, {}

    def of(self, name):
        """For each output the input that it gives, or None where there is an operation inside."""
        if name not in self.known:
            it = self.defs[name]
            find = {"graph": self.a_graph, "switch": self.a_switch, "repeat": self.a_repeat}.get(it.kind)
            self.known[name] = find(it) if find else None
        return self.known[name]

    def a_graph(self, it):
        inner = {ref: self.of(definition) for ref, definition, _, _ in it.refs}
        if None in inner.values():
            return None

        def led(source):
            name, dot, port = source.partition(".")
            while dot:
                name, dot, port = it.into[f"{name}.{inner[name][port]}"].partition(".")
            return name

        return {port: led(it.into[port]) for port, _ in it.outs}

    def a_switch(self, it):
        wires = all(self.of(name) is not None for _, name, _ in it.cases)
        return {} if wires and not it.outs else None

    def a_repeat(self, it):
        inner = self.of(it.body)
        if inner is None or any(kind in ("fork", "join") for kind, _, _ in it.rows):
            return None
        fed = {row[1]: (kind, row) for kind, row, _ in it.rows}

        def led(port):
            for number in reversed(range(it.count)):
                kind, row = fed[inner[port]]
                if kind == "diffuse" or number == 0:
                    return row[0]
                port = row[2]

        return {row[3]: led(row[2]) for kind, row, _ in it.rows if kind == "iterate"}
