"""Texts whose trees have many ports on few operations: values that pass through graphs and repetitions, which a simulator and a
flattening must not carry port by port."""

HEAD = "algorithm 1\n"
PORTS, USES, LAST = 64, 64, 62


def repeated_fan():
    """One constant, which 64 outputs of a graph without operations give on, in repetitions of repetitions: 257,985 vertices."""
    zeros = " ".join(["0"] * PORTS)
    outs = "".join(f"out y{k} {PORTS}\n" for k in range(PORTS))
    edges = "".join(f"edge x y{k}\n" for k in range(PORTS))
    repeats = "".join(
        f"repeat {name} {copies} {body}\ndiffuse x x\nend\n" for name, copies, body in [("A", USES, "P"), ("B", USES, "A"), ("C", LAST, "B")]
    )
    return (
        f"{HEAD}constant Z = {zeros}\ngraph P\nin x {PORTS}\n{outs}{edges}end\n{repeats}"
        "graph main\nref z Z\nref c C\nedge z.o c.x\nend\n"
    )


def chained(name, of, uses, ins, outs):
    """A graph of so many references to another one in a chain, port by port."""
    parts = [f"graph {name}\n", ins, outs] + [f"ref r{i} {of}\n" for i in range(uses)]
    parts += [f"edge x{k} r0.x{k}\n" for k in range(PORTS)]
    parts += [f"edge r{i}.y{k} r{i + 1}.x{k}\n" for i in range(uses - 1) for k in range(PORTS)]
    return "".join(parts + [f"edge r{uses - 1}.y{k} y{k}\n" for k in range(PORTS)] + ["end\n"])


def chained_ports():
    """64 vectors that pass through a chain of chains of graphs, from a sensor to an actuator."""
    ins = "".join(f"in x{k} {PORTS}\n" for k in range(PORTS))
    outs = "".join(f"out y{k} {PORTS}\n" for k in range(PORTS))
    passing = "".join(f"edge x{k} y{k}\n" for k in range(PORTS))
    parts = [HEAD, f"sensor S {PORTS}\nactuator T {PORTS}\n", f"graph P\n{ins}{outs}{passing}end\n"]
    parts += [chained("Q", "P", USES, ins, outs), chained("R", "Q", USES, ins, outs)]
    parts += ["graph main\nref s S\nref t T\n"] + [f"ref r{i} R\n" for i in range(LAST)]
    parts += [f"edge s.o r0.x{k}\n" for k in range(PORTS)]
    parts += [f"edge r{i}.y{k} r{i + 1}.x{k}\n" for i in range(LAST - 1) for k in range(PORTS)]
    return "".join(parts + [f"edge r{LAST - 1}.y0 t.i\nend\n"])


def long_names():
    """64 outputs with names of 32 letters of a graph without operations, which stands 253,952 times in main."""
    names = [f"{'an_output_with_a_long_name_of':_<30}{k:02}" for k in range(PORTS)]
    outs = "".join(f"out {name} 1\n" for name in names)
    edges = "".join(f"edge x {name}\n" for name in names)

    def fed(name, of, uses):
        refs = "".join(f"ref r{i} {of}\n" for i in range(uses))
        return f"graph {name}\nin x 1\n{refs}" + "".join(f"edge x r{i}.x\n" for i in range(uses)) + "end\n"

    refs = "".join(f"ref r{i} B\n" for i in range(LAST))
    fed_main = "".join(f"edge s.o r{i}.x\n" for i in range(LAST))
    return (
        f"{HEAD}sensor S 1\ngraph P\nin x 1\n{outs}{edges}end\n{fed('A', 'P', USES)}{fed('B', 'A', USES)}"
        f"graph main\nref s S\n{refs}{fed_main}end\n"
    )


SHAPES = {
    "a fan in repetitions": (repeated_fan, []),
    "64 ports through chains": (chained_ports, [f"s.{j}" for j in range(PORTS)]),
    "long names of ports": (long_names, ["s.0"]),
}
