"""Texts that are timed: algorithms whose trees or checks would be large if anything were done once for each use, and one whose
operations stand on all operators; graphs of many ports that hold no operation; an architecture and a sensor table for these."""

HEAD = "algorithm 1\n"
LANES, LANE = 16, 8


def long_expression():
    """A sum of some 480 tokens over the elements of a port of 64 elements."""
    terms = "x[0]"
    for element in range(1, 60):
        terms = f"add({terms},x[{element}])"
    return terms


def shared_body(uses):
    """A function of 64 outputs of some 480 tokens each, 64 times in a graph, which is used so often."""
    outs = "".join(f"out y{i} 1 = {long_expression()}\n" for i in range(64))
    parts = [HEAD, "sensor S 64\n", f"function F\nin x 64\n{outs}end\n", "graph G\nin x 64\n"]
    parts += [f"ref f{i} F\n" for i in range(64)]
    parts += [f"edge x f{i}.x\n" for i in range(64)]
    parts += ["end\ngraph main\nref s S\n"]
    parts += [f"ref g{i} G\n" for i in range(uses)]
    parts += [f"edge s.o g{i}.x\n" for i in range(uses)]
    return "".join(parts + ["end\n"])


def wide_graphs(size):
    """Graphs of 63 functions with 64 inputs each, as many as there is room for, so that most lines are edges."""
    ins = "".join(f"in a_long_name_of_a_port{i:02} 1\n" for i in range(64))
    function = f"function F\n{ins}out y 1 = 0\nend\n"
    refs = "".join(f"ref a_long_name_of_a_reference{r:02} F\n" for r in range(63))
    edges = "".join(
        f"edge x a_long_name_of_a_reference{r:02}.a_long_name_of_a_port{i:02}\n" for r in range(63) for i in range(64)
    )
    parts, k = [HEAD, function], 0
    room = size - len(HEAD) - len(function)
    while True:
        graph = f"graph G{k:06}\nin x 1\n{refs}{edges}end\n"
        if len(graph) > room:
            break
        parts.append(graph)
        room -= len(graph)
        k += 1
    return "".join(parts + ["graph main\nend\n"])


def passing(uses):
    """A graph with a function and 20 graphs that pass its value on, used so often: 22 vertices for each use."""
    chain = ["x"] + [f"p{i}.y" for i in range(20)]
    parts = [HEAD, "sensor S 1\nfunction F\nin x 1\nout y 1 = add(x[0],1)\nend\n"]
    parts += ["graph P\nin x 1\nout y 1\nedge x y\nend\ngraph Unit\nin x 1\nout y 1\n"]
    parts += [f"ref p{i} P\n" for i in range(20)] + ["ref f F\n"]
    parts += [f"edge {chain[i]} p{i}.x\n" for i in range(20)] + ["edge p19.y f.x\nedge f.y y\nend\n"]
    whole, rest = divmod(uses, 50)
    parts += many("Fifty", "Unit", 50) + many("Rest", "Unit", rest)
    parts += ["graph main\nref s S\n"] + [f"ref g{i} Fifty\n" for i in range(whole)] + ["ref r Rest\n"]
    parts += [f"edge s.o g{i}.x\n" for i in range(whole)] + ["edge s.o r.x\nend\n"]
    return "".join(parts)


def many(name, definition, count):
    """A graph with this many references to a definition, each of which takes the graph's input."""
    refs = "".join(f"ref u{i} {definition}\n" for i in range(count))
    edges = "".join(f"edge x u{i}.x\n" for i in range(count))
    return [f"graph {name}\nin x 1\n{refs}{edges}end\n"]


def nested_repetitions():
    """Six repetitions of 64 copies, one inside the other, around a graph without operations."""
    parts, inner = [HEAD, "graph Z\nend\n"], "Z"
    for name in "ABCDEF":
        parts.append(f"repeat {name} 64 {inner}\nend\n")
        inner = name
    return "".join(parts + [f"graph main\nref r {inner}\nend\n"])


def pass_through(name, ins, outs, edges):
    """A graph of these ports without references."""
    lines = [f"graph {name}", *(f"in {port}" for port in ins), *(f"out {port}" for port in outs)]
    return lines + [f"edge {source} {target}" for source, target in edges] + ["end"]


def copied_ports():
    """A graph that gives its input 64 times, in three repetitions one inside the other: 257,985 vertices, one operation."""
    lines = ["algorithm 1", "constant Z = " + " ".join(["0"] * 64)]
    lines += pass_through("P", ["x 64"], [f"y{k} 64" for k in range(64)], [("x", f"y{k}") for k in range(64)])
    for name, copies, inner in (("A", 64, "P"), ("B", 64, "A"), ("C", 62, "B")):
        lines += [f"repeat {name} {copies} {inner}", "diffuse x x", "end"]
    return "\n".join(lines + ["graph main", "ref z Z", "ref c C", "edge z.o c.x", "end", ""])


def wide_chain(name, definition, count):
    """A graph of 64 inputs and outputs that leads them through this many references, one after another."""
    lines = [f"graph {name}", *(f"in x{k} 64" for k in range(64)), *(f"out y{k} 64" for k in range(64))]
    lines += [f"ref r{i} {definition}" for i in range(count)]
    for k in range(64):
        ends = [f"x{k}"] + [f"r{i}.y{k}" for i in range(count)]
        lines += [f"edge {ends[i]} r{i}.x{k}" for i in range(count)] + [f"edge {ends[-1]} y{k}"]
    return lines + ["end"]


def wide_chains():
    """A graph that passes 64 values of 64 elements on, in three chains one inside the other: 257,985 vertices, two operations."""
    wide = range(64)
    lines = ["algorithm 1", "sensor S 64", "actuator T 64"]
    lines += pass_through("P", [f"x{k} 64" for k in wide], [f"y{k} 64" for k in wide], [(f"x{k}", f"y{k}") for k in wide])
    lines += wide_chain("Q", "P", 64) + wide_chain("R", "Q", 64) + ["graph main", "ref s S", "ref t T"]
    lines += [f"ref r{i} R" for i in range(62)] + [f"edge s.o r0.x{k}" for k in wide]
    lines += [f"edge r{i}.y{k} r{i + 1}.x{k}" for i in range(61) for k in wide]
    return "\n".join(lines + ["edge r61.y0 t.i", "end", ""])


def named_ports(passes=False):
    """A graph with 64 outputs of long names, used 4,096 times in each of 62 graphs: 257,983 vertices, one operation; where
    `passes` is set, 61 graphs and a repetition and a switch beside them, so that flattening makes two trees more."""
    names = [f"an_output_with_quite_a_long_name{k:02}"[-32:] for k in range(64)]
    lines = ["algorithm 1", "sensor S 1"]
    lines += pass_through("P", ["x 1"], [f"{name} 1" for name in names], [("x", name) for name in names])
    for name, inner in (("A", "P"), ("B", "A")):
        lines += [f"graph {name}", "in x 1", *(f"ref u{i} {inner}" for i in range(64))]
        lines += [f"edge x u{i}.x" for i in range(64)] + ["end"]
    uses, refs, edges = 62, ["ref s S"], []
    if passes:
        lines += ["graph E", "in x 1", "out y 1", "edge x y", "end", "repeat Again 1 E", "iterate x x y y", "end"]
        lines += ["switch Either", "on c", "in x 1", "out y 1", "case 0 E", "otherwise E", "end"]
        uses, refs = 61, refs + ["ref again Again", "ref either Either"]
        edges = ["edge s.o again.x", "edge s.o either.c", "edge s.o either.x"]
    lines += ["graph main", *refs, *(f"ref b{i} B" for i in range(uses)), *edges]
    lines += [f"edge s.o b{i}.x" for i in range(uses)]
    return "\n".join(lines + ["end", ""])


PORTS = {
    "ports in repetitions": copied_ports,
    "ports in graphs": wide_chains,
    "ports with names": named_ports,
    "ports with names, repeated and switched": lambda: named_ports(True),
}


def lane():
    """A function of the lane's own value and its neighbour's, and a chain of functions behind it."""
    refs = ["ref g Mix"] + [f"ref f{i} Next" for i in range(LANE - 1)]
    edges = ["edge x g.x", "edge y g.y", "edge g.z f0.x"]
    edges += [f"edge f{i}.y f{i + 1}.x" for i in range(LANE - 2)] + [f"edge f{LANE - 2}.y z"]
    return ["graph Lane", "in x 1", "in y 1", "out z 1", *refs, *edges, "end"]


def layer():
    """The lanes beside each other; each also takes its neighbour's value."""
    lines = ["graph Layer"] + [f"in x{i} 1" for i in range(LANES)] + [f"out z{i} 1" for i in range(LANES)]
    lines += [f"ref l{i} Lane" for i in range(LANES)]
    for i in range(LANES):
        lines += [f"edge x{i} l{i}.x", f"edge x{(i + 1) % LANES} l{i}.y", f"edge l{i}.z z{i}"]
    return lines + ["end"]


def keeping():
    """Each lane's value beside what a delay kept of it, and some functions more."""
    lines = ["graph Keep", "in x 1", "out z 1", "ref d Kept", "ref g Mix", "ref a Next", "ref b Next", "ref c Next"]
    lines += ["edge x g.x", "edge d.o g.y", "edge g.z a.x", "edge a.y b.x", "edge b.y c.x", "edge c.y d.i"]
    return lines + ["edge c.y z", "end"]


def lanes(layers):
    """16 sensors, up to 16 layers, a delay and four functions for each lane, and 16 actuators: 128 operations, and 128 for each layer."""
    lines = ["algorithm 1", "sensor Sense 1", "actuator Act 1", "delay Kept = 1"]
    lines += ["function Mix", "in x 1", "in y 1", "out z 1 = sub(mul(3,x[0]),y[0])", "end"]
    lines += ["function Next", "in x 1", "out y 1 = add(x[0],1)", "end"]
    lines += lane() + layer() + keeping() + ["graph main"]
    lines += [f"ref l{n} Layer" for n in range(layers)]
    for i in range(LANES):
        lines += [f"ref s{i} Sense", f"ref k{i} Keep", f"ref a{i} Act"]
    for i in range(LANES):
        ends = [f"s{i}.o"] + [f"l{n}.z{i}" for n in range(layers)]
        lines += [f"edge {ends[n]} l{n}.x{i}" for n in range(layers)] + [f"edge {ends[-1]} k{i}.x", f"edge k{i}.z a{i}.i"]
    return "\n".join(lines + ["end", ""])


def operators_for(operators, ring=False, depth=1):
    """The architecture of this many operators, not all equally fast, at one bus or in a ring, for the lanes and the chain of `flat.py`; its buffers
    that are shared have this many places."""
    names = [f"o{k}" for k in range(operators)]
    lines = ["architecture 1"] if depth == 1 else ["architecture 2", f"depth {depth}"]
    lines += [f"operator {name}" for name in names]
    if operators > 1 and ring:
        for k in range(operators):
            lines += [f"medium m{k} p2p 1 1", f"connect m{k} {names[k]}", f"connect m{k} {names[(k + 1) % operators]}"]
    elif operators > 1:
        lines += ["medium bus multi 1 1"] + [f"connect bus {name}" for name in names]
    for definition in ("S", "A", "F", "Sense", "Act", "Mix", "Next"):
        lines += [f"duration {definition} {name} {20 + 7 * k % 5}" for k, name in enumerate(names)]
    return "\n".join(lines + [""])


def delays(count, depth):
    """This many delays of this depth, one after another between a sensor and an actuator."""
    lines = ["algorithm 2", "sensor S 1", "actuator A 1", f"delay D {depth} = {' '.join('0' * depth)}", "graph main", "ref s S", "ref a A"]
    lines += [f"ref d{i} D" for i in range(count)]
    ends = ["s.o"] + [f"d{i}.o" for i in range(count)]
    lines += [f"edge {ends[i]} d{i}.i" for i in range(count)]
    return "\n".join(lines + [f"edge {ends[-1]} a.i", "end", ""])


def first_of_many(definitions):
    """16 operators at four buses, which makes 80 sequences; what takes time may stand on the first operator alone."""
    names = [f"o{k}" for k in range(16)]
    lines = ["architecture 1"] + [f"operator {name}" for name in names]
    for bus in range(4):
        lines += [f"medium b{bus} multi 1 1"] + [f"connect b{bus} {name}" for name in names]
    return "\n".join(lines + [f"duration {definition} o0 20" for definition in definitions] + [""])


def table(names, reactions):
    """A sensor table with these columns."""
    rows = ([str(k)] + [str((k * 7 + j * 13) % 199 - 99) for j in range(len(names))] for k in range(reactions))
    return "\n".join(",".join(row) for row in [["k", *names], *rows]) + "\n"


def ports_in(count):
    return "".join(f"in x{i} 1\n" for i in range(count))


def producer():
    """A function of 64 outputs."""
    return "function P\n" + "".join(f"out y{i} 1 = {i}\n" for i in range(64)) + "end\n"


def staircase():
    """32 producers, each read by 63 functions, of which the next reads one value more than the one before: 2,048 operations."""
    parts = [HEAD, producer()]
    parts += [f"function F{j}\n{ports_in(j + 1)}out y 1 = x0[0]\nend\n" for j in range(63)]
    parts += ["graph G\n", ports_in(64)] + [f"ref f{j} F{j}\n" for j in range(63)]
    parts += [f"edge x{i} f{j}.x{i}\n" for j in range(63) for i in range(j + 1)] + ["end\ngraph main\n"]
    parts += [f"ref p{k} P\nref g{k} G\n" for k in range(32)]
    parts += [f"edge p{k}.y{i} g{k}.x{i}\n" for k in range(32) for i in range(64)]
    return "".join(parts + ["end\n"])


def half_common():
    """31 producers, each read by 63 functions at 32 values that all of them read and at one of 32 others: 1,984 operations."""
    parts = [HEAD, producer(), f"function C\n{ports_in(33)}out y 1 = x0[0]\nend\n", "graph G\nref p P\n"]
    parts += [f"ref c{j} C\n" for j in range(63)]
    for j in range(63):
        parts += [f"edge p.y{i} c{j}.x{i}\n" for i in range(32)] + [f"edge p.y{32 + j % 32} c{j}.x32\n"]
    parts += ["end\ngraph main\n"] + [f"ref g{k} G\n" for k in range(31)]
    return "".join(parts + ["end\n"])


def all_of_one():
    """One producer, whose 64 values 2,016 functions read all."""
    parts = [HEAD, producer(), f"function C\n{ports_in(64)}out y 1 = x0[0]\nend\n", "graph G\n", ports_in(64)]
    parts += [f"ref c{j} C\n" for j in range(63)]
    parts += [f"edge x{i} c{j}.x{i}\n" for j in range(63) for i in range(64)] + ["end\ngraph main\nref p P\n"]
    parts += [f"ref g{k} G\n" for k in range(32)]
    parts += [f"edge p.y{i} g{k}.x{i}\n" for k in range(32) for i in range(64)]
    return "".join(parts + ["end\n"])


def sixteen(fixed, per, ring, durations):
    """16 operators in a ring or a chain of media that carry so fast, and durations by definition and operator."""
    lines = ["architecture 1"] + [f"operator o{k}" for k in range(16)]
    for k in range(16 if ring else 15):
        lines += [f"medium m{k} p2p {fixed} {per}", f"connect m{k} o{k}", f"connect m{k} o{(k + 1) % 16}"]
    lines += [f"duration {definition} o{k} {ticks}" for definition, k, ticks in durations]
    return "\n".join(lines + [""])


def passing_all(name):
    """A function of 64 inputs that gives each of them."""
    ins = "".join(f"in x{k} 1\n" for k in range(64))
    outs = "".join(f"out y{k} 1 = x{k}[0]\n" for k in range(64))
    return f"function {name}\n{ins}{outs}end\n"


def all_across(operators=16):
    """2,016 functions in a chain that read 64 values each and stand on two operators in turn, and an architecture in which these
    two and others stand at one bus: 126,978 transfers, far more than a program may have words for."""
    count, wide = 63, range(64)
    ends = [("x{}", "f0.x{}"), *((f"f{i}.y{{}}", f"f{i + 1}.x{{}}") for i in range(count - 1)), (f"f{count - 1}.y{{}}", "z{}")]
    part = "graph P\n" + "".join(f"in x{k} 1\n" for k in wide) + "".join(f"out z{k} 1\n" for k in wide)
    part += "".join(f"ref f{i} {'FG'[i % 2]}\n" for i in range(count))
    part += "".join(f"edge {a.format(k)} {b.format(k)}\n" for a, b in ends for k in wide) + "end\n"
    main = "graph main\nref s S\n" + "".join(f"ref g{g} P\n" for g in range(32))
    main += "".join(f"edge s.o g0.x{k}\n" for k in wide)
    main += "".join(f"edge g{g}.z{k} g{g + 1}.x{k}\n" for g in range(31) for k in wide) + "end\n"
    archi = "architecture 1\n" + "".join(f"operator o{k}\n" for k in range(operators)) + "medium bus multi 1 1\n"
    archi += "".join(f"connect bus o{k}\n" for k in range(operators))
    archi += "duration S o0 1\nduration F o0 1\nduration G o1 1\n"
    return HEAD + "sensor S 1\n" + passing_all("F") + passing_all("G") + part + main, archi


def carrying():
    """By name, algorithms most of whose operations have something carried for them, with their architectures."""
    falling = [(f"F{j}", 100 - j) for j in range(63)]
    everywhere = range(16)
    return {
        "63 readers each, on one operator": (staircase(), sixteen(2, 1, True, [("P", 0, 1)] + [(f, 8, t) for f, t in falling])),
        "63 readers each, on all operators": (
            staircase(),
            sixteen(2, 1, True, [("P", 0, 1)] + [(f, k, t) for f, t in falling for k in everywhere]),
        ),
        "readers of 32 common values in a chain": (
            half_common(),
            sixteen(1, 0, False, [("P", k, 1) for k in everywhere] + [("C", k, 1000) for k in everywhere]),
        ),
        "readers of all values of one": (
            all_of_one(),
            sixteen(2, 1, True, [("P", k, 1) for k in everywhere] + [("C", k, 5 + 7 * k % 13) for k in everywhere]),
        ),
    }
