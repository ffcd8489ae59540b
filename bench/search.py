#!/usr/bin/env python3
"""How much shorter the schedules are that `syndex_lab .. --tries N` finds, and how long it takes: over the examples, and
over layered graphs, trees, butterflies and pipelines of 20 to 2,048 operations, on 2 to 16 operators that are joined by
a bus, a ring or links, with transfers from cheap to dear. For each design: the operations, the bound below every
schedule, the length of the pressure run, of list schedules by upward ranks computed here in Python (HEFT, without
insertion), of what the search finds at each number of tries, and its seconds of the processor. At the end the geometric
means of the ratios to the pressure run.

With `--for period` the numbers are periods in thousandths of a tick, over the last 25 of 50 reactions, and there is no
bound and no HEFT. A schedule that is longer, or slower, than the pressure run or than HEFT is marked."""
import concurrent.futures
import math
import os
import random
import resource
import subprocess
import tempfile

from program import TOP, built_program, parser, positive, run, stop, written
from shapes import carrying

TRIES = (2_000, 20_000, 200_000)


class Design:
    """Operations with their sources, in topological order, as the text that flattens to them."""

    def __init__(self, name, text, operations, edges):
        self.name, self.text = name, text
        # (definition) by operation, and (from, to, elements)
        self.operations, self.edges = operations, edges


def functions(kinds, most_inputs):
    """A function of each kind and number of inputs; a kind is a class of durations."""
    lines = []
    for kind in range(kinds):
        for inputs in range(1, most_inputs + 1):
            ports = "".join(f"in x{i} 1\n" for i in range(inputs))
            total = "x0[0]"
            for i in range(1, inputs):
                total = f"add({total},x{i}[0])"
            lines.append(f"function F{kind}_{inputs}\n{ports}out y 1 = {total}\nend\n")
    return "".join(lines)


def graph_text(name, ins, outs, refs, edges):
    return "".join(
        [f"graph {name}\n"]
        + [f"in {it} 1\n" for it in ins]
        + [f"out {it} 1\n" for it in outs]
        + [f"ref {ref} {definition}\n" for ref, definition in refs]
        + [f"edge {a} {b}\n" for a, b in edges]
        + ["end\n"]
    )


def layered(operations, width, seed):
    """Layers of so many functions, each of which reads one to three of the layer before."""
    draw = random.Random(seed)
    deep = max(1, 60 // width)
    layers = max(1, (operations - 2 * width) // width)
    parts, groups = [functions(4, 3)], []
    ops = ["S"] * width
    edges, last = [], list(range(width))
    for group in range((layers + deep - 1) // deep):
        refs, lines, before = [], [], [f"x{i}" for i in range(width)]
        for depth in range(min(deep, layers - group * deep)):
            now, places = [], []
            for lane in range(width):
                sources = draw.sample(range(width), min(width, draw.randint(1, 3)))
                kind = draw.randrange(4)
                ref = f"f{depth}_{lane}"
                refs.append((ref, f"F{kind}_{len(sources)}"))
                lines += [(before[s], f"{ref}.x{i}") for i, s in enumerate(sources)]
                places.append(len(ops))
                edges += [(last[s], len(ops), 1) for s in sources]
                ops.append(f"F{kind}_{len(sources)}")
                now.append(f"{ref}.y")
            before, last = now, places
        lines += [(before[lane], f"z{lane}") for lane in range(width)]
        ins, outs = [f"x{i}" for i in range(width)], [f"z{i}" for i in range(width)]
        parts.append(graph_text(f"G{group}", ins, outs, refs, lines))
        groups.append(f"G{group}")
    refs = [(f"s{i}", "S") for i in range(width)] + [(f"g{k}", name) for k, name in enumerate(groups)]
    refs += [(f"a{i}", "A") for i in range(width)]
    lines, ends = [], [f"s{i}.o" for i in range(width)]
    for k in range(len(groups)):
        lines += [(ends[i], f"g{k}.x{i}") for i in range(width)]
        ends = [f"g{k}.z{i}" for i in range(width)]
    lines += [(ends[i], f"a{i}.i") for i in range(width)]
    for i in range(width):
        edges.append((last[i], len(ops), 1))
        ops.append("A")
    parts.append(graph_text("main", [], [], refs, lines))
    text = "algorithm 1\nsensor S 1\nactuator A 1\n" + "".join(parts)
    return Design(f"layers of {width}", text, ops, edges)


def tree(levels, uses):
    """Trees of so many levels that reduce what their leaves make of one value, one after another."""
    leaves = 2 ** (levels - 1)
    refs, lines = [], []
    for leaf in range(leaves):
        refs.append((f"t0_{leaf}", f"F{leaf % 4}_1"))
        lines.append(("x", f"t0_{leaf}.x0"))
    for level in range(1, levels):
        for k in range(leaves >> level):
            refs.append((f"t{level}_{k}", f"F{(k + level) % 4}_2"))
            lines += [(f"t{level - 1}_{2 * k + i}.y", f"t{level}_{k}.x{i}") for i in range(2)]
    lines.append((f"t{levels - 1}_0.y", "z"))
    parts = [functions(4, 2), graph_text("Tree", ["x"], ["z"], refs, lines)]
    main = [("s", "S")] + [(f"g{k}", "Tree") for k in range(uses)] + [("a", "A")]
    joins = [("s.o" if k == 0 else f"g{k - 1}.z", f"g{k}.x") for k in range(uses)] + [(f"g{uses - 1}.z", "a.i")]
    parts.append(graph_text("main", [], [], main, joins))
    ops, edges, top = ["S"], [], 0
    for _ in range(uses):
        first = len(ops)
        for ref, definition in refs:
            ops.append(definition)
        place = {ref: first + k for k, (ref, _) in enumerate(refs)}
        for a, b in lines[:-1]:
            edges.append((top if a == "x" else place[a.split(".")[0]], place[b.split(".")[0]], 1))
        top = place[f"t{levels - 1}_0"]
    edges.append((top, len(ops), 1))
    ops.append("A")
    return Design(f"{uses} trees of {leaves} leaves", "algorithm 1\nsensor S 1\nactuator A 1\n" + "".join(parts), ops, edges)


def butterfly(points):
    """The butterflies of a transform of so many points, up to 16, each a function of two values."""
    refs = [(f"s{i}", "S") for i in range(points)]
    ops, edges, lines = ["S"] * points, [], []
    ends, places = [f"s{i}.o" for i in range(points)], list(range(points))
    stage, half = 0, 1
    while half < points:
        for i in range(points):
            if i & half:
                continue
            ref, j = f"b{stage}_{i}", i + half
            refs.append((ref, "B"))
            lines += [(ends[i], f"{ref}.x"), (ends[j], f"{ref}.w")]
            edges += [(places[i], len(ops), 1), (places[j], len(ops), 1)]
            places[i] = places[j] = len(ops)
            ops.append("B")
            ends[i], ends[j] = f"{ref}.y", f"{ref}.z"
        stage, half = stage + 1, 2 * half
    for i in range(points):
        refs.append((f"a{i}", "A"))
        lines.append((ends[i], f"a{i}.i"))
        edges.append((places[i], len(ops), 1))
        ops.append("A")
    body = "function B\nin x 1\nin w 1\nout y 1 = add(x[0],w[0])\nout z 1 = sub(x[0],w[0])\nend\n"
    text = "algorithm 1\nsensor S 1\nactuator A 1\n" + body + graph_text("main", [], [], refs, lines)
    return Design(f"butterflies of {points} points", text, ops, edges)


def chain(operations, lanes):
    """Lanes of functions beside each other, which meet in the end: what a pipeline does in one reaction."""
    long = max(1, min(60 // lanes, (operations - 2) // lanes))
    groups = max(1, (operations - 2) // (lanes * long))
    refs = [(f"f{lane}_{k}", f"F{(lane + k) % 4}_1") for lane in range(lanes) for k in range(long)]
    lines = []
    for lane in range(lanes):
        lines.append((f"x{lane}", f"f{lane}_0.x0"))
        lines += [(f"f{lane}_{k}.y", f"f{lane}_{k + 1}.x0") for k in range(long - 1)]
        lines.append((f"f{lane}_{long - 1}.y", f"z{lane}"))
    names = range(lanes)
    group = graph_text("Stage", [f"x{i}" for i in names], [f"z{i}" for i in names], refs, lines)
    main = [("s", "S")] + [(f"g{k}", "Stage") for k in range(groups)] + [("j", f"F0_{lanes}"), ("a", "A")]
    joins = [("s.o" if k == 0 else f"g{k - 1}.z{i}", f"g{k}.x{i}") for k in range(groups) for i in names]
    joins += [(f"g{groups - 1}.z{i}", f"j.x{i}") for i in names] + [("j.y", "a.i")]
    ops, edges, last = ["S"], [], [0] * lanes
    for _ in range(groups):
        for lane in names:
            for k in range(long):
                edges.append((last[lane], len(ops), 1))
                last[lane] = len(ops)
                ops.append(f"F{(lane + k) % 4}_1")
    edges += [(it, len(ops), 1) for it in last]
    ops.append(f"F0_{lanes}")
    edges.append((len(ops) - 1, len(ops), 1))
    ops.append("A")
    text = "algorithm 1\nsensor S 1\nactuator A 1\n" + functions(4, max(2, lanes)) + group + graph_text("main", [], [], main, joins)
    return Design(f"{lanes} lanes", text, ops, edges)


def links(operators):
    """Each two operators, or where that is more than the 16 media that there may be, those whose numbers differ in one
    bit, or else neighbours in a ring."""
    pairs = [(a, b) for a in range(operators) for b in range(a + 1, operators)]
    near = [(a, b) for a, b in pairs if (a ^ b).bit_count() == 1]
    ring = [(k, (k + 1) % operators) for k in range(operators)]
    return next(it for it in (pairs, near, ring) if len(it) <= 16)


class Machine:
    """Operators that are joined somehow, with how long each definition lasts on each."""

    def __init__(self, operators, joined, fixed, seed):
        draw = random.Random(seed)
        self.operators, self.joined, self.fixed = operators, joined, fixed
        self.base = {f"F{k}": draw.randint(10, 60) for k in range(4)}
        self.base.update(B=40, S=4, A=4)
        self.pace = [draw.choice((4, 4, 5, 6)) for _ in range(operators)]
        if joined == "bus":
            self.media = [tuple(range(operators))]
        elif joined == "ring" and operators > 2:
            self.media = [(k, (k + 1) % operators) for k in range(operators)]
        else:
            self.media = links(operators)
        self.name = f"{operators} by {'a bus' if joined == 'bus' else 'a ring' if joined == 'ring' else 'links'}, {fixed}"

    def ticks(self, definition, operator):
        return self.base[definition.split("_")[0]] * self.pace[operator] // 4

    def text(self, definitions):
        lines = ["architecture 1"] + [f"operator o{k}" for k in range(self.operators)]
        for k, ends in enumerate(self.media):
            lines.append(f"medium m{k} {'multi' if self.joined == 'bus' else 'p2p'} {self.fixed} 1")
            lines += [f"connect m{k} o{end}" for end in ends]
        for definition in sorted(set(definitions)):
            lines += [f"duration {definition} o{k} {self.ticks(definition, k)}" for k in range(self.operators)]
        return "\n".join(lines + [""])

    def routes(self):
        """By pair of operators the media and operators on a shortest way."""
        found = {}
        for start in range(self.operators):
            ways, todo = {start: []}, [start]
            for at in todo:
                for k, ends in enumerate(self.media):
                    if at in ends:
                        for end in ends:
                            if end not in ways:
                                ways[end] = ways[at] + [(k, end)]
                                todo.append(end)
            found.update({(start, end): way for end, way in ways.items()})
        return found


def heft(design, machine):
    """The length of a list schedule by upward ranks: each operation where it ends first, after what is there."""
    routes = machine.routes()
    lasting = machine.fixed + 1
    after, before = {}, {}
    for a, b, _ in design.edges:
        after.setdefault(a, []).append(b)
        before.setdefault(b, []).append(a)
    count, operators = len(design.operations), range(machine.operators)
    mean = [sum(machine.ticks(it, o) for o in operators) / machine.operators for it in design.operations]
    hops = sum(len(way) for way in routes.values()) / len(routes)
    rank = [0.0] * count
    for v in reversed(range(count)):
        rank[v] = mean[v] + max((rank[w] + hops * lasting for w in after.get(v, [])), default=0)
    free, busy = [0] * machine.operators, [0] * len(machine.media)
    copies, stands, end = [{} for _ in range(count)], [0] * count, [0] * count

    def ready(v, o, busy, keep):
        latest = 0
        for u in dict.fromkeys(before.get(v, [])):
            at, date = stands[u], end[u]
            have = dict(copies[u])
            for medium, to in routes[at, o]:
                if to not in have:
                    start = max(date, busy[medium])
                    busy[medium] = start + lasting
                    have[to] = busy[medium]
                at, date = to, have[to]
            latest = max(latest, have.get(o, end[u]))
            if keep:
                copies[u] = have
        return latest

    for v in sorted(range(count), key=lambda it: (-rank[it], it)):
        best = None
        for o in operators:
            date = max(free[o], ready(v, o, list(busy), False)) + machine.ticks(design.operations[v], o)
            best = min(best or (date, o), (date, o))
        o = best[1]
        start = max(free[o], ready(v, o, busy, True))
        end[v] = free[o] = start + machine.ticks(design.operations[v], o)
        stands[v] = o
        copies[v][o] = end[v]
    return max(end)


def designs(most):
    """Designs with their machines."""
    small = [layered(20, 4, 1), tree(4, 1), butterfly(4), chain(20, 2)]
    middle = [layered(100, 8, 2), tree(5, 3), butterfly(16), chain(100, 4)]
    large = [layered(500, 12, 3), tree(6, 8), chain(500, 6)]
    huge = [layered(2048, 12, 4), tree(6, 32), chain(2040, 8)]
    for sizes, operators in ((small, (2, 4)), (middle, (2, 4, 8)), (large, (4, 16)), (huge, (4, 16))):
        for design in sizes:
            if len(design.operations) > most:
                continue
            for count in operators:
                for joined, fixed in (("bus", 1), ("ring", 20), ("links", 60)):
                    yield design, Machine(count, joined, fixed, count)


def report(options, files, tries):
    """What is made small and the bound below it, as `report` tells them, and the seconds of the processor."""
    words = [options.program, "report", *files, "--for", options.goal] + (["--tries", str(tries)] if tries else [])
    before = resource.getrusage(resource.RUSAGE_CHILDREN)
    ran = subprocess.run(words, capture_output=True, text=True, check=False)
    after = resource.getrusage(resource.RUSAGE_CHILDREN)
    if ran.returncode:
        stop(f"{' '.join(words)}: status {ran.returncode}: {ran.stderr.strip()}")
    rows = {line.split()[0]: line.split()[1] for line in ran.stdout.splitlines() if line.strip()}
    seconds = after.ru_utime - before.ru_utime
    if options.goal == "period":
        return int(rows["period"].replace(".", "")), "", seconds
    return int(rows["length"]), int(rows["bound"]), seconds


class Means:
    """Geometric means of ratios by column."""

    def __init__(self):
        self.logs = {}

    def add(self, column, ratio):
        self.logs.setdefault(column, []).append(math.log(max(ratio, 1e-9)))

    def show(self):
        for column, logs in self.logs.items():
            print(f"{column}: {math.exp(sum(logs) / len(logs)):.3f} of the pressure run in the geometric mean of {len(logs)} designs")


def row(options, name, operations, files, plain):
    """A line of the table, and the ratios to the pressure run by column."""
    run, bound, _ = report(options, files, 0)
    words, ratios = [f"{name:52}{operations:6}{bound:8}{run:8}{plain if plain else '':>8}"], []
    if plain and run:
        ratios.append(("HEFT", plain / run))
    for tries in options.tries:
        found, _, seconds = report(options, files, tries)
        mark = "!" if found > run or plain and found > plain else ""
        words.append(f"{found:8}{mark:1}{seconds:7.2f}")
        if run:
            ratios.append((f"{tries} tries", found / run))
    return " ".join(words), ratios


def example_row(options, name):
    """The line of an example."""
    return row(options, name, "", [f"{TOP}/examples/{name}/{it}.txt" for it in ("algorithm", "architecture")], None)


def design_row(options, number):
    """The line of a design, by its number."""
    design, machine = list(designs(options.most))[number]
    with tempfile.TemporaryDirectory() as room:
        files = [written(room, "algorithm", design.text), written(room, "architecture", machine.text(design.operations))]
        plain = heft(design, machine) if options.goal == "length" else None
        return row(options, f"{design.name}, {machine.name}", len(design.operations), files, plain)


def tell_dense(options):
    """How long the search takes where most operations have something carried for them."""
    with tempfile.TemporaryDirectory() as room:
        for name, texts in carrying().items():
            files = [written(room, kind, text) for kind, text in zip(("algorithm", "architecture"), texts)]
            for tries in (1, 100, 1_000):
                found, bound, seconds = report(options, files, tries)
                print(f"{name}, {tries} tries: {found}, bound {bound}, {seconds:.2f} s of the processor", flush=True)


def numbers(word):
    """Numbers of tries, with commas between."""
    return [positive(it) for it in word.split(",")]


def given_options():
    words = parser(__doc__)
    words.add_argument("--program", metavar="FILE", help="the program, the one that ./build makes if left out")
    words.add_argument("--for", dest="goal", choices=("length", "period"), default="length", help="what the search makes small")
    tries = f"how many tries, {','.join(map(str, TRIES))} if left out"
    words.add_argument("--tries", type=numbers, default=list(TRIES), metavar="N,N,..", help=tries)
    words.add_argument("--most", type=positive, default=2048, metavar="N", help="leave out designs of more operations")
    jobs = "how many designs are tried side by side: more of them than there are processors would not end sooner"
    words.add_argument("--jobs", type=positive, default=1, metavar="N", help=jobs)
    dense = "report instead how long 1, 100 and 1,000 tries take over 2,048 operations that read up to 64 values each, and" \
        " have most of them carried"
    words.add_argument("--dense", action="store_true", help=dense)
    return words.parse_args()


def main():
    options = given_options()
    options.program = built_program("syndex_lab", options.program)
    if options.dense:
        tell_dense(options)
        return
    heads = "".join(f"{it:>9}{'s':>8}" for it in options.tries)
    print(f"{'design':52}{'ops':>6}{'bound':>8}{'run':>8}{'HEFT':>8} {heads}")
    means = Means()
    examples = [it for it in sorted(os.listdir(f"{TOP}/examples")) if has_design(f"{TOP}/examples/{it}")]
    places = range(len(list(designs(options.most))))
    with concurrent.futures.ProcessPoolExecutor(options.jobs) as pool:
        rows = [pool.submit(example_row, options, it) for it in examples]
        rows += [pool.submit(design_row, options, it) for it in places]
        for line, ratios in (it.result() for it in rows):
            print(line, flush=True)
            for column, ratio in ratios:
                means.add(column, ratio)
    means.show()


def has_design(folder):
    """Whether an example has an algorithm and an architecture of these names."""
    return all(os.path.isfile(f"{folder}/{it}.txt") for it in ("algorithm", "architecture"))


if __name__ == "__main__":
    run(main)
