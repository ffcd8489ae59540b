"""What `syndex_lab` writes, made a second time from what `syndex` writes: the listing of the operations, the chart, the
architecture and the rows that the actuators take. The definitions were read from docs/MANUAL.md and the specs of the crates; the
style and the legend, which are plain text, are taken from the sources."""
import os
import re

TOP = os.path.dirname(os.path.dirname(os.path.dirname(os.path.abspath(__file__))))
STEPS = [digit * 10**power for power in range(12) for digit in (1, 2, 5)]


def constant(name):
    """The text of a constant of svg_text."""
    with open(f"{TOP}/crates/svg_text/src/style.rt", encoding="utf-8") as it:
        found = re.search(rf'pub const {name}: &\[u8\] = b"(.*?)";\n', it.read(), re.S)
    return found[1].replace('\\"', '"')


class Operation:
    """A line of the listing: NUMBER NAME KIND:DEFINITION GUARDS SOURCES LENGTHS, where a guard is OPERATION.OUTPUT?CASE."""

    def __init__(self, line):
        number, self.name, kind, guards, sources, lengths = line.split(" ")
        self.number = int(number)
        self.lengths = [int(it) for it in lengths.split(",")] if lengths != "-" else []
        self.kind, _, self.definition = kind.partition(":")
        pairs = lambda text: [tuple(map(int, it.split("."))) for it in text.split(",")] if text != "-" else []
        self.sources = pairs(sources)
        self.guards = []
        for it in guards.split(",") if guards != "-" else []:
            source, _, case = it.partition("?")
            self.guards.append((tuple(map(int, source.split("."))), int(case)))


class Run:
    """An operation on an operator."""

    def __init__(self, start, end, op, operator):
        self.start, self.end, self.op, self.operator, self.lane = start, end, op, operator, operator


class Carry:
    """A transfer over a medium."""

    def __init__(self, start, end, source, medium, ends, operators):
        self.start, self.end, self.source, self.medium, self.lane = start, end, source, medium, operators + medium
        self.sender, self.taker = ends


class Design:
    """The operations, the operators and media by name, and the acts of a chart, lane by lane."""

    def __init__(self, listing, chart):
        self.operations = [Operation(line) for line in listing.splitlines()]
        self.numbers = {it.name: it.number for it in self.operations}
        lines = [line.split(" ") for line in chart.splitlines()]
        self.operators = [words[1] for words in lines if words[0] == "operator"]
        self.media = [words[1] for words in lines if words[0] == "medium"]
        self.length = int(lines[-1][1])
        self.acts, lane = [], -1
        for words in lines[:-1]:
            if words[0] in ("operator", "medium"):
                lane += 1
            elif lane < len(self.operators):
                self.acts.append(Run(int(words[0]), int(words[1]), self.numbers[words[2]], lane))
            else:
                ends = tuple(self.operators.index(it) for it in words[4:6])
                source = self.numbers[words[2]], int(words[3])
                self.acts.append(Carry(int(words[0]), int(words[1]), source, lane - len(self.operators), ends, len(self.operators)))

    def name(self, number):
        return self.operations[number].name

    def on_lane(self, lane):
        return [it for it in self.acts if it.lane == lane]

    def sources(self, number):
        """What an operation reads: its guards, and then its inputs."""
        it = self.operations[number]
        return [source for source, _ in it.guards] + it.sources

    def reads(self, act):
        """What an act takes, and on which operator."""
        if isinstance(act, Carry):
            return [(act.source, act.sender)]
        return [(source, act.operator) for source in self.sources(act.op)]


class Scale:
    def __init__(self, count, length):
        self.width, self.length = 1000 * (1 + min(count, 65536) // 128), length

    def place(self, date):
        return self.width * min(date, self.length) // max(1, self.length)

    def step(self):
        wanted = self.length // (self.width // 100 + 2) + 1
        return next((it for it in STEPS if wanted <= it), wanted)


def words(kind, x, y, text):
    return f'<text class="{kind}" x="{x}" y="{y}">{text}</text>\n'


def line(kind, x, height):
    return f'<path class="{kind}" d="M{x} 0v{height}"/>\n'


def group(name, x, y, inside):
    return f'<g id="{name}" transform="translate({x} {y})">\n{inside}</g>\n'


def whole(width, height, inside):
    head = f'<svg xmlns="http://www.w3.org/2000/svg" width="{width}" height="{height}" viewBox="0 0 {width} {height}">\n'
    return head + constant("STYLE") + f'<rect class="paper" width="{width}" height="{height}"/>\n' + inside + "</svg>\n"


def axis(word, scale, height):
    dates = [k * scale.step() for k in range(scale.length // scale.step() + 1)]
    ticks = "".join(line("grid", scale.place(it), height) + words("tick", scale.place(it), -8, it) for it in dates)
    return group("axis", 0, 0, ticks + line("end", scale.width, height) + words("length", scale.width, -26, word + str(scale.length)))


def class_of(operation):
    kind = operation.kind
    if kind in ("get", "set"):
        return "delay"
    return "route" if kind in ("explode", "implode", "merge") else kind


def title(design, act):
    dates = f"{act.start} to {act.end}"
    if isinstance(act, Run):
        return f"{design.name(act.op)}: {dates} on {design.operators[act.operator]}"
    number, port = act.source
    way = f"over {design.media[act.medium]}, {design.operators[act.sender]} to {design.operators[act.taker]}"
    return f"{design.name(number)}, output {port}: {dates} {way}"


def bar(design, scale, act):
    is_run = isinstance(act, Run)
    kind = class_of(design.operations[act.op]) if is_run else "transfer"
    label = design.name(act.op if is_run else act.source[0])
    left, right = scale.place(act.start), scale.place(act.end)
    text = f'<path class="{kind}" d="M{left} 6H{right}V30H{left}z"><title>{title(design, act)}</title></path>\n'
    if len(label) < (right - left) // 7:
        text += words("label", left + (right - left) // 2, 22, label)
    return text


def lane(design, scale, number):
    is_operator = number < len(design.operators)
    name = (design.operators + design.media)[number]
    kind, word = ("lane", "operator-") if is_operator else ("medium", "medium-")
    ground = f'<path class="{kind}" d="M0 2H{scale.width}V34H0z"/>\n<text class="name" x="-8" y="22">{name}</text>\n'
    bars = "".join(bar(design, scale, it) for it in design.on_lane(number))
    return group(word + name, 0, 36 * number, ground + bars)


def arrow(scale, giver, taker):
    up = taker.lane < giver.lane
    y, z = (36 * giver.lane + 6, 36 * taker.lane + 30) if up else (36 * giver.lane + 30, 36 * taker.lane + 6)
    x, w, half = scale.place(giver.end), scale.place(taker.start), (y + z) // 2
    return f'<path class="arrow" d="M{x} {y}C{x} {half} {w} {half} {w} {z}"/>\n'


def arrows(design, scale):
    """In the order of the lanes; the program has them in that of its decisions."""
    found = []
    for giver in design.acts:
        if isinstance(giver, Carry):
            found += [arrow(scale, giver, it) for it in design.acts if (giver.source, giver.taker) in design.reads(it)]
    return group("arrows", 0, 0, "".join(found))


def chart(design):
    """The picture of a chart, of which the arrows may stand in another order."""
    scale = Scale(len(design.operations), design.length)
    lanes = len(design.operators) + len(design.media)
    margin = 20 + 7 * min(32, max(map(len, design.operators + design.media)))
    inside = axis("length ", scale, 36 * lanes) + "".join(lane(design, scale, it) for it in range(lanes))
    inside += arrows(design, scale) + group("legend", 0, 36 * lanes + 14, constant("LEGEND"))
    return whole(margin + scale.width + 24, 36 * lanes + 88, group("chart", margin, 44, inside))


def event(**fields):
    parts = []
    for key, value in fields.items():
        if isinstance(value, dict):
            value = "{" + ",".join(f'"{k}":' + (str(v) if isinstance(v, int) else f'"{v}"') for k, v in value.items()) + "}"
            parts.append(f'"{key}":{value}')
        else:
            parts.append(f'"{key}":{value}' if isinstance(value, int) else f'"{key}":"{value}"')
    return "{" + ",".join(parts) + "}"


def flow(phase, source, act, operator, lane_number):
    number = "0x0a" + "a".join(map(str, [*source, operator]))
    ends = {"bp": "e"} if phase == "f" else {}
    return event(name="value", cat="flow", ph=phase, **ends, id=number, ts=act.start, pid=1, tid=lane_number)


def trace(design):
    """The events of a chart, of which those of the acts may stand in another order: by lane here, and not by decision."""
    events = [event(name="process_name", ph="M", pid=1, args={"name": "schedule"})]
    number = lambda act: act.operator + 1 if isinstance(act, Run) else act.medium + 17
    named = [(k + 1, f"operator {it}") for k, it in enumerate(design.operators)]
    named += [(k + 17, f"medium {it}") for k, it in enumerate(design.media)]
    for tid, name in named:
        events.append(event(name="thread_name", ph="M", pid=1, tid=tid, args={"name": name}))
        events.append(event(name="thread_sort_index", ph="M", pid=1, tid=tid, args={"sort_index": tid}))
    brought = {(it.source, it.taker) for it in design.acts if isinstance(it, Carry)}
    for act in design.acts:
        if isinstance(act, Run):
            name, category = design.name(act.op), "operation"
        else:
            ends = f"{design.operators[act.sender]} to {design.operators[act.taker]}"
            name, category = f"{design.name(act.source[0])}.{act.source[1]} {ends}", "transfer"
        lasting = act.end - act.start
        events.append(event(name=name, cat=category, ph="X", ts=act.start, dur=lasting, pid=1, tid=number(act), args={"reaction": 0}))
        if isinstance(act, Carry):
            events.append(flow("s", act.source, act, act.taker, number(act)))
        events += [flow("f", source, act, at, number(act)) for source, at in design.reads(act) if (source, at) in brought]
    return '{"traceEvents":[\n' + ",\n".join(events) + "\n]}\n"


FILLS = "#77aadd #ee8866 #eedd88 #ffaabb #99ddff #44bb99 #bbcc33 #aaaa00 #dddddd #cc99bb #f4a582 #92c5de #d9f0d3 #fddbc7 #c2a5cf #e6f5a0".split()
STROKES = "#0077bb #cc3311 #009988 #ee3377 #aa4499 #117733 #332288 #882255 #ee7733 #33bbee #999933 #661100 #6699cc #aa4466 #4477aa #228833".split()
SHAPES = {"sensor": "ellipse", "actuator": "ellipse", "function": "box", "constant": "note", "get": "cylinder", "set": "cylinder"}
SHAPES.update(explode="trapezium", implode="invtrapezium", merge="diamond")


def drawing(design):
    """The operations in the colours of their operators, and their edges in those of the media."""
    stands = {it.op: it.operator for it in design.acts if isinstance(it, Run)}
    ways = {(it.source, it.taker): it.medium for it in design.acts if isinstance(it, Carry)}

    def coloured(number, source):
        medium = ways.get((source, stands[number]))
        return "" if medium is None else f',penwidth=2,color="{STROKES[medium % 16]}"'

    text = 'digraph flat {\n  rankdir=LR;\n  fontname="sans-serif";\n'
    text += '  node [shape=box,style=filled,fillcolor=white,fontname="sans-serif"];\n'
    text += '  edge [fontname="sans-serif",fontsize=9,labeldistance=1.5];\n'
    text += '  subgraph cluster_legend {\n    label="operators and media";\n'
    for k, name in enumerate(design.operators):
        text += f'    o{k} [label="{name}",fillcolor="{FILLS[k % 16]}"];\n'
    for k, name in enumerate(design.media):
        text += f'    m{k} [label="{name}",style="",penwidth=2,color="{STROKES[k % 16]}"];\n'
    text += "  }\n"
    for it in design.operations:
        fill = FILLS[stands[it.number] % 16]
        text += f'  v{it.number} [label="{it.name}\\n{it.definition}",shape={SHAPES[it.kind]},fillcolor="{fill}"];\n'
        for k, source in enumerate(it.sources):
            ends = f'taillabel="{source[1]}",headlabel="{k}"'
            text += f"  v{source[0]} -> v{it.number} [{ends}{coloured(it.number, source)}];\n"
        for source, case in it.guards:
            text += f'  v{source[0]} -> v{it.number} [style=dotted,label="?{case}"{coloured(it.number, source)}];\n'
        if it.kind == "set":
            text += f"  v{it.number} -> v{design.numbers[it.name[:-3] + 'get']} [style=dashed,constraint=false];\n"
    return text + "}\n"


def ratio(over, under):
    return f"{over // under}.{over % under * 1000 // under:03}" if under else "0.000"


def loads(design):
    """The lines of a report up to those of operators alone."""
    lines = [f"length {design.length}"]
    for number, name in enumerate(design.operators + design.media):
        word = "operator" if number < len(design.operators) else "medium"
        busy = sum(it.end - it.start for it in design.on_lane(number))
        lines.append(f"{word} {name} busy {busy} share {ratio(busy, design.length)}")
    return lines


def curve(scale, low, high, name, number, values):
    raised = lambda value: 120 - 120 * (value - low) // max(1, high - low)
    colour = number % 8 + 1
    steps = "".join(f"H{scale.place(k)}V{raised(value)}" for k, value in enumerate(values))
    key = f'<text class="ink{colour}" x="{16 * number}" y="134">{number}</text>\n'
    begin = f'<path class="curve line{colour}" d="M0 {raised(values[0]) if values else raised(0)}'
    return key + begin + f'{steps}H{scale.width}"><title>{name}[{number}]</title></path>\n'


def rows_of(text):
    """The names of the actuators, and in each reaction their vectors, of what `syndex sim` writes."""
    names, rows = [], []
    for line in text.splitlines():
        k, name, *values = line.split(" ")
        if int(k) == len(rows):
            rows.append([])
        if name not in names:
            names.append(name)
        rows[int(k)].append([int(it) for it in values])
    return names, rows


def arranged(text):
    """The lines, in order of their text if they are arrows or events: those come in the order of decisions, which no
    chart shows."""
    lines = text.replace(",\n", "\n").splitlines()
    apart = [it.startswith(('<path class="arrow"', "{")) for it in lines]
    return [it for it, move in zip(lines, apart) if not move], sorted(it for it, move in zip(lines, apart) if move)


def plot(names, rows):
    """The picture of rows of vectors, one by actuator, in a reaction each; at least one row."""
    scale = Scale(0, len(rows))
    scale.width = 1000 * (1 + min(len(rows) // 8, 65536) // 128)
    margin = 20 + 7 * min(32, max(20, max(map(len, names))))
    panels = ""
    for number, name in enumerate(names):
        values = [value for row in rows for value in row[number]]
        low, high = min(values), max(values)
        ground = f'<path class="lane" d="M0 0H{scale.width}V120H0z"/>\n<text class="name" x="-8" y="64">{name}</text>\n'
        limits = f'<text class="value" x="-8" y="10">{high}</text>\n<text class="value" x="-8" y="120">{low}</text>\n'
        curves = "".join(curve(scale, low, high, name, k, [row[number][k] for row in rows]) for k in range(len(rows[0][number])))
        panels += group(f"actuator-{name}", 0, 160 * number, ground + limits + curves)
    height = 160 * len(names)
    inside = axis("reactions ", scale, height) + panels
    return whole(margin + scale.width + 24, height + 44, group("plot", margin, 44, inside))
