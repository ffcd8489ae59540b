"""What `syndex_lab report` writes of a schedule, read from docs/MANUAL.md: from the listing of the operations, the chart and the
architecture. The dates of many reactions are found act by act, whatever is first in the chart."""
import re

from plain.pictures import Carry, Design, Run, loads, ratio

TIMED = ("sensor", "actuator", "function")
RUNS = re.compile(r"(\S+): (\d+) to (\d+) on (\S+)")
CARRIES = re.compile(r"(\S+), output (\d+): (\d+) to (\d+) over (\S+), (\S+) to (\S+)")


def listing(flat):
    """The listing of the operations, of which no source is a guard here."""
    lines = []
    for number, it in enumerate(flat.all):
        sources = ",".join(f"{op}.{port}" for op, port in it.sources) or "-"
        lengths = ",".join(map(str, it.lengths)) or "-"
        lines.append(f"{number} {it.name} {it.kind}:{it.unit} - {sources} {lengths}\n")
    return "".join(lines)


def chart_in(picture, archi):
    """The chart that a picture of it shows."""
    lanes = {name: [] for name in archi.operators + [it[0] for it in archi.media]}
    latest = 0
    for title in re.findall("<title>(.*?)</title>", picture):
        ran, carried = RUNS.fullmatch(title), CARRIES.fullmatch(title)
        if carried:
            name, port, start, end, lane, near, far = carried.groups()
            lanes[lane].append(f"{start} {end} {name} {port} {near} {far}\n")
        else:
            name, start, end, lane = ran.groups()
            lanes[lane].append(f"{start} {end} {name}\n")
        latest = max(latest, int(end))
    words = {**{name: "operator" for name in archi.operators}, **{it[0]: "medium" for it in archi.media}}
    return "".join(f"{words[lane]} {lane}\n" + "".join(lines) for lane, lines in lanes.items()) + f"length {latest}\n"


class Reactions:
    """When each act of a chart starts and ends in each of so many reactions, where each lasts as in the chart and waits for
    nothing but what has to come before it."""

    def __init__(self, design, depth, count):
        self.design, self.depth, self.count = design, depth, count
        self.makers, self.readers, self.before = {}, {}, {}
        for lane in {it.lane for it in design.acts}:
            acts = design.on_lane(lane)
            for at, it in enumerate(acts):
                self.before[it] = (acts[at - 1], at == 0)  # of the first one the last one, in the reaction before
        for it in design.acts:
            if isinstance(it, Carry):
                self.makers[it.source, it.taker] = it
            for copy in design.reads(it):
                self.readers.setdefault(copy, []).append(it)
        self.runs = {it.op: it for it in design.acts if isinstance(it, Run)}
        self.spans = {}
        for k in range(count):
            for it in design.acts:
                self.place(k, it)

    def made(self, act):
        """The copies that an act makes, of those that are read."""
        if isinstance(act, Carry):
            return [(act.source, act.taker)]
        return [copy for copy in self.readers if copy[1] == act.operator and copy[0][0] == act.op]

    def needs(self, k, act):
        """The acts that come before it, with their reactions."""
        other, is_first = self.before[act]
        yield k - is_first, other
        for source, operator in self.design.reads(act):
            yield k, self.makers.get((source, operator)) or self.runs[source[0]]
        for copy in self.made(act):
            yield from ((k - self.depth, it) for it in self.readers.get(copy, []) if it.lane != act.lane)

    def place(self, k, act):
        """Places the act in reaction k, and first all that comes before it there."""
        waiting = [act]
        while waiting:
            it = waiting[-1]
            lacking = [other for j, other in self.needs(k, it) if j == k and (k, other) not in self.spans]
            waiting += lacking
            if not lacking:
                start = max([self.spans[j, other][1] for j, other in self.needs(k, it) if j >= 0], default=0)
                self.spans[k, it] = start, start + it.end - it.start
                waiting.pop()

    def done(self, reactions):
        return max([self.spans[k, it][1] for k in range(reactions) for it in self.design.acts], default=0)

    def period(self):
        """How long the last half takes, and how many they are."""
        first = self.count // 2
        return self.done(self.count) - self.done(first), self.count - first

    def latency(self, sensor, actuator):
        spans = [(self.spans[k, self.runs[sensor]], self.spans[k, self.runs[actuator]]) for k in range(self.count)]
        return max(end[1] - start[0] for start, end in spans)


def dependents(design, number):
    """The operations that depend on this one within a reaction."""
    found = set()
    while True:
        more = {it.number for it in design.operations
                if any(op == number or op in found for op, _ in design.sources(it.number))}
        if more <= found:
            return found
        found |= more


def busiest(design, period):
    """The line of the first operator, or else medium, that is busy for longest."""
    names, best, most = design.operators + design.media, 0, 0
    for lane in range(len(names)):
        busy = sum(it.end - it.start for it in design.on_lane(lane))
        if busy > most:
            best, most = lane, busy
    word = "operator" if best < len(design.operators) else "medium"
    return f"busiest {word} {names[best]} share {ratio(most * period[1], period[0])}"


class Durations:
    """How long each operation lasts on each operator where it may stand, and what is known of every schedule."""

    def __init__(self, design, archi):
        self.design, self.archi, self.count = design, archi, len(archi.operators)
        self.ticks = []
        for it in design.operations:
            if it.kind in TIMED:
                found = {at: archi.durations.get((it.definition, name)) for at, name in enumerate(archi.operators)}
                self.ticks.append({at: ticks for at, ticks in found.items() if ticks is not None})
            else:
                self.ticks.append({at: 0 for at in range(self.count)})
        self.least = [min(it.values()) for it in self.ticks]

    def alone(self):
        """The times of those operators where all may stand, by number."""
        return {at: sum(it[at] for it in self.ticks) for at in range(self.count) if all(at in it for it in self.ticks)}

    def brought(self, operator, source):
        """The least time in which a medium brings the value of an output to an operator, 0 where none does."""
        op, port = source
        name, length = self.archi.operators[operator], self.design.operations[op].lengths[port]
        media = [(fixed, each) for it, _, fixed, each in self.archi.media if name in self.archi.stand_at(it)]
        return min([fixed + length * each for fixed, each in media], default=0)

    def carried_end(self, number, before, ends):
        """When an operation ends on the operator on which it ends first, by the ends of those that it depends on."""
        sources = self.design.sources(number)
        halves = [ends[op] for op in before[number][len(sources):]]
        found = []
        for at, ticks in self.ticks[number].items():
            there = [ends[it[0]] + (0 if at in self.ticks[it[0]] else self.brought(at, it)) for it in sources]
            found.append(max(there + halves, default=0) + ticks)
        return min(found)

    def chains(self, with_transfers=False):
        """Of each operation what it depends on, and when the longest chain up to it ends, by least durations or also with
        the transfers that it cannot do without."""
        design, ends = self.design, {}
        before = {it.number: [op for op, _ in design.sources(it.number)] for it in design.operations}
        for it in design.operations:
            if it.kind == "set":
                name, _, stage = it.name.rpartition(":set")
                before[it.number].append(design.numbers[f"{name}:get{stage}"])
        for number in before:
            waiting = [number]
            while waiting:
                it = waiting[-1]
                lacking = [op for op in before[it] if op not in ends]
                waiting += lacking
                if not lacking:
                    plain = self.least[it] + max([ends[op] for op in before[it]], default=0)
                    ends[it] = self.carried_end(it, before, ends) if with_transfers else plain
                    waiting.pop()
        return before, ends

    def chain(self):
        """The operations of a longest chain by number: of those that end last, and of those before one, the first."""
        before, ends = self.chains()
        found, those = [], list(range(len(ends)))
        while those:
            found.insert(0, max(those, key=lambda it: ends[it]))
            those = before[found[0]]
        return found

    def longest_carried(self):
        return max(self.chains(with_transfers=True)[1].values(), default=0)

    def bound(self):
        work = {at for it, least in zip(self.ticks, self.least) if least for at in it}
        shared = -(-sum(self.least) // max(1, len(work)))
        only = [sum(least for it, least in zip(self.ticks, self.least) if list(it) == [at]) for at in range(self.count)]
        return max(self.longest_carried(), shared, *only)


def pace(design, depth, count):
    """How long one of the last half of so many reactions takes, and how many they are."""
    return Reactions(design, depth, count).period()


def report(design, archi, count=50, run=None):
    """The lines of a report; beside a schedule that was searched with the chart of the pressure run, which is a design too."""
    reactions, known = Reactions(design, archi.depth, count), Durations(design, archi)
    kinds = [design.operations[it.source[0]].kind for it in design.acts if isinstance(it, Carry)]
    lines = loads(design) + [f"transfers {len(kinds)} constants {kinds.count('constant')} delays {kinds.count('get')}"]
    alone = known.alone()
    lines += [f"alone {design.operators[at]} {time} speed-up {ratio(time, design.length)}" for at, time in alone.items()]
    if run:
        lines.append(f"pressure-run {run.length} period {ratio(*pace(run, archi.depth, count))}")
        lines += [f"best-alone {min(alone.values())}"] if alone else []
    period = reactions.period()
    lines += [f"period {ratio(*period)} reactions {period[1]}", busiest(design, period)]
    for it in design.operations:
        if it.kind == "sensor":
            reached = dependents(design, it.number)
            lines += [f"latency {it.name} {other.name} {reactions.latency(it.number, other.number)}"
                      for other in design.operations if other.kind == "actuator" and other.number in reached]
    bound = known.bound()
    chain = [f"chain {design.name(it)} {known.least[it]}" for it in known.chain()]
    return lines + [f"bound {bound} ratio {ratio(design.length, bound)}", *chain]


def design_of(flat, chart):
    return Design(listing(flat), chart)
