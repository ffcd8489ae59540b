"""The dates of reactions, as docs/MANUAL.md has them, where the placement is known: this file places nothing."""
from plain.architecture import Architecture
from plain.words import Refused


class Transfer:
    def __init__(self, medium, source, near, far):
        self.medium, self.source, self.near, self.far = medium, source, near, far


class Decision:
    """An operation on an operator, and the transfers that are made for it: medium, source, from and to."""

    def __init__(self, operation, operator, *transfers):
        self.operation, self.operator = operation, operator
        self.transfers = [Transfer(*it) for it in transfers]


def fault(cause):
    raise Refused(13, f"durations: {cause}")


def actual(text, archi, flat, decisions):
    """The architecture of the durations that really occur, or its first fault."""
    made = Architecture(text, 13, "durations")
    if made.operators != archi.operators or [it[:2] for it in made.media] != [it[:2] for it in archi.media]:
        fault("E1 Differs")
    if set(made.connections) != set(archi.connections) or made.depth != archi.depth:
        fault("E1 Differs")
    for one, other in zip(made.media, archi.media):
        if one[2] > other[2] or one[3] > other[3]:
            fault(f"E2 Longer {one[0]}")
    places = {it.operation: it.operator for it in decisions}
    for it in flat.all:
        if it.kind in ("sensor", "actuator", "function"):
            pair = it.unit, places[it.name]
            if pair not in made.durations:
                fault(f"E3 Missing {it.unit}")
            if made.durations[pair] > archi.durations[pair]:
                fault(f"E2 Longer {it.unit}")
    return made


class Dates:
    """`ends` has the end of each operation and transfer of each reaction, by their keys and the reaction."""

    def __init__(self, flat, archi, decisions, count):
        self.flat, self.archi, self.decisions = flat, archi, decisions
        self.media = {it[0]: it for it in archi.media}
        self.ends, self.lines, self.latest = {}, [], 0
        self.last = {}  # the last end on each operator and medium
        for k in range(count):
            for it in decisions:
                for transfer in it.transfers:
                    self.carry(k, transfer)
                self.execute(k, it)

    def text(self):
        return ("".join(line + "\n" for line in self.lines) + f"latest {self.latest}\n").encode()

    def place(self, k, key, where, after, ticks):
        """Where it starts and ends: after these dates and the last end there."""
        start = max([self.last.get(where, 0), *after])
        self.ends[key, k] = self.last[where] = start + ticks
        self.latest = max(self.latest, start + ticks)
        return start, start + ticks

    def held(self, k, source, operator):
        """When the operator has the value: the end of its operation there, or of the transfer that brought it."""
        return self.ends[(source, operator), k]

    def readers(self, k, source, operator, received):
        """The ends, as many reactions before as there are places, of what reads the value from another sequence."""
        k -= self.archi.depth
        found = []
        for it in self.decisions if k >= 0 else []:
            found += [self.ends[(source, transfer.far), k] for transfer in it.transfers
                      if transfer.source == source and transfer.near == operator]
            number = self.flat.number[it.operation]
            if received and it.operator == operator and source in self.flat.all[number].sources:
                found.append(self.ends[number, k])
        return found

    def carry(self, k, it):
        v, p = it.source
        length = self.flat.all[v].lengths[p]
        _, _, fixed, per = self.media[it.medium]
        after = [self.held(k, it.source, it.near), *self.readers(k, it.source, it.far, True)]
        start, end = self.place(k, (it.source, it.far), it.medium, after, fixed + length * per)
        self.lines.append(f"{k} on {it.medium} {start} {end} {self.flat.all[v].name} {p} {it.near} {it.far}")

    def execute(self, k, it):
        number = self.flat.number[it.operation]
        made = self.flat.all[number]
        after = [self.held(k, source, it.operator) for source in made.sources]
        for p in range(len(made.lengths)):
            after += self.readers(k, (number, p), it.operator, False)
        timed = made.kind in ("sensor", "actuator", "function")
        ticks = self.archi.durations[made.unit, it.operator] if timed else 0
        start, end = self.place(k, number, it.operator, after, ticks)
        for p in range(len(made.lengths)):
            self.ends[((number, p), it.operator), k] = end
        self.lines.append(f"{k} op {start} {end} {it.operation}")
