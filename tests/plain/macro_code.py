"""A plain reader of macro-code and the check of its program, written from docs/MANUAL.md."""
import re

from plain.words import Refused, bad_byte, is_name, limit, lines_of, number_of, words_of

ONE = re.compile(rb"([^();]*)(\(([^();]*)\))?\Z")
CALL = re.compile(rb"([^();]+)\(([^();]*);([^();]*)\)\Z")
BODY = ("Suc0_", "Suc1_", "Pre0_", "Pre1_", "send_", "recv_", "sync_", "op")
# The forms of the arguments of each macro: a number, a buffer, an operator, a medium; None without parentheses.
FORMS = {
    "Suc0_": "q", "Suc1_": "q", "Pre0_": "q", "Pre1_": "q", "send_": "bo", "recv_": "bo", "sync_": "oo",
    "processor_": "o", "semaphores_": "q*", "alloc_": "bl", "thread_": "m", "endthread_": None, "main_": None,
    "endmain_": None, "spawn_thread_": "m", "wait_endthread_": "m", "loop_": None, "endloop_": None,
}


class Sequence:
    def __init__(self, operator, medium):
        self.operator, self.medium, self.before, self.loop = operator, medium, [], []


class Reader:
    """Reads line by line. `place` says what may stand here; instructions are (macro, arguments)."""

    def __init__(self, text, flat, archi):
        self.flat, self.archi = flat, archi
        self.media = [it[0] for it in archi.media]
        self.sequences, self.buffers, self.pairs = [], [], []  # (number, line, operator, length, places)
        self.place, self.operator, self.threads, self.at = "outside", None, [], 0
        lines = lines_of(text)
        for self.number, self.line in lines:
            self.read_line()
        self.number = len(lines) + 1
        self.form(self.place == "outside")
        self.numbers()
        self.limits()

    # ---- refusals ----

    def refuse(self, cause, more=None):
        raise Refused(11, f"code line {self.number}: {cause}".encode() + (b"" if more is None else b" " + more))

    def form(self, holds):
        if not holds:
            self.refuse("C1 BadLine")

    def argument(self, holds):
        if not holds:
            self.refuse("C3 BadArgument")

    # ---- lines ----

    def read_line(self):
        self.form(bad_byte(self.line) is None)
        words = words_of(self.line)
        if not words:
            return
        if len(words) == 2 and words[0] == b"op":
            found = CALL.match(words[1])
            self.form(found)
            self.form(self.body_here())
            self.call(*found.groups())
            return
        self.form(len(words) == 1)
        found = ONE.match(words[0])
        self.form(found and is_name(found[1]) and found[1] != b"op")
        if found[1].decode() not in FORMS:
            self.refuse("C2 UnknownMacro", found[1])
        self.macro(found[1].decode(), None if found[2] is None else self.split(found[3]))

    @staticmethod
    def split(text):
        return text.split(b",") if text else []

    def body_here(self):
        """Whether an instruction may stand here: not before all threads are started."""
        return self.place in ("thread", "main", "loop") and (self.place != "main" or self.at == len(self.threads))

    def may_stand(self, macro):
        if macro in BODY:
            return self.body_here()
        started = self.at == len(self.threads)
        return {
            "processor_": self.place == "outside", "semaphores_": self.place == "processor",
            "alloc_": self.place == "buffers", "thread_": self.place in ("buffers", "threads"),
            "main_": self.place in ("buffers", "threads"), "endthread_": self.place == "thread end",
            "spawn_thread_": self.place == "main" and not started and not self.sequences[-1].before,
            "loop_": self.place == "thread" or self.place == "main" and started,
            "endloop_": self.place == "loop", "wait_endthread_": self.place == "main end" and not started,
            "endmain_": self.place == "main end" and started,
        }[macro]

    def macro(self, name, given):
        self.form(self.may_stand(name))
        form = FORMS[name]
        self.argument((form is None) == (given is None))
        if name in BODY:
            self.instruction(name, self.typed(form, given))
        elif form is not None:
            getattr(self, "a_" + name)(given)
        else:
            getattr(self, "a_" + name)()

    def typed(self, form, given):
        """The arguments by their forms: C3 of any of them comes before C4."""
        self.argument(len(given) == len(form))
        made = [getattr(self, "is_" + kind)(word) for kind, word in zip(form, given)]
        for kind, word, it in zip(form, given, made):
            known = {"q": self.pairs, "b": self.buffers}.get(kind)
            if known is not None:
                self.known(it in [row[0] for row in known if row[2] == self.operator], word)
            else:
                self.known(it in self.archi.operators, word)
        return made

    def known(self, holds, word):
        if not holds:
            self.refuse("C4 UnknownName", word)

    def is_q(self, word):
        number = number_of(word)
        self.argument(number is not None and number >= 0)
        return number

    def is_b(self, word):
        self.argument(word[:1] == b"b")
        return self.is_q(word[1:])

    def is_o(self, word):
        self.argument(is_name(word))
        return word.decode()

    def instruction(self, name, made):
        into = self.sequences[-1].loop if self.place == "loop" else self.sequences[-1].before
        into.append((name, *made))

    def call(self, operation, ins, outs):
        ins, outs = self.split(ins), self.split(outs)
        made = [self.is_b(word) for word in ins + outs]
        self.known(operation.decode() in self.flat.number, operation)
        for number, word in zip(made, ins + outs):
            self.known(number in [row[0] for row in self.buffers if row[2] == self.operator], word)
        self.instruction("op", [operation.decode(), made[: len(ins)], made[len(ins) :]])

    # ---- what is no instruction ----

    def one_name(self, given, names):
        """The one argument, and its place among these names or None."""
        self.argument(len(given) == 1)
        name = self.is_o(given[0])
        return name, names.index(name) if name in names else None

    def a_processor_(self, given):
        name, place = self.one_name(given, self.archi.operators)
        last = -1 if self.operator is None else self.archi.operators.index(self.operator)
        self.argument(place is None or place > last)
        self.known(place is not None, given[0])
        self.operator, self.threads, self.place = name, [], "processor"

    def a_semaphores_(self, given):
        last = -1
        for word in given:
            number = self.is_q(word)
            self.argument(number > last)
            last = number
            self.pairs.append((number, self.number, self.operator))
        self.place = "buffers"

    def a_alloc_(self, given):
        self.argument(len(given) in (2, 3))
        number, length = self.is_b(given[0]), number_of(given[1])
        self.argument(length is not None and length >= 1)
        places = 1
        if len(given) == 3:
            places = number_of(given[2])
            self.argument(places in (2, 3, 4))
        here = [row[0] for row in self.buffers if row[2] == self.operator]
        self.argument(not here or number > here[-1])
        self.buffers.append((number, self.number, self.operator, length, places))

    def medium(self, given, names, last):
        """A medium that stands after the last one, and is one of these names."""
        name, place = self.one_name(given, self.media)
        self.argument(place is None or last is None or place > self.media.index(last))
        self.known(name in names, given[0])
        return name

    def a_thread_(self, given):
        name = self.medium(given, self.media, self.threads[-1] if self.threads else None)
        self.threads.append(name)
        self.sequences.append(Sequence(self.operator, name))
        self.place = "thread"

    def a_main_(self):
        self.sequences.append(Sequence(self.operator, None))
        self.place, self.at, self.last = "main", 0, None

    def a_spawn_thread_(self, given):
        self.last = self.medium(given, self.threads, self.last)
        self.at += 1

    a_wait_endthread_ = a_spawn_thread_

    def a_loop_(self):
        self.place = "loop"

    def a_endloop_(self):
        self.place = "main end" if self.sequences[-1].medium is None else "thread end"
        self.at, self.last = 0, None

    def a_endthread_(self):
        self.place = "threads"

    def a_endmain_(self):
        self.place = "outside"

    # ---- the whole ----

    def numbers(self):
        wrong = []
        for rows in (self.pairs, self.buffers):
            seen = set()
            for number, line, *_ in rows:
                if number >= len(rows) or number in seen:
                    wrong.append(line)
                seen.add(number)
        if wrong:
            self.number = min(wrong)
            self.argument(False)

    def limits(self):
        lengths = {row[0]: row[3] for row in self.buffers}
        wires, steps = dict.fromkeys(self.media, 0), 0
        for it in self.sequences:
            for macro, *rest in it.before + it.loop:
                if macro == "send_" and it.medium is not None:
                    wires[it.medium] = max(wires[it.medium], lengths[rest[0]])
            steps += sum(self.steps(lengths, *instr) for instr in it.loop) + self.takes(it)
        words = 2 * len(self.pairs) + len(self.media) + sum(row[3] * row[4] for row in self.buffers)
        words += sum(wires.values())
        if words > 65_536:
            raise limit("words", words, 65_536)
        if steps > 262_144:
            raise limit("steps", steps, 262_144)
        self.total = steps, sum(self.steps(lengths, *instr) for it in self.sequences for instr in it.before)

    def takes(self, sequence):
        """How many takes of its loop are two steps: those of pairs whose buffers have several places."""
        places, pairs = {row[0]: row[4] for row in self.buffers}, []
        ordered = []
        for name in self.archi.operators:
            here = [it for it in self.sequences if it.operator == name]
            ordered += sorted(here, key=lambda it: -1 if it.medium is None else self.media.index(it.medium))
        for b in sorted(places):
            pairs += [places[b] for it in ordered if b in self.touched(it, 1) and b not in self.touched(it, 2)]
        taken = [rest[0] for macro, *rest in sequence.loop if macro in ("Suc0_", "Suc1_")]
        return sum(q < len(pairs) and pairs[q] > 1 for q in taken)

    @staticmethod
    def touched(sequence, part):
        """The buffers that a loop reads (part 1) or writes (part 2)."""
        found = set()
        for macro, *rest in sequence.loop:
            if macro == "op":
                found |= set(rest[part])
            elif macro == ("send_", "recv_")[part - 1]:
                found.add(rest[0])
        return found

    @staticmethod
    def steps(lengths, macro, *rest):
        if macro in ("send_", "recv_"):
            return 2 + 2 * lengths[rest[0]]
        return sum(lengths[b] for b in rest[1] + rest[2]) if macro == "op" else 1


def lacks(cause):
    raise Refused(12, f"code check: {cause}")


class Check:
    def __init__(self, code, flat, archi):
        self.code, self.flat, self.archi = code, flat, archi
        # The computation sequence of a processor stands before those of its media.
        self.sequences = []
        for name in archi.operators:
            here = [it for it in code.sequences if it.operator == name]
            self.sequences += [it for it in here if it.medium is None] + [it for it in here if it.medium is not None]
        self.buffers = {row[0]: row for row in code.buffers}
        self.in_order()
        self.calls()
        self.transfers()
        self.written()
        self.in_pairs()
        self.prologue()
        self.order()

    def instructions(self):
        """Each of the loops, with its sequence and its place."""
        for s, it in enumerate(self.sequences):
            for place, instr in enumerate(it.loop):
                yield s, place, instr

    def in_order(self):
        wanted = []
        for name in self.archi.operators:
            wanted.append((name, None))
            wanted += [(name, it[0]) for it in self.archi.media if name in self.archi.stand_at(it[0])]
        if [(it.operator, it.medium) for it in self.sequences] != wanted:
            lacks("K1 Sequences")

    def calls(self):
        where = {}
        for s, place, instr in self.instructions():
            if instr[0] == "op":
                if instr[1] in where or self.sequences[s].medium is not None:
                    lacks("K2 Calls")
                where[instr[1]] = (s, place)
        for it in self.flat.all:
            if it.name not in where:
                lacks("K2 Calls")
            if it.kind == "get":
                path, _, stage = it.name.rpartition(":get")
                (s, place), (t, other) = where[it.name], where.get(f"{path}:set{stage}", (None, None))
                if s != t or place > other:
                    lacks("K2 Calls")

    def transfers(self):
        self.wire = []  # for each medium a list of transfers: sequence and place of send, of receive, of the others
        for s, _, instr in self.instructions():
            if instr[0] in ("send_", "recv_", "sync_") and self.sequences[s].medium is None:
                lacks("K3 Transfers")
        for name, *_ in self.archi.media:
            rows = []
            for s, it in enumerate(self.sequences):
                if it.medium == name:
                    rows.append([(s, p, x) for p, x in enumerate(it.loop) if x[0] in ("send_", "recv_", "sync_")])
            if len({len(row) for row in rows}) > 1:
                lacks("K3 Transfers")
            self.wire.append([self.transfer(row) for row in zip(*rows)])

    def transfer(self, row):
        sends, receives, syncs = ([it for it in row if it[2][0] == kind] for kind in ("send_", "recv_", "sync_"))
        if len(sends) != 1 or len(receives) != 1:
            lacks("K3 Transfers")
        (s, _, send), (r, _, receive) = sends[0], receives[0]
        near, far = self.sequences[s].operator, self.sequences[r].operator
        if send[2] != far or receive[2] != near or any(it[2][1:] != (near, far) for it in syncs):
            lacks("K3 Transfers")
        return sends[0], receives[0], syncs

    def written(self):
        self.writer, self.reads, into = {}, {}, {}
        for s, place, (macro, *rest) in self.instructions():
            if macro == "op":
                taken, given = rest[1], rest[2]
            else:
                taken, given = [rest[0]] if macro == "send_" else [], [rest[0]] if macro == "recv_" else []
            for b in taken:
                self.reads.setdefault(b, []).append((s, place))
            for b in given:
                if b in self.writer:
                    lacks("K4 Buffers")
                self.writer[b] = (s, place)
        for transfers in self.wire:
            for send, receive, _ in transfers:
                into[receive[2][1]] = send[2][1]
        self.hold(into)
        for b, row in self.buffers.items():
            if b not in self.writer:
                lacks("K4 Buffers")
            s, place = self.writer[b]
            if any(t == s and at <= place for t, at in self.reads.get(b, [])):
                lacks("K4 Buffers")
            if row[4] > 1 and all(t == s for t, _ in self.reads.get(b, [])):
                lacks("K4 Buffers")

    def hold(self, into):
        """Each buffer holds what an operation takes, gives, or what is sent to it."""
        made = {}
        for _, _, (macro, *rest) in self.instructions():
            if macro == "op":
                it = self.flat.all[self.flat.number[rest[0]]]
                if len(rest[2]) != len(it.lengths) or len(rest[1]) != len(it.sources):
                    lacks("K4 Buffers")
                for place, b in enumerate(rest[2]):
                    made[b] = (self.flat.number[rest[0]], place)

        def held(b):
            for _ in range(len(self.buffers) + 1):
                if b in made:
                    return made[b]
                b = into.get(b)
            return lacks("K4 Buffers")

        for b in self.buffers:
            v, p = held(b)
            if self.buffers[b][3] != self.flat.all[v].lengths[p]:
                lacks("K4 Buffers")
        for _, _, (macro, *rest) in self.instructions():
            if macro == "op":
                it = self.flat.all[self.flat.number[rest[0]]]
                if [held(b) for b in rest[1]] != it.sources:
                    lacks("K4 Buffers")

    def in_pairs(self):
        self.pairs = []  # buffer, writing and reading sequence, by number
        for b in sorted(self.buffers):
            s = self.writer[b][0]
            self.pairs += [(b, s, t) for t in sorted({t for t, _ in self.reads.get(b, [])} - {s})]
        declared = sorted((row[0], row[2]) for row in self.code.pairs)
        if declared != [(q, self.buffers[b][2]) for q, (b, _, _) in enumerate(self.pairs)]:
            lacks("K5 Pairs")
        found = {}
        for s, place, instr in self.instructions():
            if instr[0] in ("Suc0_", "Suc1_", "Pre0_", "Pre1_"):
                found.setdefault((instr[0], instr[1]), []).append((s, place))
        for q, (b, s, t) in enumerate(self.pairs):
            at, read = self.writer[b][1], [place for u, place in self.reads[b] if u == t]
            self.once(found, "Suc0_", q, s, lambda place, at=at: place < at)
            self.once(found, "Pre1_", q, s, lambda place, at=at: place > at)
            self.once(found, "Suc1_", q, t, lambda place, read=read: place < min(read))
            self.once(found, "Pre0_", q, t, lambda place, read=read: place > max(read))

    @staticmethod
    def once(found, macro, q, s, holds):
        places = found.get((macro, q), [])
        if len(places) != 1 or places[0][0] != s or not holds(places[0][1]):
            lacks("K5 Pairs")

    def prologue(self):
        for s, it in enumerate(self.sequences):
            wanted = []
            for q, (b, _, t) in enumerate(self.pairs):
                if t == s:
                    wanted += [("Pre0_", q)] * self.buffers[b][4]
            if it.before != wanted:
                lacks("K6 Prologue")

    def order(self):
        after = {}  # what has to be made before an instruction
        for s, place, instr in self.instructions():
            if instr[0] == "Suc1_":
                other = next((t, p) for t, p, x in self.instructions() if x == ("Pre1_", instr[1]))
                after.setdefault((s, place), []).append(other)
        for transfers in self.wire:
            last = None
            for send, receive, syncs in transfers:
                after.setdefault(send[:2], []).extend([] if last is None else [last])
                last = receive[:2]
                after.setdefault(last, []).append(send[:2])
                for it in syncs:
                    after.setdefault(it[:2], []).append(last)
        at = [0] * len(self.sequences)
        while True:
            for s, it in enumerate(self.sequences):
                if at[s] < len(it.loop) and all(p < at[t] for t, p in after.get((s, at[s]), [])):
                    at[s] += 1
                    break
            else:
                break
        stuck = [f"{s}.{at[s]}" for s, it in enumerate(self.sequences) if at[s] < len(it.loop)]
        if stuck:
            lacks("K7 Stuck " + " ".join(stuck))
