"""What the commands of both programs answer by the plain readers in this folder: the status, the line and the
output, or that part of the output which the readers know."""
import functools

from plain import algorithm, dates, given, macro_code, meaning, pictures, report, table
from plain.architecture import Architecture
from plain.flat import Flat
from plain.words import Refused, limit

FILE = 16_777_216


class Unknown(Exception):
    """What the readers do not know, and why."""


class End:
    """An output of which the end is known."""

    def __init__(self, text):
        self.text = text

    def __eq__(self, found):
        return isinstance(found, bytes) and found.endswith(b"\n\n" + self.text)

    def __repr__(self):
        return f".. {self.text}"


class Begin:
    """An output of which the first line is known."""

    def __init__(self, text):
        self.text = text

    def __eq__(self, found):
        return isinstance(found, bytes) and found.split(b"\n")[0] == self.text

    def __repr__(self):
        return f"{self.text} .."


class Picture:
    """An output whose lines are known, but of some of them not the order."""

    def __init__(self, text):
        self.text = text

    def __eq__(self, found):
        return isinstance(found, bytes) and pictures.arranged(found.decode("latin-1")) == pictures.arranged(self.text)

    def __repr__(self):
        return self.text


@functools.lru_cache(maxsize=4)
def algorithm_of(text):
    return algorithm.read(text)


@functools.lru_cache(maxsize=4)
def flat_of(text):
    return Flat(algorithm_of(text)[1])


@functools.lru_cache(maxsize=4)
def architecture_of(text):
    return Architecture(text)


def has_marks(defs):
    return any(ref[2] is not None for it in defs.values() if it.kind == "graph" for ref in it.refs)


class Commands:
    """The commands of `syndex`. `files` has the bytes by name, or None for a file that is not known. `placed` gives the
    decisions of a flat graph, for `dates`; `charts` has what `syndex chart` writes, by both texts."""

    program = "syndex"

    def __init__(self, files, placed=None, charts=None):
        self.files, self.placed, self.charts = files, placed, charts or {}

    def answer(self, words):
        try:
            command, plain, options = given.given(self.program, words)
            # The number of workers and the goal of a search make no difference.
            if "tries" in options:
                raise Unknown("what a search finds")
            return 0, b"", getattr(self, "a_" + command.strip("-"))(*plain)
        except Refused as it:
            return it.status, it.line + b"\n", b""

    def file(self, name, called):
        if name not in self.files:
            raise Refused(3, f"cannot read {called}")
        if self.files[name] is None:
            raise Unknown("files that an earlier call made")
        if len(self.files[name]) > FILE:
            raise limit("file", FILE + 1, FILE)
        return self.files[name]

    def algorithm(self, name):
        return algorithm_of(self.file(name, "algorithm"))

    def flat(self, name):
        text = self.file(name, "algorithm")
        if has_marks(algorithm_of(text)[1]):
            raise Unknown("what a marked reference becomes")
        return flat_of(text)

    def architecture(self, name):
        return architecture_of(self.file(name, "architecture"))

    def both(self, a, h):
        """The definitions, and the architecture with a duration for each of them that needs one."""
        _, defs = self.algorithm(a)
        archi = self.architecture(h)
        archi.need(algorithm.leaves(defs))
        return defs, archi

    def rows(self, defs, name):
        return table.read(self.file(name, "sensors"), algorithm.references(defs, "sensor"))

    @staticmethod
    def output_limit(defs, rows):
        count = len(rows) * sum(length for _, length in algorithm.references(defs, "actuator"))
        if count > 2_000_000:
            raise limit("output", count, 2_000_000)

    def a_check(self, a, h=None):
        version, defs = self.algorithm(a)
        text = algorithm.canonical(version, defs)
        if h is None:
            return text
        return text + b"\n" + self.both(a, h)[1].canonical()

    def a_flat(self, a):
        self.algorithm(a)
        return self.flat(a).listing().encode()

    def a_chart(self, a, h):
        self.both(a, h)
        raise Unknown("how operations are placed")

    a_code = a_chart

    def a_load(self, n):
        raise Unknown("which texts a load has")

    def a_sim(self, a, s):
        _, defs = self.algorithm(a)
        rows = self.rows(defs, s)
        self.output_limit(defs, rows)
        return meaning.output(defs, rows)

    def a_run(self, a, h, s):
        """The lines after the macro-code."""
        defs, _ = self.both(a, h)
        rows = self.rows(defs, s)
        self.output_limit(defs, rows)
        return End(meaning.output(defs, rows))

    def steps(self, a, archi, c):
        """The micro-steps of the loops of macro-code and those before them. What an earlier call has written is well
        formed, and has some that are not known."""
        if self.files.get(c, b"") is None:
            return 0, 0
        flat = self.flat(a)
        code = macro_code.Reader(self.file(c, "code"), flat, archi)
        macro_code.Check(code, flat, archi)
        return code.total

    def a_exec(self, a, h, c, s):
        _, defs = self.algorithm(a)
        loops, before = self.steps(a, self.architecture(h), c)
        rows = self.rows(defs, s)
        self.output_limit(defs, rows)
        if before + loops * len(rows) > 20_000_000:
            raise limit("total", before + loops * len(rows), 20_000_000)
        return meaning.output(defs, rows)

    def a_dates(self, a, h, g, n):
        _, archi = self.both(a, h)
        if not self.placed:
            raise Unknown("how operations are placed")
        flat = self.flat(a)
        decisions = self.placed(flat)
        made = dates.actual(self.file(g, "durations"), archi, flat, decisions)
        return dates.Dates(flat, made, decisions, int(n)).text()


class Lab(Commands):
    """The commands of `syndex_lab`."""

    program = "syndex_lab"

    def chart(self, a, h):
        """The flat graph and what `syndex chart` writes of both texts."""
        self.both(a, h)
        chart = self.charts.get((self.files[a], self.files[h]))
        if chart is None:
            raise Unknown("charts that no row has")
        return self.flat(a), chart.decode("latin-1")

    def design(self, a, h):
        flat, chart = self.chart(a, h)
        return pictures.Design(flat.listing(), chart)

    def a_help(self):
        raise Unknown("the list of the commands")

    def a_table(self, a):
        _, defs = self.algorithm(a)
        columns = [f"{name}.{j}" for name, length in algorithm.references(defs, "sensor") for j in range(length)]
        return "".join(",".join(row) + "\n" for row in (["k", *columns], ["0"] * (len(columns) + 1))).encode()

    def a_plot(self, a, s):
        return pictures.plot(*pictures.rows_of(self.a_sim(a, s).decode())).encode()

    def a_chart(self, a, h):
        return Picture(pictures.chart(self.design(a, h)))

    def a_trace(self, a, h, g=None, n=None):
        if g is not None:
            self.both(a, h)
            raise Unknown("how operations are placed")
        return Picture(pictures.trace(self.design(a, h)))

    def a_flat(self, a, h):
        return pictures.drawing(self.design(a, h)).encode()

    def a_report(self, a, h, n="50"):
        flat, chart = self.chart(a, h)
        lines = report.report(report.design_of(flat, chart), self.architecture(h), int(n))
        return "".join(f"{line}\n" for line in lines).encode()

    def a_code(self, a, h):
        self.both(a, h)
        raise Unknown("how operations are placed")

    def a_dates(self, a, h, g, n):
        return self.a_code(a, h)

    def a_graph(self, a):
        self.algorithm(a)
        raise Unknown("drawings of definitions")

    def a_lint(self, a, h=None):
        if h is None:
            self.algorithm(a)
        else:
            self.both(a, h)
        raise Unknown("what is probably not meant")

    def a_why(self, a, h, c):
        """The first line of what is wrong."""
        self.algorithm(a)
        archi, flat = self.architecture(h), self.flat(a)
        code = macro_code.Reader(self.file(c, "code"), flat, archi)
        try:
            macro_code.Check(code, flat, archi)
        except Refused as it:
            return Begin(b" ".join(it.line.removeprefix(b"code check: ").split()[:2]))
        return b"well formed\n"


PROGRAMS = {"syndex": Commands, "syndex_lab": Lab}
