"""The page and the plot of bench/run."""

import math
import re

from operations import PARTS, STEPS

OTHERS = ["BRiAl", "BuDDy", "ABC sat", "ABC cec", "CaDiCaL", "MiniSat", "plain"]
ROOM = 4096
LIMIT = 25  # nanoseconds


class Row:
    """A block with what every checker said of it."""

    def __init__(self, name, net, answers):
        self.name, self.answers = name, answers
        self.family = re.sub(r"-\d+", "", name)
        self.variables, self.gates, self.inputs, self.outputs = net.variables(), len(net.gates), len(net.names), len(net.outputs)
        said = answers["Mullagrane"].verdicts
        self.full = "2" in said
        self.rows = None if self.full or not answers["Mullagrane"].rows else int(answers["Mullagrane"].rows)
        agreed = max((a.verdicts for a in answers.values() if "2" not in a.verdicts), key=len)
        kinds = " and ".join(sorted(set(agreed)))
        self.verdict = "2 (table full)" if self.full else kinds if self.outputs == 1 else f"{kinds}, {self.outputs} outputs"

    def time(self, checker, kind):
        answer = self.answers.get(checker)
        return getattr(answer, kind) if answer else None


def shown(time, base=None):
    """A time in microseconds, with its ratio to Mullagrane's."""
    if time is None:
        return ""
    if isinstance(time, str):
        return time
    digits = f"{time:,.0f}" if time >= 100 else f"{time:.1f}"
    return f"{digits} ({time / base:.1f}×)" if isinstance(base, float) and base > 0 else digits


def joined(parts):
    return "\n\n".join(part.strip() for part in parts)


def lines_of(head, rows):
    """A table of the page."""
    line = lambda cells: "| " + " | ".join(map(str, cells)) + " |"
    return "\n".join([line(head), "|" + "---|" * len(head), *map(line, rows)])


def times(rows, kind, others):
    head = ["block", "variables", "gates", "inputs", "rows", "verdict", "Mullagrane"] + others
    lines = []
    for row in rows:
        own = row.time("Mullagrane", kind)
        cells = [row.name, row.variables, row.gates, row.inputs, row.rows or "", row.verdict, shown(own) or "not built"]
        lines.append(cells + [shown(row.time(other, kind), None if row.full else own) for other in others])
    return lines_of(head, lines)


ABOUT = """\
Every checker gets the same blocks (`bench/blocks.py`): two versions of a circuit tied by XORs, under one numbering. Output 0 is the OR of all
differences; the decoders have an output for each difference, too. All answers agreed, patterns included where a checker gives the least one; the
script stops where they do not. Times are the best of up to {runs} runs, one at a time, in microseconds; in brackets the ratio to Mullagrane's time.
`over`: more than 10 s of processor time. Where the table of 4,096 rows is full (verdict 2), Mullagrane's time is the time to say so, and no ratio is given.

- **Mullagrane**: {own}
- **BRiAl** (PolyBoRi): the same equations in the same order, and its own `ll_red_nf_noredsb`. Tables grow without limit.
- **BuDDy**: a decision diagram of every gate, the same order of inputs. Tables grow without limit.
- **ABC sat**: `read_aiger; cone; sat` for every output. **ABC cec**: `cec` of the old against the new version, one answer for the whole block.
- **CaDiCaL**, **MiniSat**: Tseitin's clauses of each output, one process for each; their times are added up.
- **plain**: evaluation of all patterns, 64 at a time, up to 24 inputs; it stops for an output at its first 1.
"""

WHOLE = """\
## Whole command

From the start of the process to its end, input read from a file and answers printed. The other checkers load larger libraries, and ABC starts slowly;
what they do after that is in the second table.
"""

INSIDE = """\
## In one process

The same work in one process, as often as it can be done in a second; the best time counts. For BRiAl and BuDDy, making ring or tables is not counted;
Mullagrane's calls clear what they use, and this is. Its library is called for each output by itself and builds the equations anew for each; BRiAl and BuDDy build them once for all outputs. For ABC: what
each of 20 further repetitions adds; the cell is empty where they took no longer than one, or too long. The SAT solvers have no such time here.
"""


OPERATIONS = """\
## Operations

An operation is one entry into a written step, also where it ends at once: make (a row is looked for, and appended where it is not there), sum, product,
normal form. callgrind counted them in the programs that were timed; *worked out* are the sums, products and normal forms that neither end at once nor
are remembered. Times are the best of all runs that {goes} processes do in a second each, by wall clock; the load average before them was {load:.2f}.
The limit is that of C++ code: 15 to 25 ns an operation. *Without the fixed cost*: without what the same calls take where there is nothing to do.

The blocks, by `mg_text` and then `mg_circuit` for each output, as in the table before this:
"""

CALLS = """\
The calls by themselves, on a table of 8,192 rows that has random polynomials (`bench/calls.c`). *nothing* is the sum of 0 and 0:
"""

INSTRUCTIONS = """\
How many instructions an operation takes on the average, and in which part of the library they are. *Checking* is the check of the table at the start of a call, which
enters its rows into the index. *Remembering* is what the compiler has not put into the steps; what is looked up there counts as theirs. Zeroing is
left out: it is the C library's, and its instructions say nothing about its time.
"""

SLOW = """\
### What is slow

{over}

- **Zeroing.** Every call zeroes the working slice before its work and after it. A circuit without gates takes {empty:.1f} µs, as long as {empty_operations:,.0f}
  operations of {limit} ns. Of {small}'s time this is {small_share:.0f} %.
- **Checking.** Every call on a table checks all rows in use and enters them into the index again: {row:.1f} ns a row. The sum of 0 and 0
  takes {checked:.1f} µs with {rows:,} rows in use.
- **One output at a time.** `mg_circuit` reads the text and builds the equations of all gates again for every output. Of {many}, with {outputs} outputs,
  {reading:.0f} % of the instructions are the reading. The circuit program does both once for all outputs.
- **Handing over.** A step is given a table of four slices and a count, N and its numbers, and gives its answer in memory: the sum of 0 and 0
  takes {trivial:.0f} instructions in the step alone, besides those of its caller. {ended:.0f} % of the operations above end at once or are remembered.
"""


def step_cells(row):
    cells = [f"{row.counts.entries(step):,}" for step in STEPS] + [f"{row.operations:,}", f"{row.counts.worked_out():,}", shown(row.time)]
    return cells + (["", ""] if row.name == "nothing" else [f"{row.each():.1f}", f"{row.each_without():.1f}"])


def instruction_cells(row):
    whole = row.counts.spent()
    return [f"{whole / row.operations:,.0f}"] + [f"{100 * row.counts.instructions[part] / whole:.0f} %" for part in PARTS]


def call_name(row):
    return f"{row.name}, {row.rows_before():,} rows"


def over(rows):
    """Which operations are over the limit, with and without the fixed cost."""
    slow = [f"{name} ({row.each():.1f} ns, {row.each_without():.1f} ns without the fixed cost)" for name, row in rows if row.each() > LIMIT]
    return f"Over {LIMIT} ns an operation: " + ("; ".join(slow) if slow else "none of these") + "."


def slow(found, working):
    many = max(found.blocks, key=lambda row: row.outputs())
    small = max(found.blocks, key=lambda row: row.fixed / row.time)
    rows = [row for _, row in working]
    ended = sum(row.operations - row.counts.worked_out() - row.counts.entries("make") for row in rows)
    return SLOW.format(
        over=over(working),
        empty=found.empty,
        empty_operations=1000 * found.empty / LIMIT,
        limit=LIMIT,
        small=small.name,
        small_share=100 * small.fixed / small.time,
        row=1000 * found.row,
        checked=found.checked.time,
        rows=found.checked.rows_before(),
        many=many.name,
        outputs=many.outputs(),
        reading=100 * many.counts.instructions["reading"] / many.counts.spent(),
        trivial=found.bare.counts.instructions["sum"],
        ended=100 * ended / sum(row.operations for row in rows),
    )


def operations(found):
    """The section on operations; `found` may be a sentence why there are no counts."""
    if isinstance(found, str):
        return f"## Operations\n\nOperations were not counted: {found}."
    working = [(row.name, row) for row in found.blocks] + [(call_name(row), row) for row in found.calls if row.name != "nothing"]
    steps = [*STEPS, "operations", "worked out", "µs", "ns an operation", "without the fixed cost"]
    blocks = [[row.name, row.outputs(), *step_cells(row)] for row in found.blocks]
    calls = [[row.name, f"{row.rows_before():,}", f"{row.rows_after():,}", *step_cells(row)] for row in found.calls]
    parts = [OPERATIONS.format(goes=found.goes, load=found.load), lines_of(["block", "outputs", *steps], blocks)]
    parts += [CALLS, lines_of(["call", "rows in use before", "after", *steps], calls)]
    parts += [INSTRUCTIONS, lines_of(["block or call", "instructions", *PARTS], [[name, *instruction_cells(row)] for name, row in working])]
    return joined([*parts, slow(found, working)])


def text(rows, about, found, options):
    own = "the circuit program `crates/mullagrane/out/mullagrane`, and in one process the library `libmg.a`, with a table of 4,096 rows."
    if not options.native:
        own = (
            "the library, compiled for this processor from the module that was proved (`bench/native-lib`), with a table of 4,096 rows. The circuit "
            "program is compiled for x86-64 only and would run under an emulator here, so the whole command is a C driver that calls the library."
        )
    trial = " **A trial: its numbers are no results.**" if options.trial else ""
    parts = ["# Benchmarks", "Made by `bench/run`." + trial, "\n".join(f"- {line}" for line in about)]
    parts += ["![Rows and times against the number of variables](benchmarks.svg)", ABOUT.format(runs=options.runs, own=own)]
    parts += [WHOLE, times(rows, "whole", OTHERS), INSIDE, times(rows, "inside", ["BRiAl", "BuDDy", "ABC sat", "ABC cec", "plain"])]
    parts += [operations(found)]
    return joined(parts) + "\n"


# --- the plot -------------------------------------------------------------------------------------------------------------------

COLOURS = {
    "Mullagrane": "#000000",
    "BRiAl": "#d55e00",
    "BuDDy": "#0072b2",
    "ABC sat": "#009e73",
    "ABC cec": "#56b4e9",
    "CaDiCaL": "#cc79a7",
    "MiniSat": "#e69f00",
    "plain": "#999999",
}
FAMILY_COLOURS = dict(zip(["counter", "adder", "adder-apart", "multiplier", "popcount", "decoder", "random"], COLOURS.values()))
WIDTH, HEIGHT, LEFT, TOP = 400, 220, 62, 118  # of one panel's field; where the first one starts
STEP_X, STEP_Y = WIDTH + 90, HEIGHT + 84


def label(x, y, words, anchor="start", size=12, colour="#222", more=""):
    return f'<text x="{x:.1f}" y="{y:.1f}" text-anchor="{anchor}" font-size="{size}" fill="{colour}" {more}>{words}</text>'


def stroke(points, colour, dash="", width=1.8):
    path = " ".join(f"{x:.1f},{y:.1f}" for x, y in points)
    return f'<polyline points="{path}" fill="none" stroke="{colour}" stroke-width="{width}" stroke-dasharray="{dash}"/>'


class Panel:
    """A field with variables to the right, linear, and a logarithmic scale upwards."""

    def __init__(self, number, title, unit, low, high, variables=1024):
        self.x0, self.y0 = LEFT + number % 2 * STEP_X, TOP + number // 2 * STEP_Y
        self.low, self.high, self.variables = low, high, variables
        self.parts = [label(self.x0, self.y0 - 10, title, size=14, more='font-weight="bold"')]
        for variables in range(0, self.variables + 1, self.variables // 4):
            x = self.x(variables)
            self.parts.append(stroke([(x, self.y0), (x, self.y0 + HEIGHT)], "#e5e5e5", width=1))
            self.parts.append(label(x, self.y0 + HEIGHT + 16, f"{variables:,}", "middle"))
        for power in range(math.ceil(math.log10(low)), math.floor(math.log10(high)) + 1):
            y = self.y(10**power)
            self.parts.append(stroke([(self.x0, y), (self.x0 + WIDTH, y)], "#e5e5e5", width=1))
            self.parts.append(label(self.x0 - 6, y + 4, unit(10**power), "end"))
        self.parts.append(label(self.x0 + WIDTH / 2, self.y0 + HEIGHT + 33, "variables", "middle"))

    def x(self, variables):
        return self.x0 + WIDTH * variables / self.variables

    def y(self, value):
        value = min(max(value, self.low), self.high)
        return self.y0 + HEIGHT * (1 - math.log(value / self.low) / math.log(self.high / self.low))

    def series(self, points, colour, dash="", hollow=()):
        """A line with a mark at each point; a point whose variables are in `hollow` gets an open mark."""
        points = sorted(points)
        places = [(self.x(variables), self.y(value)) for variables, value in points]
        self.parts.append(stroke(places, colour, dash))
        for (variables, _), (x, y) in zip(points, places):
            fill = "#fff" if variables in hollow else colour
            self.parts.append(f'<circle cx="{x:.1f}" cy="{y:.1f}" r="2.8" fill="{fill}" stroke="{colour}" stroke-width="1.4"/>')


def rows_panel(rows):
    panel = Panel(0, "Rows that Mullagrane makes (most of all outputs)", lambda n: f"{n:,}", 50, 10000)
    y = panel.y(ROOM)
    panel.parts.append(stroke([(panel.x0, y), (panel.x0 + WIDTH, y)], "#888", "2 3", 1.2))
    panel.parts.append(label(panel.x0 + WIDTH - 4, y - 5, "4,096: the program's table", "end", 11, "#555"))
    for k, (family, colour) in enumerate(FAMILY_COLOURS.items()):
        points = [(row.variables, row.rows) for row in rows if row.family == family and row.rows]
        panel.series(points, colour)
        y = panel.y0 + HEIGHT - 98 + 15 * k
        panel.parts.append(label(panel.x0 + WIDTH - 84, y, family, colour=colour, more='font-weight="bold"'))
    return panel.parts


def time_unit(microseconds):
    for limit, name in (1e6, "s"), (1e3, "ms"):
        if microseconds >= limit:
            return f"{microseconds / limit:g} {name}"
    return f"{microseconds:g} µs"


def time_panel(number, rows, family):
    rows = [row for row in rows if row.family == family]
    widest = max((row.variables for row in rows), default=0)
    scale = next(scale for scale in (128, 256, 512, 768, 1024) if widest <= scale)
    panel = Panel(number, f"Time: {family}", time_unit, 5, 6e7, scale)

    def points(checker, kind):
        return [(row.variables, row.time(checker, kind)) for row in rows if isinstance(row.time(checker, kind), float)]

    full = [row.variables for row in rows if row.full]
    for checker in reversed(COLOURS):
        own = full if checker == "Mullagrane" else ()
        panel.series(points(checker, "whole"), COLOURS[checker], hollow=own)
    panel.series(points("Mullagrane", "inside"), COLOURS["Mullagrane"], "5 3", full)
    return panel.parts


def legend():
    parts = [label(LEFT - 40, 24, "Mullagrane and other checkers on the same blocks", size=17, more='font-weight="bold"')]
    x = LEFT - 40
    for name, colour, dash in [("Mullagrane in one process", "#000000", "5 3")] + [(n, c, "") for n, c in COLOURS.items()]:
        parts.append(stroke([(x, 46), (x + 24, 46)], colour, dash, 2.4))
        parts.append(label(x + 29, 50, name))
        x += 29 + 7 * len(name) + 18
    note = (
        "Times are of the whole command unless said otherwise. An open circle: the table is full (verdict 2). "
        "Lines end where a checker took over 10 s or has too many inputs."
    )
    parts.append(label(LEFT - 40, 70, note, size=11, colour="#555"))
    return parts


def plot(rows):
    families = list(FAMILY_COLOURS)
    parts = legend() + rows_panel(rows)
    for number, family in enumerate(families, 1):
        parts += time_panel(number, rows, family)
    width, height = LEFT + 2 * STEP_X - 60, TOP + (len(families) + 2) // 2 * STEP_Y - 30
    head = f'<svg xmlns="http://www.w3.org/2000/svg" viewBox="0 0 {width} {height}" width="{width}" height="{height}" font-family="sans-serif">'
    return "\n".join([head, '<rect width="100%" height="100%" fill="#fff"/>', *parts, "</svg>"]) + "\n"
