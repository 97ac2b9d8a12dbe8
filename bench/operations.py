"""How many operations the library's calls take, and what an operation takes.

An operation is one entry into a written step, also where it ends at once: make, sum, product or normal form. callgrind counts the entries and
the instructions of the very programs that are timed, so the counts are the same on every run; the times are measured without it.
"""

import os
import re
import shutil
import subprocess
from collections import Counter

import blocks

STEPS = {"make": "table::Table::make", "sum": "sums::written::sum", "product": "products::written::product", "normal form": "reduction::normal_form"}
# Where instructions are spent, by the starts of functions' names. What is in none of them is zeroing, by the C library.
PARTS = {
    "reading": ("aiger::", "nets::"),
    "checking": "checks::check::",
    "make": "table::Table::make",
    "remembering": "table::memory::",
    "sum": "sums::",
    "product": "products::",
    "normal form": "reduction::",
    "the call": ("mg_", "circuit::", "gates::", "endings::", "pairs::", "normal::", "shown::"),
}
BLOCKS = ["decoder-2", "random-20", "counter-16", "counter-40", "adder-8", "adder-7-apart", "multiplier-4", "popcount-12", "decoder-6", "random-60"]
# A call, and how many variables and polynomials calls.c makes its table from.
CALLS = [
    ("nothing", 0, 1),
    ("nothing", 11, 3),
    ("nothing", 12, 15),
    ("sum", 11, 2),
    ("sum", 11, 28),
    ("sum", 14, 2),
    ("product", 8, 2),
    ("product", 10, 2),
    ("normal", 3, 13),
    ("normal", 9, 4),
]
SYMBOLS = {"nothing": "mg_sum", "sum": "mg_sum", "product": "mg_product", "normal": "mg_normal_form"}
EMPTY = "aag 0 0 0 1 0\n0\n"
# The best time differs from process to process, so there are several. Each does as many runs as it can in a second.
GOES, RUNS = 5, 1000000


class Unmeasured(Exception):
    """Why there are no counts."""


class Profile:
    """A callgrind file: calls from one part to a step, and the instructions of each part."""

    def __init__(self, lines):
        self.calls, self.instructions = Counter(), Counter()
        caller = called = None
        inside = False  # whether the next cost is that of a call, which the called function has, too
        for line in lines:
            kind, _, rest = line.partition("=")
            if kind == "fn":
                caller = part_of(rest)
            elif kind == "cfn":
                called = step_of(rest)
            elif kind == "calls":
                self.calls[caller, called] += int(rest.split()[0])
                inside = True
            elif re.match(r"\d+ \d+$", line):
                if not inside:
                    self.instructions[caller] += int(line.split()[1])
                inside = False

    def entries(self, step):
        return sum(count for (_, called), count in self.calls.items() if called == step)

    def operations(self):
        return sum(map(self.entries, STEPS))

    def spent(self):
        """Instructions in the library."""
        return sum(self.instructions[part] for part in PARTS)

    def met(self):
        """Normal forms of a row whose root is a lead: each has one product of its own."""
        return self.calls["normal form", "product"]

    def worked_out(self):
        """Operations that neither end at once nor are remembered: each that is no make ends in one, except where a lead is met."""
        return self.met() + sum(self.calls[step, "make"] for step in STEPS)

    def whole(self):
        """Whether every entry was seen. Each step calls others as often as is written, unless the compiler has put one into another."""
        calls = self.calls
        return (
            calls["sum", "sum"] == 2 * calls["sum", "make"]
            # four products and two sums where the roots are equal, else two products
            and calls["product", "product"] == 2 * calls["product", "make"] + calls["product", "sum"]
            and calls["product", "sum"] % 2 == 0
            and calls["normal form", "normal form"] == 2 * calls["normal form", "make"] + 3 * self.met()
            and calls["normal form", "sum"] == self.met()
        )


def part_of(function):
    return next((part for part, start in PARTS.items() if function.startswith(start)), None)


def step_of(function):
    """callgrind adds '2 to the name of a function that is called from itself."""
    return next((step for step, name in STEPS.items() if function.split("'")[0] == name), None)


def profile(out, symbols, *command):
    file = out / "profile"
    file.unlink(missing_ok=True)
    words = ["valgrind", "--tool=callgrind", "--compress-strings=no", "--compress-pos=no", f"--callgrind-out-file={file}"]
    words += [f"--toggle-collect={symbol}" for symbol in symbols]
    # Else the first call of a C function counts what it takes to find it.
    environment = {**os.environ, "LD_BIND_NOW": "1"}
    done = subprocess.run([*words, *command, "1"], env=environment, capture_output=True)
    if done.returncode != 0 or not file.exists():
        raise Unmeasured("valgrind does not run the library here")
    found = Profile(file.read_text().splitlines())
    if not found.operations() or not found.whole():
        raise Unmeasured("the written steps are not all functions of their own in this library")
    return found


def best(goes, *command):
    """The best time of some processes, each with many runs, in microseconds; and what they print besides."""
    said = [subprocess.run([*command, str(RUNS)], check=True, capture_output=True, text=True).stdout for _ in range(goes)]
    times, others = zip(*(re.match(r"(.*)^microseconds (\S+)$", words, re.M | re.S).group(2, 1) for words in said))
    return min(map(float, times)), dict(line.split() for line in others[0].splitlines())


class Measured:
    """A block, or a call on a table: its counts, its time and how much of that is the fixed cost of the calls, in microseconds."""

    def __init__(self, name, said, counts, time, fixed):
        self.name, self.said, self.counts, self.time, self.fixed = name, said, counts, time, fixed
        self.operations = counts.operations()

    def outputs(self):
        return len(self.said["verdicts"])

    def rows_before(self):
        return int(self.said["before"])

    def rows_after(self):
        return int(self.said["after"])

    def each(self):
        """What an operation takes, in nanoseconds."""
        return 1000 * self.time / self.operations

    def each_without(self):
        """The same without the fixed cost."""
        return 1000 * (self.time - self.fixed) / self.operations


class Found:
    """All that is measured here."""

    def __init__(self, out, folder, trial):
        self.goes = 1 if trial else GOES
        self.load = os.getloadavg()[0]
        (out / "empty.aag").write_text(EMPTY)
        self.empty, _ = best(self.goes, out / "driver", out / "empty.aag")
        self.blocks = [self.block(out, folder, name) for name in (BLOCKS[:2] if trial else BLOCKS)]
        self.calls = [self.call(out, *words) for words in CALLS]
        nothing = [row for row in self.calls if row.name == "nothing"]
        self.bare, self.checked = nothing[0], nothing[-1]
        self.row = (self.checked.time - self.bare.time) / self.checked.rows_before()
        for row in self.calls:
            row.fixed = self.bare.time + row.rows_before() * self.row

    def block(self, out, folder, name):
        blocks.write_bench(folder, name)
        command = [out / "driver", folder / f"{name}.aag"]
        time, said = best(self.goes, *command)
        return Measured(name, said, profile(out, ["mg_circuit", "mg_text"], *command), time, len(said["verdicts"]) * self.empty)

    def call(self, out, name, *sizes):
        command = [out / "calls", name, *map(str, sizes)]
        time, said = best(self.goes, *command)
        return Measured(name, said, profile(out, [SYMBOLS[name]], *command), time, 0)


def measure(out, folder, trial):
    """What was found, or why there is nothing."""
    if not shutil.which("valgrind"):
        return "valgrind cannot be had here"
    try:
        return Found(out, folder, trial)
    except Unmeasured as why:
        return str(why)
