#!/usr/bin/env python3
"""Makes the blocks of examples/ and of the benchmark.

    blocks.py examples DIR      every example as DIR/NAME.aag
    blocks.py write DIR NAME..  NAME.aag, NAME.aig, NAME.K.cnf for output K, and for a tie NAME.old.aig and NAME.new.aig
    blocks.py names [trial]     the names of the benchmark's blocks, smallest first in each family

A name is a family, a size and sometimes a word: counter-8, counter-8-dropped, adder-8, adder-8-apart, multiplier-4,
popcount-8, decoder-4, random-80, random-80-changed.
"""

import sys

sys.dont_write_bytecode = True
from circuits import adder, counter, decoder, multiplier, popcount, random_logic  # noqa: E402


def block(name):
    family, size, *word = name.split("-")
    size = int(size)
    makers = {
        ("counter",): lambda: counter(size),
        ("counter", "dropped"): lambda: counter(size, dropped=True),
        ("adder",): lambda: adder(size),
        ("adder", "apart"): lambda: adder(size, interleaved=False),
        ("multiplier",): lambda: multiplier(size),
        ("popcount",): lambda: popcount(size),
        ("decoder",): lambda: decoder(size),
        ("random",): lambda: random_logic(size),
        ("random", "changed"): lambda: random_logic(size, changed=True),
    }
    return makers[(family, *word)]()

# The run that the scope prints.
PAPER = "aag 4 2 0 2 2\n2\n4\n8\n6\n6 2 5\n8 6 4\n"


def ascii_text(net):
    """ASCII AIGER, with symbol lines after the gates."""
    lines = [f"aag {net.variables()} {len(net.names)} 0 {len(net.outputs)} {len(net.gates)}"]
    lines += [str(literal) for literal in net.inputs()]
    lines += [str(literal) for literal, _ in net.outputs]
    for k, (right0, right1) in enumerate(net.gates):
        lines.append(f"{2 * (len(net.names) + k + 1)} {right0} {right1}")
    lines += [f"i{k} {name}" for k, name in enumerate(net.names)]
    lines += [f"o{k} {name}" for k, (_, name) in enumerate(net.outputs)]
    text = "\n".join(lines) + "\n"
    assert net.variables() <= 1024 and len(text) <= 32768, "over the limits of the circuit call"
    return text


def binary_text(net):
    """Binary AIGER: a gate is two differences, seven bits to a byte."""

    def groups(number):
        while number > 127:
            yield number & 127 | 128
            number >>= 7
        yield number

    out = bytearray(f"aig {net.variables()} {len(net.names)} 0 {len(net.outputs)} {len(net.gates)}\n".encode())
    out += "".join(f"{literal}\n" for literal, _ in net.outputs).encode()
    for k, (right0, right1) in enumerate(net.gates):
        out += bytes(groups(2 * (len(net.names) + k + 1) - right0))
        out += bytes(groups(right0 - right1))
    return bytes(out)


def clauses(net, output):
    """DIMACS, by Tseitin's translation: satisfiable exactly when this output can be 1. Variables keep their numbers."""

    def sign(literal):
        return -(literal // 2) if literal % 2 else literal // 2

    literal, _ = net.outputs[output]
    # Output 1 has no clause to meet, output 0 the empty one.
    lines = [f"{sign(literal)} 0"] if literal > 1 else ["0"] * (1 - literal)
    for variable in net.cone([literal]):
        right0, right1 = net.gate(variable)
        lines.append(f"{-variable} {sign(right0)} 0")
        lines.append(f"{-variable} {sign(right1)} 0")
        lines.append(f"{variable} {-sign(right0)} {-sign(right1)} 0")
    return f"p cnf {net.variables()} {len(lines)}\n" + "\n".join(lines) + "\n"


EXAMPLES = {
    "counter": lambda: counter(8, each=True),
    "counter-dropped": lambda: counter(8, dropped=True, each=True),
    "adder": lambda: adder(8, each=True),
    "adder-apart": lambda: adder(8, interleaved=False, each=True),
    "multiplier": lambda: multiplier(4),
}

BENCH = {
    "counter-%d": (4, 8, 16, 24, 32, 40, 48),
    "counter-%d-dropped": (4, 8, 16, 24, 32, 40, 48),
    "adder-%d": (4, 8, 16, 24, 32, 36),
    "adder-%d-apart": (2, 3, 4, 5, 6, 7, 8),
    "multiplier-%d": (2, 3, 4, 5, 6),
    "popcount-%d": (4, 8, 10, 12, 14, 16),
    "decoder-%d": (2, 3, 4, 5, 6),
    "random-%d": (20, 30, 40, 50, 60, 80),
    "random-%d-changed": (20, 30, 40, 50, 60, 80),
}


def names(trial):
    """The benchmark's blocks; for a trial two of each family."""
    return [family % size for family, sizes in BENCH.items() for size in (sizes[:2] if trial else sizes)]


def write_examples(folder):
    with open(f"{folder}/paper.aag", "w") as file:
        file.write(PAPER)
    for name, make in EXAMPLES.items():
        with open(f"{folder}/{name}.aag", "w") as file:
            file.write(ascii_text(make().tie()))


def write_bench(folder, name):
    made = block(name)
    net = made.tie()
    with open(f"{folder}/{name}.aag", "w") as file:
        file.write(ascii_text(net))
    for part, half in ("", net), (".old", made.half(made.old)), (".new", made.half(made.new)):
        with open(f"{folder}/{name}{part}.aig", "wb") as file:
            file.write(binary_text(half))
    for output in range(len(net.outputs)):
        with open(f"{folder}/{name}.{output}.cnf", "w") as file:
            file.write(clauses(net, output))


def main(words):
    if len(words) == 2 and words[0] == "examples":
        write_examples(words[1])
    elif len(words) > 2 and words[0] == "write":
        for name in words[2:]:
            write_bench(words[1], name)
    elif words in (["names"], ["names", "trial"]):
        print("\n".join(names("trial" in words)))
    else:
        sys.exit(__doc__)


if __name__ == "__main__":
    main(sys.argv[1:])
