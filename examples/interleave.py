#!/usr/bin/env python3
"""interleave.py < OLD.aag > NEW.aag: numbers the inputs of an ASCII AIGER file by place, so that the bits of equal place of all
words stand next to each other: a[0] b[0] a[1] b[1] ... Inputs without a place (enable, carry in) come first.

The file must have a symbol line for every input, inputs that are variables 1 to I, and gates above them: as yosys writes it.
Gates keep their numbers and order; only the inputs change places.
"""

import re
import sys

lines = sys.stdin.read().split("\n")
variables, inputs, latches, outputs, gates = (int(word) for word in lines[0].split()[1:])
body, rest = lines[1 : 1 + inputs + outputs + gates], lines[1 + inputs + outputs + gates :]
if latches or [int(line) for line in body[:inputs]] != [2 * (k + 1) for k in range(inputs)]:
    sys.exit("interleave: latches, or inputs that are not variables 1 to I")

names = dict(line[1:].split(" ", 1) for line in rest if re.match(r"i\d+ ", line))
names = [names[str(k)] for k in range(inputs)]


def place(k):
    number = re.search(r"\[(\d+)\]$", names[k])
    return int(number[1]) if number else -1


order = sorted(range(inputs), key=lambda k: (place(k), names[k]))
moved = {k + 1: order.index(k) + 1 for k in range(inputs)}


def literal(word):
    variable, inverted = divmod(int(word), 2)
    return str(2 * moved.get(variable, variable) + inverted)


print(lines[0])
print("\n".join(body[:inputs]))
for line in body[inputs:]:
    print(" ".join(literal(word) for word in line.split()))
for k, old in enumerate(order):
    print(f"i{k} {names[old]}")
for line in rest:
    if re.match(r"o\d+ ", line):
        print(line)
