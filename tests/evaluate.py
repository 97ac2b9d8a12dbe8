#!/usr/bin/env python3
"""evaluate.py AAG [OUT]: the verdicts of a circuit by plain evaluation of all its patterns, in the circuit program's printed form.

With OUT, prints only where a verdict 0 or 1 (with its pattern) in that file is not the evaluation's; exit status 1 then. A
verdict 2 says nothing about the circuit and is passed over. Exit status 3: more than 16 inputs.

All patterns are evaluated at once: bit p of a signal is its value at pattern p. The least pattern reads the highest-numbered
input variable first, so that variable is the most significant bit of p.
"""

import sys


def read(path):
    """Input, output and gate literals."""
    with open(path) as file:
        lines = file.read().split("\n")
    _, inputs, _, outputs, gates = (int(word) for word in lines[0].split()[1:])
    rows = [[int(word) for word in line.split()] for line in lines[1 : 1 + inputs + outputs + gates]]
    first_gate = inputs + outputs
    return [row[0] for row in rows[:inputs]], [row[0] for row in rows[inputs:first_gate]], rows[first_gate:]


def evaluate(path):
    """For each output the text that the program prints."""
    inputs, outputs, gates = read(path)
    if len(inputs) > 16:
        sys.exit(3)
    patterns = 1 << len(inputs)
    ones = (1 << patterns) - 1
    place = {literal: k for k, literal in enumerate(sorted(inputs))}
    signals = {0: 0, 1: ones}

    def define(literal, value):
        signals[literal], signals[literal + 1] = value, ones ^ value

    for literal, k in place.items():
        # 2^k patterns with 0, then 2^k with 1, and so on.
        define(literal, ones // ((1 << (1 << k)) + 1) << (1 << k))
    for left, right0, right1 in gates:
        define(left, signals[right0] & signals[right1])
    blocks = []
    for number, literal in enumerate(outputs):
        value = signals[literal]
        if value == 0:
            blocks.append(f"0\nb{number}\n.\n")
            continue
        least = (value & -value).bit_length() - 1
        pattern = "".join(str(least >> place[literal] & 1) for literal in inputs)
        blocks.append(f"1\nb{number}\n\n{pattern}\n.\n")
    return blocks


def main(words):
    blocks = evaluate(words[0])
    if len(words) == 1:
        print("".join(blocks), end="")
        return 0
    with open(words[1]) as file:
        expected = file.read().split(".\n")[:-1]
    if len(expected) != len(blocks):
        print(f"{words[1]}: {len(expected)} verdicts for {len(blocks)} outputs")
        return 1
    wrong = [k for k, said in enumerate(expected) if said != f"2\nb{k}\n" and said + ".\n" != blocks[k]]
    for k in wrong:
        print(f"{words[1]}: output {k} is not {expected[k].split()}")
    return 1 if wrong else 0


if __name__ == "__main__":
    sys.exit(main(sys.argv[1:]))
