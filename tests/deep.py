#!/usr/bin/env python3
"""Prints cases that nest as deep as a call can: 1,024 variables, each met on the way. They show that the stack is enough, not what is answered."""

LENT = ["var 8192", "then 8192", "else 8192", "work 32768"]


def chain():
    """Gate k is the inverse of the one before AND the second input, so that the last output's normal form goes through all gates."""
    gates = range(3, 1025)
    lines = [f"aag 1024 2 0 1 {len(gates)}", "2", "4", "2048"]
    lines += [f"{2 * v} {2 * v - 1 if v > 3 else 3} 4" for v in gates]
    text = "".join(line + "\\n" for line in lines)
    return ["case chain", *LENT, "pattern 2", f"bytes {text}", "call circuit 0", "end"]


def product():
    """f = x_v f' + 1 and g = x_v + g' for every v: then(f) times else(g) is asked all the way down."""
    rows = [(1023, 1, 1), (1023, 1, 0)]
    for v in range(1022, -1, -1):
        rows += [(v, len(rows), 1), (v, 1, len(rows) + 1)]
    slices = (" ".join(str(row[part]) for row in rows) for part in range(3))
    lent = [f"{words} {numbers}" for words, numbers in zip(LENT, slices)]
    return ["case product", "n 1024", *lent, LENT[3], f"count {len(rows)}", f"call product {len(rows)} {len(rows) + 1}", "end"]


print("\n".join(chain() + product()))
