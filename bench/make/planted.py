#!/usr/bin/env python3
"""Writes the planted instance that `cxsat demo KIND SIZE SEED` makes, by the rules of docs/FORMATS.md and not by the program.

usage: bench/make/planted.py even|odd SIZE SEED > FORMULA
"""
import sys

MASK = (1 << 64) - 1


def words(seed):
    """The words of SplitMix64, in the order in which they are drawn."""
    state = seed
    while True:
        state = (state + 0x9E3779B97F4A7C15) & MASK
        z = state
        z = ((z ^ (z >> 30)) * 0xBF58476D1CE4E5B9) & MASK
        z = ((z ^ (z >> 27)) * 0x94D049BB133111EB) & MASK
        yield z ^ (z >> 31)


def planted(kind, size, seed):
    """The number of variables and the lines of the constraints."""
    word = words(seed).__next__
    value = [None] + [word() % 2 == 1 for _ in range(size)]

    def is_true(literal):
        return value[abs(literal)] == (literal > 0)

    parities = []
    for i in range(4, size + 1, 4):
        parity = [i, 1 + word() % (i - 1), 1 + word() % (i - 1)]
        if sum(map(is_true, parity)) % 2 == 0:
            parity[0] = -i
        parities.append(parity)
    clauses = []
    for _ in range(size):
        clause = []
        for _ in range(3):
            drawn = word()
            variable = 1 + drawn % size
            clause.append(-variable if drawn >= 1 << 63 else variable)
        if not any(map(is_true, clause)):
            clause[0] = -clause[0]
        clauses.append(clause)
    variables = size
    lines = [("x", parity) for parity in parities] + [("", clause) for clause in clauses]
    if kind == "odd":
        variables = size + 1
        last = -variables if len(parities) % 2 else variables
        lines.append(("x", [literal for parity in parities for literal in parity] + [last]))
        lines += [("", [-variables, a, b]) for a, b in ((1, 2), (1, -2), (-1, 2), (-1, -2))]
    return variables, lines


def main():
    kind, size, seed = sys.argv[1], int(sys.argv[2]), int(sys.argv[3])
    if kind not in ("even", "odd") or not 4 <= size <= 2000:
        sys.exit(__doc__)
    variables, lines = planted(kind, size, seed)
    print(f"p cnf {variables} {len(lines)}")
    for letter, literals in lines:
        print(letter + " ".join(map(str, literals)), 0)


if __name__ == "__main__":
    main()
