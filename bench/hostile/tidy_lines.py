#!/usr/bin/env python3
"""Judges the tidy lines of a search's log: bench/hostile/tidy_lines.py LOG

At the line `c tidy R` no live clause with two or more different literals has a literal and its negation, lies inside another, or strengthens
one. The lines are numbered from 1. Line R comes after the clause of mark 100 * (luby(1) + .. + luby(R)) and before the next mark, and none is
missing. What is not so is printed, and the exit status is 1. With `--least N`, also where there are fewer lines than N.
"""
import sys


def luby(k):
    """Luby's number k, from 1: 1 1 2 1 1 2 4 .."""
    bits = k.bit_length()
    return 1 << (bits - 1) if k == (1 << bits) - 1 else luby(k - (1 << (bits - 1)) + 1)


def live_clauses(words, live):
    """The live clauses after a step of the log."""
    kind = words[0]
    if kind not in "oaid" or words[1] == "x":
        return
    name, end = int(words[1]), words.index("0")
    if kind == "d":
        del live[name]
    else:
        live[name] = frozenset(int(k) for k in words[2:end])


def untidy(live):
    """A clause, or a pair of clauses, that is not tidy."""
    wide = {name: clause for name, clause in live.items() if len(clause) > 1}
    having = {}
    for name, clause in wide.items():
        if any(-k in clause for k in clause):
            return (name,)
        for k in clause:
            having.setdefault(k, set()).add(name)
    for name, clause in wide.items():
        turned = [clause] + [clause - {k} | {-k} for k in clause]
        for literals in turned:
            found = set.intersection(*(having.get(k, set()) for k in literals)) - {name}
            if found:
                return name, min(found)
    return None


def faults(lines):
    live, marks, tidied, due, served = {}, 0, 0, 100, True
    for number, line in enumerate(lines, 1):
        words = line.split()
        if words[:2] == ["c", "conflict"]:
            if marks == due:
                yield f"line {number}: no tidy line at mark {marks}"
                due += 100 * luby(tidied + 2)
            marks, served = marks + 1, False
        elif words[:2] == ["c", "tidy"]:
            tidied += 1
            if words[2:] != [str(tidied)] or marks != due or not served:
                yield f"line {number}: tidy line {words[2:]} after {marks} marks, wanted {tidied} after {due}"
            pair = untidy(live)
            if pair:
                yield f"line {number}: not tidy: {pair}"
            due += 100 * luby(tidied + 1)
        elif words and words[0] != "c":
            served = served or words[0] == "a"
            live_clauses(words, live)


def main():
    words = sys.argv[1:]
    least = int(words.pop(words.index("--least") + 1)) if "--least" in words else 0
    name = [word for word in words if word != "--least"][0]
    with open(name) as file:
        lines = file.read().splitlines()
    found = list(faults(lines))
    many = sum(line.startswith("c tidy ") for line in lines)
    if many < least:
        found.append(f"{many} tidy lines, wanted {least}")
    for fault in found:
        print(fault)
    return 1 if found else 0


if __name__ == "__main__":
    sys.exit(main())
