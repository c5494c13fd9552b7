#!/usr/bin/env python3
"""Makes one table of the rows of the measuring scripts, on standard input: rows about one run of ours are one, and a
last column says what to conclude.

usage: cat ROWS | bench/table.py > TABLE
"""
import re
import sys

PEERS = ("minisat", "cadical", "cryptominisat5")
# A ratio from here to there is level: the clock and the load do no better.
LEVEL = 0.9, 1.1


class Row:
    def __init__(self, line):
        self.what, self.on, self.own, beside, ratio = (cell.strip() for cell in line.strip().strip("|").split(" | "))
        self.beside = [(beside, ratio)]

    def is_of_run(self, other):
        return (self.what, self.on, self.own) == (other.what, other.on, other.own)

    def conclusions(self):
        """For each solver beside it: the ratio that counts, and the solver's name."""
        for beside, ratio in self.beside:
            name = beside.split(":")[0]
            found = re.search(r"\d+(\.\d+)?", ratio)
            if found and name.startswith(PEERS):
                value = float(found[0])
                yield (1 / value if self.what == "unit propagation" and value else value), name

    def verdict(self):
        ranked = sorted(self.conclusions())
        ahead = [name for value, name in ranked if value < LEVEL[0]]
        behind = [f"{name} by {value:.1f}" for value, name in ranked if value > LEVEL[1]]
        level = [name for value, name in ranked if LEVEL[0] <= value <= LEVEL[1]]
        parts = [("behind", behind), ("level with", level), ("ahead of", ahead)]
        return "; ".join(f"{word} {', '.join(names)}" for word, names in parts if names) or "-"

    def text(self):
        beside = "; ".join(cell for cell, _ in self.beside)
        ratios = "; ".join(ratio for _, ratio in self.beside)
        return f"| {self.what} | {self.on} | {self.own} | {beside} | {ratios} | {self.verdict()} |"


def main():
    rows = []
    for row in map(Row, filter(None, map(str.strip, sys.stdin))):
        if rows and rows[-1].is_of_run(row):
            rows[-1].beside += row.beside
        else:
            rows.append(row)
    print("| what | on what | cxsat | beside it | ratio | so |")
    print("| --- | --- | --- | --- | --- | --- |")
    for row in rows:
        print(row.text())


main()
