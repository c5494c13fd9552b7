#!/usr/bin/env python3
"""Puts steps into a log that move ids, and names what follows by the ids that it has by then.

usage: bench/make/moves.py SEED [EVERY [PAIRS]] < LOG > MOVED

Clauses move or, where the log has them, parities: along a cycle, as two that change places, along a chain whose last id is free, or to
the id that they have. Without EVERY a move comes after every fourth step or so, of up to six pairs. With EVERY a move comes after each
so many steps and has PAIRS pairs (a hundred), or as many as are live of the kind of which more are. Each step is on a line of its
own, as `solve` writes them. What is drawn is drawn by SplitMix64 from the seed, so that a seed gives the same log everywhere.
"""
import sys

CLAUSE, PARITY = "", "x"
MASK = (1 << 64) - 1


class Draw:
    """SplitMix64."""

    def __init__(self, seed):
        self.state = seed & MASK

    def below(self, bound):
        self.state = (self.state + 0x9E3779B97F4A7C15) & MASK
        z = self.state
        z = ((z ^ (z >> 30)) * 0xBF58476D1CE4E5B9) & MASK
        z = ((z ^ (z >> 27)) * 0x94D049BB133111EB) & MASK
        return (z ^ (z >> 31)) % bound


class Ids:
    """The ids that the log before names of a kind, and those under which the same is now."""

    def __init__(self):
        self.now = {}  # from a live id of the log before to the id now
        self.before = {}  # and back
        self.live = []  # the live ids now, in any order
        self.place = {}  # where each of them is there
        self.fresh = 0  # no id above it was ever named

    def put(self, id):
        """The id of what the log before adds under this one: the same, or a fresh one where that is taken."""
        self.fresh = max(self.fresh, id)
        at = id
        if at in self.before:
            self.fresh += 1
            at = self.fresh
        self.name(id, at)
        self.place[at] = len(self.live)
        self.live.append(at)
        return at

    def name(self, id, at):
        self.now[id] = at
        self.before[at] = id

    def forget(self, at):
        hole, last = self.place.pop(at), self.live.pop()
        if last != at:
            self.live[hole] = last
            self.place[last] = hole

    def drop(self, id):
        at = self.now.pop(id, None)
        if at is None:
            # Nothing is live under it, and nothing is to be deleted: an id that is free stays so.
            self.fresh += 1
            return self.fresh
        del self.before[at]
        self.forget(at)
        return at

    def named(self, id):
        return self.now.get(id, id)

    def move(self, pairs):
        """What was under the old ids is under the new ones."""
        old = [(self.before.pop(a), b) for a, b in pairs]
        for a, _ in pairs:
            self.forget(a)
        for id, b in old:
            self.name(id, b)
            self.place[b] = len(self.live)
            self.live.append(b)

    def some(self, draw, count):
        """So many live ids, each once, or all."""
        count = min(count, len(self.live))
        chosen, rest = [], set()
        while len(chosen) < count:
            at = self.live[draw.below(len(self.live))]
            if at not in rest:
                rest.add(at)
                chosen.append(at)
        return chosen

    def free(self, draw):
        """An id that is not live."""
        self.fresh += 1 + draw.below(3)
        return self.fresh


def pairs_of(draw, ids, count):
    """Cycles and chains over so many ids, in no order; a cycle of one id is a move to itself."""
    chosen, pairs = ids.some(draw, count), []
    while chosen:
        size = min(len(chosen), 1 + draw.below(4))
        part, chosen = chosen[:size], chosen[size:]
        end = part[0] if draw.below(3) else ids.free(draw)
        pairs += zip(part, part[1:] + [end])
    for k in range(len(pairs) - 1, 0, -1):
        j = draw.below(k + 1)
        pairs[k], pairs[j] = pairs[j], pairs[k]
    return pairs


def moved_step(words, ids):
    """A step of the log before, named by the ids now."""
    kind = PARITY if words[1] == "x" else CLAUSE
    at = 2 if kind == PARITY else 1
    own, letter = ids[kind], words[0]
    if letter in "oai":
        # The hints name what is live before the step.
        end = words.index("0", at + 1)
        hints = words[end + 1 :]
        if hints:
            of = ids[kind if letter == "a" else PARITY if kind == CLAUSE else CLAUSE]
            hints = [str(of.named(int(k))) if k not in ("l", "0") else k for k in hints]
        return words[:at] + [str(own.put(int(words[at])))] + words[at + 1 : end + 1] + hints
    if letter == "d":
        return words[:at] + [str(own.drop(int(words[at])))] + words[at + 1 :]
    if letter == "f":
        return words[:at] + [str(own.named(int(words[at])))] + words[at + 1 :]
    raise SystemExit(f"moves.py: a step of no kind that solve writes: {' '.join(words)}")


def main():
    draw = Draw(int(sys.argv[1]))
    every = int(sys.argv[2]) if len(sys.argv) > 2 else None
    count = int(sys.argv[3]) if len(sys.argv) > 3 else 100
    ids = {CLAUSE: Ids(), PARITY: Ids()}
    steps, out = 0, sys.stdout
    for line in sys.stdin:
        if line.startswith("c"):
            out.write(line)
            continue
        out.write(" ".join(moved_step(line.split(), ids)) + "\n")
        steps += 1
        if every is None:
            if draw.below(4):
                continue
            kind, size = (PARITY if draw.below(2) else CLAUSE), draw.below(7)
        else:
            if steps % every:
                continue
            kind, size = max((CLAUSE, PARITY), key=lambda k: len(ids[k].live)), count
        pairs = pairs_of(draw, ids[kind], size)
        ids[kind].move(pairs)
        out.write("r " + ("x " if kind == PARITY else "") + "".join(f"{a} {b} " for a, b in pairs) + "0\n")


if __name__ == "__main__":
    main()
