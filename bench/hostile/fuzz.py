#!/usr/bin/env python3
"""Runs the program on small random formulas and holds each answer against all values.

usage: bench/hostile/fuzz.py [COUNT [SEED [WORKERS]]]     (1,000 formulas, seed 1, as many workers as processors)

A formula has up to 14 variables, clauses and parities with repeated and opposite literals now and then, and empty ones, and often
assumption constraints. `solve` must say 10 exactly where some values meet it, 20 exactly where none do, and UNKNOWN only after as many
marks of conflicts in the log as its budget has. Half of the searches tidy (`--inprocess`), and their tidy lines are judged. The literals of `c failed` must be assumed ones that no values meet together with the
clauses and the parities. Values are judged by `model` and by the truth table, and again with one of them turned. A log of a refutation is
elaborated and its proof checked; the proof is then held against another formula and with one number changed: `check` may verify it
only where no values meet the formula. What `trim` leaves of the proof must be verified, and no values may meet its core. Of what `blast`
writes exactly one assignment must begin with each one that meets the formula, and none with others. `affine` must print the one text that
the parities' solutions give. What differs is printed with the number of its formula, and the exit status is 1.
"""
import os
import random
import subprocess
import sys
import tempfile
from concurrent.futures import ProcessPoolExecutor

import tidy_lines

PROGRAM = os.path.join(os.path.dirname(os.path.abspath(__file__)), "..", "..", "crates", "cxsat", "out", "cxsat")


# What a formula writes before the literals of a constraint.
CLAUSE, PARITY, ASSUMED = "", "x", "a "


class Wrong(Exception):
    """The program said what it must not."""


def formula(rng):
    """A number of variables and constraints: the kind of each, as a formula writes it, and its literals."""
    count = rng.choice((1, 2, 3, 5, 8, 10, 12, 14))
    hardness = rng.uniform(0.2, 1.3)
    clauses = int(count * 4.3 * hardness * rng.random())
    parities = int(count * hardness * rng.random()) if rng.random() < 0.8 else 0
    whole = []
    for kind in [CLAUSE] * clauses + [PARITY] * parities:
        size = rng.choice((2, 3, 3, 3, 3, 4, 5)) if rng.random() < 0.97 else rng.choice((0, 1, 1, 1, 6))
        if rng.random() < 0.1:
            names = [rng.randint(1, count) for _ in range(size)]
        else:
            names = rng.sample(range(1, count + 1), min(size, count))
        whole.append((kind, [name if rng.random() < 0.5 else -name for name in names]))
    if rng.random() < 0.3:
        hidden = rng.sample(range(1, count + 1), min(count, rng.randint(2, 4)))
        right = rng.random() < 0.5
        for signs in range(1 << len(hidden)):
            if (bin(signs).count("1") % 2 == 1) != right:
                whole.append((CLAUSE, [-name if signs >> k & 1 else name for k, name in enumerate(hidden)]))
    if rng.random() < 0.5:
        for _ in range(rng.choice((1, 1, 1, 2, 3))):
            names = rng.choices(range(1, count + 1), k=rng.choice((0, 1, 2, 3, 5)))
            # Of one variable mostly one sign is assumed, so that few assumptions clash.
            turned = rng.random() < 0.1
            whole.append((ASSUMED, [name if (name * 7 + count) % 3 and not (turned and rng.random() < 0.5) else -name for name in names]))
    rng.shuffle(whole)
    return count, whole


def text(count, whole):
    lines = [f"p cnf {count} {len(whole)}"]
    for kind, literals in whole:
        lines.append(kind + " ".join(map(str, literals + [0])))
    return "\n".join(lines) + "\n"


def tables(count):
    """For each variable the set of the assignments where it is true, as bits."""
    full = (1 << (1 << count)) - 1
    true = [None]
    for name in range(count):
        block = ((1 << (1 << name)) - 1) << (1 << name)
        width, rows = 2 << name, 1 << count
        while width < rows:
            block |= block << width
            width *= 2
        true.append(block)
    return full, true


def models(count, whole):
    """The set of the assignments that meet the formula, as bits."""
    full, true = tables(count)
    left = full
    for kind, literals in whole:
        met = full if kind == ASSUMED else 0
        for k in literals:
            side = true[abs(k)] if k > 0 else full ^ true[abs(k)]
            met = met ^ side if kind == PARITY else met & side if kind == ASSUMED else met | side
        left &= met
    return left


def run(*words):
    done = subprocess.run([PROGRAM, *words], capture_output=True, text=True, timeout=120)
    return done.returncode, done.stdout, done.stderr


def want(told, what):
    if not told:
        raise Wrong(what)


def number_of(values):
    return sum(1 << (abs(k) - 1) for k in values if k > 0)


def values_of(answer):
    return [int(k) for line in answer.splitlines() if line.startswith("v") for k in line.split()[1:] if k != "0"]


def judge_values(rng, folder, count, left, answer):
    values = values_of(answer)
    want(sorted(map(abs, values)) == list(range(1, count + 1)), "values of other variables")
    want(left >> number_of(values) & 1, "values that do not meet the formula")
    status, out, _ = run("model", f"{folder}/f", f"{folder}/answer")
    want((status, out) == (0, "s MODEL RIGHT\n"), f"model of its own answer: {status} {out!r}")
    if values:
        turned = values[:]
        at = rng.randrange(len(turned))
        turned[at] = -turned[at]
        with open(f"{folder}/turned", "w") as file:
            file.write("s SATISFIABLE\nv " + " ".join(map(str, turned + [0])) + "\n")
        status, _, _ = run("model", f"{folder}/f", f"{folder}/turned")
        want((status == 0) == bool(left >> number_of(turned) & 1), f"model of turned values: {status}")


def last_clause(log):
    """The literals of the last step of a log."""
    words = [line.split() for line in log.splitlines() if not line.startswith("c")][-1]
    if words[0] not in ("a", "i") or words[1] == "x":
        raise Wrong("the last step of a refutation's log puts no clause")
    return [int(k) for k in words[2 : words.index("0")]]


def judge_failed(count, whole, out, log):
    """What is printed of a refutation: with an assumption constraint also which assumed literals fail."""
    lines = out.splitlines()
    assumed = [k for kind, literals in whole if kind == ASSUMED for k in literals]
    if all(kind != ASSUMED for kind, _ in whole):
        want(lines == ["s UNSATISFIABLE"], f"a refutation's lines: {out!r}")
        return
    want(len(lines) == 2 and lines[0] == "s UNSATISFIABLE" and lines[1].startswith("c failed "), f"a refutation's lines: {out!r}")
    failed = [int(k) for k in lines[1].split()[2:]]
    want(failed[-1] == 0 and 0 not in failed[:-1], f"the line of literals that fail: {out!r}")
    failed.pop()
    want(set(failed) <= set(assumed), "a literal fails that is not assumed")
    want(failed == sorted(set(failed), key=lambda k: (abs(k), k < 0)), "literals that fail are not in order")
    both = sorted(k for k in set(assumed) if k > 0 and -k in assumed)
    if both:
        want(failed == [both[0], -both[0]], "another clash than the least")
    else:
        want({-k for k in failed} == set(last_clause(log)), "literals that fail are not those of the log's last step")
    rest = [(kind, literals) for kind, literals in whole if kind != ASSUMED]
    want(models(count, rest + [(ASSUMED, failed)]) == 0, "values meet the literals that fail")


def judge_refutation(rng, folder, earlier):
    status, out, _ = run("elab", f"{folder}/f", f"{folder}/log", f"{folder}/proof")
    want((status, out) == (0, "s ELABORATED\n"), f"elab of its own log: {status} {out!r}")
    status, out, _ = run("check", f"{folder}/f", f"{folder}/proof")
    want((status, out) == (0, "s VERIFIED\n"), f"check of its own proof: {status} {out!r}")
    proof = open(f"{folder}/proof").read()
    if len(earlier) < 50:
        earlier.append(proof)
    else:
        earlier[rng.randrange(50)] = proof


def judge_trimmed(folder, count, whole):
    """What is left of the proof, trimmed again and checked, and the core, which no values meet together with the assumption constraints."""
    status, out, _ = run("trim", f"{folder}/f", f"{folder}/proof", f"{folder}/left")
    lines = out.splitlines()
    want(status == 0 and len(lines) == 3 and lines[2] == "s TRIMMED", f"trim of its own proof: {status} {out!r}")
    core = [it for it in whole if it[0] == ASSUMED]
    for line, name, kind in zip(lines, ("clauses", "parities"), (CLAUSE, PARITY)):
        words = line.split()
        want(words[:3] == ["c", "core", name] and words[-1] == "0", f"the core's lines: {out!r}")
        those = [it for it in whole if it[0] == kind]
        core += [those[int(number) - 1] for number in words[3:-1]]
    want(models(count, core) == 0, "values meet the core")
    status, again, _ = run("trim", f"{folder}/f", f"{folder}/left", f"{folder}/again")
    want((status, again) == (0, out), f"trim of a trimmed proof: {status} {again!r}")
    want(open(f"{folder}/left").read() == open(f"{folder}/again").read(), "a trimmed proof was trimmed further")
    status, out, _ = run("check", f"{folder}/f", f"{folder}/left")
    want((status, out) == (0, "s VERIFIED\n"), f"check of a trimmed proof: {status} {out!r}")


def judge_blasted(folder, count, left):
    """The formula in clauses, by its own table of truth where that is not too large."""
    status, out, err = run("blast", f"{folder}/f", f"{folder}/clauses")
    head, *lines = open(f"{folder}/clauses").read().splitlines()
    variables, clauses = map(int, head.split()[2:])
    want((status, out) == (0, f"c variables {variables}\nc clauses {clauses}\ns BLASTED\n"), f"blast: {status} {out!r} {err!r}")
    made = [(ASSUMED if line.startswith("a ") else CLAUSE, [int(k) for k in line.removeprefix("a ").split()[:-1]]) for line in lines]
    want(sum(kind == CLAUSE for kind, _ in made) == clauses, "another number of clauses than is told")
    if variables > 18:
        return
    met, full, found = models(variables, made), (1 << (1 << count)) - 1, 0
    for above in range(1 << variables - count):
        part = met >> (above << count) & full
        want(part & found == 0, "two assignments of the clauses begin with one of the formula's")
        found |= part
    want(found == left, "the clauses are met by other values than the formula")


def judge_foreign_proof(rng, folder, left, earlier):
    """A proof of another formula, or one with a changed number, is verified only where no values meet this formula."""
    if not earlier:
        return
    tokens = rng.choice(earlier).split(" ")
    at = rng.randrange(len(tokens))
    tokens[at] = rng.choice((tokens[at], "0", "1", "2", "-1", "7", tokens[rng.randrange(len(tokens))]))
    with open(f"{folder}/other", "w") as file:
        file.write(" ".join(tokens))
    status, out, _ = run("check", f"{folder}/f", f"{folder}/other")
    want(status in (0, 7), f"check of another proof: {status}")
    want(status != 0 or left == 0, "a proof was verified of a formula that has values")
    status, out, _ = run("elab", f"{folder}/f", f"{folder}/other", f"{folder}/made")
    want(status in (0, 8), f"elab of a proof in place of a log: {status}")
    want(status != 0 or left == 0, "a log was elaborated of a formula that has values")


def affine_text(count, whole):
    """What `affine` must print, by all solutions of the parities: the bit of variable k in a solution's number is k - 1."""
    left = models(count, [(kind, literals) for kind, literals in whole if kind == PARITY])
    solutions = [number for number in range(1 << count) if left >> number & 1]
    if not solutions:
        return "s AFFINE NONE\n"
    # Two solutions differ in a variable and agree on all greater ones.
    free = [k for k in range(count) if len({it >> k for it in solutions}) > len({it >> k + 1 for it in solutions})]
    mask = sum(1 << k for k in free)
    by_free = {it & mask: it for it in solutions}
    point = by_free[0]
    literals = [k + 1 if point >> k & 1 else -(k + 1) for k in range(count)]
    lines = [f"s AFFINE {len(free)}", " ".join(map(str, ["t", *literals, 0]))]
    for k in free:
        vector = by_free[1 << k] ^ point
        lines.append(" ".join(map(str, ["b", *(j + 1 for j in range(count) if vector >> j & 1), 0])))
    return "\n".join(lines) + "\n"


def judge_affine(folder, count, whole):
    status, out, err = run("affine", f"{folder}/f")
    want((status, out, err) == (0, affine_text(count, whole), ""), f"affine: {status} {out!r} {err!r}")


def one(number, folder, earlier):
    """What was found out of formula `number`: its status."""
    rng = random.Random(number)
    count, whole = formula(rng)
    left = models(count, whole)
    with open(f"{folder}/f", "w") as file:
        file.write(text(count, whole))
    budget = rng.choice((1, 2, 5, 1000000, 1000000, 1000000))
    words = ["solve", f"{folder}/f", "--proof", f"{folder}/log", "--conflicts", str(budget)]
    tidies = rng.random() < 0.5
    if tidies:
        words.insert(rng.choice((1, 2, 4, 6)), "--inprocess")
    status, out, err = run(*words)
    log = open(f"{folder}/log").read()
    marks = sum(line.startswith("c conflict ") for line in log.splitlines())
    if status == 10:
        want(left != 0, "10 where no values meet the formula")
        with open(f"{folder}/answer", "w") as file:
            file.write(out)
        judge_values(rng, folder, count, left, out)
    elif status == 20:
        want(left == 0, "20 where values meet the formula")
        judge_failed(count, whole, out, log)
        judge_refutation(rng, folder, earlier)
        judge_trimmed(folder, count, whole)
    else:
        want((status, out) == (0, f"c conflicts {budget}\ns UNKNOWN\n"), f"solve: {status} {out!r} {err!r}")
        want(marks == budget, f"UNKNOWN after {marks} marks of {budget}")
    want(marks <= budget, f"{marks} conflicts of {budget}")
    found = list(tidy_lines.faults(log.splitlines())) if tidies else []
    want(not found, f"tidy lines: {found}")
    want(tidies or "c tidy" not in log, "tidy lines that were not asked for")
    judge_foreign_proof(rng, folder, left, earlier)
    judge_blasted(folder, count, left)
    judge_affine(folder, count, whole)
    return status


def worker(numbers):
    tally, faults, earlier = {}, [], []
    with tempfile.TemporaryDirectory() as folder:
        for number in numbers:
            try:
                status = one(number, folder, earlier)
            except Wrong as wrong:
                faults.append(f"formula {number}: {wrong}")
                status = "wrong"
            tally[status] = tally.get(status, 0) + 1
    return tally, faults


def main():
    words = [int(word) for word in sys.argv[1:]]
    count = words[0] if words else 1000
    seed = words[1] if len(words) > 1 else 1
    workers = words[2] if len(words) > 2 else os.cpu_count()
    first = seed * 1_000_000_000
    chunks = [range(first + at, min(first + at + 250, first + count)) for at in range(0, count, 250)]
    tally, faults = {}, []
    with ProcessPoolExecutor(workers) as pool:
        for part, wrong in pool.map(worker, chunks):
            faults += wrong
            for status, many in part.items():
                tally[status] = tally.get(status, 0) + many
            for line in wrong:
                print(line, flush=True)
    told = ", ".join(f"{tally[k]} with {k}" for k in sorted(tally, key=str))
    print(f"fuzz: {count} formulas of seed {seed}: {told}; {len(faults)} differences")
    return 1 if faults else 0


if __name__ == "__main__":
    sys.exit(main())
