#!/usr/bin/env python3
"""Writes a formula of a family in DIMACS with x-lines. The words of SplitMix64 from SEED decide all that is drawn.

usage: bench/make/families.py FAMILY SIZE SEED > FORMULA

noise:    SIZE secret bits, and parities of them of which one in sixteen is wrong: has values
hashing:  SIZE variables, 3 SIZE clauses of three, and parities of half the variables, about as many as leave one solution
queens:   SIZE queens, and parities of half the squares, about as many as leave one solution
stream:   the state of two shift registers of SIZE bits that drive each other, from their output: has values
block:    the key of a cipher of SIZE rounds on words of sixteen bits, from three blocks: has values
factors:  the factors of SIZE bits of a product of two primes: has values
multiply: two multipliers of SIZE bits with exchanged factors differ: has none
adders:   a ripple-carry and a carry-select adder of SIZE bits differ: has none
counters: a binary and a Gray counter, unrolled SIZE steps, differ, with parities of their bits mixed in: has none
grid:     parities at the nodes of a torus of SIZE by SIZE, one of them odd: has none
"""
import sys

sys.dont_write_bytecode = True
from planted import words


class Formula:
    """Lines of constraints over numbered variables, and the gates of circuits."""

    def __init__(self, seed):
        self.count, self.lines, self.word = 0, [], words(seed).__next__

    def draw(self, below):
        return self.word() % below

    def var(self):
        self.count += 1
        return self.count

    def vars(self, count):
        return [self.var() for _ in range(count)]

    def clause(self, *lits):
        self.lines.append(" ".join(map(str, lits)) + " 0")

    def parity(self, lits, right):
        """The sum of these literals is `right`. Of none it is 0."""
        lits = list(lits)
        if not right and lits:
            lits[0] = -lits[0]
        if lits:
            self.lines.append("x" + " ".join(map(str, lits)) + " 0")
        elif right:
            self.clause()

    def fix(self, lit, value):
        self.clause(lit if value else -lit)

    def xor(self, *lits):
        out = self.var()
        self.parity([out, *lits], 0)
        return out

    def both(self, a, b):
        out = self.var()
        self.clause(-out, a)
        self.clause(-out, b)
        self.clause(out, -a, -b)
        return out

    def either(self, a, b):
        return -self.both(-a, -b)

    def majority(self, a, b, c):
        out = self.var()
        for x, y in ((a, b), (a, c), (b, c)):
            self.clause(-out, x, y)
            self.clause(out, -x, -y)
        return out

    def choose(self, if_, then, else_):
        out = self.var()
        self.clause(-if_, -then, out)
        self.clause(-if_, then, -out)
        self.clause(if_, -else_, out)
        self.clause(if_, else_, -out)
        return out

    def differ(self, ones, others):
        """Two words differ somewhere."""
        self.clause(*[self.xor(a, b) for a, b in zip(ones, others)])

    def at_most(self, lits, count):
        """At most so many of the literals are true: a counter that goes from one to the next."""
        before = None
        for at, lit in enumerate(lits):
            now = self.vars(count) if at < len(lits) - 1 else []
            for k, bit in enumerate(now):
                if k == 0:
                    self.clause(-lit, bit)
                elif before:
                    self.clause(-lit, -before[k - 1], bit)
                if before:
                    self.clause(-before[k], bit)
            if before:
                self.clause(-lit, -before[count - 1])
            before = now

    def hashed(self, variables, count):
        """Parities, each of about half the variables."""
        for _ in range(count):
            self.parity([v for v in variables if self.draw(2)], self.draw(2))

    def write(self):
        print(f"p cnf {self.count} {len(self.lines)}")
        print("\n".join(self.lines))


def noise(f, size):
    secret, values = f.vars(size), [f.draw(2) for _ in range(size)]
    wrong, bound = [], 0
    for _ in range(3 * size):
        taken = [k for k in range(size) if f.draw(2)]
        is_wrong = f.draw(16) == 0
        bound += is_wrong
        wrong.append(f.var())
        f.parity([secret[k] for k in taken] + [wrong[-1]], (sum(values[k] for k in taken) + is_wrong) % 2)
    f.at_most(wrong, max(bound, 1))


def three_clauses(f, variables, count):
    for _ in range(count):
        chosen = set()
        while len(chosen) < 3:
            chosen.add(variables[f.draw(len(variables))])
        f.clause(*[v if f.draw(2) else -v for v in sorted(chosen)])


def hashing(f, size):
    variables = f.vars(size)
    three_clauses(f, variables, 3 * size)
    # A clause of three leaves seven eighths of the values: three a variable leave 0.42 bits of each.
    f.hashed(variables, 42 * size // 100)


QUEENS = {6: 4, 7: 40, 8: 92, 9: 352, 10: 724, 11: 2680, 12: 14200}


def queens(f, size):
    square = [f.vars(size) for _ in range(size)]
    for i in range(size):
        f.clause(*square[i])
    for i in range(size):
        for j in range(size):
            for k in range(i, size):
                for m in range(size):
                    if (k, m) > (i, j) and (k == i or m == j or k - i == abs(m - j)):
                        f.clause(-square[i][j], -square[k][m])
    f.hashed(sum(square, []), QUEENS[size].bit_length() - 1)


def stream(f, size):
    """Registers a and b; each takes in two bits of its own, a product of two more, and one bit of the other."""
    a, b = f.vars(size), f.vars(size)
    x, y = ([f.draw(2) for _ in range(size)] for _ in range(2))
    third, half = size // 3, size // 2
    for _ in range(2 * size + 8):
        f.parity([a[-1], a[third], b[-1], b[half]], x[-1] ^ x[third] ^ y[-1] ^ y[half])
        to_b = f.xor(a[-1], a[third], f.both(a[-2], a[-3]), b[third])
        to_a = f.xor(b[-1], b[half], f.both(b[-2], b[-3]), a[half])
        into_y = x[-1] ^ x[third] ^ (x[-2] & x[-3]) ^ y[third]
        into_x = y[-1] ^ y[half] ^ (y[-2] & y[-3]) ^ x[half]
        a, b, x, y = [to_a, *a[:-1]], [to_b, *b[:-1]], [into_x, *x[:-1]], [into_y, *y[:-1]]


def turned(word, by):
    return word[by:] + word[:by]


def block(f, size):
    """A Feistel network: the left word takes in a product of turned bits of the right one, a turned word and a round's key."""
    bits = 16
    key = [f.vars(bits) for _ in range(4)]
    secret = [[f.draw(2) for _ in range(bits)] for _ in range(4)]
    for _ in range(3):
        left, right = ([f.draw(2) for _ in range(bits)] for _ in range(2))
        l, r = f.vars(bits), f.vars(bits)
        for lits, values in ((l, left), (r, right)):
            for lit, value in zip(lits, values):
                f.fix(lit, value)
        for at in range(size):
            k, s = turned(key[at % 4], at // 4), turned(secret[at % 4], at // 4)
            mixed = [f.xor(l[i], f.both(turned(r, 1)[i], turned(r, 8)[i]), turned(r, 2)[i], k[i]) for i in range(bits)]
            value = [left[i] ^ (turned(right, 1)[i] & turned(right, 8)[i]) ^ turned(right, 2)[i] ^ s[i] for i in range(bits)]
            l, r, left, right = r, mixed, right, value
        for lits, values in ((l, left), (r, right)):
            for lit, value in zip(lits, values):
                f.fix(lit, value)


def added(f, a, b):
    """The sum of two words from the lowest bit on, with its carry, by full adders."""
    out, carry = [], None
    for x, y in zip(a, b):
        out.append(f.xor(x, y) if carry is None else f.xor(x, y, carry))
        carry = f.both(x, y) if carry is None else f.majority(x, y, carry)
    return [*out, carry]


def product(f, a, b):
    """The product, row by row; each row adds what the next bit of b gives."""
    rows = [f.both(x, b[0]) for x in a]
    out, high = [rows[0]], rows[1:]
    for bit in b[1:]:
        row = [f.both(x, bit) for x in a]
        if len(high) < len(row):
            low = added(f, high, row[: len(high)])
            last, carry = row[-1], low.pop()
            total = [*low, f.xor(last, carry), f.both(last, carry)]
        else:
            total = added(f, high, row)
        out.append(total[0])
        high = total[1:]
    return out + high


def is_prime(n):
    return n > 1 and all(n % d for d in range(2, int(n**0.5) + 1))


def factors(f, size):
    def prime():
        while True:
            n = (1 << (size - 1)) | f.draw(1 << (size - 1)) | 1
            if is_prime(n):
                return n

    n = prime() * prime()
    a, b = f.vars(size), f.vars(size)
    for at, bit in enumerate(product(f, a, b)):
        f.fix(bit, n >> at & 1)


def multiply(f, size):
    a, b = f.vars(size), f.vars(size)
    f.differ(product(f, a, b), product(f, b, a))


def selected(f, a, b, part):
    """A carry-select adder: each part is added for both carries, and the carry chooses."""
    out, carry = [], None
    for at in range(0, len(a), part):
        x, y = a[at : at + part], b[at : at + part]
        zero = added(f, x, y)
        if carry is None:
            total = zero
        else:
            one = added_one(f, x, y)
            total = [f.choose(carry, p, q) for p, q in zip(one, zero)]
        out, carry = out + total[:-1], total[-1]
    return [*out, carry]


def added_one(f, a, b):
    """The sum of two words and one."""
    out, carry = [], None
    for x, y in zip(a, b):
        out.append(-f.xor(x, y) if carry is None else f.xor(x, y, carry))
        carry = f.either(x, y) if carry is None else f.majority(x, y, carry)
    return [*out, carry]


def adders(f, size):
    a, b = f.vars(size), f.vars(size)
    f.differ(added(f, a, b), selected(f, a, b, 4))


def counters(f, size):
    """Each step both counters count where an input says so. The Gray counter keeps its parity in a bit of its own."""
    bits = 8
    binary, gray, even = f.vars(bits), f.vars(bits), f.var()
    f.fix(even, True)
    for lit in binary + gray:
        f.fix(lit, False)
    seen = []
    for _ in range(size):
        go = f.var()
        seen.append(go)
        carry, following = go, []
        for bit in binary:
            following.append(f.xor(bit, carry))
            carry = f.both(bit, carry)
        # A Gray counter turns its lowest bit where the parity is even, and else the bit after the lowest one that is set.
        turns, none_below = [f.both(go, even)], f.both(go, -even)
        for at in range(1, bits):
            last = at == bits - 1
            turns.append(none_below if last else f.both(none_below, gray[at - 1]))
            none_below = f.both(none_below, -gray[at - 1])
        binary, gray, even = following, [f.xor(g, t) for g, t in zip(gray, turns)], f.xor(even, go)
        seen += binary[:2]
    f.hashed(seen, 2)
    as_gray = [f.xor(x, y) for x, y in zip(binary, binary[1:])] + [binary[-1]]
    f.differ(as_gray, gray)


def grid(f, size):
    right = [f.vars(size) for _ in range(size)]
    down = [f.vars(size) for _ in range(size)]
    odd = f.draw(size * size)
    for i in range(size):
        for j in range(size):
            f.parity([right[i][j], right[i][j - 1], down[i][j], down[i - 1][j]], i * size + j == odd)


FAMILIES = {it.__name__: it for it in (noise, hashing, queens, stream, block, factors, multiply, adders, counters, grid)}


def main(family, size, seed):
    formula = Formula(int(seed))
    FAMILIES[family](formula, int(size))
    formula.write()


if __name__ == "__main__":
    main(*sys.argv[1:])
