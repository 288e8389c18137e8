#!/usr/bin/env python3
"""The engine's calls, its own reading of their definition: plain lists, no table beside the rows, every search from the beginning. And vectors of calls.

    tests/engine/model.py [CALLS [SEED]]    writes vectors of about so many calls, 2000 if not given: what each is lent, what it answers, what it leaves

A vector is ten lines, each a word, the number of its numbers, and the numbers:

    call       0 start, 1 combine, 2 take, 3 resume, 4 start from a list, 5 start for right sides and a lower bound; p; q; then the call's own arguments
               (combine: r u s t; take: e f; resume: budget; start from a list: the number of rows, which are what the table holds; for right sides: the
               right sides, and the bound is what the table holds)
    coefs      the starts only, else none
    equations  basis  table  mothers  record     what is lent
    beside     the lengths of sizes, values, words, degrees and marks, which have nothing that matters
    answer     the answer, its place above its low 8 bits
    left       equations, basis, table and record after the call, one after the other

Runs are drawn: small maps, calls in and out of turn, pauses after every number of turns, tables that are too short, records and tables damaged."""
import random
import sys

MOST, LIMIT, MAP_LIMIT, STEP_LIMIT, MOST_ROWS, WORDS = 32, 10**6, 10**4, 10**12, 10**9, 11
DONE, EQUATION, FRESH, COUNT, ROWS, TAKEN, DEGREE, UPPER, LOWER, STEPS, CAP = range(11)
COMPLETE, STARTED, PAUSED = 0, 100, 101


class Lent:
    """The tables and the record; of the tables that are the calls' own space only the lengths."""

    def __init__(self, equations, basis, table, mothers, record, beside):
        self.equations, self.basis, self.table, self.mothers, self.record, self.beside = equations, basis, table, mothers, record, beside

    def copy(self):
        return Lent(*(list(x) for x in (self.equations, self.basis, self.table, self.mothers, self.record, self.beside)))

    def most(self, q):
        return min(len(self.basis) // q, self.beside[0], MOST_ROWS)

    def room(self, q):
        return min(len(self.table) // q, *self.beside[1:], len(self.mothers), MOST_ROWS)

    def row(self, q, i):
        return self.table[i * q : i * q + q]

    def basis_row(self, q, i):
        return self.basis[i * q : i * q + q]


def value(c, x):
    return sum(a * b for a, b in zip(c, x))


# ---- refusals: 0 where there is none


def size_refusal(p, q):
    return 1 if not 1 <= p <= MOST else 2 if not 1 <= q <= MOST else 0


def in_order(p, q, w):
    r = w.record
    if r[COUNT] > w.most(q) or r[ROWS] > w.room(q) or r[STEPS] > STEP_LIMIT or r[DONE] >= 2**p or r[EQUATION] > p:
        return False
    if r[EQUATION] < p and r[DONE] >> r[EQUATION] & 1:
        return False
    if any(abs(c) > LIMIT for c in w.equations[: p * q]):
        return False
    if any(x > LIMIT for x in w.basis[: r[COUNT] * q]) or any(x > LIMIT for x in w.table[: r[ROWS] * q]):
        return False
    if any(sum(w.basis_row(q, i)) == 0 for i in range(r[COUNT])):
        return False
    degrees = [sum(w.row(q, i)) for i in range(r[ROWS])]
    return all(0 < d <= r[DEGREE] for d in degrees) and degrees == sorted(degrees)


def standing(p, q, w):
    refusal = size_refusal(p, q)
    if refusal:
        return refusal
    if len(w.equations) < p * q or w.most(q) < q:
        return 4
    return 6 if len(w.record) != WORDS or not in_order(p, q, w) else 0


# ---- the calls: each changes what is lent and gives the answer


def start(p, q, coefs, w):
    refusal = size_refusal(p, q)
    if refusal:
        return refusal
    if len(coefs) != p * q:
        return 3
    if len(w.equations) < p * q or w.most(q) < q:
        return 4
    if len(w.record) != WORDS or w.record[DONE] >= 2**32:
        return 6
    for place, c in enumerate(coefs, 1):
        if abs(c) > MAP_LIMIT:
            return 7 + 256 * place
    w.equations[: p * q] = coefs
    w.basis[: q * q] = [int(i == j) for i in range(q) for j in range(q)]
    w.record[:] = [0, p, q, q, 0, 0, 0, 0, 0, 0, 0]
    return STARTED


def start_sides(p, q, coefs, rights, lower, w):
    refusal = size_refusal(p, q)
    if refusal:
        return refusal
    if q == MOST:
        return 2
    if len(coefs) != p * q or len(rights) != p:
        return 3
    if len(w.equations) < p * (q + 1) or w.most(q + 1) < q + 1:
        return 4
    if len(lower) != q:
        return 5
    if len(w.record) != WORDS or w.record[DONE] >= 2**32:
        return 6
    for place, c in enumerate(coefs, 1):
        if abs(c) > MAP_LIMIT:
            return 7 + 256 * place
    if any(x > LIMIT for x in lower):
        return 8
    if any(abs(b) > MAP_LIMIT for b in rights):
        return 15
    sides = [rights[i] - value(coefs[i * q : i * q + q], lower) for i in range(p)]
    for place, b in enumerate(sides, 1):
        if abs(b) > LIMIT:
            return 35 + 256 * place
    w.equations[: p * (q + 1)] = [c for i in range(p) for c in [-sides[i], *coefs[i * q : i * q + q]]]
    w.basis[: (q + 1) ** 2] = [int(i == j) for i in range(q + 1) for j in range(q + 1)]
    w.record[:] = [0, p, q + 1, q + 1, 0, 0, 0, 0, 0, 0, 1]
    return STARTED


def is_list(q, n, rows):
    return len(rows) == n * q and all(x <= LIMIT for x in rows) and all(sum(rows[i * q : i * q + q]) > 0 for i in range(n))


def start_from(p, q, coefs, n, rows, w):
    refusal = size_refusal(p, q)
    if refusal:
        return refusal
    if len(coefs) != p * q:
        return 3
    if len(w.equations) < p * q or w.most(q) < max(q, n):
        return 4
    if len(w.record) != WORDS or w.record[DONE] >= 2**32 or not is_list(q, n, rows):
        return 6
    for place, c in enumerate(coefs, 1):
        if abs(c) > MAP_LIMIT:
            return 7 + 256 * place
    w.equations[: p * q] = coefs
    w.basis[: n * q] = rows
    w.record[:] = [0, p, q, n, 0, 0, 0, 0, 0, 0, 0]
    return STARTED


def is_left(p, w, e):
    return w.record[EQUATION] == p and e < p and not w.record[DONE] >> e & 1


def combine(p, q, w, r, u, s, t):
    refusal = standing(p, q, w)
    if refusal:
        return refusal
    if not is_left(p, w, r) or s >= p:
        return 32
    row = [u * w.equations[r * q + j] + t * w.equations[s * q + j] for j in range(q)]
    if u == 0 or (r == s and t != 0) or any(abs(c) > LIMIT for c in row):
        return 34
    w.equations[r * q : r * q + q] = row
    return STARTED


def is_alone(q, w, f):
    """Whether of the basis one row has the unknown f, and only rows of degree 1."""
    having = [sum(row) for row in (w.basis_row(q, i) for i in range(w.record[COUNT])) if row[f] > 0]
    return bool(having) and all(degree == 1 for degree in having)


def is_fresh(p, q, w, e, f):
    if (w.record[CAP] > 0 and f == 0) or f >= q or w.equations[e * q + f] != -1:
        return False
    return all(w.equations[i * q + f] == 0 for i in range(p) if w.record[DONE] >> i & 1) and is_alone(q, w, f)


def take(p, q, w, e, f):
    refusal = standing(p, q, w)
    if refusal:
        return refusal
    if not is_left(p, w, e):
        return 32
    if f != q and not is_fresh(p, q, w, e, f):
        return 33
    if f < q:
        keep = [row for row in (w.basis_row(q, i) for i in range(w.record[COUNT])) if row[f] == 0]
        w.basis[: len(keep) * q] = [x for row in keep for x in row]
        w.record[COUNT] = len(keep)
    w.record[EQUATION], w.record[FRESH] = e, f
    w.record[ROWS : LOWER + 1] = [0] * 5
    return STARTED


def reduced(q, c, w, z):
    v = value(c, z)
    low, high = min(v, 0), max(v, 0)
    rows = (w.row(q, i) for i in range(w.record[ROWS]))
    return any(low <= value(c, x) <= high and all(a <= b for a, b in zip(x, z)) for x in rows)


def append(q, w, x):
    at = w.record[ROWS] * q
    w.table[at : at + q] = x
    w.record[ROWS] += 1


def due_pair(q, c, w):
    r = w.record
    values = [value(c, w.row(q, i)) for i in range(r[ROWS])]
    degrees = [sum(w.row(q, i)) for i in range(r[ROWS])]
    for h in range(r[UPPER], r[ROWS]):
        for k in range(r[LOWER] if h == r[UPPER] else 0, r[ROWS]):
            if values[h] > 0 > values[k] and degrees[h] + degrees[k] == r[DEGREE]:
                return h, k
    return None


def next_degree(q, c, w):
    r = w.record
    rows = [w.row(q, i) for i in range(r[ROWS])]
    degrees = [sum(w.basis_row(q, i)) for i in range(r[COUNT])]
    degrees += [sum(x) + sum(y) for x in rows for y in rows if value(c, x) > 0 > value(c, y)]
    return min((d for d in degrees if d > r[DEGREE]), default=None)


def turn(p, q, w):
    """None where the stage goes on, else the answer."""
    r = w.record
    c = w.equations[r[EQUATION] * q : r[EQUATION] * q + q]
    if r[STEPS] == STEP_LIMIT:
        return 14
    due = next((i for i in range(r[TAKEN], r[COUNT]) if sum(w.basis_row(q, i)) == r[DEGREE]), None)
    if due is not None:
        if r[ROWS] == w.room(q):
            return 31
        append(q, w, w.basis_row(q, due))
        r[TAKEN] = due + 1
    else:
        pair = due_pair(q, c, w)
        if pair is not None:
            h, k = pair
            z = [a + b for a, b in zip(w.row(q, h), w.row(q, k))]
            if not (0 < r[CAP] < z[0]) and not reduced(q, c, w, z):
                if max(z) > LIMIT:
                    return 12
                if r[ROWS] == w.room(q):
                    return 31
                append(q, w, z)
            r[UPPER], r[LOWER] = h, k + 1
        else:
            degree = next_degree(q, c, w)
            if degree is None:
                return end(p, q, c, w)
            r[DEGREE], r[TAKEN], r[UPPER], r[LOWER] = degree, 0, 0, 0
    r[STEPS] += 1
    return None


def end(p, q, c, w):
    r, f = w.record, w.record[FRESH]
    rows = [w.row(q, i) for i in range(r[ROWS])]
    if f < q:
        if any(value(c, x) > LIMIT for x in rows):
            return 12
        left = [x[:f] + [value(c, x)] + x[f + 1 :] for x in rows if value(c, x) >= 0]
    else:
        left = [x for x in rows if value(c, x) == 0]
    if len(left) > w.most(q):
        return 31
    w.basis[: len(left) * q] = [x for row in left for x in row]
    w.record[:] = [r[DONE] | 1 << r[EQUATION], p, q, len(left), 0, 0, 0, 0, 0, r[STEPS] + 1, r[CAP]]
    return rested(p, w)


def rested(p, w):
    return COMPLETE if w.record[DONE] == 2**p - 1 else PAUSED


def resume(p, q, w, budget):
    refusal = standing(p, q, w)
    if refusal:
        return refusal
    if w.record[EQUATION] == p:
        return rested(p, w)
    for _ in range(budget):
        answer = turn(p, q, w)
        if answer is not None:
            return answer
    return PAUSED


# ---- vectors


def line(word, numbers):
    return f"{word} {len(numbers)}" + "".join(f" {x}" for x in numbers) + "\n"


class Drawn:
    """Writes runs as vectors. A call on what was damaged, or out of turn, is made on a copy, so that the run itself goes on."""

    def __init__(self, out, seed):
        self.out, self.r, self.calls = out, random.Random(seed), 0

    def call(self, kind, p, q, w, own, coefs=()):
        before = w.copy()
        if kind == 0:
            answer = start(p, q, list(coefs), w)
        elif kind == 4:
            answer = start_from(p, q, list(coefs), own[0], before.table, w)
        elif kind == 5:
            answer = start_sides(p, q, list(coefs), list(own), before.table, w)
        else:
            answer = (combine, take, resume)[kind - 1](p, q, w, *own)
        self.written(kind, p, q, own, coefs, before, answer, w)
        self.calls += 1
        return answer

    def written(self, kind, p, q, own, coefs, before, answer, after):
        self.out.write(line("call", [kind, p, q, *own]) + line("coefs", coefs))
        for word in ("equations", "basis", "table", "mothers", "record", "beside"):
            self.out.write(line(word, getattr(before, word)))
        self.out.write(line("answer", [answer]) + line("left", after.equations + after.basis + after.table + after.record))

    def lent(self, p, q, rows):
        junk = lambda n, most: [self.r.randint(0, most) for _ in range(n)]
        return Lent(junk(p * q, 3), junk(rows * q, 3), junk(rows * q, 3), junk(rows, 2 * rows), junk(WORDS, 9), [rows] * 5)

    def system(self):
        r = self.r
        p, q = r.randint(1, 3), r.randint(1, 5)
        most = r.choice([1, 1, 2, 3, 7])
        return p, q, [r.choice([0, 1, 1]) * r.randint(-most, most) for _ in range(p * q)]

    def damage(self, p, q, w):
        """One thing changed: what is out of order is refused, what is not changes the run."""
        r, kind = self.r, self.r.randrange(12)
        large = [0, 1, 2, LIMIT, LIMIT + 1, 2**32 - 1]
        if kind < 5 and w.record:
            at = r.randrange(len(w.record))
            near = [w.record[at] + 1, max(w.record[at] - 1, 0), r.randint(0, 9)]
            w.record[at] = min(r.choice(near + [2**64 - 1, STEP_LIMIT, 2**32]), 2**64 - 1)
        elif kind == 5 and w.table:
            w.table[r.randrange(min(len(w.table), 4 * q))] = r.choice(large)
        elif kind == 6 and w.basis:
            w.basis[r.randrange(min(len(w.basis), 2 * q))] = r.choice(large)
        elif kind == 7 and w.equations:
            w.equations[r.randrange(len(w.equations))] = r.choice([-1, 0, 1, LIMIT, -LIMIT, LIMIT + 1, -LIMIT - 1])
        elif kind == 8:
            w.beside[r.randrange(5)] = r.randint(0, 3)
        elif kind == 9 and w.mothers:
            w.mothers[r.randrange(len(w.mothers))] = r.choice([0, 1, 2, 3, 2**32 - 1])
        elif kind == 10:
            del w.record[-1:]
        elif kind == 11:
            short = r.choice([w.equations, w.basis, w.table, w.mothers])
            del short[r.randint(0, len(short)) :]

    def anything(self, p, q, w):
        """A call that may be out of turn."""
        r, kind = self.r, self.r.randrange(4)
        wide = r.randrange(8) == 0
        p, q = (r.choice([0, p, 33]), r.choice([0, q, 33])) if wide else (p, q)
        place = lambda n: r.randint(0, n + 1)
        if kind == 0 and r.randrange(8) == 0:
            self.call(0, p, q, w, [], [r.choice([1, -1, 0, 10001, -10001, 10000]) for _ in range(p * q if r.randrange(4) else 3)])
        elif kind == 1:
            self.call(1, p, q, w, [place(p), r.choice([0, 1, -1, 2, 2**30, -(2**31)]), place(p), r.choice([0, 1, -1, 3, 2**31 - 1])])
        elif kind == 2:
            self.call(2, p, q, w, [place(p), place(q)])
        else:
            self.call(3, p, q, w, [r.choice([0, 1, 3])])

    def stage(self, p, q, w, budget):
        """The next equation as it is, after a row operation, or with a fresh unknown; to its end."""
        r = self.r
        e = r.choice([i for i in range(p) if not w.record[DONE] >> i & 1])
        if p > 1 and r.randrange(3) == 0:
            self.call(1, p, q, w, [e, r.choice([1, -1, 2]), (e + 1) % p, r.choice([1, -1, 2])])
        fresh = [f for f in range(q) if is_fresh(p, q, w, e, f)]
        if fresh and w.record[COUNT] > 0 and r.randrange(3) == 0:
            other, f = w.copy(), r.choice(fresh)
            for i in range(w.record[COUNT]) if r.randrange(2) else [r.randrange(w.record[COUNT])]:
                other.basis[i * q + f] = r.choice([0, 1, 2])
            self.call(2, p, q, other, [e, f])
        self.call(2, p, q, w, [e, r.choice(fresh) if fresh and r.randrange(3) else q])
        for _ in range(400):
            if r.randrange(12) == 0:
                other = w.copy()
                self.damage(p, q, other)
                self.call(3, p, q, other, [r.choice([1, 2, 20])])
            if self.call(3, p, q, w, [budget]) != PAUSED or w.record[EQUATION] == p:
                return

    def run(self):
        p, q, coefs = self.system()
        w = self.lent(p, q, self.r.choice([q, q + 1, 2 * q, 12, 40]) if self.r.randrange(3) else 60)
        if self.call(0, p, q, w, [], coefs) != STARTED:
            return
        budget = self.r.choice([1, 1, 2, 5, 1000])
        for _ in range(2 * p):
            if self.r.randrange(2):
                other = w.copy()
                self.anything(p, q, other)
            if self.r.randrange(2):
                other = w.copy()
                for _ in range(self.r.randint(1, 2)):
                    self.damage(p, q, other)
                self.anything(p, q, other)
            if w.record[EQUATION] != p or w.record[DONE] == 2**p - 1:
                return
            self.stage(p, q, w, budget)

    def spoiled(self, p, q, w, n, coefs):
        """A start from a list with one or two faults."""
        r, w, coefs, row = self.r, w.copy(), list(coefs), self.r.randrange(n) if n > 0 else 0
        for kind in r.sample(range(12), r.randint(1, 2)):
            if kind == 0:
                p = r.choice([0, 33])
            elif kind == 1:
                q = r.choice([0, 33])
            elif kind == 2:
                del coefs[-1:]
            elif kind == 3:
                short = r.choice([w.equations, w.basis, w.table])
                del short[r.randint(0, max(len(short) - 1, 0)) :]
            elif kind == 4:
                w.beside[0] = min(r.choice([max(n - 1, 0), n, n + 1]), 200)
            elif kind < 7:
                n = r.choice([n + 1, max(n - 1, 0), 10**9 + 1, 2**63, 2**64 - 1])
            elif kind == 7 and w.table:
                w.table[min(len(w.table) - 1, row * max(q, 1))] = r.choice([LIMIT, LIMIT + 1, 2**32 - 1])
            elif kind == 8:
                w.table[row * q : row * q + q] = [0] * len(w.table[row * q : row * q + q])
            elif kind == 9 and coefs:
                coefs[r.randrange(len(coefs))] = r.choice([10000, 10001, -10000, -10001])
            elif kind == 10:
                w.record[DONE] = r.choice([2**32 - 1, 2**32])
            elif kind == 11:
                del w.record[-1:]
        self.call(4, p, q, w, [n], coefs)

    def group(self):
        """The list of a map handed over to further equations: the start with faults and as it is, and its stages to their end."""
        p, q, coefs = self.system()
        w = self.lent(p, q, 60)
        start(p, q, coefs, w)
        for e in range(p):
            take(p, q, w, e, q)
            if resume(p, q, w, 4000) not in (PAUSED, COMPLETE) or w.record[EQUATION] != p:
                return
        n, p = w.record[COUNT], self.r.randint(1, 3)
        further = [self.r.choice([0, 1, 1]) * self.r.randint(-3, 3) for _ in range(p * q)]
        v = self.lent(p, q, self.r.choice([max(q, n), max(q, n) + 1, 60]))
        v.table[:] = w.basis[: n * q]
        for _ in range(4):
            self.spoiled(p, q, v, n, further)
        if self.call(4, p, q, v, [n], further) != STARTED:
            return
        v.table[:] = [self.r.randint(0, 3) for _ in range(60 * q)]
        v.mothers[:], v.beside[1:] = [self.r.randint(0, 120) for _ in range(60)], [60] * 4
        while v.record[EQUATION] == p and v.record[DONE] != 2**p - 1:
            self.stage(p, q, v, self.r.choice([5, 1000]))

    def misgiven(self, p, q, w, coefs, rights):
        """A start for right sides and a bound with one or two faults."""
        r, w, coefs, rights = self.r, w.copy(), list(coefs), list(rights)
        for kind in r.sample(range(10), r.randint(1, 2)):
            if kind == 0:
                p = r.choice([0, 33])
            elif kind == 1:
                q = r.choice([0, 32, 33, 2**64 - 1])
            elif kind == 2:
                del r.choice([coefs, rights])[-1:]
            elif kind == 3:
                short = r.choice([w.equations, w.basis, w.table])
                del short[r.randint(0, max(len(short) - 1, 0)) :]
            elif kind == 4:
                w.beside[0] = min(r.choice([q, q + 1]), 40)
            elif kind == 5 and coefs:
                coefs[r.randrange(len(coefs))] = r.choice([10000, 10001, -10000, -10001])
            elif kind == 6 and w.table:
                w.table[r.randrange(len(w.table))] = r.choice([LIMIT, LIMIT + 1, 2**32 - 1])
            elif kind == 7 and rights:
                rights[r.randrange(len(rights))] = r.choice([10000, 10001, -10000, -10001])
            elif kind == 8:
                w.record[DONE] = r.choice([2**32 - 1, 2**32])
            elif kind == 9:
                del w.record[-1:]
        self.call(5, p, q, w, rights, coefs)

    def sides(self):
        """A map with right sides, a lower bound or both: the start with faults and as it is, and its stages to their end."""
        r = self.r
        p, q, coefs = self.system()
        q = min(q, 4)
        coefs = coefs[: p * q]
        rights, lower = [r.choice([0, 1]) * r.randint(-4, 4) for _ in range(p)], [r.choice([0, 0, 1]) * r.randint(0, 3) for _ in range(q)]
        w = self.lent(p, q + 1, r.choice([q + 1, q + 2, 12, 60]))
        w.table[:] = lower
        for _ in range(3):
            self.misgiven(p, q, w, coefs, rights)
        if len(coefs) != p * q or self.call(5, p, q, w, rights, coefs) != STARTED:
            return
        w.table[:] = [r.randint(0, 3) for _ in range(60 * (q + 1))]
        w.mothers[:], w.beside[1:] = [r.randint(0, 120) for _ in range(60)], [60] * 4
        other = w.copy()
        self.call(2, p, q + 1, other, [r.randrange(p), 0])
        while w.record[EQUATION] == p and w.record[DONE] != 2**p - 1:
            self.stage(p, q + 1, w, r.choice([1, 5, 1000]))

    def edges(self):
        """Sums and values above the limit of a component, and steps at theirs."""
        for big in (LIMIT // 2, LIMIT // 2 + 1, LIMIT):
            w = self.lent(1, 3, 6)
            w.equations[:], w.basis[:6] = [0, 1, -1], [big, 1, 0, big, 0, 1]
            w.record[:] = [0, 0, 3, 2, 0, 0, 0, 0, 0, 0, 0]
            while self.call(3, 1, 3, w, [2]) == PAUSED:
                pass
        for times in (LIMIT // 2, LIMIT // 2 + 1):
            w = self.lent(2, 3, 6)
            self.call(0, 2, 3, w, [], [2, -1, 0, 0, 10000, 1])
            w.equations[4] = times
            self.call(1, 2, 3, w, [1, 1, 1, 0])
            self.call(1, 2, 3, w, [1, -1, 1, 0])
            w.equations[4] = times
            for e, f in ((0, 1), (1, 2)):
                self.call(2, 2, 3, w, [e, f])
                self.call(3, 2, 3, w, [100])
        for u, t in ((2**31 - 1, -(2**31) + 1), (-(2**31), -(2**31)), (2**30, -(2**30) + 1), (2**31 - 1, 1)):
            w = self.lent(2, 2, 6)
            self.call(0, 2, 2, w, [], [3, -3, 3, -3])
            self.call(1, 2, 2, w, [0, u, 1, t])
        w = self.lent(MOST, 5, 12)
        self.call(0, MOST, 5, w, [], [1, 0, 0, -1, 0] + [0] * (30 * 5) + [0, 2, -1, 0, -1])
        for e in range(MOST):
            self.call(2, MOST, 5, w, [e, 5])
            while self.call(3, MOST, 5, w, [9]) == PAUSED and w.record[EQUATION] == e:
                pass
        for times, above in ((100, 0), (100, 1), (-100, 0), (-100, 1)):
            w = self.lent(2, 3, 6)
            w.table[:] = [10000, above]
            self.call(5, 2, 2, w, [0, 0], [1, 0, times, 1 if times > 0 else -1])
        w = self.lent(1, 32, 40)
        w.table[:] = [0] * 31
        self.call(5, 1, 31, w, [10000], [-1] * 31)
        for before in range(4):
            w = self.lent(1, 2, 6)
            self.call(0, 1, 2, w, [], [1, -1])
            w.record[STEPS] = STEP_LIMIT - before
            self.call(2, 1, 2, w, [0, self.r.choice([1, 2])])
            self.call(3, 1, 2, w, [1])
            self.call(3, 1, 2, w, [100])


def main():
    calls, seed = (int(sys.argv[i]) if len(sys.argv) > i else default for i, default in ((1, 2000), (2, 1)))
    drawn = Drawn(sys.stdout, seed)
    drawn.edges()
    while drawn.calls < calls:
        drawn.run()
    while drawn.calls < calls + calls // 2:
        drawn.group()
    while drawn.calls < 2 * calls:
        drawn.sides()


if __name__ == "__main__":
    main()
