"""The second walk's calls of document 02, Job 10, on flat tables, written from the documents alone: what is lent, and what a call answers and leaves.

A record is the words that callers in other languages hand over: height, found, steps, kind, second, before, deepest. The kind of these runs is 4. An
answer is one number: complete 0, started 100, paused 101, else a refusal's, with 256 times the place of 7 added."""

LIMIT, STEPS, DEEPEST, MOST, IMAGE, COEFFICIENT = 1_000_000, 10**12, 16_000_000, 64, 7_000_000, 10_000
HEIGHT, FOUND, TAKEN, KIND, SECOND, BEFORE, DEEP = range(7)
COMPLETE, STARTED, PAUSED, DESKS = 0, 100, 101, 4


class Lent:
    """all that a call is handed"""

    def __init__(self, p, q, coefs, loops, stack, rows, words):
        self.p, self.q, self.coefs, self.loops = p, q, list(coefs), list(loops)
        self.stack, self.rows, self.words = list(stack), list(rows), list(words)

    def copy(self):
        return Lent(self.p, self.q, self.coefs, self.loops, self.stack, self.rows, self.words)

    def count(self):
        return len(self.loops) // self.q

    def loop(self, k):
        return self.loops[k * self.q : (k + 1) * self.q]

    def tuple(self, k):
        return self.stack[k * (self.q + 2) :][: self.q]

    def marks(self, k):
        low, high = self.stack[k * (self.q + 2) + self.q :][:2]
        return low + (high << 32)

    def row(self, k):
        return self.rows[k * self.q : (k + 1) * self.q]

    def write(self, k, x, marks):
        base = k * (self.q + 2)
        self.stack[base : base + self.q + 2] = x + [marks & 0xFFFFFFFF, marks >> 32]

    def image(self, x):
        return [sum(self.coefs[i * self.q + j] * x[j] for j in range(self.q)) for i in range(self.p)]


def below(s, t):
    return all(a <= b for a, b in zip(s, t))


def shape(c):
    if not 1 <= c.p <= 8:
        return 1
    if not 1 <= c.q <= 16:
        return 2
    if len(c.coefs) != c.p * c.q or len(c.loops) % c.q:
        return 3
    if len(c.stack) < c.count() * (c.q + 2):
        return 4
    return None


def row_in_order(c, k):
    marks = c.marks(k)
    return max(c.tuple(k)) <= LIMIT and marks >> c.count() == 0 and bin(marks).count("1") == k


def in_order(c):
    w = c.words
    if len(w) != 7 or w[KIND] != DESKS:
        return False
    if w[HEIGHT] > c.count() or w[FOUND] > len(c.rows) // c.q or w[TAKEN] > STEPS or w[DEEP] > DEEPEST:
        return False
    return all(row_in_order(c, k) for k in range(w[HEIGHT]))


def ranges(c):
    for i, x in enumerate(c.coefs):
        if abs(x) > COEFFICIENT:
            return 7 + 256 * (i + 1)
    if c.count() > MOST or any(abs(y) > IMAGE for k in range(c.count()) for y in c.image(c.loop(k))):
        return 25
    return None


def start(c):
    refusal = shape(c)
    if refusal:
        return refusal
    if len(c.words) != 7 or any(x > LIMIT for x in c.loops):
        return 6
    refusal = ranges(c)
    if refusal:
        return refusal
    for k in range(c.count()):
        c.write(k, c.loop(k), (1 << k) - 1)
    c.words = [c.count(), 0, 0, DESKS, 0, 0, 0]
    return STARTED


def swept(rows):
    """of some rows those that stay"""
    return [x for i, x in enumerate(rows) if not any(below(y, x) and (y != x or k < i) for k, y in enumerate(rows))]


def sweep(c):
    kept = swept([c.row(k) for k in range(c.words[FOUND])])
    for k, x in enumerate(kept):
        c.rows[k * c.q : (k + 1) * c.q] = x
    c.words[FOUND] = len(kept)


def solution(c, x):
    """the number of the refusal where the list is full and stays so"""
    if c.words[FOUND] >= len(c.rows) // c.q:
        if len(swept([c.row(k) for k in range(c.words[FOUND])])) >= len(c.rows) // c.q:
            return 11
        sweep(c)
    found = c.words[FOUND]
    c.rows[found * c.q : (found + 1) * c.q] = x
    c.words[FOUND] += 1
    c.words[HEIGHT] -= 1
    return None


def children(c, level, x, y):
    marks, made = c.marks(level), []
    for j in range(c.count()):
        z = [a + b for a, b in zip(x, c.loop(j))]
        product = sum(a * b for a, b in zip(y, c.image(c.loop(j))))
        if not marks >> j & 1 and product < 0 and not any(below(c.row(k), z) for k in range(c.words[FOUND])):
            made.append((j, z))
    if any(a > LIMIT for _, z in made for a in z):
        return 12
    for n, (j, z) in enumerate(made):
        c.write(level + n, z, marks)
        marks |= 1 << j
    c.words[HEIGHT] = level + len(made)
    return None


def resume(c, budget):
    refusal = shape(c)
    if refusal:
        return refusal
    if any(x > LIMIT for x in c.loops) or not in_order(c):
        return 6
    refusal = ranges(c)
    if refusal:
        return refusal
    while c.words[HEIGHT]:
        if budget == 0:
            return PAUSED
        if c.words[TAKEN] == STEPS:
            return 14
        level = c.words[HEIGHT] - 1
        x = c.tuple(level)
        y = c.image(x)
        refusal = children(c, level, x, y) if any(y) else solution(c, x)
        if refusal:
            return refusal
        c.words[TAKEN] += 1
        c.words[DEEP] = max(c.words[DEEP], sum(x))
        budget -= 1
    sweep(c)
    return COMPLETE
