"""Drawn calls: in order, with one fault, or of no meaning."""

from build import HUGE, any_numbers, drawer, rows_in_order
from calls import MOST_COMPONENT, MOST_STEPS, Call
from faults import FAULTS, looks_at


def drawn(n):
    rng = drawer("drawn", n)
    c = shaped(rng)
    return rng.choice((c, c, c, c, c, faulty(c, rng), faulty(c, rng), meaningless(c, rng)))


def some(rng, few, many):
    return rng.randint(1, many if rng.randrange(14) == 0 else few)


def shaped(rng):
    """Sizes, coefficients, rows that are in order and a record."""
    kind = rng.choice(("start",) + ("resume",) * 9)
    p, q = some(rng, 2, 8), some(rng, rng.choice((2, 3, 4)), 16)
    size = rng.choice((1, 1, 2, 2, 6, 6, 6, 10000))
    coefs = [rng.randint(-size, size) * rng.choice((0, 1, 1, 1)) for _ in range(p * q)]
    tables = any_numbers(rng, rng.choice((0, 0, 0, 0, 1, q, 9)))
    capacity = rng.choice((0, 1, 1, 2, 2, 3, 4, 6))
    table = any_numbers(rng, capacity * q + rng.choice((0, 0, 0, rng.randrange(q))))
    found = rng.randint(0, min(3, capacity))
    height, rows = levels(rng, q)
    if rng.randrange(3):
        style = rng.randrange(4)
        table[: found * q] = [component(rng, style) for _ in range(found * q)]
    stack = rows + any_numbers(rng, q * (q + 1) - len(rows)) + tables
    steps, budget = counts(rng)
    return Call(kind, p, q, coefs, stack, table, [height, found, steps], budget if kind == "resume" else 0)


def component(rng, style):
    return (rng.randint(0, 1), rng.randint(0, 6), MOST_COMPONENT - rng.choice((0, 0, 1, 2)), rng.randint(0, MOST_COMPONENT))[style]


def levels(rng, q):
    """A height with rows in order: those of a plain start, or drawn ones with drawn marks."""
    if rng.randrange(3) == 0:
        return q, rows_in_order(q, [[int(j == k) for j in range(q)] for k in range(q)])
    height, style = rng.randint(0, q), rng.choice((0, 0, 1, 1, 2, 2, 3))
    tuples = [[component(rng, style) for _ in range(q)] for _ in range(height)]
    if rng.randrange(4) == 0:
        tuples = [[component(rng, rng.randrange(4)) for _ in range(q)] for _ in range(height)]
    return height, rows_in_order(q, tuples, [sum(2**j for j in rng.sample(range(q), k)) for k in range(height)])


def counts(rng):
    """Steps and a budget, which is without bound where few steps are left to the limit."""
    if rng.randrange(6) == 0:
        return MOST_STEPS - rng.randrange(5), rng.choice((3, HUGE))
    return rng.choice((0, rng.randrange(100), rng.randrange(MOST_STEPS))), rng.choice((rng.randrange(4), rng.randrange(30), 150, 150))


def faulty(c, rng):
    c = c.copy()
    if 1 < c.q and 0 < c.record[0]:
        rng.choice([fault for number, fault in FAULTS if looks_at(c.kind, number)])(c)
    return c


def meaningless(c, rng):
    """Numbers of no meaning in the tables, and at times in sizes and record."""
    c = c.copy()
    c.stack[:] = any_numbers(rng, len(c.stack))
    if rng.randrange(2):
        c.record[0] = rng.randrange(3)
        return c
    c.p, c.q = rng.randint(0, 10), rng.randint(0, 18)
    c.record[:2] = [rng.choice((rng.randrange(3), HUGE)), rng.choice((rng.randrange(3), rng.randrange(2**32)))]
    if rng.randrange(2):
        c.coefs[:] = [rng.randint(-2, 2) for _ in range(min(c.p * c.q, 160))]
    return c
