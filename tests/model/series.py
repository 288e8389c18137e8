"""Runs as series of calls, and rows asked of the reader."""

from build import HUGE, any_numbers, drawer, with_
from calls import Call

MAP = (2, 4, [-1, 1, 2, -3, -1, 3, -2, -1])
RUNS = (
    (1, 1, [0]),
    (1, 1, [5]),
    (1, 2, [2, -3]),
    (1, 3, [1, 1, -1]),
    (1, 3, [0, 0, 0]),
    (2, 2, [1, -1, 1, 1]),
    MAP,
    (1, 2, [10000, -10000]),
    (1, 4, [-1, 1, 2, -3]),
)
BUDGETS = ((1,), (0, 2, 0, 1), (7,), (3, 0, 3, 7), (HUGE,))


def series():
    """The start of each run, and its budgets in turn: calls of a run, each on what the one before left."""
    for n, system in enumerate(RUNS):
        for budgets in BUDGETS:
            yield run_of(("series", n), system), budgets
    yield with_(run_of(("room", 1), MAP), list_length=7), (4,)
    for n in range(60):
        rng = drawer("system", n)
        p, q = rng.randint(1, 2), rng.randint(2, 4)
        system = p, q, [rng.randint(-3, 3) for _ in range(p * q)]
        yield run_of(("drawn", n), system), (rng.randint(0, 3), rng.randint(1, 9))


def run_of(place, system):
    """The start of a run, on tables that are longer than they need be and a record, all of no meaning."""
    rng = drawer(*place)
    p, q, coefs = system
    stack, table = any_numbers(rng, q * (q + 1) + rng.randrange(4)), any_numbers(rng, 6 * q + rng.randrange(q))
    return Call("start", p, q, coefs, stack, table, [rng.randrange(HUGE) for _ in range(3)])


def views():
    for q in (0, 1, 2, 16, 17, HUGE):
        for n in (0, 1, 2, 3, HUGE):
            yield q, list(range(1, 36)), 2, n
    for length in (0, 1, 2, 3, 5, 6, 7):
        for found in (0, 1, 2, 3, HUGE):
            for n in (0, 1, 2, 3):
                yield 3, list(range(5, 5 + length)), found, n
    for n in range(100):
        rng = drawer("view", n)
        q = rng.randint(1, 16)
        yield q, any_numbers(rng, rng.randint(0, 4 * q)), rng.randint(0, 4), rng.randint(0, 5)
