"""Faults of a call, alone and by twos, with the number of the refusal that is answered."""

from build import KINDS, WORD, rows_in_order, valid
from calls import MOST_COMPONENT, MOST_STEPS


def entry(table, at, value):
    """A fault that is one entry, whose value may go by the call."""

    def fault(c):
        getattr(c, table)[at] = value(c) if callable(value) else value

    return fault


def length(table, size):
    """A fault that is a length: a table is cut, or filled up with zeros."""

    def fault(c):
        entries = getattr(c, table)
        entries[:] = (entries + [0] * size(c))[: size(c)]

    return fault


def top(place, value):
    """A fault in the row at the height of `valid`, at a place that goes by q."""

    def fault(c):
        c.stack[(min(c.record[0], 2) - 1) * (c.q + 1) + place(c.q)] = value(c.q)

    return fault


def no_equations(c):
    c.p = 0


def nine_equations(c):
    c.p = 9
    c.coefs[:] = [0] * (9 * c.q)


def seventeen_unknowns(c):
    c.q = 17
    c.coefs[:] = [0] * (c.p * 17)
    c.stack[:] = rows_in_order(17, [[0] * 17] * 17)
    c.list[:] = [1] * 51


def child_past_the_limit(c):
    """Components at the limit, and a child of the top past it, which no listed row stops."""
    c.list[:] = [WORD] * len(c.list)
    c.coefs[:] = [2 if i % 2 == 0 else -1 for i in range(len(c.coefs))]
    c.stack[: 2 * (c.q + 1)] = rows_in_order(c.q, [[MOST_COMPONENT] * c.q] * 2)


# The refusal that a fault brings about, and the fault. Of two the one that comes first here is made first: the later ones go by the sizes that it leaves.
FAULTS = (
    (1, no_equations),
    (1, nine_equations),
    (2, seventeen_unknowns),
    (3, length("coefs", lambda c: len(c.coefs) - 1)),
    (3, length("coefs", lambda c: len(c.coefs) + 1)),
    (12, child_past_the_limit),
    (4, length("stack", lambda c: c.q * (c.q + 1) - 1)),
    (6, entry("record", 0, lambda c: c.q + 1)),
    (6, entry("record", 1, lambda c: len(c.list) + 1)),
    (6, entry("record", 2, MOST_STEPS + 1)),
    (6, top(lambda q: 0, lambda q: MOST_COMPONENT + 1)),
    (6, top(lambda q: q, lambda q: 2**q)),
    (6, top(lambda q: q, lambda q: 0)),
    (7, entry("coefs", 0, 10001)),
    (7, entry("coefs", -1, -10001)),
    (14, entry("record", 2, MOST_STEPS)),
    (11, entry("record", 1, lambda c: max(3, c.record[1]))),
)

# Two that cannot be had together: steps above their limit do not stand at it, and a top with a child is no solution.
APART = ({9, 15}, {5, 16})

# Which of two refusals is answered: the lower number before the walk, and in the walk 14 first.
ORDER = (1, 2, 3, 4, 6, 7, 14, 11, 12)


def looks_at(kind, number):
    """Whether a kind of call looks at what a refusal is about."""
    return number in (1, 2, 3, 4, 7) or kind == "resume"


def faults():
    """Each fault alone, and each two of different numbers that can be had together, in the calls that look at them."""
    for kind in KINDS:
        places = [i for i, (number, _) in enumerate(FAULTS) if looks_at(kind, number)]
        for a in places:
            yield made(kind, a), FAULTS[a][0]
        for a in places:
            for b in places:
                if a < b and FAULTS[a][0] != FAULTS[b][0] and {a, b} not in APART:
                    yield made(kind, a, b), min(FAULTS[a][0], FAULTS[b][0], key=ORDER.index)


def made(kind, *places):
    c = valid(kind, 2, 3)
    for place in places:
        FAULTS[place][1](c)
    return c
