"""What the cases are built from: numbers in a fixed order, rows of tables, and a call with parts replaced."""

import random

from calls import Call

KINDS = ("start", "resume")
HUGE = 2**64 - 1
WORD = 2**32 - 1


def drawer(*place):
    """Numbers in a fixed order, of their own for each place."""
    return random.Random(" ".join(map(str, place)))


def any_numbers(rng, n):
    """Numbers of no meaning: mostly small, so that a line stays short; at times of the whole range."""
    most = rng.choice((1, 1, 9, 9, 9, 9, 9, 9, 9, 9, 9, WORD))
    return [rng.randint(0, most) for _ in range(n)]


def rows_in_order(q, tuples, marks=None):
    """Rows of a stack: a tuple each, and the first k - 1 unknowns marked in row k where no marks are given."""
    return [x for k, t in enumerate(tuples) for x in t + [marks[k] if marks else 2**k - 1]]


def valid(kind, p, q):
    """A call that is not refused where p and q are in range. Its top is the zero tuple, one solution is listed, and there is room for two."""
    rng = drawer("valid", kind, p, q)
    height = min(q, 2)
    stack = rows_in_order(q, [[0] * q] * height)
    stack += any_numbers(rng, q * (q + 1) - len(stack))
    return Call(kind, p, q, [0] * (p * q), stack, any_numbers(rng, 3 * q), [height, 1, 5], 1 if kind == "resume" else 0)


def with_(call, **parts):
    """The call with parts replaced: a field, or an entry as `stack_at=(4, 7)`; `coefs_length=5` cuts or fills up with zeros."""
    c = call.copy()
    for name, value in parts.items():
        if name.endswith("_at"):
            getattr(c, name[:-3])[value[0]] = value[1]
        elif name.endswith("_length"):
            table = getattr(c, name[:-7])
            table[:] = (table + [0] * value)[:value]
        else:
            setattr(c, name, value)
    return c
