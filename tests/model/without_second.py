"""Runs from a lower bound with the second list (document 02, job 4: lower.py) against the same runs without it (document 01: "A floor start writes row 1
only: the floor, no marks."), on drawn maps: "Which tuples a finished floor run lists does not change." Run as a program it compares them, list by list in
order, and asks that there are never more steps from the bound. Not in the gate, which replays vectors."""

import sys
from collections import Counter

import lower
from build import drawer
from calls import MOST_COMPONENT, Refusal
from capped import Call
from lower import BOUND_WALK, FOUND, HEIGHT, STEPS

MAPS, ROOM, STEPS_OF_A_RUN = 1500, 400, 5000


def without_second(c):
    """Document 01's floor run: the walk from the bound alone, with no row of a second list. So it is that of a run whose plain walk listed nothing."""
    c.write_row(1, c.lower[:], 0)
    c.record[:] = [BOUND_WALK, 1, 0, 0, 0, 0, 0]
    return ended(c)


def with_second(c):
    assert lower.answered(c) == ("Started",)
    c.kind = "on"
    return ended(c)


def ended(c):
    """The answer after so many steps of the walk from the bound at most."""
    try:
        while c.record[STEPS] < STEPS_OF_A_RUN:
            lower.change(c)
            if c.record[HEIGHT] == 0:
                return ("Complete",)
            lower.step(c)
    except Refusal as refusal:
        return refusal.answer
    return ("Paused",)


def drawn(n):
    """1 to 3 equations, 1 to 5 unknowns, coefficients up to 1, 2, 3 or 6 in size, a bound of 0 to 5; every fourth time a component of the bound is far off."""
    rng = drawer("without second", n)
    p, q, size = rng.randint(1, 3), rng.randint(1, 5), rng.choice((1, 2, 3, 6))
    bound = [rng.randint(0, 5) for _ in range(q)]
    if n % 4 == 0:
        bound[rng.randrange(q)] = rng.randint(20, 60)
    coefs = [rng.randint(-size, size) for _ in range(p * q)]
    return Call("from", p, q, coefs, [], [0] * (q * (q + 1)), [0] * (ROOM * q), [0] * (ROOM * q), [0] * 7, bound, 0, MOST_COMPONENT)


def rows(c):
    return [c.list[n * c.q : (n + 1) * c.q] for n in range(c.record[FOUND])]


def main():
    counts = Counter()
    for n in range(MAPS):
        old, new = drawn(n), drawn(n)
        before, now = without_second(old), with_second(new)
        counts["maps"] += 1
        counts[f"without the second list {' '.join(map(str, before))}"] += 1
        counts[f"with it {' '.join(map(str, now))}"] += 1
        if before == ("Complete",):
            ok = now == before and rows(new) == rows(old) and new.record[STEPS] <= old.record[STEPS]
            counts["ended before: same list, same order, no more steps"] += ok
            counts["of them fewer steps"] += new.record[STEPS] < old.record[STEPS]
            counts["rows listed"] += old.record[FOUND]
            if not ok:
                print("differs:", n, old, new)
        else:
            counts["ended only now"] += now == ("Complete",)
    for name, n in counts.items():
        print(name, n)
    return counts["ended before: same list, same order, no more steps"] != counts["without the second list Complete"]


if __name__ == "__main__":
    sys.exit(main())
