"""Calls of runs from a lower bound, each with the number of the refusal that it is to have, 0 for none, or None where any answer is the model's."""

from build import HUGE, WORD, any_numbers, drawer
from calls import MOST_COMPONENT, MOST_STEPS
from capped import KINDS_OF_RUN, LIMITS, MOST_SUM, Call, cut, faulty, part, rows_of, with_
from lower import BEFORE, BOUND_WALK, DEEPEST, FOUND, HEIGHT, KIND, PLAIN_WALK, SECOND, STEPS, answered

WALKS = (PLAIN_WALK, BOUND_WALK)
DRAWN, SERIES = 1600, 60


def valid(kind, p, q, walk=PLAIN_WALK):
    """A call that is not refused where p and q are in range: every tuple is a solution, rows are zero or the bound, one row of each list is taken, and each has
    room for three."""
    rng = drawer("lower valid", kind, p, q, walk)
    lower = [(2, 1, 0)[j % 3] for j in range(q)]
    height = min(q, 2)
    stack = rows_of(q, [lower if walk == BOUND_WALK else [0] * q] * height)
    stack += any_numbers(rng, q * (q + 1) - len(stack))
    return Call(kind, p, q, [0] * (p * q), [], stack, any_numbers(rng, 3 * q), any_numbers(rng, 3 * q), [walk, height, 1, 5, 1, 7, 3], lower, int(kind == "on"))


def shape_edges(kind, walk):
    for p, number in ((0, 1), (1, 0), (8, 0), (9, 1), (HUGE, 1)):
        yield with_(valid(kind, min(p, 9), 2, walk), p=p), number
    for q, number in ((0, 2), (1, 0), (16, 0), (17, 2)):
        yield with_(valid(kind, 2, q, walk), budget=0), number
    yield with_(valid(kind, 2, 1, walk), q=HUGE), 2
    c = valid(kind, 2, 3, walk)
    for n, number in ((0, 3), (5, 3), (6, 0), (7, 3)):
        yield with_(c, coefs_length=n), number
    for n, number in ((0, 4), (11, 4), (12, 0), (13, 0)):
        yield with_(c, stack_length=n), number
    for n, number in ((0, 5), (2, 5), (3, 0), (4, 5)):
        yield with_(c, lower_length=n), number
    for place in (1, 6):
        for x in (10000, -10000, 10001, -10001):
            yield with_(c, coefs_at=(place - 1, x), budget=0), 7 if abs(x) > 10000 else 0
    yield with_(with_(c, coefs_at=(4, -(2**31))), coefs_at=(1, 2**31 - 1)), 7


def bound_edges():
    """A component of the bound at the limit and past it; once its walk is under way a row past the limit is 6, so that 8 comes about at height 0 only."""
    for limit in LIMITS:
        counts = min(max(limit, 1), MOST_COMPONENT)
        for j in range(3):
            lower = [counts if k == j else 0 for k in range(3)]
            past = [counts + 1 if k == j else 0 for k in range(3)]
            for c in (valid("from", 2, 3), with_(valid("on", 2, 3), budget=0), with_(valid("on", 2, 3, BOUND_WALK), record_at=(HEIGHT, 0))):
                yield with_(c, lower=lower, limit=limit), 0
                yield with_(c, lower=past, limit=limit), 8
    c = valid("on", 2, 3, BOUND_WALK)
    yield with_(c, lower_at=(0, MOST_COMPONENT + 1)), 6
    yield with_(c, lower_at=(0, MOST_COMPONENT + 1), stack_at=(0, MOST_COMPONENT + 1)), 6


def starts_in_disorder():
    """"it looks at no old content and so never gives 6\""""
    c = valid("from", 2, 3)
    c.stack = [WORD - 7 * i for i in range(12)]
    for run in range(KINDS_OF_RUN):
        yield with_(c, record=[run] + [HUGE] * 6), 0
    yield with_(c, list=[], second=[], limit=2), 0


def record_edges(walk):
    c = with_(valid("on", 2, 3, walk), budget=0)
    c.stack = rows_of(3, [c.lower, c.lower, [x + 2 for x in c.lower]])
    for run in range(KINDS_OF_RUN):
        yield with_(c, record_at=(KIND, run)), 0 if run in WALKS else 6
    counts = {3: 0, 4: 6, HUGE: 6}
    steps = {MOST_STEPS: 0, MOST_STEPS + 1: 6, HUGE: 6}
    for at, values in ((HEIGHT, {0: 0, 3: 0, 4: 6, HUGE: 6}), (FOUND, counts), (SECOND, counts), (STEPS, steps), (BEFORE, steps)):
        for x, number in values.items():
            yield with_(c, record_at=(at, x)), number
    for x, number in ((0, 0), (MOST_SUM, 0), (MOST_SUM + 1, 6), (HUGE, 6)):
        yield with_(c, record_at=(DEEPEST, x)), number
    for length, taken, number in ((8, 2, 0), (8, 3, 6), (2, 0, 0), (2, 1, 6), (0, 0, 0), (0, 1, 6)):
        yield with_(c, list_length=length, record_at=(FOUND, taken)), number
        yield with_(c, second_length=length, record_at=(SECOND, taken)), number


def row_edges(walk):
    """Components at the limit and past it; marks; "a floor-walk row not at or above the floor": in rows up to the height and above it."""
    c = with_(valid("on", 2, 3, walk), budget=0)
    for limit in LIMITS:
        counts = min(max(limit, 1), MOST_COMPONENT)
        low = with_(c, lower=[min(x, counts) for x in c.lower], limit=limit)
        low.stack[:8] = rows_of(3, [low.lower] * 2)
        for row, j in ((0, 1), (1, 2), (1, 0), (2, 0)):
            yield with_(low, stack_at=(row * 4 + j, counts)), 0
            yield with_(low, stack_at=(row * 4 + j, counts + 1)), 6 if row < 2 else 0
    for row, marks, number in ((0, 0, 0), (0, 1, 6), (1, 1, 0), (1, 4, 0), (1, 8, 6), (1, 0, 6), (1, 3, 6), (1, 2**31, 6), (2, WORD, 0)):
        yield with_(c, stack_at=(row * 4 + 3, marks)), number
    for row in range(3):
        for j in range(2):
            yield with_(c, stack_at=(row * 4 + j, c.lower[j] - 1)), 6 if walk == BOUND_WALK and row < 2 else 0
    above = with_(c, stack_at=(4, 3))
    for lower, number in (([3, 1, 0], 6), ([2, 2, 0], 6), ([2, 1, 1], 6), ([2, 0, 0], 0), ([0, 0, 0], 0)):
        yield with_(above, lower=lower), number if walk == BOUND_WALK else 0


def capacity_edges():
    """11 is about the list of the walk under way, and 14 about its steps."""
    for walk, count, other, own, others in ((PLAIN_WALK, SECOND, FOUND, BEFORE, STEPS), (BOUND_WALK, FOUND, SECOND, STEPS, BEFORE)):
        c = valid("on", 2, 3, walk)
        yield with_(c, record_at=(count, 2)), 0
        yield with_(c, record_at=(count, 3)), 11
        yield with_(c, record_at=(other, 3)), 0
        yield with_(with_(c, record_at=(count, 3)), record_at=(own, MOST_STEPS)), 14
        yield with_(c, record_at=(own, MOST_STEPS - 1)), 0
        for budget, number in ((0, 0), (1, 14), (HUGE, 14)):
            yield with_(c, record_at=(own, MOST_STEPS), budget=budget), number
        yield with_(c, record_at=(others, MOST_STEPS)), 0
    for table, walk in (("second", PLAIN_WALK), ("list", BOUND_WALK)):
        for length, number in ((5, 11), (3, 11), (6, 0)):
            yield with_(valid("on", 2, 3, walk), **{f"{table}_length": length}), number


def change_edges():
    """The change of walk, ahead of the allowance, whatever it is and whatever the counts are; after the last step of the plain walk too."""
    c = with_(valid("on", 2, 3), record_at=(HEIGHT, 0))
    for budget in (0, 1, 2, HUGE):
        yield with_(c, budget=budget), 0
        yield with_(c, record=[PLAIN_WALK, 0, 3, 5, 3, 7, MOST_SUM], budget=budget), 11 if budget else 0
        yield with_(c, record_at=(BEFORE, MOST_STEPS), budget=budget), 0
        yield with_(c, record_at=(STEPS, MOST_STEPS), budget=budget), 14 if budget else 0
    yield with_(c, coefs_at=(0, 1), budget=1), 0
    for budget in (1, 2, 3):
        last = with_(valid("on", 2, 3), record=[PLAIN_WALK, 1, 1, 5, 1, 7, 3], budget=budget)
        yield last, 0
        yield with_(last, record_at=(BEFORE, MOST_STEPS - 1)), 0
        yield with_(last, record_at=(STEPS, MOST_STEPS)), 14 if budget > 1 else 0
        yield with_(last, list_length=3), 11 if budget > 1 else 0
    done = with_(valid("on", 2, 3, BOUND_WALK), record_at=(HEIGHT, 0))
    for budget in (0, 1, HUGE):
        yield with_(done, budget=budget), 0
        yield with_(done, record=[BOUND_WALK, 0, 3, MOST_STEPS, 3, MOST_STEPS, MOST_SUM], budget=budget), 0


def dropping_edges():
    """1 -1 from 0 2 at 0 2, whose child is 1 2 and 1 0 above the bound; plainly at 0 1, whose child is 1 1."""
    for walk, top in ((PLAIN_WALK, [0, 1]), (BOUND_WALK, [0, 2])):
        c = Call("on", 1, 2, [1, -1], [], rows_of(2, [top]) + [7] * 4, [9] * 4, [9] * 4, [walk, 1, 0, 5, 0, 7, 0], [0, 2], 1)
        yield c, 0
        for row in ([0, 0], [1, 0], [0, 1], [1, 1], [0, 2], [1, 2], [2, 0], [1, 3], [WORD, 0]):
            yield with_(c, list=[*row, 9, 9], record_at=(FOUND, 1)), 0
            yield with_(c, second=[*row, 9, 9], record_at=(SECOND, 1)), 0
            yield with_(c, list=[WORD, WORD, *row], second=[WORD, 9, *row], record=[walk, 1, 2, 5, 2, 7, 0]), 0


def component_edges():
    """12 under each limit, in either walk; none where a row stops the child."""
    for limit in LIMITS:
        counts = min(max(limit, 1), MOST_COMPONENT)
        for walk in WALKS:
            for x, number in ((counts, 12), (counts - 1, 0)):
                lower, record = [counts, x], [walk, 1, 0, 5, 0, 7, 2]
                c = Call("on", 1, 2, [2, -1], [], rows_of(2, [[counts, x]]) + [7] * 3, [5] * 4, [5] * 4, record, lower, 1, limit)
                yield c, number
                listed, second = (with_(c, record_at=(place, 1)) for place in (FOUND, SECOND))
                yield with_(listed, list=[counts, x + 1, 5, 5]), number if walk == PLAIN_WALK else 0
                yield with_(listed, list=[counts, x + 2, 5, 5]), number
                yield with_(second, second=[counts, x + 1, 5, 5]), 0 if walk == PLAIN_WALK else number
                yield with_(second, second=[0, 1, 5, 5]), 0


def seventeen_unknowns(c):
    c.q = 17
    c.coefs[:], c.list[:], c.second[:], c.lower[:] = [0] * (c.p * 17), [1] * 51, [1] * 51, [0] * 17
    c.stack[:] = rows_of(17, [[0] * 17] * 17)


def nine_equations(c):
    c.p = 9
    c.coefs[:] = [0] * (9 * c.q)


def child_past_the_limit(c):
    """Components at the limit, and a child of the top past it, which no listed row stops."""
    c.list[:], c.second[:] = [WORD] * len(c.list), [WORD] * len(c.second)
    c.coefs[:] = [2 if i % 2 == 0 else -1 for i in range(len(c.coefs))]
    c.stack[: 2 * (c.q + 1)] = rows_of(c.q, [[MOST_COMPONENT] * c.q] * 2)


def no_room(c):
    plain = c.record[KIND] == PLAIN_WALK
    place, table = (SECOND, c.second) if plain else (FOUND, c.list)
    c.record[place] = max(c.record[place], len(table) // c.q)


def steps_at_the_limit(c):
    place = BEFORE if c.record[KIND] == PLAIN_WALK else STEPS
    c.record[place] = max(c.record[place], MOST_STEPS)


def row_below_the_bound(c):
    c.stack[c.q + 1] = max(c.lower[0], 1) - 1


# The refusal that a fault brings about, and the fault. Of two the one that comes first here is made first: the later ones go by the sizes that it leaves.
FAULTS = (
    (1, lambda c: setattr(c, "p", 0)),
    (1, nine_equations),
    (2, seventeen_unknowns),
    (3, cut("coefs", lambda c: len(c.coefs) - 1)),
    (3, cut("coefs", lambda c: len(c.coefs) + 1)),
    (12, child_past_the_limit),
    (4, cut("stack", lambda c: c.q * (c.q + 1) - 1)),
    (8, part("lower", 0, MOST_COMPONENT + 1)),
    (8, part("lower", -1, WORD)),
    (14, steps_at_the_limit),
    (11, no_room),
    (5, cut("lower", lambda c: len(c.lower) - 1)),
    (5, cut("lower", lambda c: len(c.lower) + 1)),
    (6, part("record", HEIGHT, lambda c: c.q + 1)),
    (6, part("record", FOUND, lambda c: len(c.list) + 1)),
    (6, part("record", SECOND, lambda c: len(c.second) + 1)),
    (6, part("record", STEPS, MOST_STEPS + 1)),
    (6, part("record", BEFORE, MOST_STEPS + 1)),
    (6, part("record", DEEPEST, MOST_SUM + 1)),
    (6, part("stack", 0, MOST_COMPONENT + 1)),
    (6, part("stack", 3, 1)),
    (6, part("record", KIND, 0)),
    (6, part("record", KIND, 4)),
    (7, part("coefs", 0, 10001)),
    (7, part("coefs", -1, -10001)),
)
BELOW = (6, row_below_the_bound)
ORDER = (1, 2, 3, 4, 5, 6, 7, 8, 14, 11, 12)


def faults(kind, walk):
    """Each fault alone, and each two of different numbers that can be had together, in the calls that look at them. Once the walk from the bound is under
    way, 8 is 6 by a row; and a top with a child is no solution."""
    looked_at = {"from": (1, 2, 3, 4, 5, 7, 8), "on": ORDER}[kind]
    made = [fault for fault in FAULTS + ((BELOW,) if walk == BOUND_WALK else ()) if fault[0] in looked_at and not (fault[0] == 8 and walk == BOUND_WALK)]
    for a, (m, one) in enumerate(made):
        c = valid(kind, 2, 3, walk)
        one(c)
        yield c, m
        for n, other in made[a + 1 :]:
            if m != n and {m, n} != {11, 12}:
                both = c.copy()
                other(both)
                yield both, min(m, n, key=ORDER.index)


# Document 01's "Runs to compare" and document 02's example: a system, and a bound
MAP = (2, 4, [-1, 1, 2, -3, -1, 3, -2, -1])
RUNS = (
    ((1, 2, [2, -3]), [0, 0]),
    ((1, 2, [1, -1]), [0, 2]),
    ((1, 2, [1, -1]), [3, 3]),
    ((1, 2, [2, -1]), [MOST_COMPONENT, MOST_COMPONENT - 1]),
    ((1, 2, [1, -1]), [MOST_COMPONENT, MOST_COMPONENT - 4]),
    ((2, 3, [2, -2, 1, 0, 0, 1]), [0, 0, 1]),
    (MAP, [1, 1, 1, 0]),
    ((1, 1, [0]), [2]),
    ((1, 1, [5]), [0]),
)
BUDGETS = ((1,), (0, 1), (3, 0, 2), (HUGE,))
CALLS_OF_A_RUN = 60


def lent(place, system, lower, rooms, limit):
    """The start of a run, on tables of any content, which are longer than they need be, and a record of any content."""
    rng = drawer("lower series", *place)
    p, q, coefs = system
    stack = any_numbers(rng, q * (q + 1) + rng.randrange(3))
    list_, second = (any_numbers(rng, n * q + rng.randrange(q)) for n in rooms)
    record = [rng.randrange(KINDS_OF_RUN)] + [rng.randrange(HUGE) for _ in range(6)]
    return Call("from", p, q, coefs, [], stack, list_, second, record, lower, 0, limit)


def run(c, budgets):
    """Calls of a run, each on what the one before left, to its end and one call more; where a list has no room the next call has longer ones."""
    over = 0
    for k in range(CALLS_OF_A_RUN):
        yield c.copy(), None
        answer = answered(c)
        over += answer[0] in ("Complete", "Refused")
        if over == 2:
            break
        c = with_(c, kind="on", budget=min(budgets[k % len(budgets)], 4000))
        if answer == ("Refused", 11):
            c.list += [8] * (2 * c.q)
            c.second += [8] * (2 * c.q)


def series():
    for n, (system, lower) in enumerate(RUNS):
        for budgets in BUDGETS:
            yield from run(lent(("run", n), system, lower, (2, 4), MOST_COMPONENT), budgets)
    for n in range(SERIES):
        rng = drawer("lower system", n)
        p, q = rng.randint(1, 2), rng.randint(1, 3)
        system, lower = (p, q, [rng.randint(-3, 3) for _ in range(p * q)]), [rng.randint(0, 3) for _ in range(q)]
        rooms, limit = [rng.choice((0, 1, 4)) for _ in range(2)], rng.choice((3, 4, 20, MOST_COMPONENT, WORD))
        yield from run(lent(("drawn", n), system, lower, rooms, limit), rng.choice(((1,), (1,), (0, 2, 1), (5,), (HUGE,))))


def shaped(rng):
    """Sizes, coefficients, a bound, rows that are in order, lists and a record."""
    kind, walk = rng.choice(("from",) + ("on",) * 9), rng.choice(WALKS)
    p, q = rng.randint(1, 2), rng.randint(1, rng.choice((2, 3, 4)))
    size = rng.choice((1, 2, 6, 10000))
    coefs = [rng.randint(-size, size) * rng.choice((0, 1, 1, 1)) for _ in range(p * q)]
    limit = rng.choice(LIMITS + (2, 3, MOST_COMPONENT))
    counts, style = min(max(limit, 1), MOST_COMPONENT), rng.randrange(3)

    def component():
        return (rng.randint(0, 1), rng.randint(0, min(6, counts)), counts - rng.choice((0, 0, 1)))[style]

    lower = [component() for _ in range(q)]

    def tuple_():
        return [min(f + rng.randint(0, 2), counts) for f in lower] if walk == BOUND_WALK else [component() for _ in range(q)]

    height = rng.randint(0, q)
    stack = rows_of(q, [tuple_() for _ in range(height)], [sum(2**j for j in rng.sample(range(q), k)) for k in range(height)])
    stack += any_numbers(rng, q * (q + 1) - len(stack) + rng.choice((0, 0, 1)))
    rooms = [rng.choice((0, 1, 2, 3, 5)) for _ in range(2)]
    founds = [rng.randint(0, min(2, room)) for room in rooms]
    rows = [[component() for _ in range(founds[0] * q)], [rng.randint(0, 2) for _ in range(founds[1] * q)]]
    list_, second = (row + any_numbers(rng, (room - f) * q + rng.randrange(q)) for row, f, room in zip(rows, founds, rooms))
    steps, before = (rng.choice((0, 5, 5, MOST_STEPS - rng.randrange(4))) for _ in range(2))
    record = [walk, height, founds[0], steps, founds[1], before, rng.choice((0, 3, MOST_SUM))]
    return Call(kind, p, q, coefs, [], stack, list_, second, record, lower, rng.choice((0, 1, 2, 3, 9, 60)) if kind == "on" else 0, limit)


def changed(c, rng):
    """One entry of one of its parts of any meaning, or a part of another length; at times of the bound."""
    if rng.randrange(5):
        return faulty(c, rng)
    if rng.randrange(3) == 0:
        c.lower.pop()
    else:
        c.lower[rng.randrange(c.q)] = rng.choice((0, 1, 3, 21, 1_000_001, WORD))
    return c


def cases():
    yield "runs from a lower bound: both sides of each edge"
    for kind, walk in (("from", PLAIN_WALK), ("on", PLAIN_WALK), ("on", BOUND_WALK)):
        yield from shape_edges(kind, walk)
    yield from bound_edges()
    yield from starts_in_disorder()
    for walk in WALKS:
        yield from record_edges(walk)
        yield from row_edges(walk)
    yield from capacity_edges()
    yield from change_edges()
    yield from dropping_edges()
    yield from component_edges()
    yield "faults, alone and by twos"
    for kind, walk in (("from", PLAIN_WALK), ("on", PLAIN_WALK), ("on", BOUND_WALK)):
        yield from faults(kind, walk)
    yield "runs as series of calls through both walks"
    yield from series()
    yield "drawn calls"
    for n in range(DRAWN):
        rng = drawer("lower", n)
        c = shaped(rng)
        yield changed(c, rng) if rng.randrange(4) == 0 else c, None
