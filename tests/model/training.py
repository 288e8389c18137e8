"""Document 02, job 9, as a model: the training seat's starts and continuing calls, plain and from a lower bound, written from its words over the core's
(capped.py, lower.py), which take the limit of components with each call; and cases at the seat's edges and at the core's limits. A case is a call with
the number of the refusal that it is to have, 0 for none, or None where any answer is the model's."""

import capped
import lower
from build import HUGE, WORD, any_numbers, drawer
from calls import MOST_COMPONENT, MOST_EQUATIONS, MOST_STEPS, MOST_UNKNOWNS, Refusal
from capped import KINDS_OF_RUN, MOST_SUM, Call, rows_of, with_
from lower import BOUND_WALK, PLAIN_WALK
from lower_cases import valid as valid_from

# "at most 6 unknowns and components up to 20"
SEAT_UNKNOWNS, SEAT_LIMIT = 6, 20
# the seat's calls, and the core's that each is
CORE = {"begin": "start", "learn": "resume", "above": "from", "climb": "on"}
DRAWN = 700


def check_seat(c):
    """"(23, more than 6 unknowns, straight after 2\""""
    if not 1 <= c.p <= MOST_EQUATIONS:
        raise Refusal(1)
    if not 1 <= c.q <= MOST_UNKNOWNS:
        raise Refusal(2)
    if c.q > SEAT_UNKNOWNS:
        raise Refusal(23)


def answered(c):
    try:
        check_seat(c)
    except Refusal as refusal:
        return refusal.answer
    own, c.kind, c.limit = (c.kind, c.limit), CORE[c.kind], SEAT_LIMIT
    answer = (lower if c.kind in ("from", "on") else capped).answered(c)
    c.kind, c.limit = own
    # "24, a child would pass 20, in the place of 12"
    return ("Refused", 24) if answer == ("Refused", 12) else answer


# ---- cases


def valid(kind, p, q, walk=PLAIN_WALK):
    core = CORE[kind]
    c = valid_from(core, p, q, walk) if core in ("from", "on") else capped.valid(core, p, q)
    return with_(c, kind=kind)


# each call of the seat, the continuing one from a lower bound in either walk
CALLS = (("begin", PLAIN_WALK), ("learn", PLAIN_WALK), ("above", PLAIN_WALK), ("climb", PLAIN_WALK), ("climb", BOUND_WALK))


def shape_edges(kind, walk):
    """1, 2, 23, 3 and 4 at their edges, alone and where a later one is due too: 23 stands straight after 2."""
    for p, number in ((0, 1), (1, 0), (8, 0), (9, 1), (HUGE, 1)):
        yield with_(valid(kind, min(p, 9), 2, walk), p=p), number
    for q, number in ((0, 2), (1, 0), (6, 0), (7, 23), (16, 23), (17, 2)):
        c = with_(valid(kind, 2, q, walk), budget=0)
        yield c, number
        yield with_(c, p=9), 1
        yield with_(c, coefs_length=2 * q + 1), number or 3
        yield with_(c, stack_length=max(q * (q + 1) - 1, 0)), number or 4
        if kind in ("above", "climb"):
            yield with_(c, lower_length=q + 1), number or 5
        if kind in ("learn", "climb"):
            yield with_(c, record_at=(1, q + 1)), number or 6
        if q > 0:
            yield with_(c, coefs_at=(q, -10001)), number or 7
    yield with_(valid(kind, 2, 1, walk), q=HUGE), 2


def seat_edges():
    """A row of 20 and of 21, in rows up to the height and above it; a bound of 20 and of 21. No limit is handed over, so that the line's has no say."""
    for kind, walk in (("learn", PLAIN_WALK), ("climb", PLAIN_WALK), ("climb", BOUND_WALK)):
        c = with_(valid(kind, 2, 3, walk), budget=0)
        for row in range(3):
            for j in range(3):
                for limit in (0, MOST_COMPONENT):
                    yield with_(c, limit=limit, stack_at=(row * 4 + j, SEAT_LIMIT)), 0
                    yield with_(c, limit=limit, stack_at=(row * 4 + j, SEAT_LIMIT + 1)), 6 if row < 2 else 0
    for j in range(3):
        for c in (valid("above", 2, 3), with_(valid("climb", 2, 3), budget=0), with_(valid("climb", 2, 3, BOUND_WALK), record_at=(1, 0))):
            for x, number in ((SEAT_LIMIT, 0), (SEAT_LIMIT + 1, 8), (MOST_COMPONENT, 8), (WORD, 8)):
                yield with_(c, lower=[x if k == j else 0 for k in range(3)]), number


def search_edges():
    """24 where a child would pass 20, and not where a listed row stops it; 14 and 11 before it."""
    for kind, walk in (("learn", 0), ("climb", PLAIN_WALK), ("climb", BOUND_WALK)):
        lower_ = [SEAT_LIMIT, 0] if kind == "climb" else []
        counts, steps = (2, 3) if kind == "learn" or walk == BOUND_WALK else (4, 5)
        for x, number in ((SEAT_LIMIT, 24), (SEAT_LIMIT - 1, 0)):
            record = [walk, 1, 0, 5, 0, 5, 0]
            c = Call(kind, 1, 2, [2, -1], [], rows_of(2, [[SEAT_LIMIT, x]]) + [7] * 4, [5] * 4, [5] * 4, record, lower_, 1)
            yield c, number
            for table in ("list", "second"):
                row = [SEAT_LIMIT if table == "list" or walk == PLAIN_WALK else 0, x + 1]
                stopped = with_(c, **{table: row + [9] * 2}, record_at=(2 if table == "list" else 4, 1))
                yield stopped, None
            yield with_(c, record_at=(steps, MOST_STEPS)), 14
        solution = with_(c, coefs=[0, 0], record_at=(counts, 2))
        yield solution, 11
        yield with_(solution, record_at=(counts, 1)), 0


# ---- runs as series of calls

# one equation whose components stay at 20, and one that would pass it; six unknowns; two equations; the map of document 01
MAPS = (
    (1, 2, [2, -3]),
    (1, 2, [20, -19]),
    (1, 2, [21, -20]),
    (1, 6, [1, 1, 1, -1, -1, -1]),
    (2, 4, [-1, 1, 2, -3, -1, 3, -2, -1]),
    (2, 2, [1, -1, 1, 1]),
    (1, 3, [0, 0, 0]),
)


def lent(place, kind, system, bound, rooms, limit=MOST_COMPONENT):
    rng = drawer("training series", *place)
    p, q, coefs = system
    stack = any_numbers(rng, q * (q + 1) + rng.randrange(3))
    list_, second = (any_numbers(rng, n * q + rng.randrange(q)) for n in rooms)
    record = [rng.randrange(KINDS_OF_RUN)] + [rng.randrange(HUGE) for _ in range(6)]
    return Call(kind, p, q, coefs, [], stack, list_, second if bound else [], record, bound, 0, limit)


NEXT = {"begin": "learn", "above": "climb", "start": "resume"}


def run(c, model, budgets):
    """Calls of a run, each on what the one before left, to its end and one call more; where a list has no room the next call has longer ones."""
    over, on = 0, NEXT[c.kind]
    for k in range(60):
        yield c.copy(), None
        answer = model(c)
        over += answer[0] in ("Complete", "Refused")
        if over == 2:
            break
        c = with_(c, kind=on, budget=budgets[k % len(budgets)])
        if answer == ("Refused", 11):
            c.list += [8] * (2 * c.q)
            c.second += [8] * (2 * c.q)


def series():
    for n, system in enumerate(MAPS):
        for budgets in ((5, 0, 1), (400,)):
            yield from run(lent(("seat", n), "begin", system, [], (3, 0)), answered, budgets)
            for bound in ([0] * system[1], [2] + [0] * (system[1] - 1), [SEAT_LIMIT] + [0] * (system[1] - 1)):
                yield from run(lent(("bound", n, *bound), "above", system, bound, (3, 3)), answered, (400,) if budgets == (400,) else (7, 0, 20))


def depth(coefs):
    """"D is the largest positive coefficient plus the largest size of a negative one, either being 0 if missing, or 1 if the sum is 0.\""""
    return max(max(0, *coefs) + max(0, *(-c for c in coefs)), 1)


def at_depth():
    """"The one-equation promise holds under any limit of at least D": the core's runs at D, and one below it, where 12 may be due."""
    for n, (p, q, coefs) in enumerate(MAPS + ((1, 2, [7, -5]), (1, 3, [5, -3, 2]), (1, 4, [-4, 3, 1, -2]))):
        if p == 1:
            for limit in (depth(coefs), depth(coefs) - 1, 1, SEAT_LIMIT, MOST_COMPONENT - 1, MOST_COMPONENT, MOST_COMPONENT + 1):
                yield from run(lent(("depth", n), "start", (p, q, coefs), [], (30, 0), limit), capped.answered, (400,))


def shaped(rng):
    kind, walk = rng.choice(CALLS + (("learn", PLAIN_WALK),) * 2 + (("climb", BOUND_WALK),) * 2)
    from_, p, q = kind in ("above", "climb"), rng.randint(1, 2), rng.randint(1, rng.choice((2, 3, 4, 7)))
    size = rng.choice((1, 2, 6, 10000))
    coefs = [rng.randint(-size, size) * rng.choice((0, 1, 1, 1)) for _ in range(p * q)]
    high = rng.choice((2, 6, SEAT_LIMIT, SEAT_LIMIT, SEAT_LIMIT + 1))

    def component():
        return rng.choice((0, 1, 2, high, high))

    bound = [component() for _ in range(q)] if from_ else []

    def tuple_():
        return [max(f, component()) for f in bound] if from_ and walk == BOUND_WALK else [component() for _ in range(q)]

    height = rng.randint(0, q)
    stack = rows_of(q, [tuple_() for _ in range(height)], [sum(2**j for j in rng.sample(range(q), k)) for k in range(height)])
    stack += any_numbers(rng, q * (q + 1) - len(stack))
    rooms = [rng.choice((0, 1, 2, 4)) for _ in range(2)]
    founds = [rng.randint(0, min(2, room)) for room in rooms]
    list_, second = ([component() for _ in range(f * q)] + any_numbers(rng, (room - f) * q) for f, room in zip(founds, rooms))
    steps, before = (rng.choice((0, 5, 5, MOST_STEPS - rng.randrange(3))) for _ in range(2))
    record = [walk if from_ else 0, height, founds[0], steps, founds[1], before, rng.choice((0, 3, MOST_SUM))]
    budget = rng.choice((0, 1, 2, 9, 60)) if kind in ("learn", "climb") else 0
    return Call(kind, p, q, coefs, [], stack, list_, second if from_ else [], record, bound, budget, rng.choice((0, 1, MOST_COMPONENT, WORD)))


def cases():
    yield "the training seat: both sides of each edge"
    for kind, walk in CALLS:
        yield from shape_edges(kind, walk)
    yield from seat_edges()
    yield from search_edges()
    yield "the training seat: runs as series of calls"
    yield from series()
    yield "the core's runs of one equation under limits at D and at both ends"
    yield from at_depth()
    yield "the training seat: drawn calls"
    for n in range(DRAWN):
        yield shaped(drawer("training", n)), None
