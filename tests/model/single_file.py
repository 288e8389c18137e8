"""Job 12 of document 02: the listing of single-file maps, and cases. A row is a minimal loop if it is a solution, not all zero, and no other such row lies
below it; its order is sought among all orders."""

import itertools

from build import any_numbers, drawer
from calls import Call, MOST_COEFFICIENT, MOST_EQUATIONS, MOST_UNKNOWNS, Refusal, answered, check_profile

# ---- loops


def solves(p, q, coefs, x):
    return all(sum(coefs[i * q + j] * x[j] for j in range(q)) == 0 for i in range(p))


def is_minimal(p, q, coefs, x):
    """By trying every tuple below. A row with a component above 2 lies above another solution if it is one, as components count round by round."""
    if not any(x) or not solves(p, q, coefs, x):
        return False
    below = itertools.product(*(range(min(v, 2) + 1) for v in x))
    return not any(any(y) and list(y) != list(x) and solves(p, q, coefs, y) for y in below)


def order(p, q, coefs, x):
    """The order that begins with the lowest, sought among all: "each puts its document (its 1) where the next takes one (its -1), back to the first,
    passing no tray twice"."""
    named = [j for j in range(q) if x[j]]
    if len(named) == 1 and not any(coefs[named[0] :: q]):
        return named
    found = []
    for rest in itertools.permutations(named[1:]):
        way = [named[0], *rest]
        trays = [coefs[j::q].index(1) for j in way]
        if len(set(trays)) == len(trays) and all(coefs[trays[k] * q + way[(k + 1) % len(way)]] == -1 for k in range(len(way))):
            found.append(way)
    assert len(found) == 1, (p, q, coefs, x, found)
    return found[0]


def line(p, q, coefs, x):
    named = [j for j in range(q) if x[j]]
    return " ".join(str(j + 1) for j in named) + " order " + " ".join(str(j + 1) for j in order(p, q, coefs, x)) + "\n"


def listing(p, q, coefs, table, found, room):
    if not 1 <= p <= MOST_EQUATIONS:
        raise Refusal(1)
    if not 1 <= q <= MOST_UNKNOWNS:
        raise Refusal(2)
    if len(coefs) != p * q:
        raise Refusal(3)
    if found > len(table) // q:
        raise Refusal(6)
    for place, x in enumerate(coefs, 1):
        if abs(x) > MOST_COEFFICIENT:
            raise Refusal(7, place)
    check_profile(p, q, coefs)
    rows = [table[n * q : (n + 1) * q] for n in range(found)]
    for n, x in enumerate(rows, 1):
        if not is_minimal(p, q, coefs, x):
            raise Refusal(30, n)
    text = "".join(line(p, q, coefs, x) for x in rows)
    if len(text) > room:
        raise Refusal(29)
    return text


def listed(p, q, coefs, table, found, room):
    """What the listing answers, and the bytes that it writes."""
    try:
        text = listing(p, q, coefs, table, found, room)
    except Refusal as refusal:
        return refusal.answer, []
    return ("Written", len(text)), list(text.encode())


# ---- maps


def moves(p, pairs):
    """A map of p trays; an activity for each pair (tray taken from, tray put into), or None for a column of zeros."""
    q = len(pairs)
    coefs = [0] * (p * q)
    for j, pair in enumerate(pairs):
        if pair:
            coefs[pair[0] * q + j], coefs[pair[1] * q + j] = -1, 1
    return p, q, coefs


def ring(n, shift):
    """One ring of n trays, its activities in another order than the ring's."""
    pairs = [(k, (k + 1) % n) for k in range(n)]
    return moves(n, pairs[shift:][::-1] + pairs[:shift])


MAPS = [moves(3, [(2, 0), (1, 2), (0, 1)]), moves(2, [(1, 0), None, (0, 1), (0, 1), None]), moves(1, [None]), moves(2, [(0, 1)])]
MAPS += [ring(n, n // 2) for n in range(2, 8)]
MAPS += [
    moves(4, [(0, 1), (1, 0), (1, 2), (2, 1), (2, 3), (3, 2)]),  # a tree of rings
    moves(5, [(0, 1), (1, 2), (2, 0), (2, 3), (3, 4), (4, 2)]),  # two rings that share a tray
    moves(4, [(0, 1), (1, 0), (2, 3), (3, 2), None]),  # two rings apart
    moves(3, [(0, 1), (1, 2), (2, 0), (0, 2), (2, 1), (1, 0)]),  # both ways round
    moves(8, [(k, (k + 1) % 8) for k in range(7)] + [None] * 2 + [(7, 0)]),  # ten activities
    moves(2, [(k % 2, 1 - k % 2) for k in range(12)]),
]


def drawn(rng):
    p = rng.randint(1, 5)
    pairs = [None if p == 1 or rng.random() < 0.15 else tuple(rng.sample(range(p), 2)) for _ in range(rng.randint(1, 6))]
    return moves(p, pairs)


def begun(p, q, coefs, rng, room):
    stack = any_numbers(rng, q * (q + 1) + rng.randint(0, 3))
    return Call("begin", p, q, coefs, stack, [9] * (room * q + rng.randint(0, q - 1)), [rng.randint(0, 9) for _ in range(3)])


def all_rows(p, q, coefs):
    """The rows of a whole run, in its order."""
    call = Call("start", p, q, coefs, [0] * (q * (q + 1)), [0] * (64 * q), [0, 0, 0])
    answered(call)
    call.kind, call.budget = "resume", 100_000
    assert answered(call) == ("Complete",)
    return [call.list[n * q : (n + 1) * q] for n in range(call.record[1])]


# ---- cases


def calls():
    """Starts and continuing calls, some on maps outside the profile, some with another fault before it."""
    rng = drawer("single-file calls")
    for n in range(200):
        p, q, coefs = MAPS[n] if n < len(MAPS) else drawn(rng)
        coefs = coefs[:]
        for _ in range(rng.choice([0, 0, 0, 1, 2])):
            coefs[rng.randrange(p * q)] = rng.choice([2, -2, 1, -1, 0, 10_001])
        call = begun(p, q, coefs, rng, rng.choice([0, 1, 2, 12]))
        if rng.random() < 0.1:
            call.stack.pop()
        yield call.copy()
        answered(call)
        call.kind = "go"
        for budget in rng.sample([0, 1, 2, 7, 60, 3000], 2):
            call.budget = budget
            yield call.copy()
            answered(call)


def spoilt(rng, q, rows):
    """Some of the rows, repeated ones too, and sometimes one that is no minimal loop."""
    rows = [list(rng.choice(rows)) for _ in range(rng.randint(0, 4))] if rows else []
    how = rng.randint(0, 7) if rows else 7
    if how == 0:
        rows[-1] = [2 * v for v in rows[-1]]  # twice round
    elif how == 1:
        rows[-1][rng.choice([j for j in range(q) if rows[-1][j]])] = 0  # part of the way, or nothing
    elif how == 2:
        rows[-1] = [a + b for a, b in zip(rows[0], rows[-1])]  # several rounds in one row
    elif how == 3:
        rows.append([0] * q)
    elif how == 4:
        rows[0][rng.randrange(q)] = 2**32 - 1
    elif how == 5:
        rows[-1][rng.randrange(q)] ^= 1
    return rows


def listings():
    rng = drawer("single-file listings")
    for p, q, coefs in MAPS:
        rows = all_rows(p, q, coefs)[:8]
        table = [v for r in rows for v in r]
        length = len(listing(p, q, coefs, table, len(rows), 10**6))
        for room in sorted({0, max(length - 1, 0), length, min(length + 3, 320)}):
            yield p, q, coefs, table, len(rows), room
        yield p, q, coefs, table, len(rows) + 1, length
    for _ in range(300):
        p, q, coefs = drawn(rng)
        rows = spoilt(rng, q, all_rows(p, q, coefs))
        table = [v for r in rows for v in r] + [9] * rng.randint(0, q - 1)
        yield p, q, coefs, table, len(rows), rng.choice([320, 320, 320, 40, 20, 0])
    yield from faults()


def faults():
    """Each fault alone and by twos: which refusal comes first."""
    base = dict(p=3, q=3, coefs=[1, 0, -1, 0, -1, 1, -1, 1, 0], table=[1, 1, 1], found=1, room=100)
    kinds = [
        dict(p=0), dict(p=9), dict(q=0), dict(q=17), dict(coefs=base["coefs"][1:]), dict(found=2), dict(coefs=[10_001] + base["coefs"][1:]),
        dict(coefs=base["coefs"][:8] + [-10_001]), dict(coefs=[2] + base["coefs"][1:]), dict(coefs=base["coefs"][:8] + [1]), dict(coefs=[1] * 9),
        dict(table=[1, 0, 1]), dict(table=[0, 0, 0]), dict(table=[2, 2, 2]), dict(room=17), dict(room=18),
    ]  # fmt: skip
    for a, b in itertools.product(kinds, kinds):
        call = {**base, **a, **b}
        yield tuple(call[part] for part in ("p", "q", "coefs", "table", "found", "room"))
