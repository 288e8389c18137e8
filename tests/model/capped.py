"""Document 02, job 1, as a model: starts and continuing calls of runs with right sides; with them the plain ones, under any limit of components (job 9)
and with the greatest sum of components (job 6). Written from the documents alone: images are summed anew, and a listed row gets the extra unknown back
before it is compared."""

from dataclasses import dataclass, replace

from build import HUGE, WORD, any_numbers, drawer
from calls import MOST_COEFFICIENT, MOST_COMPONENT, MOST_EQUATIONS, MOST_STEPS, MOST_UNKNOWNS, Refusal

MOST_SUM = 16_000_000
PLAIN, CAPPED, KINDS_OF_RUN = 0, 1, 5
DRAWN, SERIES = 1500, 60


@dataclass
class Call:
    kind: str
    p: int
    q: int
    coefs: list
    rights: list
    stack: list
    list: list
    second: list
    record: list
    lower: list
    budget: int = 0
    limit: int = MOST_COMPONENT

    def copy(self):
        return replace(self, **{name: getattr(self, name)[:] for name in ("coefs", "rights", "stack", "list", "second", "record", "lower")})

    @property
    def capped(self):
        return self.kind in ("meet", "go")

    @property
    def width(self):
        """The unknowns of the walk: the extra one is placed first."""
        return self.q + 1 if self.capped else self.q

    def column(self, j):
        """"an extra unknown, placed first with the negated right sides as its column\""""
        if self.capped:
            return [-b for b in self.rights] if j == 0 else self.coefs[j - 1 :: self.q]
        return self.coefs[j :: self.q]

    def row(self, k):
        return self.stack[(k - 1) * (self.width + 1) : k * (self.width + 1)]

    def write_row(self, k, components, marks):
        self.stack[(k - 1) * (self.width + 1) : k * (self.width + 1)] = components + [marks]

    def listed(self):
        """All rows listed, each with the extra unknown put back where there is one."""
        _, _, found, _, second, _, _ = self.record
        rows = [self.list[n * self.q : (n + 1) * self.q] for n in range(found)]
        if not self.capped:
            return rows
        return [[0] + r for r in rows] + [[1] + self.second[n * self.q : (n + 1) * self.q] for n in range(second)]


def most(c):
    """"(above 1,000,000 counts as that, 0 as 1)\""""
    return min(max(c.limit, 1), MOST_COMPONENT)


def answered(c):
    try:
        return resume(c) if c.kind in ("resume", "go") else start(c)
    except Refusal as refusal:
        return refusal.answer


def check_shape(c):
    if not 1 <= c.p <= MOST_EQUATIONS:
        raise Refusal(1)
    if not 1 <= c.width <= MOST_UNKNOWNS or c.q == 0:
        raise Refusal(2)
    if len(c.coefs) != c.p * c.q or (c.capped and len(c.rights) != c.p):
        raise Refusal(3)
    if len(c.stack) < c.width * (c.width + 1):
        raise Refusal(4)


def check_ranges(c):
    for place, x in enumerate(c.coefs, 1):
        if abs(x) > MOST_COEFFICIENT:
            raise Refusal(7, place)
    if c.capped and any(abs(b) > MOST_COEFFICIENT for b in c.rights):
        raise Refusal(15)


def check_order(c):
    kind, height, found, steps, second, _, deepest = c.record
    if kind != (CAPPED if c.capped else PLAIN) or height > c.width or found > len(c.list) // c.q or steps > MOST_STEPS or deepest > MOST_SUM:
        raise Refusal(6)
    if c.capped and second > len(c.second) // c.q:
        raise Refusal(6)
    for k in range(1, height + 1):
        *components, marks = c.row(k)
        if max(components) > most(c) or marks >> c.width or bin(marks).count("1") != k - 1 or (c.capped and components[0] > 1):
            raise Refusal(6)


def write_units(c):
    """"A plain start writes rows 1 to q: row k holds a 1 at place k, and marks 1 to k - 1.\""""
    for k in range(1, c.width + 1):
        c.write_row(k, [int(j == k) for j in range(1, c.width + 1)], 2 ** (k - 1) - 1)


def start(c):
    check_shape(c)
    check_ranges(c)
    write_units(c)
    c.record[:] = [CAPPED if c.capped else PLAIN, c.width, 0, 0, 0, 0, 0]
    return ("Started",)


def resume(c):
    check_shape(c)
    check_order(c)
    check_ranges(c)
    for _ in range(c.budget):
        if c.record[1] == 0:
            break
        step(c)
    return ("Paused",) if c.record[1] else ("Complete",)


def image(c, x):
    return [sum(c.column(j)[i] * x[j] for j in range(c.width)) for i in range(c.p)]


def enlist(c, top):
    """"Two lists come out, each table with its own count, rows without the extra unknown"; "11 is about the row's own table\""""
    table, count = (c.second, 4) if c.capped and top[0] == 1 else (c.list, 2)
    n = c.record[count]
    if n >= len(table) // c.q:
        raise Refusal(11)
    table[n * c.q : (n + 1) * c.q] = top[1:] if c.capped else top
    c.record[count] += 1
    return []


def children(c, top, marks):
    value, rows = image(c, top), []
    for j in range(c.width):
        raised = [x + (k == j) for k, x in enumerate(top)]
        if marks >> j & 1 or sum(v * x for v, x in zip(value, c.column(j))) >= 0 or (c.capped and raised[0] > 1):
            continue
        if not any(all(s <= t for s, t in zip(entry, raised)) for entry in c.listed()):
            rows.append((raised, marks + sum(2**k for _, _, k in rows), j))
    if any(max(raised) > most(c) for raised, _, _ in rows):
        raise Refusal(12)
    assert c.record[1] - 1 + len(rows) <= c.width
    return rows


def step(c):
    height = c.record[1]
    if c.record[3] >= MOST_STEPS:
        raise Refusal(14)
    *top, marks = c.row(height)
    rows = children(c, top, marks) if any(image(c, top)) else enlist(c, top)
    for n, (raised, frozen, _) in enumerate(rows):
        c.write_row(height + n, raised, frozen)
    c.record[1] = height - 1 + len(rows)
    c.record[3] += 1
    c.record[6] = max(c.record[6], sum(top))


# ---- cases


def rows_of(width, tuples, marks=None):
    return [x for k, t in enumerate(tuples) for x in t + [marks[k] if marks else 2**k - 1]]


def valid(kind, p, q):
    """A call that is not refused where p and q are in range: the top is zero, one row of each list is taken, and each has room for three."""
    rng = drawer("capped valid", kind, p, q)
    width = q + 1 if kind in ("meet", "go") else q
    height = min(width, 2)
    stack = rows_of(width, [[0] * width] * height)
    stack += any_numbers(rng, width * (width + 1) - len(stack))
    record = [CAPPED if kind == "go" else PLAIN, height, 1, 5, 1, 7, 3]
    rights = [0] * p if kind in ("meet", "go") else []
    return Call(kind, p, q, [0] * (p * q), rights, stack, any_numbers(rng, 3 * q), any_numbers(rng, 3 * q), record, [], int(kind in ("resume", "go")))


def with_(call, **parts):
    """The call with parts replaced: a field, an entry as `stack_at=(4, 7)`, or a length as `coefs_length=5`."""
    c = call.copy()
    for name, value in parts.items():
        if name.endswith("_at"):
            getattr(c, name[:-3])[value[0]] = value[1]
        elif name.endswith("_length"):
            table = getattr(c, name[:-7])
            table[:] = (table + [0] * value)[:value]
        else:
            setattr(c, name, value)
    return c


def fine(kind):
    return ("Paused",) if kind in ("resume", "go") else ("Started",)


def shape_edges(kind):
    for p, number in ((0, 1), (1, 0), (8, 0), (9, 1), (HUGE, 1)):
        yield with_(valid(kind, min(p, 9), 2), p=p), number
    for q, number in ((0, 2), (1, 0), (15, 0), (16, 2)):
        yield with_(valid(kind, 2, q), budget=0), number
    yield with_(valid(kind, 2, 1), q=HUGE), 2
    c = valid(kind, 2, 3)
    for n, number in ((0, 3), (5, 3), (6, 0), (7, 3), (8, 3)):
        yield with_(c, coefs_length=n), number
    for n, number in ((0, 3), (1, 3), (2, 0), (3, 3)):
        yield with_(c, rights_length=n), number
    for n, number in ((0, 4), (12, 4), (19, 4), (20, 0), (21, 0)):
        yield with_(c, stack_length=n), number
    for n in (0, 1):
        for b, number in ((10000, 0), (-10000, 0), (10001, 15), (-10001, 15), (2**31 - 1, 15), (-(2**31), 15)):
            yield with_(c, rights_at=(n, b)), number
    yield with_(c, rights_at=(0, 10001), coefs_at=(5, -10001)), 7


def record_edges(kind):
    c = with_(valid(kind, 2, 3), budget=0)
    width = c.width
    c.stack = rows_of(width, [[0] * width, [1] + [0] * (width - 1), [0, 1] + [0] * (width - 2), [1] * width][:width])
    own = c.record[0]
    for run in range(KINDS_OF_RUN):
        yield with_(c, record_at=(0, run)), 0 if run == own else 6
    for at, values in ((1, {0: None, width: 0, width + 1: 6, HUGE: 6}), (2, {3: 0, 4: 6, HUGE: 6}), (3, {MOST_STEPS: 0, MOST_STEPS + 1: 6, HUGE: 6})):
        for x, number in values.items():
            yield with_(c, record_at=(at, x)), number
    for x, number in ((3, 0), (4, 6), (HUGE, 6)):
        yield with_(c, record_at=(4, x)), number if kind == "go" else 0
    for x in (0, MOST_STEPS + 1, HUGE):
        yield with_(c, record_at=(5, x)), 0
    for x, number in ((0, 0), (MOST_SUM, 0), (MOST_SUM + 1, 6), (HUGE, 6)):
        yield with_(c, record_at=(6, x)), number
    for length, taken, number in ((8, 2, 0), (8, 3, 6), (2, 0, 0), (2, 1, 6), (0, 0, 0), (0, 1, 6)):
        yield with_(c, list_length=length, record_at=(2, taken)), number
        yield with_(c, second_length=length, record_at=(4, taken)), number if kind == "go" else 0


LIMITS = (0, 1, 20, 999_999, 1_000_000, 1_000_001, WORD)


def row_edges(kind):
    """Components at the limit and past it, the capped one at 1 and past it, and marks, in rows up to the height and above it."""
    c = with_(valid(kind, 2, 3), budget=0)
    width = c.width
    for limit in LIMITS:
        counts = min(max(limit, 1), MOST_COMPONENT)
        for row, j in ((0, 1), (1, width - 1), (1, 1)):
            yield with_(c, limit=limit, stack_at=(row * (width + 1) + j, counts)), 0
            yield with_(c, limit=limit, stack_at=(row * (width + 1) + j, counts + 1)), 6
    for row, number in ((0, 6), (1, 6), (2, 0)):
        yield with_(c, stack_at=(row * (width + 1), 1)), 0
        yield with_(c, stack_at=(row * (width + 1), 2)), number if kind == "go" else 0
    for row, marks, number in ((0, 0, 0), (0, 1, 6), (1, 1, 0), (1, 2 ** (width - 1), 0), (1, 2**width, 6), (1, 0, 6), (1, 3, 6), (1, 2**31, 6), (2, WORD, 0)):
        yield with_(c, stack_at=(row * (width + 1) + width, marks)), number


def search_edges():
    """The refusals of the search: 11 of each table, 12 under each limit, 14; a child that a row of one of the lists stops."""
    c = valid("go", 2, 3)
    for taken, number in ((2, 0), (3, 11)):
        yield with_(c, record_at=(2, taken)), number
        yield with_(c, record_at=(4, taken)), 0
        one = with_(c, stack_at=(c.width + 1, 1))
        yield with_(one, record_at=(4, taken)), number
        yield with_(one, record_at=(2, taken)), 0
    yield with_(c, record_at=(3, MOST_STEPS)), 14
    yield with_(c, record_at=(3, MOST_STEPS - 1)), 0
    for limit in LIMITS:
        counts = min(max(limit, 1), MOST_COMPONENT)
        for x, number in ((counts, 12), (counts - 1, None)):
            c = Call("go", 1, 2, [2, -1], [0], rows_of(3, [[0, counts, x]]) + [7] * 8, [5] * 4, [5] * 4, [1, 1, 0, 5, 0, 0, 0], [], 1, limit)
            yield c, number
            for taken, rows in ((2, [counts, counts + 1]), (2, [counts, x + 1]), (4, [counts, x + 1])):
                stopped = with_(c, record_at=(taken, 1))
                (stopped.list if taken == 2 else stopped.second)[:2] = rows
                yield stopped, None
                yield with_(stopped, stack_at=(0, 1)), None


def part(name, at, value):
    """A fault that is one entry, whose value may go by the call."""

    def fault(c):
        getattr(c, name)[at] = value(c) if callable(value) else value

    return fault


def cut(name, size):
    """A fault that is a length: a table is cut, or filled up with zeros."""

    def fault(c):
        table = getattr(c, name)
        table[:] = (table + [0] * size(c))[: size(c)]

    return fault


def sixteen_unknowns(c):
    c.q = 16
    c.coefs[:], c.list[:], c.second[:] = [0] * (c.p * 16), [1] * 48, [1] * 48
    c.stack[:] = rows_of(17, [[0] * 17] * 17)


def child_past_the_limit(c):
    """Components at the limit, and a child of the top past it, which no listed row stops."""
    c.list[:], c.second[:] = [WORD] * len(c.list), [WORD] * len(c.second)
    c.coefs[:] = [2 if i % 2 == 0 else -1 for i in range(len(c.coefs))]
    c.stack[: 2 * (c.width + 1)] = rows_of(c.width, [[0] + [MOST_COMPONENT] * (c.width - 1)] * 2)


# The refusal that a fault brings about, and the fault. Of two the one that comes first here is made first: the later ones go by the sizes that it leaves.
FAULTS = (
    (1, lambda c: setattr(c, "p", 0)),
    (2, sixteen_unknowns),
    (3, cut("coefs", lambda c: len(c.coefs) - 1)),
    (3, cut("rights", lambda c: len(c.rights) + 1)),
    (12, child_past_the_limit),
    (4, cut("stack", lambda c: c.width * (c.width + 1) - 1)),
    (6, part("record", 0, PLAIN)),
    (6, part("record", 1, lambda c: c.width + 1)),
    (6, part("record", 4, lambda c: len(c.second) + 1)),
    (6, part("record", 6, MOST_SUM + 1)),
    (6, part("stack", 0, 2)),
    (7, part("coefs", 0, 10001)),
    (15, part("rights", -1, -10001)),
    (14, part("record", 3, MOST_STEPS)),
    (11, part("record", 2, lambda c: len(c.list) // c.q)),
)
ORDER = (1, 2, 3, 4, 6, 7, 15, 14, 11, 12)
APART = ({4, 14},)  # a top with a child is no solution


def faults(kind):
    """Each fault alone, and each two of different numbers that can be had together, in the calls that look at them."""
    places = [n for n, (number, _) in enumerate(FAULTS) if kind == "go" or number in (1, 2, 3, 4, 7, 15)]
    for a in places:
        for b in places:
            if a <= b and (a == b or FAULTS[a][0] != FAULTS[b][0]) and {a, b} not in APART:
                c = valid(kind, 2, 3)
                for n in sorted({a, b}):
                    FAULTS[n][1](c)
                yield c, min(FAULTS[a][0], FAULTS[b][0], key=ORDER.index)


def series():
    """Runs with right sides, from a start on tables of any content, in calls of one step each or more; where a list is full the next call has a longer one."""
    for n in range(SERIES):
        rng = drawer("capped series", n)
        p, q = rng.randint(1, 2), rng.randint(1, 3)
        coefs, rights = [rng.randint(-3, 3) for _ in range(p * q)], [rng.choice((0, rng.randint(-6, 6))) for _ in range(p)]
        capped = n % 4 > 0
        width = q + capped
        stack = any_numbers(rng, width * (width + 1) + rng.randrange(3))
        list_, second = (any_numbers(rng, rng.choice((0, q, 4 * q + rng.randrange(q)))) for _ in range(2))
        record = [rng.randrange(KINDS_OF_RUN)] + [rng.randrange(HUGE) for _ in range(6)]
        c = Call("meet" if capped else "start", p, q, coefs, rights if capped else [], stack, list_, second if capped else [], record, [])
        c.limit = rng.choice((1, 2, 20, 20, MOST_COMPONENT, WORD))
        budgets = rng.choice(((1,), (1,), (0, 2, 1), (5,), (HUGE,)))
        over = 0
        for k in range(40):
            yield c.copy(), None
            answer = answered(c)
            over += answer[0] in ("Complete", "Refused")
            if over == 2:
                break
            c = with_(c, kind="go" if capped else "resume", budget=min(budgets[k % len(budgets)], 4000))
            if answer == ("Refused", 11):
                c.list += [8] * (2 * q)
                c.second += [8] * (2 * q) if capped else []


def shaped(rng):
    kind = rng.choice(("meet", "start", "resume") + ("go",) * 8)
    capped = kind in ("meet", "go")
    p, q = rng.randint(1, 2), rng.randint(1, rng.choice((2, 3, 4)))
    width, size = q + capped, rng.choice((1, 2, 6, 10000))
    coefs = [rng.randint(-size, size) * rng.choice((0, 1, 1, 1)) for _ in range(p * q)]
    rights = [rng.randint(-size, size) * rng.choice((0, 1, 1)) for _ in range(p)] if capped else []
    limit = rng.choice(LIMITS + (2, 3, MOST_COMPONENT))
    counts, style = min(max(limit, 1), MOST_COMPONENT), rng.randrange(3)

    def component():
        return (rng.randint(0, 1), rng.randint(0, min(6, counts)), counts - rng.choice((0, 0, 1)))[style]

    def tuple_():
        return ([rng.randint(0, 1)] if capped else []) + [component() for _ in range(q)]

    height = rng.randint(0, width)
    stack = rows_of(width, [tuple_() for _ in range(height)], [sum(2**j for j in rng.sample(range(width), k)) for k in range(height)])
    stack += any_numbers(rng, width * (width + 1) - len(stack) + rng.choice((0, 0, 1)))
    rooms = [rng.choice((0, 1, 2, 3, 5)) for _ in range(2)]
    founds = [rng.randint(0, min(2, room)) for room in rooms]
    list_, second = ([component() for _ in range(f * q)] + any_numbers(rng, (room - f) * q + rng.randrange(q)) for f, room in zip(founds, rooms))
    steps, before, deepest = rng.choice((0, 5, MOST_STEPS - rng.randrange(4))), rng.randrange(9), rng.choice((0, 3, MOST_SUM))
    record = [CAPPED if capped else PLAIN, height, founds[0], steps, founds[1], before, deepest]
    budget = rng.choice((0, 1, 2, 3, 9, 60)) if kind in ("go", "resume") else 0
    return Call(kind, p, q, coefs, rights, stack, list_, second if capped else [], record, [], budget, limit)


def faulty(c, rng):
    """One entry of one of its parts of any meaning, or a part of another length."""
    table = getattr(c, rng.choice(("coefs", "rights", "stack", "list", "second", "record", "record", "stack")))
    if table and table is not c.record and rng.randrange(4) == 0:
        table.pop()
    elif table:
        signed = table is c.coefs or table is c.rights
        n = rng.randrange(len(table))
        values = (-10001, 10001, 10000) if signed else (0, 1, 2, 3, 20, 21, 1_000_001, WORD)
        table[n] = rng.randrange(KINDS_OF_RUN) if table is c.record and n == 0 else rng.choice(values)
    return c


def cases():
    yield "starts and continuing calls with right sides: both sides of each edge"
    for kind in ("meet", "go"):
        yield from shape_edges(kind)
    for kind in ("go", "resume"):
        yield from record_edges(kind)
        yield from row_edges(kind)
    yield from search_edges()
    yield "faults, alone and by twos"
    for kind in ("meet", "go"):
        yield from faults(kind)
    yield "runs as series of calls"
    yield from series()
    yield "drawn calls"
    for n in range(DRAWN):
        rng = drawer("capped", n)
        c = shaped(rng)
        yield faulty(c, rng) if rng.randrange(4) == 0 else c, None
