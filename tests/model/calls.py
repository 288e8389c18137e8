"""Document 01 as a model: the plain start, the continuing call and the reader, each on a whole state. It is written from the document alone and with no
thought of speed: images are summed anew wherever one is asked for. Runs from a lower bound are in lower.py."""

from dataclasses import dataclass

MOST_EQUATIONS, MOST_UNKNOWNS = 8, 16
MOST_COEFFICIENT, MOST_COMPONENT, MOST_STEPS = 10_000, 1_000_000, 1_000_000_000_000


@dataclass
class Call:
    """What is handed over: the system, the tables, the run record (height, found, steps), and a budget where the kind has one."""

    kind: str
    p: int
    q: int
    coefs: list
    stack: list
    list: list
    record: list
    budget: int = 0

    def copy(self):
        return Call(self.kind, self.p, self.q, self.coefs[:], self.stack[:], self.list[:], self.record[:], self.budget)


class Refusal(Exception):
    """A refusal by its number, with the place that it tells or 0."""

    def __init__(self, number, place=0):
        self.answer = ("Refused", number, place) if place else ("Refused", number)


def answered(call):
    """The answer to a call. Its tables and record are changed as the call changes them."""
    try:
        return {"start": start, "resume": resume, "begin": begin, "go": go}[call.kind](call)
    except Refusal as refusal:
        return refusal.answer


# "Refusals 1 to 8 are checked in rising number and change nothing lent."


def check_shape(c):
    if not 1 <= c.p <= MOST_EQUATIONS:
        raise Refusal(1)
    if not 1 <= c.q <= MOST_UNKNOWNS:
        raise Refusal(2)
    if len(c.coefs) != c.p * c.q:
        raise Refusal(3)
    if len(c.stack) < c.q * (c.q + 1):
        raise Refusal(4)


def check_coefficients(c):
    for place, x in enumerate(c.coefs, 1):
        if abs(x) > MOST_COEFFICIENT:
            raise Refusal(7, place)


def check_order(c):
    height, found, steps = c.record
    if height > c.q or found > room(c) or steps > MOST_STEPS:
        raise Refusal(6)
    for k in range(1, height + 1):
        *components, marks = row(c, k)
        beyond = marks >> c.q
        if max(components) > MOST_COMPONENT or beyond or bin(marks).count("1") != k - 1:
            raise Refusal(6)


def room(c):
    return len(c.list) // c.q


def row(c, k):
    """Row k of the stack, from 1: the components, then the marks."""
    return c.stack[(k - 1) * (c.q + 1) : k * (c.q + 1)]


def write_row(c, k, components, marks):
    c.stack[(k - 1) * (c.q + 1) : k * (c.q + 1)] = components + [marks]


# "A plain start writes rows 1 to q: row k holds a 1 at place k, and marks 1 to k - 1." It sets "height to q .., found and steps to 0", takes no step, touches
# nothing else and answers "started".


def start(c):
    check_shape(c)
    check_coefficients(c)
    for k in range(1, c.q + 1):
        write_row(c, k, [1 if j == k else 0 for j in range(1, c.q + 1)], sum(2 ** (j - 1) for j in range(1, k)))
    c.record[:] = [c.q, 0, 0]
    return ("Started",)


# "Before each step, in this order: height 0 answers 'complete'; allowance used up answers 'paused'; then the refusals of the search."


def resume(c):
    check_shape(c)
    check_order(c)
    check_coefficients(c)
    left = c.budget
    while c.record[0] > 0:
        if left == 0:
            return ("Paused",)
        step(c)
        left -= 1
    return ("Complete",)


def image(c, tuple_):
    return [sum(c.coefs[i * c.q + j] * tuple_[j] for j in range(c.q)) for i in range(c.p)]


def step(c):
    """One step, or the refusal of the search that stands before it: 14, 11, 12. ("13 is retired": no step needs a row beyond the last.)"""
    height, found, steps = c.record
    if steps >= MOST_STEPS:
        raise Refusal(14)
    *top, marks = row(c, height)
    value = image(c, top)
    if not any(value):
        if found >= room(c):
            raise Refusal(11)
        c.list[found * c.q : (found + 1) * c.q] = top
        c.record[:] = [height - 1, found + 1, steps + 1]
        return
    rows = []
    for j in range(c.q):
        raised = [x + (k == j) for k, x in enumerate(top)]
        if makes_child(c, found, value, marks, j, raised):
            rows.append((raised, marks | sum(2**k for _, _, k in rows), j))
    if any(max(raised) > MOST_COMPONENT for raised, _, _ in rows):
        raise Refusal(12)
    assert height - 1 + len(rows) <= c.q
    for n, (raised, frozen, _) in enumerate(rows):
        write_row(c, height + n, raised, frozen)
    c.record[:] = [height - 1 + len(rows), found, steps + 1]


def makes_child(c, found, value, marks, j, raised):
    """"Raising unknown j by 1 makes a child if j is not marked, the inner product of the top's image with column j is below zero, and the raised
    tuple is not at or above any row listed so far.\""""
    if marks >> j & 1:
        return False
    if sum(value[i] * c.coefs[i * c.q + j] for i in range(c.p)) >= 0:
        return False
    listed = (c.list[n * c.q : (n + 1) * c.q] for n in range(found))
    return not any(all(s <= t for s, t in zip(entry, raised)) for entry in listed)


def view(q, table, found, n):
    """The reader: what it answers for q, and row n, or none at 0, past the found count or past the room."""
    if not 1 <= q <= MOST_UNKNOWNS:
        return ("Refused", 2), []
    if not 1 <= n <= min(found, len(table) // q):
        return ("Yes",), []
    return ("Yes",), table[(n - 1) * q : n * q]


# Job 12 of document 02: "This profile has a plain start and continuing call with 26", "after 7".


def check_profile(p, q, coefs):
    """"each column has one 1, one -1 and otherwise zeros, or is all zeros\""""
    for j in range(q):
        if sorted(x for x in coefs[j::q] if x != 0) not in ([], [-1, 1]):
            raise Refusal(26, j + 1)


def begin(c):
    check_shape(c)
    check_coefficients(c)
    check_profile(c.p, c.q, c.coefs)
    return start(c)


def go(c):
    check_shape(c)
    check_order(c)
    check_coefficients(c)
    check_profile(c.p, c.q, c.coefs)
    return resume(c)
