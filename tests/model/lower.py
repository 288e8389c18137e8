"""Document 02, job 4, as a model: the start and the continuing call of runs from a lower bound (there: a floor), under any limit of components (job 9) and with
the greatest sum of components (job 6). Written from the documents alone: images are summed anew. What every call looks at is in capped.py; cases are in
lower_cases.py."""

from calls import MOST_STEPS, Refusal
from capped import MOST_SUM, check_ranges, check_shape, image, most, write_units

# "The run record names the walk and both walks' steps and solutions.": the kind of run, by the walk, and the places of the numbers
PLAIN_WALK, BOUND_WALK = 2, 3
KIND, HEIGHT, FOUND, STEPS, SECOND, BEFORE, DEEPEST = range(7)


def answered(c):
    try:
        return start_from(c) if c.kind == "from" else resume_from(c)
    except Refusal as refusal:
        return refusal.answer


# "A start checks 1 to 4 and 7, and with a floor also 5 and 8"; "A continuing call that is handed a floor checks 5 and 8 too."


def check_length(c):
    if len(c.lower) != c.q:
        raise Refusal(5)


def check_bound(c):
    if max(c.lower) > most(c):
        raise Refusal(8)


def check_order(c):
    """6, of whichever walk: the kind of the run, both lists' counts, both walks' steps, the greatest sum, and rows 1 to height."""
    r = c.record
    if r[KIND] not in (PLAIN_WALK, BOUND_WALK) or r[HEIGHT] > c.q or r[DEEPEST] > MOST_SUM:
        raise Refusal(6)
    if r[FOUND] > len(c.list) // c.q or r[SECOND] > len(c.second) // c.q or r[STEPS] > MOST_STEPS or r[BEFORE] > MOST_STEPS:
        raise Refusal(6)
    for k in range(1, r[HEIGHT] + 1):
        *components, marks = c.row(k)
        if max(components) > most(c) or marks >> c.q or bin(marks).count("1") != k - 1:
            raise Refusal(6)
        if r[KIND] == BOUND_WALK and not is_at_or_above(components, c.lower):
            raise Refusal(6)


def is_at_or_above(x, y):
    return all(a >= b for a, b in zip(x, y, strict=True))


def start_from(c):
    """"The start writes as a plain one.\""""
    check_shape(c)
    check_length(c)
    check_ranges(c)
    check_bound(c)
    write_units(c)
    c.record[:] = [PLAIN_WALK, c.q, 0, 0, 0, 0, 0]
    return ("Started",)


def resume_from(c):
    check_shape(c)
    check_length(c)
    check_order(c)
    check_ranges(c)
    check_bound(c)
    left = c.budget
    while True:
        change(c)
        if c.record[HEIGHT] == 0:
            return ("Complete",)
        if left == 0:
            return ("Paused",)
        step(c)
        left -= 1


def change(c):
    """"At its height 0, ahead of the allowance, the floor row is written and no count changed.\""""
    if c.record[KIND] == PLAIN_WALK and c.record[HEIGHT] == 0:
        c.write_row(1, c.lower[:], 0)
        c.record[KIND], c.record[HEIGHT] = BOUND_WALK, 1


def step(c):
    """A step of the walk under way, or the refusal of the search that stands before it. "In a floor run the floor's own components count, the plain run before
    it does not.\""""
    plain = c.record[KIND] == PLAIN_WALK
    steps, height = BEFORE if plain else STEPS, c.record[HEIGHT]
    if c.record[steps] >= MOST_STEPS:
        raise Refusal(14)
    *top, marks = c.row(height)
    rows = children(c, plain, top, marks) if any(image(c, top)) else enlist(c, plain, top)
    for n, (raised, frozen) in enumerate(rows):
        c.write_row(height + n, raised, frozen)
    c.record[HEIGHT] = height - 1 + len(rows)
    c.record[steps] += 1
    if not plain:
        c.record[DEEPEST] = max(c.record[DEEPEST], sum(top))


def enlist(c, plain, top):
    """"A floor run now first makes the plain run into a second list\""""
    table, count = (c.second, SECOND) if plain else (c.list, FOUND)
    n = c.record[count]
    if n >= len(table) // c.q:
        raise Refusal(11)
    table[n * c.q : (n + 1) * c.q] = top
    c.record[count] += 1
    return []


def children(c, plain, top, marks):
    value, rows, raising = image(c, top), [], 0
    for j in range(c.q):
        raised = [x + (k == j) for k, x in enumerate(top)]
        if marks >> j & 1 or sum(v * x for v, x in zip(value, c.column(j))) >= 0 or is_dropped(c, plain, raised):
            continue
        rows.append((raised, marks + raising))
        raising += 2**j
    if any(max(raised) > most(c) for raised, _ in rows):
        raise Refusal(12)
    assert c.record[HEIGHT] - 1 + len(rows) <= c.q
    return rows


def is_dropped(c, plain, child):
    """"drops a child also when child minus floor is at or above a row of that list\""""
    listed = [c.list[n * c.q : (n + 1) * c.q] for n in range(c.record[FOUND])]
    second = [c.second[n * c.q : (n + 1) * c.q] for n in range(c.record[SECOND])]
    if plain:
        return any(is_at_or_above(child, row) for row in second)
    rest = [x - f for x, f in zip(child, c.lower)]
    return any(is_at_or_above(child, row) for row in listed) or any(is_at_or_above(rest, row) for row in second)
