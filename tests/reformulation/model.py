"""A map in the place of another: drawn maps with multiples that show it, and each of them with one thing changed; and rows without their further unknowns. The
answers are those of the definition, read anew here with whole numbers of any size. The first argument says how they are written: `words` as
tests/reformulation/ask.c reads them, with maps of up to 32 equations and unknowns, `lines` as crates/try_vectors does, and `count` says how many there are."""
import random
import sys
from fractions import Fraction
from math import lcm

LIMIT, MOST = 10000, 10 ** 12


# ---- the definition

def rows_of(table, w):
    return [table[at:at + w] for at in range(0, len(table), w)]


def follows(exact, columns, by, row, table):
    """A row taken by[0] times, and the rows of a table as often as is told, add up to 0, or to nothing below 0."""
    sums = [by[0] * row[j] + sum(c * other[j] for c, other in zip(by[1:], table)) for j in range(columns)]
    return by[0] >= 1 and all(s == 0 if exact else s >= 0 for s in sums)


def is_extended(p, q, k, a, v):
    for i in range(p + k):
        for j in range(q + k):
            if j < q and i < p and v[i][j] != a[i][j]:
                return False
            if j >= q and v[i][j] != (-1 if i - p == j - q else 0):
                return False
    return True


def shows(p, q, k, m, coefs, extended, other, onto, back, above):
    if any(abs(x) > LIMIT for x in extended + other) or any(abs(x) > MOST for x in onto + back + above):
        return False
    a, v, w = rows_of(coefs, q), rows_of(extended, q + k), rows_of(other, q + k)
    onto, back, above = rows_of(onto, 1 + p + k), rows_of(back, 1 + m), rows_of(above, 1 + p)
    return (is_extended(p, q, k, a, v)
            and all(follows(True, q + k, by, row, v) for by, row in zip(onto, w))
            and all(follows(True, q + k, by, row, w) for by, row in zip(back, v))
            and all(follows(False, q, by, row, v[:p]) for by, row in zip(above, v[p:])))


def answer(p, q, k, m, coefs, extended, other, onto, back, above):
    if not (1 <= p <= 32 and 1 <= m <= 32):
        return 1
    if q < 1 or q + k > 32:
        return 2
    lengths = p * q, (p + k) * (q + k), m * (q + k), m * (1 + p + k), (p + k) * (1 + m), k * (1 + p)
    if tuple(map(len, (coefs, extended, other, onto, back, above))) != lengths:
        return 3
    for place, x in enumerate(coefs, 1):
        if abs(x) > LIMIT:
            return 7 + 256 * place
    return 128 if shows(p, q, k, m, coefs, extended, other, onto, back, above) else 36


def projected(q, k, found, rows, out):
    if q < 1 or q + k > 32:
        return 2, out
    if found > len(rows) // (q + k):
        return 6, out
    if found > len(out) // q:
        return 29, out
    kept = [x for n in range(found) for x in rows[n * (q + k):n * (q + k) + q]]
    return 129, kept + out[len(kept):]


# ---- cases

def combined(rows, targets):
    """For each target multiples, the first 1 or more, that make it and the rows add up to 0; where there are none, the target once and no row."""
    n, w = len(rows), len(rows[0])
    lines = [[Fraction(row[j]) for row in rows] + [Fraction(-t[j]) for t in targets] for j in range(w)]
    pivots = []
    for r in range(n):
        at = len(pivots)
        one = next((i for i in range(at, w) if lines[i][r]), None)
        if one is None:
            continue
        lines[at], lines[one] = lines[one], lines[at]
        lines[at] = [x / lines[at][r] for x in lines[at]]
        for i in range(w):
            if i != at and lines[i][r]:
                lines[i] = [x - lines[i][r] * y if y else x for x, y in zip(lines[i], lines[at])]
        pivots.append(r)
    found = []
    for t in range(n, n + len(targets)):
        c = [Fraction(0)] * n
        for i, r in enumerate(pivots):
            c[r] = lines[i][t]
        d = lcm(1, *(x.denominator for x in c))
        found.append([1] + [0] * n if any(line[t] for line in lines[len(pivots):]) else [d] + [int(x * d) for x in c])
    return found


def drawn(r, p, q, k, m):
    """A map, further unknowns that are never below 0, another map of m sums of the equations, and what shows it, as far as that can be shown."""
    a = [[r.choice([0, 0, 1, -1, 2, -3, 5]) for _ in range(q)] for _ in range(p)]
    for i in range(1, p):
        if r.random() < 0.2:
            a[i] = [2 * x for x in a[i - 1]]
    u, above = [], []
    for _ in range(k):
        c, d = [r.choice([0, 0, 1, -1, 2]) for _ in range(p)], r.choice([1, 1, 2, 7])
        t = [r.choice([0, 0, 1, 2]) for _ in range(q)]
        u.append([t[j] - sum(c[i] * a[i][j] for i in range(p)) for j in range(q)])
        above.append([d] + [d * x for x in c])
    v = [row + [0] * k for row in a] + [row + [-1 if n == l else 0 for n in range(k)] for l, row in enumerate(u)]
    mixed = [list(row) for row in v]
    for _ in range(2 * len(v)):
        i, j, sign, factor = r.randrange(len(v)), r.randrange(len(v)), r.choice([1, -1]), r.choice([1, 1, -1, 2, 3])
        mixed[i] = [factor * x for x in mixed[i]] if i == j else [x + sign * y for x, y in zip(mixed[i], mixed[j])]
    r.shuffle(mixed)
    w = [mixed[i] if i < len(mixed) else [x + y for x, y in zip(r.choice(mixed), r.choice(mixed))] for i in range(m)]
    return [p, q, k, m] + [[x for row in rows for x in row] for rows in (a, v, w, combined(v, w), combined(w, v), above)]


MAP, EXTENDED, OTHER, ONTO, BACK, ABOVE = range(4, 10)


def changed(r, case):
    """The case with one thing changed: a number, a whole row of multiples, a length, or a size."""
    case = [list(x) if isinstance(x, list) else x for x in case]
    p, q, k, m = case[:4]
    widths = {MAP: q, EXTENDED: q + k, OTHER: q + k, ONTO: 1 + p + k, BACK: 1 + m, ABOVE: 1 + p}
    which = r.choice([t for t in widths if case[t]] or [MAP])
    table, w = case[which], widths[which]
    how = r.randrange(7)
    if how < 2 and table:
        table[r.randrange(len(table))] += r.choice([1, -1, 2])
    elif how == 2 and table:
        edges = [LIMIT, LIMIT + 1] if which in (MAP, EXTENDED, OTHER) else [MOST, MOST + 1, 2 ** 63 - 1]
        table[r.randrange(len(table))] = r.choice([1, -1]) * r.choice(edges)
    elif how == 3 and table and w:
        # a row no times, turned round, as many times more as may be, or the next one's
        at, factor = r.randrange(len(table) // w) * w, r.choice([0, -1, 3, MOST, MOST + 1])
        row = [factor * x for x in table[at:at + w]]
        if all(abs(x) < 2 ** 63 for x in row) and which in (ONTO, BACK, ABOVE):
            table[at:at + w] = row
        else:
            table[:] = table[w:] + table[:w]
    elif how == 4:
        case[which] = table[:-1] if table and r.random() < 0.5 else table + [0]
    elif how == 5:
        n = r.randrange(4)
        case[n] = max(0, case[n] + r.choice([1, -1]))
    else:
        n = r.randrange(4)
        case[n] = r.choice([0, 32, 33, 2 ** 64 - 1])
    return case


def fits(case, sizes):
    """Within what is read: sizes of the tables, and numbers of 64 bits."""
    return (all(len(case[t]) <= most for t, most in sizes.items()) and (not sizes or len(case[BACK]) + len(case[ABOVE]) <= sizes[ONTO])
            and all(-2 ** 31 <= x < 2 ** 31 for t in (MAP, EXTENDED, OTHER) for x in case[t])
            and all(-2 ** 63 <= x < 2 ** 63 for t in (ONTO, BACK, ABOVE) for x in case[t]))


def shown_cases(count, draw, sizes):
    r = random.Random(35)
    while count > 0:
        case = drawn(r, *draw(r))
        for n in range(5):
            one = case if n == 0 else changed(r, case)
            if fits(one, sizes):
                yield one, answer(*one)
                count -= 1


def small(r):
    p, q, k = r.choice([1, 1, 2, 3]), r.choice([1, 2, 3, 5]), r.choice([0, 1, 1, 2])
    return p, q, k, max(1, p + k + r.choice([0, 0, 0, 1, -1]))


def any_size(r):
    """As the small ones, and one in ten at an edge: 32 equations of either map, 32 unknowns, as many further ones as there may be."""
    if r.random() < 0.9:
        return small(r)
    p, q = r.choice([1, 2, 31, 32]), r.choice([1, 2, 16, 31, 32])
    k = min(32 - q, r.choice([0, 1, 2, 31]))
    return p, q, k, min(32, p + k)


def projected_cases(count, numbers):
    r = random.Random(129)
    for _ in range(count):
        q, k = r.choice([0, 1, 1, 2, 3, 5, 16, 32, 33]), r.choice([0, 0, 1, 2, 3, 16, 31])
        found = r.choice([0, 1, 2, 3, 7])
        rows = [r.choice([0, 1, 7, 2 ** 32 - 1]) for _ in range(max(0, min(numbers, found * (q + k) + r.choice([0, 0, 1, -1]))))]
        out = [9] * max(0, min(numbers, found * q + r.choice([0, 0, 1, 5, -1])))
        yield (q, k, found, rows, out), projected(q, k, found, rows, out)


def main():
    how = sys.argv[1]
    if how == "words":
        for case, number in shown_cases(3000, any_size, {}):
            print("s", *case[:4], *(x for t in case[4:] for x in [len(t)] + t), number)
        for (q, k, found, rows, out), (number, after) in projected_cases(3000, 400):
            print("p", q, k, found, len(rows), *rows, len(out), *out, number, *after)
        return
    sizes = {MAP: 160, EXTENDED: 160, OTHER: 160, ONTO: 80}
    shown, kept = list(shown_cases(1200, small, sizes)), list(projected_cases(400, 320))
    if how == "lines":
        for case, number in shown:
            words = [[x % 2 ** 64 for x in t] for t in case[ONTO:]]
            print("s", *case[:4], len(case[BACK]), "c", *case[MAP], "e", *case[EXTENDED], "b", *case[OTHER], "r", *words[0], "h", *words[1], *words[2], "E", number)
        for (q, k, found, rows, out), (number, after) in kept:
            print("p", q, k, found, "l", *rows, "n", *out, "n0", *after, "E", number)
    else:
        print("shown", len(shown), "agreed", len(shown))
        print("projected", len(kept), "agreed", len(kept))


main()
