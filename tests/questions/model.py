"""Questions about a list, with the answers that documents 01 and 02 give, read anew here: some drawn, the others every tuple of small boxes. They are asked of
document 02's calls, which take maps of up to 8 equations and 16 unknowns, and of the engine's, which take 32 of each. The first argument says how
they are written: `words` as tests/questions/ask.c reads them, `lines` as crates/try_vectors does, and `count` says how many there are. An answer is a number
and 256 times its place; where no amount is told, the number lent for it keeps the 9 that it held."""
import itertools
import random
import sys

DOCUMENT, ENGINE = (8, 16), (32, 32)


def at_or_below(row, t):
    return all(a <= b for a, b in zip(row, t))


def locate(most, q, table, found, t):
    if not 1 <= q <= most[1]:
        return 2
    if len(t) != q:
        return 5
    if found > len(table) // q:
        return 6
    places = [n + 1 for n in range(found) if at_or_below(table[n * q:n * q + q], t)]
    return 126 + 256 * places[-1] if places else 127


def reason(most, p, q, coefs, table, found, t):
    if not 1 <= p <= most[0]:
        return 1, 0, 0
    if not 1 <= q <= most[1]:
        return 2, 0, 0
    if len(coefs) != p * q:
        return 3, 0, 0
    if len(t) != q:
        return 5, 0, 0
    if found > len(table) // q:
        return 6, 0, 0
    for place, c in enumerate(coefs, 1):
        if abs(c) > 10000:
            return 7, place, 0
    if any(x > 1000000 for x in t):
        return 8, 0, 0
    if not any(t):
        return 120, 0, 0
    for k in range(p):
        amount = sum(c * x for c, x in zip(coefs[k * q:k * q + q], t))
        if amount:
            return 121, k + 1, amount
    rows = [table[n * q:n * q + q] for n in range(found)]
    same = [n + 1 for n, row in enumerate(rows) if row == t]
    if same:
        return 122, same[-1], 0
    below = [n + 1 for n, row in enumerate(rows) if at_or_below(row, t)]
    return (123, below[-1], 0) if below else (124, 0, 0)


def parts(most, p, q, coefs, table, found, t, times):
    """The answer and the table of multiples: each row is taken off as often as it goes, the last first; one of zeros never goes."""
    number, place, _ = reason(most, p, q, coefs, table, found, t)
    if number < 120 or number == 121:
        return number + 256 * place, times
    if len(times) < found:
        return 29, times
    rest, after = list(t), list(times)
    for n in reversed(range(found)):
        row = table[n * q:n * q + q]
        after[n] = min((x // r for x, r in zip(rest, row) if r), default=0)
        rest = [x - after[n] * r for x, r in zip(rest, row)]
    return (124 if any(rest) else 125), after


def listed(r, n, q, t):
    """A list table of n rows or a little more, some of them the tuple or below it."""
    table = [r.choice([0, 0, 1, 2, 3]) for _ in range(n * q + r.randrange(2))]
    for k in range(n):
        if len(t) == q and r.random() < 0.3:
            table[k * q:k * q + q] = t if r.random() < 0.5 else [max(0, x - r.randrange(2)) for x in t]
    return table


def drawn(r):
    p, q = r.choice([0, 1, 1, 1, 2, 2, 3, 8, 9]), r.choice([0, 1, 2, 2, 3, 3, 4, 16, 17])
    size = max(0, p * q + r.choice([0] * 20 + [1, -1]))
    coefs = [r.choice([0, 0, 1, -1, 2, -3]) for _ in range(size)]
    if coefs and r.random() < 0.05:
        coefs[r.randrange(size)] = r.choice([10001, -10001, 10000, -10000])
    t = [r.choice([0, 0, 1, 2, 3]) for _ in range(max(0, q + r.choice([0] * 20 + [1, -1])))]
    if t and r.random() < 0.1:
        t[r.randrange(len(t))] = r.choice([1000000, 1000001, 4294967295])
    n = r.randrange(5)
    return p, q, coefs, listed(r, n, q, t), min(max(0, n + r.choice([0, 0, 0, -1, 1])), n + 1), t


def large(r, coefficients, numbers):
    """A map at either side of an edge of 1 or 2, of up to so many coefficients, some loops of which are known, so that tuples solve it; the list has up to so many
    numbers."""
    sizes = [(p, q) for p in (0, 1, 2, 7, 8, 9, 31, 32, 33) for q in (0, 1, 2, 3, 4, 15, 16, 17, 31, 32, 33) if p * q <= coefficients]
    p, q = r.choice(sizes)
    # each loop has three activities of its own, or what is left of them; each equation keeps two of them in step
    loops = [[r.choice([1, 1, 2, 3]) if at <= j < at + 3 else 0 for j in range(q)] for at in range(0, q, 3)]
    coefs = []
    for _ in range(p):
        row, loop = [0] * q, r.choice(loops) if loops else []
        own = [j for j in range(q) if loop[j]]
        if len(own) > 1:
            a, b = r.sample(own, 2)
            row[a], row[b] = loop[b], -loop[a]
        coefs += row
    if coefs and r.random() < 0.1:
        coefs[r.randrange(len(coefs))] = r.choice([10000, -10000, 10001, -10001, 1])
    if r.random() < 0.05:
        coefs = coefs[:-1] if coefs and r.random() < 0.5 else coefs + [0]
    scale = r.choice([0, 1, 1, 1, 2, 333333])
    often = [r.choice([0, 1, 1, 2, 3]) for _ in loops]
    t = [scale * sum(n * loop[j] for n, loop in zip(often, loops)) for j in range(q)]
    if t and r.random() < 0.2:
        t[r.randrange(q)] += r.choice([1, 1, 5])
    if r.random() < 0.05:
        t = t[:-1] if r.random() < 0.5 else t + [0]
    if t and r.random() < 0.05:
        t[r.randrange(len(t))] = r.choice([1000000, 1000001, 4294967295])
    most = min(numbers // q if q else 0, len(loops) + 2)
    rows = r.sample(loops, min(len(loops), r.choice([most, most, r.randrange(most + 1)])))[:most]
    if len(rows) < most and r.random() < 0.3:
        rows.insert(r.randrange(len(rows) + 1), t if len(t) == q else [0] * q)
    table = [x for row in rows for x in row]
    return p, q, coefs, table, max(0, len(rows) + r.choice([0] * 8 + [1, -1])), t


def minimal(p, q, coefs, side):
    """The minimal solutions in a box, by trying every tuple of it."""
    found = []
    for t in sorted(itertools.product(range(side + 1), repeat=q), key=sum):
        solves = all(sum(c * x for c, x in zip(coefs[k * q:k * q + q], t)) == 0 for k in range(p))
        if any(t) and solves and not any(at_or_below(row, t) for row in found):
            found.append(t)
    return found


def boxed(r, wide):
    """Every tuple of a box with room for `wide` of them, or of a smaller one; the list holds the box's minimal solutions, now and then all but the last."""
    p, q = r.choice([1, 1, 2]), r.choice([1, 2, 2, 3])
    coefs = [r.choice([0, 1, -1, 2, -2, 3, -4]) for _ in range(p * q)]
    side = int(wide ** (1 / q)) - 1
    rows = minimal(p, q, coefs, side)
    r.shuffle(rows)
    table = [x for row in rows for x in row]
    found = len(rows) - (1 if rows and r.random() < 0.2 else 0)
    for t in itertools.product(range(side + 1), repeat=q):
        yield p, q, coefs, table, found, list(t)


def widened(r, asked):
    """The same question of a map with more equations and more unknowns: the equations again, and unknowns that no equation mentions and no row has, placed last."""
    p, q, coefs, table, found, t = asked
    times, more = r.choice([9, 16]), r.choice([13, 16])
    rows = [coefs[k * q:k * q + q] + [0] * more for k in range(p)]
    wide = [x for k in range(times) for x in rows[k % p]]
    return times, q + more, wide, [x for n in range(len(table) // q) for x in table[n * q:n * q + q] + [0] * more], found, t + [0] * more


def documents(r, drawn_ones, boxes, wide):
    """Of document 02's calls."""
    for _ in range(drawn_ones):
        yield DOCUMENT, drawn(r)
    for _ in range(boxes):
        for one in boxed(r, wide):
            yield DOCUMENT, one


def larger(r, drawn_ones, boxes, wide, coefficients, numbers):
    """Of the engine's, for maps of up to so many coefficients and lists of up to so many numbers; and the same maps of document 02's."""
    for _ in range(drawn_ones):
        yield ENGINE, drawn(r)
        for most in ENGINE, ENGINE, ENGINE, DOCUMENT:
            yield most, large(r, coefficients, numbers)
    for _ in range(boxes):
        for one in boxed(r, wide):
            bigger = widened(r, one)
            yield ENGINE, bigger if len(bigger[2]) <= coefficients and len(bigger[3]) <= numbers else one


def answered(r, asked):
    for most, (p, q, coefs, table, found, t) in asked:
        times = [9] * max(0, found + r.choice([0, 0, 0, 1, -1]))
        number, place, amount = reason(most, p, q, coefs, table, found, t)
        told, after = parts(most, p, q, coefs, table, found, t, times)
        held = amount if number == 121 else 9
        yield most, p, q, coefs, table, found, t, times, (number + 256 * place, locate(most, q, table, found, t), told), held, after


def questions(drawn_ones, boxes, wide, coefficients, numbers):
    r = random.Random(8)
    yield from answered(r, list(documents(r, drawn_ones, boxes, wide)))
    r = random.Random(32)
    yield from answered(r, list(larger(r, drawn_ones // 16, boxes // 6, wide, coefficients, numbers)))


def main():
    how = sys.argv[1]
    if how == "words":
        for most, p, q, coefs, table, found, t, times, numbers, amount, after in questions(20000, 200, 130, 33 * 33, 2000):
            print(int(most == ENGINE), p, q, len(coefs), *coefs, len(table), *table, found, len(t), *t, len(times), *times, *numbers, amount, *after)
        return
    count = {DOCUMENT: 0, ENGINE: 0}
    for most, p, q, coefs, table, found, t, times, numbers, amount, after in questions(4000, 60, 70, 160, 320):
        count[most] += 1
        if how == "lines":
            kind = "e" if most == ENGINE else "q"
            print(kind, p, q, found, "c", *coefs, "l", *table, "t", *t, "n", *times, "n0", *after, "E", *numbers, abs(amount), int(amount < 0))
    if how == "count":
        for name, most in ("questions", DOCUMENT), ("engine", ENGINE):
            print(name, count[most], "agreed", count[most])


main()
