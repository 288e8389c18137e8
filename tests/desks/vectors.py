#!/usr/bin/env python3
"""Writes the calls that crates/try_vectors replays: python3 tests/desks/vectors.py DIR puts stdin and stdout into DIR.

Whole runs with a pause after every step, full lists that a sweep frees and that it does not, 64 and 65 loops, each refusal on both sides of its edge,
alone and by twos, and drawn calls with records and tables of any content."""
import itertools
import random
import sys

import calls
from calls import DEEPEST, DESKS, LIMIT, STEPS, Lent
from model import plain

HEAD = """# start p q .. | resume p q budget ..: a call of the second of two desks. c: coefficients; g: the minimal solutions of the first group, as rows; s, l
# and r: stack table, list table and record (height, found, steps, kind, second, before, deepest) before and after the call. A letter with a number, as s4:
# what stands from that entry on after the call. A: the answer, a number.
"""


class Text:
    def __init__(self):
        self.lines = []

    def tables(self, name, before, after):
        words = [name] + [str(x) for x in before]
        at = 0
        while at < len(after):
            if before[at] == after[at]:
                at += 1
                continue
            words.append(f"{name}{at}")
            while at < len(after) and before[at] != after[at]:
                words.append(str(after[at]))
                at += 1
        return words

    def call(self, kind, c, budget=0):
        """writes one call, and gives what is lent after it"""
        d = c.copy()
        answer = calls.start(d) if kind == "start" else calls.resume(d, budget)
        words = [kind, str(c.p), str(c.q)] + ([str(budget)] if kind == "resume" else [])
        words += ["c"] + [str(x) for x in c.coefs] + ["g"] + [str(x) for x in c.loops]
        words += self.tables("s", c.stack, d.stack) + self.tables("l", c.rows, d.rows) + self.tables("r", c.words, d.words)
        self.lines.append(" ".join(words + ["A", str(answer)]))
        return answer, d

    def run(self, c, budgets):
        """a start, and continuing calls to the end, or as long as there are budgets"""
        answer, c = self.call("start", c)
        while answer in (calls.STARTED, calls.PAUSED):
            budget = next(budgets, None)
            if budget is None:
                break
            answer, c = self.call("resume", c, budget)
        if answer == calls.COMPLETE:
            self.call("resume", c, 0)
        return answer, c


def desk(draw, q, loops, coefs, room, past=1):
    """tables with old content: rows for the loops and some numbers more, a list with room for some rows"""
    loops = [x for y in loops for x in y]
    stack = [draw.randint(0, 9) for _ in range(len(loops) // q * (q + 2) + past)]
    return Lent(len(coefs) // q, q, coefs, loops, stack, [draw.randint(0, 9) for _ in range(room)], [draw.randint(0, 9) for _ in range(7)])


def whole_runs(text, draw):
    example = [[0, 0, 3, 2], [0, 1, 1, 1], [0, 3, 0, 1], [1, 0, 2, 1], [2, 0, 1, 0], [1, 1, 0, 0]]
    text.run(desk(draw, 4, example, [-1, 3, -2, -1], 11), itertools.repeat(1))
    meeting = [[1, 1, 1], [0, 1, 2], [2, 1, 0]]
    freeing = [[0, 3, 1], [1, 2, 1], [2, 1, 1], [3, 0, 1]]
    for room in range(0, 12):
        text.run(desk(draw, 3, meeting, [-2, -1, 2], room), itertools.repeat(3))
        text.run(desk(draw, 3, freeing, [1, -1, 2], room), itertools.repeat(5))
    large = [[600000, 1], [500000, 100]]
    text.run(desk(draw, 2, large, [1, -5100], 4), itertools.repeat(1))
    text.run(desk(draw, 3, [], [-2, -1, 2], 5, 0), itertools.repeat(0))
    done = 0
    while done < 60:
        p, q = draw.randint(2, 3), draw.randint(2, 4)
        rows = [[draw.randint(-3, 3) for _ in range(q)] for _ in range(p)]
        cut = draw.randint(1, p - 1)
        first, _ = plain(rows[:cut], q)
        second = [x for row in rows[cut:] for x in row]
        if len(first) > 9:
            continue
        done += 1
        text.run(desk(draw, q, first, second, draw.choice([q, 2 * q, 3 * q + 1, 40])), iter(lambda: draw.choice([0, 1, 2, 3, 7, 1000]), None))


def many_loops(text, draw):
    for n in (31, 32, 33, 34, 63, 64, 65):
        ones = [[1 + k % 3] for k in range(n)]
        text.run(desk(draw, 1, ones, [0], 70), itertools.repeat(31))
        text.run(desk(draw, 1, ones, [5], 4), itertools.repeat(40))
    # a top that leaves room for marks in both numbers: loops of both signs
    for n in (33, 64):
        loops = [[k % 2, (k + 1) % 2] for k in range(n)]
        text.run(desk(draw, 2, loops, [1, -1], 200), itertools.repeat(29))
    answer, c = text.call("start", desk(draw, 1, [[1]] * 64, [5], 4))
    for words in ([64, 0, 0, 4, 0, 0, 0], [65, 0, 0, 4, 0, 0, 0]):
        c.words = words
        text.call("resume", c, 1)
    c.loops += [1]
    c.stack += [0] * 3
    text.call("resume", c, 1)
    text.call("start", c)


def paused(draw):
    """a run in the middle of its walk"""
    c = desk(draw, 2, [[2, 1], [1, 1], [1, 3]], [3, -4], 9)
    calls.start(c)
    calls.resume(c, 3)
    return c


def change(name, value):
    def to(c):
        setattr(c, name, value)

    return to


def word(k, value):
    def to(c):
        c.words[k] = value

    return to


def entry(name, k, value):
    def to(c):
        getattr(c, name)[k] = value

    return to


def length(name, by):
    def to(c):
        table = getattr(c, name)
        setattr(c, name, table[:by] if by < 0 else table + [0] * by)

    return to


# one or more faults of each number, for a call on paused()
FAULTS = [
    [change("p", 0), change("p", 9)],
    [change("q", 0), change("q", 17)],
    [length("coefs", 1), length("coefs", -1), length("loops", 1), length("loops", -1)],
    [change("stack", [1] * 11)],
    [
        entry("loops", 0, LIMIT + 1), entry("loops", 5, LIMIT + 1), word(calls.KIND, 0), word(calls.KIND, 1), word(calls.KIND, 2), word(calls.KIND, 3),
        word(calls.KIND, 5), word(calls.HEIGHT, 4), word(calls.FOUND, 5), word(calls.TAKEN, STEPS + 1), word(calls.DEEP, DEEPEST + 1),
        entry("stack", 0, LIMIT + 1), entry("stack", 2, 8), entry("stack", 2, 1), entry("stack", 3, 1), length("words", -1),
        length("words", 1), change("words", []),
    ],
    [entry("coefs", 0, 10001), entry("coefs", 1, -10001)],
    [entry("loops", 0, 700000)],
]

# what is still in order
EDGES = [
    word(calls.FOUND, 4), word(calls.TAKEN, STEPS), word(calls.TAKEN, STEPS - 1), word(calls.DEEP, DEEPEST), entry("stack", 0, LIMIT),
    entry("stack", 0, LIMIT - 1), entry("coefs", 0, 10000), entry("coefs", 1, -10000), word(calls.SECOND, 77), word(calls.BEFORE, 10**15),
    word(calls.HEIGHT, 0), word(calls.HEIGHT, 1), length("stack", 5), length("rows", -9),
    change("stack", [1, 2, 0, 0, 3, 4, 1, 0, 1, 1, 3, 0]), entry("loops", 0, 1000), entry("loops", 5, 1750),
]


def edges(text, draw):
    base = paused(draw)
    for fault in [f for group in FAULTS for f in group] + EDGES:
        c = base.copy()
        fault(c)
        text.call("start", c)
        for budget in (0, 1, 5):
            text.call("resume", c, budget)
    for later, earlier in itertools.combinations(range(len(FAULTS)), 2):
        for _ in range(2):
            c = base.copy()
            # a table that is made anew comes ahead of one whose entry or length is changed
            for fault in (draw.choice(FAULTS[later]), draw.choice(FAULTS[earlier])):
                try:
                    fault(c)
                except IndexError:
                    pass
            text.call("start", c)
            text.call("resume", c, 1)
    for image, loop in ((10000, 700), (-10000, 700), (10000, 701), (-10000, 701), (7, LIMIT), (8, LIMIT)):
        c = desk(draw, 1, [[loop]], [image], 3)
        text.call("start", c)
        c.words = [0, 0, 0, DESKS, 0, 0, 0]
        text.call("resume", c, 1)
    for q in (1, 16):
        for p in (1, 8):
            text.run(desk(draw, q, [[1] * q, [2] * q], [0] * (p * q), 2 * q), itertools.repeat(2))
    # children at both sides of the limit of components
    for big in (LIMIT - 1, LIMIT, LIMIT + 1, LIMIT + 2):
        text.run(desk(draw, 2, [[big - 5, 0], [5, 1]], [1, -10000], 4), iter([1, 1, 1, 0]))


def component(draw):
    return draw.choice([0, 1, 1, 2, 3, draw.choice([LIMIT, LIMIT + 1, 499999])] if draw.random() < 0.1 else [0, 1, 2, 3])


def drawn(text, draw, count):
    for _ in range(count):
        p, q, n = draw.randint(1, 2), draw.randint(1, 3), draw.randint(0, 4)
        loops = [[component(draw) for _ in range(q)] for _ in range(n)]
        c = desk(draw, q, loops, [draw.randint(-4, 4) for _ in range(p * q)], draw.randint(0, 8), draw.randint(0, 2))
        height = draw.randint(0, n)
        for k in range(height):
            marks = sum(1 << j for j in draw.sample(range(n), k)) if draw.random() < 0.95 else draw.randint(0, 2**33)
            c.write(k, [draw.choice([0, 1, 2, 5, LIMIT if draw.random() < 0.1 else 3]) for _ in range(q)], marks)
        found = draw.randint(0, len(c.rows) // q + (draw.random() < 0.05))
        steps = draw.choice([0, 7, STEPS - 1, STEPS, STEPS + 1] if draw.random() < 0.1 else [3])
        kind = 4 if draw.random() < 0.97 else draw.randint(0, 9)
        c.words = [height + (draw.random() < 0.03), found, steps, kind, 1, 2, draw.choice([0, 9, DEEPEST])]
        text.call("resume", c, draw.choice([0, 1, 1, 2, 3, 50]))


def main():
    draw, text = random.Random(10), Text()
    whole_runs(text, draw)
    many_loops(text, draw)
    edges(text, draw)
    drawn(text, draw, 1800)
    folder = sys.argv[1]
    with open(f"{folder}/stdin", "w") as file:
        file.write(HEAD + "\n".join(text.lines) + "\n")
    with open(f"{folder}/stdout", "w") as file:
        file.write(f"calls {len(text.lines)} agreed {len(text.lines)}\n")


if __name__ == "__main__":
    main()
