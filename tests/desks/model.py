#!/usr/bin/env python3
"""A model of the second walk of document 02, Job 10, written from the documents alone.

    tests/desks/model.py [COUNT] [SEED]

Draws COUNT small maps, splits each at every equation, and compares the list of the whole map with that built one group after the other, and with all
tuples of a box."""
import itertools
import random
import sys

LIMIT, STEPS, DEEPEST, MOST, IMAGE = 1_000_000, 10**12, 16_000_000, 64, 7_000_000


def image(rows, x):
    return [sum(a * b for a, b in zip(row, x)) for row in rows]


def inner(u, v):
    return sum(a * b for a, b in zip(u, v))


def below(s, t):
    return all(a <= b for a, b in zip(s, t))


def swept(rows):
    keep = []
    for i, x in enumerate(rows):
        if not any(below(y, x) and (y != x or k < i) for k, y in enumerate(rows)):
            keep.append(x)
    return keep


def plain(rows, q):
    """the minimal solutions of a map, as document 01's walk lists them, and its steps"""
    columns = [image(rows, [int(i == j) for i in range(q)]) for j in range(q)]
    stack = [([int(i == k) for i in range(q)], set(range(k))) for k in range(q)]
    found, steps = [], 0
    while stack:
        x, marks = stack.pop()
        steps += 1
        y = image(rows, x)
        if not any(y):
            found.append(x)
            continue
        made = []
        for j in range(q):
            z = [x[i] + (i == j) for i in range(q)]
            if j not in marks and inner(y, columns[j]) < 0 and not any(below(s, z) for s in found):
                made.append((z, j))
        before = set(marks)
        for z, j in made:
            stack.append((z, set(before)))
            before.add(j)
    return found, steps


class Run:
    """a run desk by desk: the second group, the generators, a list with room for `room` rows"""

    def __init__(self, rows, generators, room):
        self.rows, self.generators, self.room = rows, generators, room
        self.images = [image(rows, g) for g in generators]
        self.stack = [(list(g), (1 << k) - 1) for k, g in enumerate(generators)]
        self.found, self.steps, self.deepest = [], 0, 0

    def refused(self):
        if any(c > LIMIT for g in self.generators for c in g):
            return 6
        if len(self.generators) > MOST or any(abs(c) > IMAGE for y in self.images for c in y):
            return 25
        return None

    def resume(self, budget):
        while True:
            if not self.stack:
                self.found = swept(self.found)
                return "complete"
            if budget == 0:
                return "paused"
            if self.steps == STEPS:
                return 14
            x, marks = self.stack[-1]
            y = image(self.rows, x)
            if not any(y):
                rows = self.found
                if len(rows) >= self.room:
                    rows = swept(rows)
                    if len(rows) >= self.room:
                        return 11
                self.found = rows + [x]
                self.stack.pop()
            else:
                made = []
                for j, g in enumerate(self.generators):
                    z = [a + b for a, b in zip(x, g)]
                    if not marks >> j & 1 and inner(y, self.images[j]) < 0 and not any(below(s, z) for s in self.found):
                        made.append((j, z))
                if any(c > LIMIT for _, z in made for c in z):
                    return 12
                self.stack.pop()
                for j, z in made:
                    self.stack.append((z, marks))
                    marks |= 1 << j
                assert len(self.stack) <= len(self.generators)
            self.steps += 1
            self.deepest = max(self.deepest, sum(x))
            budget -= 1


def box(rows, q, most):
    """the minimal solutions with components up to `most`"""
    all_ = [x for x in itertools.product(range(most + 1), repeat=q) if any(x) and not any(image(rows, x))]
    return {x for x in all_ if not any(y != x and below(y, x) for y in all_)}


def main():
    count = int(sys.argv[1]) if len(sys.argv) > 1 else 2000
    draw = random.Random(int(sys.argv[2]) if len(sys.argv) > 2 else 20)
    tried = swept_rows = boxes = wide = 0
    while tried < count:
        p, q = draw.randint(2, 3), draw.randint(2, 4)
        rows = [[draw.randint(-3, 3) for _ in range(q)] for _ in range(p)]
        whole, _ = plain(rows, q)
        for cut in range(1, p):
            first, _ = plain(rows[:cut], q)
            run = Run(rows[cut:], first, 10**6)
            if run.refused() is not None:
                wide += 1
                continue
            paused = draw.randint(0, 5)
            answer = run.resume(paused)
            seen = len(run.found)
            if answer == "paused":
                answer = run.resume(10**7)
            assert answer == "complete", (rows, cut, answer)
            swept_rows += seen > len(run.found)
            assert len(run.found) == len({tuple(x) for x in run.found})
            assert {tuple(x) for x in run.found} == {tuple(x) for x in whole}, (rows, cut)
            tried += 1
        if q < 4:
            boxes += 1
            assert {tuple(x) for x in whole if max(x, default=0) <= 6} == {x for x in box(rows, q, 6)}, rows
    print(f"desks: {tried} splits, {wide} refused by 25, {boxes} boxes: the same lists")


if __name__ == "__main__":
    main()
