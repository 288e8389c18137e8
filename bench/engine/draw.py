#!/usr/bin/env python3
"""Draws the maps of the benchmark, in families: draw.py DIRECTORY [MAPS [SEED]]. MAPS of each family, 10 if not given; the standing maps are those of SEED 0.

A map is a text: a line "p q", then p lines of q coefficients. A file has the name FAMILY-NN.map."""
import os
import random
import sys


def columns(r, p, q, least, most, size):
    """Each column has `least` to `most` coefficients of 1 to `size`, of either sign."""
    a = [[0] * q for _ in range(p)]
    for j in range(q):
        for i in r.sample(range(p), r.randint(least, most)):
            a[i][j] = r.randint(1, size) * r.choice([1, -1])
    return a


def standing(r, p, q):
    """As columns with 2 to 4 coefficients of 1 and 2, drawn in the order of the first benchmark."""
    a = [[0] * q for _ in range(p)]
    for j in range(q):
        for i in r.sample(range(p), r.randint(2, 4)):
            a[i][j] = r.choice([1, 2]) * r.choice([1, -1])
    return a


def net(r, p, q, size):
    """A Petri net: each activity takes from one or two trays and gives to one or two others, 1 to `size` sheets each."""
    a = [[0] * q for _ in range(p)]
    for j in range(q):
        trays = r.sample(range(p), 4)
        for i in trays[: r.randint(1, 2)]:
            a[i][j] = -r.randint(1, size)
        for i in trays[2 : r.randint(3, 4)]:
            a[i][j] = r.randint(1, size)
    return a


def dense(r, p, q, size):
    return [[r.randint(-size, size) for _ in range(q)] for _ in range(p)]


def infeasible(r, p, q, size):
    """No solution but 0: some combination of the equations has only coefficients above 0."""
    a = [[r.choice([0, 0, 1]) * r.randint(-size, size) for _ in range(q)] for _ in range(p - 1)]
    by = [r.randint(1, 2) for _ in range(p - 1)]
    a.append([r.randint(1, 2) - sum(t * row[j] for t, row in zip(by, a)) for j in range(q)])
    r.shuffle(a)
    return a


NETS = [(8, 16), (12, 24), (16, 24), (20, 28), (24, 32)]
FAMILIES = {
    "4x16": lambda r, n: standing(r, 4, 16),
    "8x16": lambda r, n: standing(r, 8, 16),
    "sparse4x16": lambda r, n: columns(r, 4, 16, 1, 3, 2),
    "dense4x16": lambda r, n: columns(r, 4, 16, 3, 4, 2),
    "sparse6x16": lambda r, n: columns(r, 6, 16, 1, 3, 2),
    "dense6x16": lambda r, n: columns(r, 6, 16, 3, 4, 2),
    "sparse8x16": lambda r, n: columns(r, 8, 16, 1, 3, 2),
    "dense8x16": lambda r, n: columns(r, 8, 16, 3, 4, 2),
    "net1": lambda r, n: net(r, *NETS[n % 5], 1),
    "net2": lambda r, n: net(r, *NETS[n % 5], 2),
    "one": lambda r, n: dense(r, 1, r.randint(4, 8), r.choice([20, 50, 100])),
    "two": lambda r, n: dense(r, 2, r.randint(5, 8), r.choice([5, 10])),
    "three": lambda r, n: dense(r, 3, r.randint(6, 9), r.choice([3, 5])),
    "infeasible": lambda r, n: infeasible(r, r.randint(3, 8), r.randint(10, 16), 2),
    "small3x6": lambda r, n: dense(r, r.randint(1, 3), r.randint(2, 6), r.choice([20, 100, 200])),
}


def text(a):
    return f"{len(a)} {len(a[0])}\n" + "".join(" ".join(map(str, row)) + "\n" for row in a)


def draw(family, n, seed):
    """Map n of a family. The standing maps of seed 0 are drawn from the seed n alone."""
    plain = seed == 0 and family in ("4x16", "8x16")
    return FAMILIES[family](random.Random(n if plain else f"{family} {n} {seed}"), n)


def main():
    maps, seed = (int(sys.argv[i]) if len(sys.argv) > i else default for i, default in ((2, 10), (3, 0)))
    for family in FAMILIES:
        for n in range(maps):
            with open(os.path.join(sys.argv[1], f"{family}-{n:02}.map"), "w") as file:
                file.write(text(draw(family, n, seed)))


if __name__ == "__main__":
    main()
