#!/usr/bin/env python3
"""Draws maps of 8 x 16 as offices have them, each activity taking documents from one tray and putting them into another: draw.py MAPS DIRECTORY.

Of each column one coefficient is negative and one positive, 1 or 2 in size. In the maps called "near" they are at most two trays apart, as where trays
stand in the order in which documents pass them; in those called "far" anywhere. In those called "mixed", which are drawn as the standing maps of
bench/engine, a column has 2 to 4 of any sign."""
import os
import random
import sys


def draw(p, q, apart, seed):
    r = random.Random(seed)
    a = [[0] * q for _ in range(p)]
    for j in range(q):
        i = r.randrange(p)
        k = r.choice([k for k in range(p) if 0 < abs(k - i) <= apart])
        a[i][j], a[k][j] = -r.choice([1, 1, 2]), r.choice([1, 1, 2])
    return a


def mixed(p, q, seed):
    r = random.Random(seed)
    a = [[0] * q for _ in range(p)]
    for j in range(q):
        for i in r.sample(range(p), r.randint(2, 4)):
            a[i][j] = r.choice([1, 2]) * r.choice([1, -1])
    return a


KINDS = {"near": lambda seed: draw(8, 16, 2, seed), "far": lambda seed: draw(8, 16, 7, seed), "mixed": lambda seed: mixed(8, 16, seed)}
for name, drawn in KINDS.items():
    for seed in range(int(sys.argv[1])):
        rows = drawn(seed)
        with open(os.path.join(sys.argv[2], f"{name}-{seed:02}.map"), "w") as file:
            file.write("8 16\n" + "".join(" ".join(map(str, row)) + "\n" for row in rows))
