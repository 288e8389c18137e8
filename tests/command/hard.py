#!/usr/bin/env python3
"""Writes maps that take long: tests/command/hard.py DIRECTORY
  never.map     8 x 32, with millions of rows before its end: for interrupts, kept runs and progress
  seconds.map   2 x 15, of some seconds: it ends, and is killed before"""
import os
import random
import sys


def text(rows):
    return f"{len(rows)} {len(rows[0])}\n" + "".join(" ".join(map(str, row)) + "\n" for row in rows)


def dense(seed, p, q, size):
    r = random.Random(seed)
    return [[r.choice([-1, 1]) * r.randint(1, size) for _ in range(q)] for _ in range(p)]


for name, rows in (("never", dense(1, 8, 32, 9)), ("seconds", dense(4, 2, 15, 4))):
    with open(os.path.join(sys.argv[1], name + ".map"), "w") as file:
        file.write(text(rows))
