#!/usr/bin/env python3
"""Texts that are refused, each with its sentence; and typed equations in more unknowns than the proved reader knows, which mean what the map of their
coefficients means: tests/command/refusals.py PROGRAM"""
import random
import subprocess
import sys


def text(p, q, entry=lambda i, j: 1 if i == j else -1 if (i + 1) % 20 == j else 0):
    return f"{p} {q}\n" + "".join(" ".join(str(entry(i, j)) for j in range(q)) + "\n" for i in range(p))


def with_line(text, k, change):
    """The text with its line k, from 1, changed."""
    lines = text.split("\n")
    lines[k - 1] = change(lines[k - 1])
    return "\n".join(lines)


LARGE = text(20, 32)
SMALL = text(3, 16)
MAPS = [
    ("", "refused 9: line 1: missing; a map begins with a line of two numbers, how many trays and how many activities it has"),
    ("# only a comment\n\n", "refused 9: line 1: missing"),
    ("hello; world\n", 'refused 9: line 1: "hello;" is no number; a map begins with two numbers, its trays and its activities; typed equations have x1'),
    ("3\n1 2\n", "refused 9: line 1: 1 number; the first line has two, the trays and the activities"),
    ("0 3\n", "refused 1: line 1: 0 trays; 1 to 32"),
    ("3 0\n", "refused 2: line 1: 0 activities; 1 to 32"),
    (text(33, 32), "refused 1: line 1: 33 trays; 1 to 32"),
    (text(32, 33), "refused 2: line 1: 33 activities; 1 to 32"),
    (with_line(SMALL, 3, lambda line: line + " 0"), "refused 9: line 3: 17 numbers, the first line says 16"),
    (with_line(SMALL, 3, lambda line: line[:-2]), "refused 9: line 3: 15 numbers, the first line says 16"),
    ("# a comment\n" + with_line(SMALL, 3, lambda line: line + " 0"), "refused 9: line 4: 17 numbers, the first line says 16"),
    (with_line(SMALL, 4, lambda line: "1.5 " + line[2:]), 'refused 9: line 4: "1.5" is no number; a number is an optional minus and 1 to 6 digits'),
    (with_line(SMALL, 4, lambda line: "01 " + line[2:]), 'refused 9: line 4: "01" is no number'),
    (with_line(SMALL, 4, lambda line: "-0 " + line[2:]), 'refused 9: line 4: "-0" is no number'),
    (with_line(SMALL, 4, lambda line: "10001" + line[1:]), "refused 7: line 4: number 1 is 10001; -10000 to 10000"),
    (text(20, 32, lambda i, j: 10001 if (i, j) == (19, 31) else 0), "refused 7: line 21: number 32 is 10001"),
    ("\n".join(LARGE.split("\n")[:-2]) + "\n", "refused 9: line 21: missing; 19 lines of numbers, the first line says 20"),
    (LARGE + "0\n", "refused 9: line 22: a line more than the first line says, which is 20"),
    (with_line(LARGE, 6, lambda line: line + " 0"), "refused 9: line 6: 33 numbers, the first line says 32"),
    (with_line(LARGE, 6, lambda line: line[:-1] + "x"), 'refused 9: line 6: "x" is no number'),
    (SMALL.replace("\n", "\0", 1), "refused 9: line 1: a byte 0, so this is no text (list files are read by dezgula show)"),
    ("\ufeff" + SMALL + "\n" * (1 << 20), "refused 10: 1048"),
    ("\n" * ((16 << 20) + 1), "refused 10: longer than 16777216 bytes, which is the most that is read"),
]
EQUATIONS = [
    ("4\n", "refused 9: line 1: 1 number; the first line has two"),
    ("4\nx1 = x2 +\n", 'refused 16: line 2: the equation is not whole; after "x1 = x2 +" something is missing'),
    ("x1 = 2 x2\n", 'refused 16: line 1: after "x1 = 2 " no equation in x1 to x2 goes on with "x"; a product has a *, as in 2*x1'),
    ("20\nx1 = x18\nx20 = 3(x1)\n", 'refused 16: line 3: after "x20 = 3" no equation in x1 to x20 goes on with "("; a product has a *'),
    ("20\nx1 = x2\nx20 = x1 + x21\n", 'refused 16: line 3: after "x20 = x1 + " no equation in x1 to x20 goes on with "x"'),
    ("x1 = y\n", 'refused 16: line 1: after "x1 = " no equation in x1 to x1 goes on with "y"'),
    ("write = sign\n", "refused 2: line 1: no unknown, as x1; there are 1 to 32"),
    ("x1 = x33\n", "refused 2: an unknown above x32; there are x1 to x32"),
    ("33\nx1 = x2\n", "refused 2: line 1: 33 unknowns; 1 to 32"),
    ("2\n" + "x1 = x2\n" * 33, "refused 1: line 34: 33 equations; at most 32"),
    ("x1 = 9999*x2 + 2*x2\n", "refused 7: line 1: x2 comes to a coefficient outside -10000 to 10000"),
    ("x1 = 9999*x31 + 2*x31\n", "refused 7: line 1: x31 comes to a coefficient outside -10000 to 10000"),
    ("x1 = 10001\n", "refused 15: line 1: "),
    ("x1 = " + "(" * 9 + "x2" + ")" * 9 + "\n", "refused 17: line 1: "),
    ("x1 = 5000*(3*(x2))\n", "refused 18: line 1: "),
]


def run(given, *words):
    return subprocess.run([sys.argv[1], "loops", *words, "-"], input=given, capture_output=True, text=True, timeout=60)


def typed(r, row):
    """An equation that comes to the row: terms on both sides, some in brackets."""
    terms = [(r.choice([c, c, 2 * c, -c]), j) for j, c in enumerate(row) if c != 0]
    terms += [(row[j] - sum(c for c, k in terms if k == j), j) for j in range(len(row))]
    sides = [[], []]
    for c, j in terms:
        if c == 0:
            continue
        right, size = r.random() < 0.5, abs(c)
        word = r.choice([f"{size}*x{j + 1}", f"{size}*(x{j + 1})", f"(({size}*x{j + 1}))"])
        sides[right].append(("-" if (c < 0) != right else "+") + " " + word)
    return " = ".join(" ".join(side).removeprefix("+ ").replace("- ", "-", 1) if side else "0" for side in sides) + "\n"


def try_typed(r):
    p, q = r.randint(1, 3), r.randint(17, 32)
    rows = [[r.choice([0, 0, 0, 0, 0, 1, -1, 2]) for _ in range(q)] for _ in range(p)]
    for row in rows:
        row[q - 1] = -1
    given = f"{q}\n" + "".join(typed(r, row) for row in rows)
    by_text, by_map = run(given, "--format", "matrix"), run(text(p, q, lambda i, j: rows[i][j]), "--format", "matrix")
    assert by_text.returncode == 0 and by_text.stdout == by_map.stdout, (given, rows, by_text.stderr)


def main():
    for given, sentence in MAPS + EQUATIONS:
        done = run(given)
        said = f"dezgula: standard input: {sentence}"
        assert done.returncode == 1 and done.stderr.startswith(said) and done.stdout == "", (given[:200], sentence, done)
    assert run(LARGE).returncode == 0
    r = random.Random(195)
    for _ in range(30):
        try_typed(r)
    print(f"{len(MAPS)} maps and {len(EQUATIONS)} typed equations refused, each by its sentence; 30 systems in 17 to 32 unknowns read")


main()
