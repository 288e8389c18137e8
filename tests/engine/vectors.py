#!/usr/bin/env python3
"""Writes the calls of the engine that crates/try_vectors replays: python3 tests/engine/vectors.py DIR puts stdin and stdout into DIR. The calls are those that
model.py draws, in lines of another form."""
import pathlib
import sys

import model

CALLS, FURTHER, WANTED, SEED, COEFFICIENTS, ROOM = 2000, 300, 300, 7, 160, 320
KINDS = ("start", "combine", "take", "resume", "from", "wanted")
HEAD = """# start p q .. | from p q n .. | wanted p q .. | combine p q r s .. | take p q e f .. | resume p q budget ..: a call of the engine. c: the map's coefficients;
# b: the factors of a row operation, of equation r and of equation s, or the right sides of wanted; e, l, s and r: working system, basis, table of the stage and
# record before and after the call; from is handed the n rows of s, wanted the bound s; t: mothers; h: the lengths of sizes, values, words, degrees and marks. A
# letter with a number, as s4: what stands from that entry on after the call. A: the answer, a number.
"""


def changed(name, before, after):
    """The table before the call, and the runs of entries that are others after it."""
    words, at = [name, *before], 0
    while at < len(after):
        if before[at] == after[at]:
            at += 1
            continue
        words.append(f"{name}{at}")
        while at < len(after) and before[at] != after[at]:
            words.append(after[at])
            at += 1
    return words


class Lines(model.Drawn):
    """The model's calls, each as a line."""

    def __init__(self, seed):
        super().__init__(None, seed)
        self.lines = []

    def written(self, kind, p, q, own, coefs, before, answer, after):
        if len(coefs) > COEFFICIENTS or len(before.basis) > ROOM:
            return
        own, factors = ([own[0], own[2]], [own[1], own[3]]) if kind == 1 else ([], own) if kind == 5 else (own, [])
        words = [KINDS[kind], p, q, *own, "c", *coefs, "b", *factors]
        for name, table in (("e", "equations"), ("l", "basis"), ("s", "table"), ("r", "record")):
            words += changed(name, getattr(before, table), getattr(after, table))
        self.lines.append(" ".join(map(str, [*words, "t", *before.mothers, "h", *before.beside, "A", answer])))


def main():
    drawn, folder = Lines(SEED), pathlib.Path(sys.argv[1])
    drawn.edges()
    while len(drawn.lines) < CALLS:
        drawn.run()
    while len(drawn.lines) < CALLS + FURTHER:
        drawn.group()
    while len(drawn.lines) < CALLS + FURTHER + WANTED:
        drawn.sides()
    (folder / "stdin").write_text(HEAD + "\n".join(drawn.lines) + "\n")
    (folder / "stdout").write_text(f"calls {len(drawn.lines)} agreed {len(drawn.lines)}\n")


if __name__ == "__main__":
    main()
