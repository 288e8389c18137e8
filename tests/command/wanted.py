#!/usr/bin/env python3
"""Deliveries and lower bounds drawn by chance: what the engine lists is what the walk lists.

  tests/command/wanted.py PROGRAM [MAPS]"""
import json
import os
import random
import subprocess
import sys
import tempfile


def listed(program, words):
    """The second list and the loops, as sets; None where the run takes too long or is refused."""
    try:
        done = subprocess.run([program, "loops", "--format", "json"] + words, capture_output=True, text=True, timeout=3)
    except subprocess.TimeoutExpired:
        return None
    if done.returncode != 0:
        assert done.returncode in (1, 3) and "refused" in done.stderr, (words, done)
        return None
    found = json.loads(done.stdout)
    rows = [{tuple(row["counts"]) for row in found.get(key, [])} for key in ("deliveries", "plans", "loops")]
    assert sum(map(len, rows)) == sum(len(found.get(key, [])) for key in ("deliveries", "plans", "loops"))
    return rows


def main():
    program, maps = os.path.abspath(sys.argv[1]), int(sys.argv[2]) if len(sys.argv) > 2 else 200
    r, same, both = random.Random(33), 0, 0
    with tempfile.TemporaryDirectory() as tmp:
        path = os.path.join(tmp, "map")
        for _ in range(maps):
            p, q = r.randint(1, 4), r.randint(1, 6)
            with open(path, "w") as file:
                file.write(f"{p} {q}\n" + "".join(" ".join(str(r.randint(-3, 3)) for _ in range(q)) + "\n" for _ in range(p)))
            rights = ["--deliver", ",".join(f"t{i + 1}={r.randint(-6, 6)}" for i in range(p))]
            lower = ["--at-least", " ".join(str(r.choice([0, 0, 1, 2, 5])) for _ in range(q))]
            for words in (rights, lower):
                engine, walk = listed(program, words + [path]), listed(program, ["--walk"] + words + [path])
                if engine is not None and walk is not None:
                    assert engine == walk, (open(path).read(), words, engine, walk)
                    same += 1
            both += listed(program, rights + lower + [path]) is not None
    print(f"{same} maps with deliveries or a lower bound: the same lists by the engine and by the walk; {both} with both")


main()
