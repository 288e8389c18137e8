#!/usr/bin/env python3
"""Questions about maps drawn by chance, of up to 32 trays and 32 activities: `why` names a loop that is there, or the trays that change and by how much; `plan` names
loops that add up.

  tests/command/asked.py PROGRAM [MAPS]"""
import json
import os
import random
import re
import subprocess
import sys
import tempfile

SIZES = [(8, 16), (9, 16), (8, 17), (9, 17), (12, 24), (31, 32), (32, 31), (32, 32)]


def run(program, *words):
    return subprocess.run([program, *words], capture_output=True, text=True, timeout=60)


def changes(m, counts):
    return [sum(c * x for c, x in zip(row, counts)) for row in m]


def grown(text):
    """What `why` says of the trays: by how much each would grow."""
    said = re.findall(r"^The tray t(\d+) would (grow|shrink) by (\d+)", text, re.M)
    return {int(tray) - 1: int(by) * (1 if way == "grow" else -1) for tray, way, by in said}


def ask(program, path, m, loops, counts):
    why, plan = (run(program, name, path, *map(str, counts)) for name in ("why", "plan"))
    off = {i: by for i, by in enumerate(changes(m, counts)) if by}
    if off:
        assert why.returncode == 0 and grown(why.stdout) == off, (counts, off, why)
        assert plan.returncode == 1, plan
        return "off"
    assert why.returncode == 0 and plan.returncode == 0, (why, plan)
    named = re.search(r"loop (\d+)", why.stdout)
    if not any(counts):
        assert named is None, why
        return "zero"
    loop = loops[int(named.group(1)) - 1]
    assert all(a <= b for a, b in zip(loop, counts)) and (loop == counts) == ("in the list" in why.stdout), (counts, why)
    parts = [(int(n), loops[int(k) - 1]) for n, k in re.findall(r"^(\d+) × loop (\d+)", plan.stdout, re.M)]
    assert [sum(n * row[j] for n, row in parts) for j in range(len(counts))] == counts, (counts, plan)
    return "made"


def main():
    program, maps = os.path.abspath(sys.argv[1]), int(sys.argv[2]) if len(sys.argv) > 2 else 24
    r, seen = random.Random(32), {"off": 0, "zero": 0, "made": 0}
    with tempfile.TemporaryDirectory() as tmp:
        path = os.path.join(tmp, "map")
        for k in range(maps):
            p, q = SIZES[k % len(SIZES)]
            m = [[0] * q for _ in range(p)]
            for j in range(q):  # an activity takes from one tray and puts into another, now and then two for one
                a, b = r.sample(range(max(3, p // 2) if r.random() < 0.8 else p), 2)
                m[a][j], m[b][j] = -r.choice([1, 1, 1, 2]), r.choice([1, 1, 1, 2])
            with open(path, "w") as file:
                file.write(f"{p} {q}\n" + "".join(" ".join(map(str, row)) + "\n" for row in m))
            loops = [row["counts"] for row in json.loads(run(program, "loops", "--format", "json", path).stdout)["loops"]]
            for _ in range(6):
                some = r.sample(loops, min(len(loops), r.randrange(4)))
                often = [r.randrange(1, 4) for _ in some]
                counts = [sum(n * row[j] for n, row in zip(often, some)) for j in range(q)]
                if r.random() < 0.3:
                    counts[r.randrange(q)] += 1
                seen[ask(program, path, m, loops, counts)] += 1
        refused = run(program, "why", "--deliver", "t1=1", path, "x1=1") if q == 32 else None
        assert refused is None or (refused.returncode == 1 and "refused 2" in refused.stderr), refused
    print("questions about maps of up to 32 trays and 32 activities:", ", ".join(f"{n} {kind}" for kind, n in seen.items()))


main()
