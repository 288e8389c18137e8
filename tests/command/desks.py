#!/usr/bin/env python3
"""Maps drawn by chance, split into desks by chance: the list of the whole map and that built one desk after the other are the same, by either method.

  tests/command/desks.py PROGRAM [MAPS]"""
import os
import random
import subprocess
import sys
import tempfile

ROOT = os.path.dirname(os.path.dirname(os.path.dirname(os.path.abspath(__file__))))


def text(rows):
    return f"{len(rows)} {len(rows[0])}\n" + "".join(" ".join(map(str, row)) + "\n" for row in rows)


def desk_files(rows, desks, r, tmp):
    """A file for each desk, the trays split by chance."""
    cuts, files = [0] + sorted(r.sample(range(1, len(rows)), desks - 1)) + [len(rows)], []
    for k in range(desks):
        files.append(os.path.join(tmp, f"desk{k}"))
        with open(files[-1], "w") as file:
            file.write(text(rows[cuts[k]:cuts[k + 1]]))
    return files


def same(program, files, words=(), seconds=60):
    """Runs desks; None where it takes too long, else what it ended with."""
    try:
        done = subprocess.run([program, "desks", *words, *files], capture_output=True, text=True, timeout=seconds)
    except subprocess.TimeoutExpired:
        return None
    assert done.returncode != 0 or done.stdout.splitlines()[-1].startswith("the same "), done
    return done


def sixteen(program, r, tmp):
    """The maps of sixteen activities in maps/, in two to five desks."""
    for name in ("sixteen", "pauses"):
        with open(os.path.join(ROOT, "maps", name + ".map")) as file:
            rows = [list(map(int, line.split())) for line in file.readlines()[1:]]
        for desks in (2, 3, 4, 5):
            done = same(program, desk_files(rows, desks, r, tmp))
            assert done is not None and done.returncode == 0, (name, desks, done)


def main():
    program, maps = os.path.abspath(sys.argv[1]), int(sys.argv[2]) if len(sys.argv) > 2 else 60
    r, split, refused, walked = random.Random(10), 0, 0, 0
    with tempfile.TemporaryDirectory() as tmp:
        sixteen(program, r, tmp)
        for _ in range(maps):
            p, q = r.randint(2, 8), r.randint(2, 9)
            rows = [[r.choice([-2, -1, -1, 0, 0, 0, 1, 1, 2]) for _ in range(q)] for _ in range(p)]
            files = desk_files(rows, r.randint(2, min(5, p)), r, tmp)
            done = same(program, files)
            assert done is not None and done.returncode == 0, (rows, done)
            split += 1
            # the walk may take long, and starts from at most 64 loops
            done = same(program, files, ["--walk"], 2)
            if done is None:
                continue
            assert done.returncode == 0 or "refused 25" in done.stderr, (rows, done)
            walked += done.returncode == 0
            refused += done.returncode != 0
    print(f"{split} maps, and two of sixteen activities, in two to five desks: the same loops; by the walk {walked}, and {refused} refused by 25")


main()
