#!/usr/bin/env python3
"""Runs the cases of tests/command/cases and compares status, standard output and standard error with what is kept in golden/.

  tests/command/golden.py PROGRAM [--write]     --write: keep what is printed now"""
import json
import os
import shlex
import subprocess
import sys
import tempfile

HERE = os.path.dirname(os.path.abspath(__file__))
ROOT = os.path.dirname(os.path.dirname(HERE))


def cases(name):
    with open(os.path.join(HERE, name)) as file:
        for line in file:
            if line.strip() and not line.startswith("#"):
                status, case, *words = shlex.split(line)
                yield int(status), case, words


def kept(path, text, write):
    """Whether the file holds the text; where it is to be written, it does."""
    if write:
        if text:
            with open(path, "w") as file:
                file.write(text)
        elif os.path.exists(path):
            os.remove(path)
        return True
    return (open(path).read() if os.path.exists(path) else "") == text


def main():
    program, write = os.path.abspath(sys.argv[1]), "--write" in sys.argv
    wrong = tried = 0
    with tempfile.TemporaryDirectory() as tmp:
        for name in ("cases", "net-cases"):
            if not os.path.exists(os.path.join(HERE, name)) or (name == "net-cases" and os.environ.get("NETS") == "0"):
                continue
            for status, case, words in cases(name):
                done = subprocess.run([program] + [w.replace("TMP", tmp) for w in words], cwd=ROOT, stdin=subprocess.DEVNULL, capture_output=True, text=True,
                                      timeout=120)
                if "json" in case:
                    json.loads(done.stdout)
                said = [text.replace(tmp, "TMP") for text in (done.stdout, done.stderr)]
                base = os.path.join(HERE, "golden", case)
                same = [kept(base + ".out", said[0], write), kept(base + ".err", said[1], write)]
                tried += 1
                if done.returncode != status or not all(same):
                    wrong += 1
                    print(f"{case}: status {done.returncode}, not {status}; or another output:\n{said[0]}{said[1]}", file=sys.stderr)
    print(f"{tried} runs of the command, {wrong} wrong")
    return wrong > 0


sys.exit(main())
