#!/usr/bin/env python3
"""Compares the statements of all theorems and definitions of specs/ in one tree with those of specs/ and proofs/ in another.

usage: tools/port/statements.py OLD NEW     folders with crates/; OLD after port.py and respell.py

Where a theorem left a module with parameters that a definition stays in, the definition is written with these parameters there: (stay q n table) for stay.
Such places are read as the same. Prints what is gone, and each statement that differs otherwise.
"""
import glob
import os
import re
import sys

sys.path.insert(0, os.path.dirname(os.path.abspath(__file__)))
import theorems as T


def leaves(root, crate, kind):
    out = {}
    for p in sorted(glob.glob(f"{root}/crates/{crate}/{kind}/**/*.antt", recursive=True)):
        name = os.path.relpath(p, f"{root}/crates/{crate}/{kind}")[:-5].replace("/", ".")
        base = name.split(".")[-1]
        if base == "Lib" or base in ("Answers", "Invariants", "Proof"):
            continue
        m = T.Module(crate, name, p)
        for n in m.nodes:
            for leaf, above in n.each():
                if leaf.names:
                    tele = [" ".join(" ".join(l for l in a.head if not l.strip().startswith("--")).split()) for a in above]
                    out.setdefault((name, leaf.names[0]), []).append((leaf, [v for a in above for v in a.tele], tele))
    return out


def statement(leaf):
    lines = [l for l in leaf.lines if l.strip() and not l.strip().startswith("--")]
    text = "\n".join(lines)
    if leaf.define:
        return text
    # up to its first equation or unfolding line
    cut = re.search(rf"(?m)^ *(?:unfolding |{re.escape(leaf.names[0])}(?: |$)(?!:))", text[len(lines[0]) :])
    return text[: len(lines[0]) + cut.start()] if cut and " :" in lines[0] else text


def tokens(text):
    """The words and brackets of a statement; what is laid out over lines has one comma or semicolon more before a bracket that closes."""
    text = re.sub(r"(?<=[^\s(){}\[\],;])\.(?=[^\s(){}\[\],;.])", " .", text)
    text = re.sub(r"(?<=\))\.(?=[^\s(){}\[\],;.])", " .", text)
    words = [w for w in re.findall(r"[^\s(){}\[\],;]+|[(){}\[\],;]", text) if w != "pub"]
    return [w for i, w in enumerate(words) if w not in (";", ",") or words[i + 1 : i + 2] not in (["}"], [")"], ["]"])]


def squeezed(words, tele):
    """The words without runs of the parameters behind a name, and without the brackets that these bring."""
    words = [w for w in words if w not in ("(", ")", ",")]
    while True:
        out, i = [], 0
        while i < len(words):
            out.append(words[i])
            i += 1
            for n in range(len(tele), 0, -1):
                if words[i : i + n] == tele[:n] and words[i - 1] not in tele[:n]:
                    i += n
                    break
        if out == words:
            return out
        words = out


def main(old, new):
    crates = sorted(os.listdir(f"{old}/crates"))
    same = moved = gone = other = applied = 0
    for c in crates:
        a = leaves(old, c, "specs")
        b = {**leaves(new, c, "specs")}
        p = leaves(new, c, "proofs")
        for (mod, name), ls in a.items():
            for leaf, tele, heads in ls:
                found = [x for m in (mod, mod + "Theorems") for x in b.get((m, name), []) + p.get((m, name), [])]
                if not found:
                    # a theorem that stands in a file of its own now
                    found = [l for at in (b, p) for (m, n), ls in at.items() if n == name for l in ls]
                if not found:
                    gone += 1
                    print(f"gone: {c} {mod} {name}")
                    continue
                x = tokens(statement(leaf))
                ys = [tokens(statement(l)) for l, _, _ in found]
                if x in ys:
                    same += 1
                elif any(squeezed(x, tele) == squeezed(y, tele) for y in ys):
                    applied += 1
                else:
                    other += 1
                    y = ys[0]
                    i = next((i for i, (u, v) in enumerate(zip(x, y)) if u != v), min(len(x), len(y)))
                    print(f"differs: {c} {mod} {name}: .. {' '.join(x[max(0, i - 6) : i + 12])} | {' '.join(y[max(0, i - 6) : i + 12])}")
    print(f"the same {same}; the same with parameters written out {applied}; differ {other}; gone {gone}")


if __name__ == "__main__":
    main(*sys.argv[1:3])
