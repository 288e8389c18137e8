#!/usr/bin/env python3
"""Writes what changed between two trees, old and new side by side, as docs/DESIGN-PASS.md ends with it.

usage: tools/design/changed.py OLD NEW CONTRACTS    folders with crates/, and what `contracts.py OLD NEW --json` of the port's tools printed

Public functions: their signatures and clauses. Statements of specs/: definitions and theorems that differ, and those that are gone, by crate and module.
Test programs are left out. Lines are at most 160 characters.
"""
import collections
import json
import os
import re
import sys
import textwrap

sys.path.insert(0, os.path.join(os.path.dirname(os.path.abspath(__file__)), "..", "port"))
import statements as S


def shown(sign, text):
    flat = re.sub(r"\s+", " ", text).strip()
    return textwrap.fill(flat, 154, initial_indent=f"{sign} ", subsequent_indent="  ", break_long_words=False, break_on_hyphens=False)


def is_public(old, place):
    crate, file, name = place.split()
    with open(f"{old}/crates/{crate}/{file}", encoding="utf-8") as source:
        return not crate.startswith("try_") and re.search(rf"\bpub (?:extern \"C\" )?fn {name}\b", source.read()) is not None


def functions(old, told):
    signatures = {it[0]: it[1:] for it in told["signatures changed"]}
    clauses = {it[0]: it[1:] for it in told["contracts changed"]}
    for place in sorted({*signatures, *clauses}):
        parts = place.split()
        if len(parts) != 3 or not is_public(old, place):
            continue
        print(f"\n{parts[0]} {parts[1]} `{parts[2]}`\n\n```diff")
        if place in signatures:
            print(shown("-", signatures[place][0]))
            print(shown("+", signatures[place][1]))
        if place in clauses:
            required, ensured, requires, ensures = clauses[place]
            before = [f"requires {' '.join(it)}" for it in required] + [f"ensures {' '.join(it)}" for it in ensured]
            after = [f"requires {' '.join(it)}" for it in requires] + [f"ensures {' '.join(it)}" for it in ensures]
            for it in before:
                if it not in after:
                    print(shown("-", it))
            for it in after:
                if it not in before:
                    print(shown("+", it))
        print("```")


def stands(new, crate, name):
    """Whether a statement of this name stands in some file of the crate, below another heading than before."""
    named = re.compile(rf"(?m)^ *(?:pub |abbrev |unfoldable |record |data )*{re.escape(name)} *(?::|[({{])")
    for kind in ("specs", "proofs"):
        for at, _, files in os.walk(f"{new}/crates/{crate}/{kind}"):
            for file in files:
                with open(f"{at}/{file}", encoding="utf-8") as source:
                    if named.search(source.read()):
                        return True
    return False


def statements(old, new):
    gone = collections.defaultdict(list)
    for crate in sorted(os.listdir(f"{old}/crates")):
        before = S.leaves(old, crate, "specs")
        after = {**S.leaves(new, crate, "specs")}
        proofs = S.leaves(new, crate, "proofs")
        for (module, name), leaves in before.items():
            for leaf, _, _ in leaves:
                found = [it for m in (module, module + "Theorems") for it in after.get((m, name), []) + proofs.get((m, name), [])]
                found = found or [it for at in (after, proofs) for (_, n), them in at.items() if n == name for it in them]
                if not found and not stands(new, crate, name):
                    gone[crate, module].append(name)
                elif not found:
                    continue
                elif S.tokens(S.statement(leaf)) not in [S.tokens(S.statement(it)) for it, _, _ in found]:
                    print(f"\n{crate} {module} `{name}`\n\n```diff")
                    print(shown("-", S.statement(leaf)))
                    print(shown("+", S.statement(found[0][0])))
                    print("```")
    return gone


def main(old, new, contracts):
    with open(contracts, encoding="utf-8") as file:
        told = json.load(file)
    print("### Public functions\n")
    functions(old, told)
    print("\n### Definitions and theorems of specs/ that differ\n")
    gone = statements(old, new)
    print("\n### Statements of specs/ that are gone\n")
    for (crate, module), names in gone.items():
        print(textwrap.fill(f"- {crate} {module}: " + ", ".join(names), 156, subsequent_indent="  ", break_long_words=False, break_on_hyphens=False))
    print("\n### Functions that are gone\n")
    by_crate = collections.defaultdict(list)
    for it in told["functions not found again"]:
        crate, file, name = it.split()[:3]
        if not crate.startswith("try_"):
            by_crate[crate].append(name)
    for crate, names in by_crate.items():
        print(textwrap.fill(f"- {crate}: " + ", ".join(names), 156, subsequent_indent="  "))


main(*sys.argv[1:4])
