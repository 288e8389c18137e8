#!/usr/bin/env python3
"""Counts the places in crates/*/src that docs/DESIGN-PASS.md speaks of, point by point.

    tools/design/places.py [--list] [POINT ..]     in the tree as it stands
    git worktree add /tmp/then COMMIT; tools/design/places.py --root /tmp/then     in another commit

It goes by text: what it lists are places to look at, and the page says what became of each.
"""
import argparse
import collections
import glob
import os
import re

# Variants that say "nothing" or "refused", as Option's None and Result's Err do.
NOTHING = "Pass Refuse Refused Nowhere Malformed Nothing NoTurn Stopped Fault TooLarge Even Solves Yes".split()


def sources(root):
    for path in sorted(glob.glob(f"{root}/crates/*/src/**/*.rt", recursive=True)):
        with open(path, encoding="utf-8") as file:
            text = re.sub(r"(?m)^ghost use [^;]*;\n", lambda m: "\n" * m.group().count("\n"), file.read())
        yield os.path.relpath(path, f"{root}/crates"), text


def line_of(text, at):
    return text.count("\n", 0, at) + 1


def functions(text):
    """Each function: where it stands, its name, parameters, result, clauses and body."""
    for head in re.finditer(r"(?m)^( *)(?:pub )?(?:extern \"C\" )?fn (\w+)", text):
        indent = head.group(1)
        end = re.search(rf"(?m)^{indent}\}}", text[head.end():])
        whole = text[head.start():head.end() + end.end()] if end else text[head.start():]
        body = re.search(rf"(?m)^{indent}\{{\n|(?<=\S) \{{\n", whole)
        opened = body.start() if body else whole.find("{")
        signature = whole[:opened]
        params = re.search(r"\((.*?)\)\s*(->\s*[^\n{]*)?(?=\n|\s*$|\s*(?:requires|ensures|where))", signature, re.S)
        clauses = re.findall(r"(?m)^ *((?:requires|ensures)\b.*(?:\n(?! *(?:requires|ensures|where)\b).*)*)", signature)
        yield line_of(text, head.start()), head.group(2), params.group(1) if params else "", clauses, whole[opened:]


def options(root):
    """1: enums shaped like Option or Result, errors passed on by hand, structs with a flag beside values, numbers for kinds and refusals."""
    for name, text in sources(root):
        for found in re.finditer(r"(?m)^(?:pub )?enum (\w+)(?:<[^>]*>)? \{\n(.*?)^\}", text, re.S):
            variants = re.findall(r"(?m)^    (\w+)", found.group(2))
            if any(it in NOTHING for it in variants):
                yield f"{name}:{line_of(text, found.start())}", f"enum {found.group(1)} {{{', '.join(variants)}}}"
        for found in re.finditer(r"(\w+)::(Refuse|Refused|Malformed)\((\w+)\) => (?:return )?\w+::(?:Refuse|Refused|Malformed)\(\3\)", text):
            yield f"{name}:{line_of(text, found.start())}", "handed on: " + found.group()
        for found in re.finditer(r"(?m)^(?:pub )?struct (\w+)(?:<[^>]*>)? \{\n(.*?)^\}", text, re.S):
            if re.search(r": bool,", found.group(2)):
                yield f"{name}:{line_of(text, found.start())}", f"flag in struct {found.group(1)}"
        for line, fn, _, _, body in functions(text):
            if re.search(r"::\w+(?:\([^)]*\))? => \d+,", body):
                yield f"{name}:{line}", f"numbers of an enum: {fn}"


def twins(root):
    """2: functions of four lines and more whose bodies are the same but for names, types and constants."""
    shapes = collections.defaultdict(list)
    for name, text in sources(root):
        for line, fn, params, _, body in functions(text):
            body = re.sub(r"//[^\n]*", "", body)
            seen = {}
            shape = re.sub(r"[A-Za-z_]\w*|\d\w*", lambda m: m.group() if m.group() in KEYWORDS else str(seen.setdefault(m.group(), len(seen))), body)
            if len([it for it in body.split("\n") if it.strip(" {}();,")]) >= 4:
                shapes[re.sub(r"\s+", "", shape)].append((f"{name}:{line}", fn))
    for places in shapes.values():
        for at, fn in places[1:]:
            yield at, f"{fn}, as {places[0][1]} at {places[0][0]}"


KEYWORDS = set("let mut if else while for in match return continue break loop true false as fn pub use Ok Err Some None".split())


def loops(root):
    """3: loops that count an index by hand."""
    for name, text in sources(root):
        for found in re.finditer(r"(?m)^( *)('?\w*:? ?)while ([^\n]*) \{\n(.*?)^\1\}", text, re.S):
            counters = set(re.findall(r"[a-z_]\w*", found.group(3)))
            if any(re.search(rf"(?m)^\s*{it} [+-]= ", found.group(4)) for it in counters):
                yield f"{name}:{line_of(text, found.start())}", f"while {found.group(3)}"


def by_hand(root):
    """4: equality, order, conversion and printing written by hand."""
    for name, text in sources(root):
        for line, fn, params, _, body in functions(text):
            if re.match(r"(same|equal|is_same|cmp|compare|less|greater|larger|smaller|min|max|clone|copy|put|print|write)(_|$)", fn):
                yield f"{name}:{line}", fn
            elif re.match(r"\s*\{\s*match \w+ \{(\s*[\w:]+(?:\([^)]*\))? => [\w:]+(?:\(\w*\))?,)+\s*\}\s*\}\s*$", body):
                yield f"{name}:{line}", f"{fn}: a match that converts"


def together(root):
    """5: parameters (three and more) that travel together through three functions and more of a crate, and clauses that stand in as many."""
    groups, clauses_at = collections.defaultdict(list), collections.defaultdict(list)
    for name, text in sources(root):
        crate = name.split("/")[0]
        for line, fn, params, clauses, _ in functions(text):
            names = tuple(re.findall(r"(\w+)\s*:\s*[^,]+", params))
            for width in (3, 4, 5, 6):
                for at in range(len(names) - width + 1):
                    groups[crate, names[at:at + width]].append(f"{name}:{line} {fn}")
            for clause in clauses:
                fact = re.sub(r"^(requires|ensures)\s*\w*\s*", r"\1 ", re.sub(r"\s+", " ", clause))
                if fact.startswith("requires"):
                    clauses_at[crate, fact].append(f"{name}:{line} {fn}")
    kept = {key: places for key, places in groups.items() if len(places) >= 3}
    for (crate, names), places in sorted(kept.items()):
        wider = [it for (c, it), p in kept.items() if c == crate and len(it) > len(names) and len(p) == len(places) and " ".join(names) in " ".join(it)]
        if not wider:
            yield crate, f"{', '.join(names)}: {len(places)} functions"
    for (crate, fact), places in sorted(clauses_at.items()):
        if len(places) >= 3:
            yield crate, f"{fact[:90]}: {len(places)} functions"


def buffers(root):
    """6: a slice with a count of its rows beside it, and arrays with a length beside."""
    for name, text in sources(root):
        for line, fn, params, _, body in functions(text):
            for found in re.finditer(r"(\w+): (&mut |&)?\[\w+(?:; \w+)?\],\s*(found|count|length|len|n|kept|used|other|rows)\w*: usize", params):
                yield f"{name}:{line}", f"{fn}: {found.group()}"
            for found in re.finditer(r"let mut (\w+) = \[[^\]]*; \w+\];", body):
                yield f"{name}:{line}", f"{fn}: {found.group()}"


def switches(root):
    """7: a match that only chooses which function to call."""
    for name, text in sources(root):
        for line, fn, _, _, body in functions(text):
            for found in re.finditer(r"match ([\w.]+) \{((?:\s*[\w:]+(?:\([^)]*\))? => \{?\s*[\w:]+\([^;{}]*\)\s*\}?,?)+)\s*\}", body):
                if len(re.findall(r"=>", found.group(2))) > 1 and not re.search(r"=> (Ok|Err|Some|None)\b", found.group(2)):
                    yield f"{name}:{line}", f"{fn}: match {found.group(1)}"


def proofs(root):
    """8: proof files of functions, and lemma files."""
    for path in sorted(glob.glob(f"{root}/crates/*/proofs/**/*.antt", recursive=True)):
        yield os.path.relpath(path, f"{root}/crates"), ""


POINTS = dict(enumerate((options, twins, loops, by_hand, together, buffers, switches, proofs), 1))


def main():
    asked = argparse.ArgumentParser(description=__doc__.split("\n")[0])
    asked.add_argument("--root", default=os.path.join(os.path.dirname(__file__), "..", ".."))
    asked.add_argument("--list", action="store_true")
    asked.add_argument("points", nargs="*", type=int)
    given = asked.parse_args()
    for point in given.points or POINTS:
        places = list(POINTS[point](given.root))
        print(f"{point}: {len(places)}   {POINTS[point].__doc__.split(': ', 1)[1]}")
        if given.list:
            for at, what in places:
                print(f"    {at} {what}")


main()
