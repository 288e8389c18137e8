#!/usr/bin/env python3
"""Breaks the lines of crates/ that the port made longer than 160 characters; not a word changes, only where a line ends.

usage: tools/port/lines.py [FILE ..]        at the top of the repository; without files, all .antt files of specs/ and proofs/

A `use` with many names becomes two; any other line is broken where the fewest brackets are open, and goes on four columns further in. A line that a must-fail
edit looks for stays as it is, and is named, as is one that has no place to break.
"""
import glob
import re
import sys

MOST = 160
TOKEN = re.compile(r"\"(?:[^\"\\]|\\.)*\"|\S+|\s+")
SIGNS = ("→", "×", "∙", "++", "≡")
USE = re.compile(r"^(use [^{]*\.)\{([^{}]*)\}$")


def looked_for():
    """The lines of each file that its crate's edits look for."""
    out = {}
    for f in glob.glob("crates/*/must-fail/*.edit"):
        text, crate, name = open(f, encoding="utf-8").read(), f.split("/")[1], ""
        for part in re.split(r"(?m)^(?=file: |old: |new: )", text):
            if part.startswith("file: "):
                name = part[6:].strip()
            elif part.startswith("old: "):
                out.setdefault(f"crates/{crate}/{name}", []).append(part[5:].rstrip("\n"))
    return out


def uses(head, names):
    """The lines of a `use` with so many names."""
    lines, now = [], []
    for name in names:
        if now and len(f"{head}{{{', '.join(now + [name])}}}") > MOST:
            lines.append(f"{head}{{{', '.join(now)}}}")
            now = []
        now.append(name)
    return lines + [f"{head}{{{', '.join(now)}}}"]


def places(line, start):
    """Where the line can be broken: the depth of brackets there and the column."""
    depth, at = 0, 0
    for word in TOKEN.findall(line):
        if word.isspace():
            if at > start:
                yield depth, at, line[at:].split(None, 1)[0] if line[at:].strip() else ""
        elif not word.startswith('"'):
            depth += sum(word.count(c) for c in "([{") - sum(word.count(c) for c in ")]}")
        at += len(word)


def closing(line, at):
    """The column of the bracket that closes the one at this column, or -1."""
    depth = 0
    for i in range(at, len(line)):
        depth += (line[i] in "([{") - (line[i] in ")]}")
        if depth == 0:
            return i
    return -1


def fields(text):
    """What stands between the semicolons that no bracket encloses."""
    depth, out = 0, [""]
    for c in text:
        depth += (c in "([{") - (c in ")]}")
        if c == ";" and depth == 0:
            out.append("")
        else:
            out[-1] += c
    return [it.strip() for it in out if it.strip()]


def opened(line, indent):
    """The lines of one with a record, its fields in lines of their own; None where there is none of two fields."""
    at = line.find("record {")
    end = closing(line, at + 7) if at >= 0 else -1
    inside = fields(line[at + 8 : end]) if end > 0 else []
    if len(inside) < 2:
        return None
    out = broken(line[: at + 8]) or [line[: at + 8]]
    for it in inside:
        out += broken(" " * (indent + 2) + it + ";") or [" " * (indent + 2) + it + ";"]
    return out + (broken(" " * indent + line[end:]) or [" " * indent + line[end:]])


def cut(line, indent):
    """Where the line ends and how far in the rest goes on."""
    found = [(d, c, w) for d, c, w in places(line, indent) if indent + 20 < c <= MOST]
    flat = [c for d, c, w in found if d == 0]
    ends = [c for c in flat if line[:c].endswith(" in")]
    if ends and line.lstrip().startswith("let "):
        return max(ends), indent
    given = [c for c in flat if line[:c].endswith(" =")]
    if given and not line[indent:].startswith("unfolding"):
        return min(given), indent + 4
    found = [it for it in found if line[: it[1]].split()[-1] not in ("record", "rw", "omega", "=", "at", "let", "in", "λ", "absurd", "search")] or found
    if not found:
        return None
    least = min(d for d, _, _ in found)
    at = [(c, w) for d, c, w in found if d == least]
    signs = [c for c, w in at if w in SIGNS and c > indent + 40]
    return max(signs or [c for c, _ in at]), indent + 4


def broken(line):
    """The line in two or more, or None."""
    if len(line) <= MOST:
        return [line]
    indent = len(line) - len(line.lstrip())
    more = opened(line, indent)
    if more:
        return more
    at = cut(line, indent)
    if at is None:
        return None
    rest = " " * at[1] + line[at[0] :].lstrip()
    more = broken(rest) if len(rest) < len(line) else None
    return [line[: at[0]].rstrip()] + more if more else None


def unfolded(lines):
    """The lines, with those of an `unfolding` that is too long filled anew."""
    out, i = [], 0
    while i < len(lines):
        indent = len(lines[i]) - len(lines[i].lstrip())
        end = i + 1
        while end < len(lines) and lines[i].lstrip().startswith("unfolding ") and lines[end].startswith(" " * (indent + 4)):
            end += 1
        if end == i + 1 and not lines[i].lstrip().startswith("unfolding ") or all(len(it) <= MOST for it in lines[i:end]):
            out += lines[i:end]
        else:
            now = " " * indent + "unfolding"
            for word in " ".join(lines[i:end]).split()[1:]:
                if len(now) + 1 + len(word) > MOST:
                    out.append(now)
                    now = " " * (indent + 3)
                now += " " + word
            out.append(now)
        i = end
    return out


def turned(path, kept):
    lines, out, said = unfolded(open(path, encoding="utf-8").read().split("\n")), [], []
    for i, line in enumerate(lines):
        if len(line) <= MOST or line.lstrip().startswith("--"):
            out.append(line)
            continue
        if any(line.strip() in old or old.strip() and all(p in line for p in old.split("\n")) for old in kept):
            said.append(f"{path}:{i + 1}: an edit looks for this line")
            out.append(line)
            continue
        use = USE.match(line)
        new = uses(use[1], [n.strip() for n in use[2].split(",")]) if use else broken(line)
        if new is None:
            said.append(f"{path}:{i + 1}: no place to break")
            new = [line]
        out += new
    return "\n".join(out), said


def main(names):
    kept = looked_for()
    names = names or sorted(f for k in ("specs", "proofs") for f in glob.glob(f"crates/*/{k}/**/*.antt", recursive=True))
    for path in names:
        text, said = turned(path, kept.get(path, []))
        for line in said:
            print(line)
        if text != open(path, encoding="utf-8").read():
            open(path, "w", encoding="utf-8").write(text)


if __name__ == "__main__":
    main(sys.argv[1:])
