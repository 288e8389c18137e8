#!/usr/bin/env python3
"""Spells the names that this repository's specs/ and proofs/ declare in snake case, after port.py of the kit has turned the tree.

usage: tools/port/respell.py [--list]        at the top of the repository; --list prints the names and writes nothing

Names that begin with a capital (types, facts, modules) stay. A name that a file imports from a library of the kit stays in that file. Functions of src/,
exported names, strings, inputs and outputs are not touched: in .rt files only `ghost use` items, clauses and names between backquotes in comments are read.
"""
import collections
import glob
import os
import re
import sys

TOKEN = re.compile(r"--[^\n]*|//[^\n]*|\"(?:[^\"\\\n]|\\.)*\"|«[^»\n]*»|[^\s(){}\[\],;.:\"«»|⌜⌝]+|[(){}\[\],;.:\"«»|⌜⌝]|\s+")
NAME = r"[^\s(){}\[\],;.:\"«»|]+"
HEAD = re.compile(rf"(?m)^ *(?:(?:pub|abbrev|unfoldable|record|data|let|in|where|module) +)*({NAME}(?: +{NAME})*?) *:(?= |$)")
BOUND = re.compile(rf"[({{]({NAME}(?: +{NAME})*) :(?= )")
WORDS = {"pub", "abbrev", "unfoldable", "record", "data", "let", "in", "where", "module", "use", "ruleset", "_"}
USE = re.compile(r"\buse\s+([\w.'-]+?)(?:\.\{([^{}]*)\}| as ([^\s;]+))", re.S)


def snake(name):
    if not re.match(r"[a-z]", name):
        return name
    return re.sub(r"(?<=[a-z0-9'])[A-Z]", lambda m: "_" + m[0].lower(), name).replace("-", "_")


def files():
    own = []
    for kind in ("specs", "proofs"):
        own += glob.glob(f"crates/*/{kind}/**/*.antt", recursive=True)
    return sorted(own), sorted(glob.glob("crates/*/src/**/*.rt", recursive=True))


def is_own(module, crates):
    parts = module.split(".")
    return parts[0] == "Rattle" and len(parts) > 1 and parts[1] in crates


def imported(text, crates):
    """The names that a file brings from libraries of the kit, as they are called in it."""
    out = set()
    for module, names, other in USE.findall(text):
        if is_own(module, crates):
            continue
        for it in names.split(","):
            it = it.strip()
            if it:
                out.add(it.split(" as ")[-1].strip())
    return out


def declared(text):
    text = re.sub(r"--[^\n]*", "", text)
    out = set()
    for found in list(HEAD.finditer(text)) + list(BOUND.finditer(text)):
        out.update(it for it in found[1].split() if it not in WORDS)
    return out


def is_law(name, text):
    """Whether the file declares the name at its top or in a module of it, and not as a field."""
    for found in re.finditer(rf"(?m)^( *)(?:pub )?{re.escape(name)}(?: .*)? :", text):
        above = re.findall(r"(?m)^\S.*", text[: found.start()])
        if not found[1] or above and above[-1].startswith("module"):
            return True
    return False


def turned(text, change, keep, is_rt):
    """The text with each name of `change` respelled, but those of `keep`."""
    out, before = [], ""
    for found in TOKEN.finditer(text):
        it = found[0]
        if it.startswith("--") or it.startswith("//"):
            out.append(re.sub(r"`([^`\n]+)`", lambda m: "`" + turned(m[1], change, keep, False) + "`", it))
        elif it in change and it not in keep:
            out.append(change[it])
        else:
            out.append(it)
    return "".join(out)


def main(argv):
    crates = {it.split(":")[0].split()[0] for it in open("crates.txt") if it.strip() and not it.startswith("#")}
    antts, rts = files()
    texts = {it: open(it, encoding="utf-8").read() for it in antts + rts}
    names = collections.Counter()
    for it in antts:
        names.update(declared(texts[it]))
    # the names that a file gives to what it imports
    for it in antts + rts:
        names.update(re.findall(rf"[{{ ,]{NAME} as ({NAME})", " ".join(group for _, group, _ in USE.findall(texts[it]))))
    change = {it: snake(it) for it in names if snake(it) != it}
    from_kit = {it: imported(texts[it], crates) for it in texts}
    used = {}
    for it in antts:
        if not it.endswith("Proof.antt"):
            used[it] = {found[0] for found in TOKEN.finditer(texts[it]) if not found[0].startswith("--")}
    meet = collections.defaultdict(set)
    for old, new in change.items():
        meet[new].add(old)
    for new, olds in sorted(meet.items()):
        both = set()
        for words in used.values():
            here = (olds | {new}) & words
            if len(here) > 1:
                both |= here
        for old in sorted(both):
            if "-" in old:
                change[old] = new + "_lem"
    # a law that port.py gave the name that a definition gets here: the law gets _lem, in the files that declare or import it
    laws = {}
    for new, olds in meet.items():
        if any("-" not in old and change[old] == new for old in olds):
            for it, words in used.items():
                if new in words and olds & words and is_law(new, texts[it]):
                    laws[new] = re.sub(r"^crates/(\w+)/(\w+)/(.*)\.antt$", lambda m: f"Rattle.{m[1]}.{m[2]}.{m[3].replace('/', '.')}", it)
    law_in = collections.defaultdict(dict)
    for new, module in laws.items():
        for it in antts:
            brought = any(of == module and new in re.split(r"[,\s]+", names) for of, names, _ in USE.findall(texts[it]))
            if brought or it == "crates/" + module.replace("Rattle.", "", 1).replace(".", "/") + ".antt":
                law_in[it][new] = new + "_lem"
    if "--list" in argv:
        for old, new in sorted(change.items()):
            print(f"{old}\t{new}")
        for it, words in sorted(law_in.items()):
            for old, new in words.items():
                print(f"{it}: {old}\t{new}", file=sys.stderr)
        return 0
    for it in antts + rts:
        text = turned(texts[it], {**change, **law_in[it]}, from_kit[it], it.endswith(".rt"))
        if text != texts[it]:
            with open(it, "w", encoding="utf-8") as f:
                f.write(text)
    return 0


if __name__ == "__main__":
    raise SystemExit(main(sys.argv[1:]))
