#!/usr/bin/env python3
"""Brings the must-fail edits over to the spelling that their files have since port.py of the kit and respell.py ran.

usage: tools/port/edits.py COMMIT [--write]     at the top of the repository; COMMIT has the edits and the files in the old spelling

Both texts of each pair are respelled by the same rules, so the wrong meaning stays what it was. The rules are proved right for a pair by its 'old:' text, which must
come out as a text that stands exactly once in today's file. Where it does not, the edit is left as it is, and told: those were brought over by hand.
With --write the edits are written, else only counted.
"""
import glob
import itertools
import re
import subprocess
import sys

TOKEN = re.compile(r"[^\s(){}\[\],;.:\"«»|⌜⌝]+|[(){}\[\],;.:\"«»|⌜⌝]|\s+")
# What the kit calls otherwise, beyond snake case.
WORDS = {"getD": "get_or", "negℤ": "neg_ℤ"}
# What may stand before the head of an expression.
BEFORE = r"(^ *|\(|[=≡≢≤<+→×∷⊎;,∙*/-] |&& |\|\| |\+\+ |2 \^ |in |λ \w+\. )"
ATOM, APPLIED = r"[^()\s.=:≡≤<+→]+", r"(?:[^()\s=:≡≤<+→]+|\([^()]*\))"


def snake(name):
    return re.sub(r"(?<=[a-z0-9'])[A-Z]", lambda m: "_" + m[0].lower(), name).replace("-", "_")


def shown(path, commit):
    return subprocess.run(["git", "show", f"{commit}:{path}"], capture_output=True, text=True, check=True).stdout


def pairs_of(text):
    """The file that an edit names, and its pairs of texts."""
    file, pairs = "", []
    for line in text.split("\n"):
        if line.startswith("file: "):
            file = line[6:].strip()
        elif line.startswith("old: "):
            pairs.append([line[5:], ""])
        elif line.startswith("new:"):
            pairs[-1][1] = re.sub(r"\A ", "", line[4:])
    return file, pairs


def words_of_today():
    out = set()
    for kind in ("src/**/*.rt", "specs/**/*.antt"):
        for path in glob.glob(f"crates/*/{kind}", recursive=True):
            with open(path, encoding="utf-8") as f:
                out.update(it[0] for it in TOKEN.finditer(f.read()))
    return out


def respelled(text, today, is_rt, lent, result):
    """The text in today's spelling. `lent`: what is lent by &mut, whose value at entry is now `x.old`; `result`: how the clause called the answer."""
    text = text.replace("′", "'").replace("⌜ ", "").replace(" ⌝", "")
    if result:
        text = text.replace(f"λ {result}. ", "")
        text = re.sub(rf"(?<![\w.]){result}(?![\w.])", "result", text)

    def value(which):
        return lambda m: (m[1] or m[2]) + (".old" if which == "now" and (m[1] or m[2]) in lent else "." + which)

    text = re.sub(r"\(now \((\w+) \.entry\)\)|(?<![.\w])now \((\w+) \.entry\)", value("now"), text)
    text = re.sub(r"\(now \((\w+) \.exit\)\)|(?<![.\w])now \((\w+) \.exit\)", value("new"), text)
    # a projection is written tight, and needs no parentheses round it
    text = re.sub(r"\(([^()\s.]+)((?: \.[^\s().]+)+)\)", lambda m: m[1] + m[2].replace(" .", "."), text)
    text = re.sub(rf"{BEFORE}({ATOM})((?: \.[a-z][\w'-]*)+)", lambda m: m[1] + m[2] + m[3].replace(" .", "."), text)
    # of an application: f x .a was (f x) .a
    applied = rf"({ATOM} (?:{APPLIED} )*{APPLIED})((?: \.[a-z][\w'-]*)+)"
    text = re.sub(rf"\({applied}\)", lambda m: "(" + m[1] + ")" + m[2].replace(" .", "."), text)
    text = re.sub(rf"{BEFORE}{applied}", lambda m: m[1] + "(" + m[2] + ")" + m[3].replace(" .", "."), text)

    def word(m):
        name = m[0]
        if name in WORDS:
            return WORDS[name]
        new = snake(name)
        if re.match(r"[a-z]", name) and new in today and (name not in today or not is_rt):
            return new
        return name

    return TOKEN.sub(word, text)


def brought(old, new, text, today, is_rt):
    """The pair in today's spelling, or None."""
    if text.count(old) == 1 and is_rt and not re.search(r" \.\w|⌜|now", new):
        return [old, new]
    names = sorted(set(re.findall(r"\(now \((\w+) \.e", old + new))) if is_rt else []
    for result in (None, "a", "c", "r", "o") if is_rt else (None,):
        for much in range(len(names) + 1):
            for lent in itertools.combinations(names, much):
                a, b = respelled(old, today, is_rt, lent, result), respelled(new, today, is_rt, lent, result)
                for strip in (lambda it: it, str.strip):
                    if text.count(strip(a)) == 1 and a != b:
                        # lent by &mut is also what the old text has at its exit only, and what it does not have and today's file calls so
                        also = [it for it in names if f"(now ({it} .exit))" in old]
                        also += [it for it in names if f"({it} ." not in old and f"{it}.old" in text and f"{it}.now" not in text]
                        b = respelled(new, today, is_rt, [*lent, *also], result)
                        return [strip(a), strip(b)]
    return None


def main(argv):
    if not argv or argv[0].startswith("-"):
        print(__doc__)
        return 2
    today, done, left = words_of_today(), 0, []
    for edit in sorted(glob.glob("crates/*/must-fail/*.edit")):
        file, pairs = pairs_of(shown(edit, argv[0]))
        with open("/".join(edit.split("/")[:2] + [file]), encoding="utf-8") as f:
            text = f.read()
        lines = [f"file: {file}"]
        for old, new in pairs:
            pair = brought(old, new, text, today, file.endswith(".rt"))
            if not pair:
                left.append(edit)
                break
            text = text.replace(*pair)
            lines += [f"old: {pair[0]}", f"new: {pair[1]}"]
        else:
            done += 1
            if "--write" in argv:
                with open(edit, "w", encoding="utf-8") as f:
                    f.write("\n".join(lines) + "\n")
    print("\n".join(left))
    print(f"{done} of {done + len(left)} brought over; those above by hand")
    return 0


if __name__ == "__main__":
    raise SystemExit(main(sys.argv[1:]))
