#!/usr/bin/env python3
"""Moves the theorems of crates from specs/ to proofs/, their statements as they are, so that an edit of a definition is refused at the theorem that fails.

usage: tools/port/theorems.py CRATE..       at the top of the repository

A theorem is a declaration that is opaque: no abbrev, unfoldable, record or data. A module of specs/ that neither the crate's clauses nor an edit's definition
needs moves whole; of another the definitions stay, with the theorems that they cite, and the other theorems stand in a module of the same name in proofs/.
Paths in all crates' files follow, and the file that an edit names. What it could not turn is said in a line that begins 'look:'.
"""
import collections
import glob
import os
import re
import sys

W = r"[^\s(){}\[\],;.\"«»]+"
MODS = r"(?:(?:pub|abbrev|unfoldable|record|data|ruleset) +)*"
DEFINES = re.compile(r"\b(?:abbrev|unfoldable|record|data|ruleset)\b")


TURNED = [None]


def pname(name):
    """The module's name in proofs/, where Rattle makes one of its own of that name, or of one that differs in case alone."""
    crate = TURNED[0]
    made = {"kinds"}
    for p in glob.glob(f"crates/{crate}/src/**/*.rt", recursive=True):
        made |= set(os.path.relpath(p, f"crates/{crate}/src")[:-3].lower().split("/"))
        made |= {f.lower() for f in re.findall(r"\bfn (\w+)", open(p, encoding="utf-8").read())}
    made |= {d.lower() for d in os.listdir(f"crates/{crate}/proofs")} - {f"{name.lower()}.antt"} if os.path.isdir(f"crates/{crate}/proofs") else set()
    return name + "Theorems" if name.lower() in made else name


def tokens(text):
    text = re.sub(r"--[^\n]*", "", text)
    return {m[0] for m in re.finditer(r"(?<![^\s(){}\[\],;])" + W, text)}


def pieces(lines, indent):
    """The declarations at an indent, each with the comment above it."""
    out, cur = [], []
    pad = " " * indent
    for line in lines:
        at = line.strip() and line.startswith(pad) and not line[indent:].startswith(" ")
        if at and cur and not cur[-1].strip():
            out.append(cur)
            cur = [line]
        else:
            cur.append(line)
    if cur:
        out.append(cur)
    # a comment that stands alone goes with what follows
    joined, held = [], []
    for it in out:
        if all(not l.strip() or l.strip().startswith("--") for l in it):
            held += it
        else:
            joined.append(held + it)
            held = []
    if held:
        joined.append(held)
    return joined


class Node:
    def __init__(self, lines, indent):
        self.lines, self.indent = lines, indent
        body = [l for l in lines if l.strip() and not l.strip().startswith("--") and not re.match(r"\s*infix", l)]
        self.first = body[0].strip() if body else ""
        self.children, self.tele, self.head = None, [], []
        self.names, self.define = [], True
        if self.first.startswith("module "):
            i = next(i for i, l in enumerate(lines) if l.strip().startswith("module "))
            j = i
            while not re.search(r"\bwhere\s*$", lines[j]):
                j += 1
            self.head = lines[: j + 1]
            text = " ".join(lines[i : j + 1])
            depth_cut = text[: text.rindex("where")]
            self.tele = [v for grp in top_groups(depth_cut) if grp[0] == "(" for v in grp[1:-1].split(" : ")[0].split()]
            self.children = [Node(p, indent + 2) for p in pieces(lines[j + 1 :], indent + 2)]
        elif re.match(MODS + r"mutual\b", self.first):
            heads = [m for m in re.finditer(r"(?m)^ {%d}(%s)(%s)(?: [^:\n]*)? :(?= |$)" % (indent + 2, MODS, W), "\n".join(lines))]
            self.names = [m[2] for m in heads]
            self.define = bool(DEFINES.search(self.first)) or any(DEFINES.search(m[1]) for m in heads)
            for m in re.finditer(r"(?m)^ {%d}(?:pub )?(%s)(?: %s)* :" % (indent + 4, W, W), "\n".join(lines)):
                self.names.append(m[1])
        elif self.first:
            m = re.match(MODS + "(" + W + ")", self.first)
            self.define = bool(DEFINES.search(self.first.split(" :")[0].rsplit(" ", 1)[0] + " ")) or self.first.startswith(("ruleset", "pub ruleset"))
            self.names = [m[1]] if m else []
            if re.match(r"(?:pub )?data ", self.first):
                self.names += re.findall(r"(?m)^ {%d}(?:pub )?(" % (indent + 2) + W + r")(?: " + W + r")* :", "\n".join(lines))
            if re.search(r"\binfix", "\n".join(lines)):
                self.define = True
        else:
            self.names = []

    def all_names(self):
        if self.children is None:
            return set(self.names)
        return set().union(*[c.all_names() for c in self.children]) if self.children else set()

    def text(self):
        return "\n".join(self.lines)

    def fields(self):
        """The names of a record's fields, which are no citations of what is called so elsewhere."""
        if not re.match(r"(?:pub )?record ", self.first):
            return set()
        return set(re.findall(rf"(?m)^ {{{self.indent + 2}}}(?:pub )?({W})(?: {W})* :(?= |$)", self.text()))

    def each(self, above=()):
        """The leaves, each with the modules around it."""
        if self.children is None:
            yield self, list(above)
        else:
            for c in self.children:
                yield from c.each((*above, self))

    def keep(self, which, change=None):
        """The lines of the leaves that `which` takes, in their modules."""
        if self.children is None:
            return (change(self) if change else self.lines) if which(self) else []
        inner = []
        for c in self.children:
            inner += c.keep(which, change)
        if not inner:
            return []
        return (change(self) if change else self.head) + inner


def top_groups(text):
    out, depth, start = [], 0, 0
    for i, ch in enumerate(text):
        if ch in "({":
            if depth == 0:
                start = i
            depth += 1
        elif ch in ")}":
            depth -= 1
            if depth == 0:
                out.append(text[start : i + 1])
    return out


class Module:
    def __init__(self, crate, name, path):
        self.crate, self.name, self.path = crate, name, path
        text = open(path, encoding="utf-8").read()
        lines = text.split("\n")
        comments = 0
        while comments < len(lines) and lines[comments].startswith("--"):
            comments += 1
        self.comment, self.uses = lines[:comments], []
        i = last = comments
        while i < len(lines):
            if re.match(r"(pub )?use ", lines[i]):
                use = lines[i]
                while use.count("{") > use.count("}"):
                    i += 1
                    use += "\n" + lines[i]
                self.uses.append(use)
                last = i + 1
            elif lines[i].strip() and not lines[i].startswith("--"):
                break
            i += 1
        self.nodes = [Node(p, 0) for p in pieces(lines[last:], 0)]
        self.nodes = [n for n in self.nodes if n.first]
        self.defs, self.thms = {}, {}
        for n in self.nodes:
            for leaf, tele in n.each():
                for it in leaf.names:
                    (self.defs if leaf.define else self.thms)[it] = (leaf, tele)
        self.brought = {}
        for u in self.uses:
            m = re.match(r"(?:pub )?use ([\w.'-]+)\.\{([^{}]*)\}", u)
            if m:
                for it in m[2].split(","):
                    it = it.strip()
                    if it:
                        self.brought[it.split(" as ")[-1].strip()] = (m[1], it.split(" as ")[0].strip())


def load(crate):
    out = {}
    for p in sorted(glob.glob(f"crates/{crate}/specs/**/*.antt", recursive=True)):
        name = os.path.relpath(p, f"crates/{crate}/specs")[:-5].replace("/", ".")
        if name == "Lib" or os.path.exists(p[:-5]):
            continue
        out[name] = Module(crate, name, p)
    return out


def turn(crate):
    TURNED[0] = crate
    mods = load(crate)
    own = f"Rattle.{crate}.specs."
    # what has to stay: names of definitions, by module
    stay = collections.defaultdict(set)
    for p in glob.glob(f"crates/{crate}/src/**/*.rt", recursive=True):
        t = open(p, encoding="utf-8").read()
        for m, names in re.findall(rf"ghost use Rattle\.{crate}\.specs\.([\w.]+?)\.\{{([^{{}}]*)\}}", t):
            stay[m].update(it.split(" as ")[0].strip() for it in names.split(",") if it.strip())
        for m in re.findall(rf"ghost use Rattle\.{crate}\.specs\.([\w.]+?) as ", t):
            if m in mods:
                stay[m].update(mods[m].defs)
    # what other crates' clauses and definitions cite
    for p in glob.glob("crates/*/src/**/*.rt", recursive=True):
        t = open(p, encoding="utf-8").read()
        for m, names in re.findall(rf"ghost use Rattle\.{crate}\.specs\.([\w.]+?)\.\{{([^{{}}]*)\}}", t):
            stay[m].update(it.split(" as ")[0].strip() for it in names.split(",") if it.strip())
        for m, x in re.findall(rf"ghost use Rattle\.{crate}\.specs\.([\w.]+?) as (\w+)", t):
            stay[m].update(re.findall(rf"\b{x}\.({W})", t))
    for p in glob.glob("crates/*/specs/**/*.antt", recursive=True):
        t = open(p, encoding="utf-8").read()
        if p.startswith(f"crates/{crate}/") or f"Rattle.{crate}.specs." not in t:
            continue
        other = Module("", "", p)
        words = set()
        for n in other.nodes:
            for leaf, _ in n.each():
                if leaf.define:
                    words |= tokens(leaf.text())
        words |= {re.sub(r"^_|_$", "", w) for w in words}
        for w, (of, n) in other.brought.items():
            if of.startswith(own) and (w in words or "◌" in w):
                stay[of[len(own) :]].add(n)
        for m, x in re.findall(rf"use Rattle\.{crate}\.specs\.([\w.]+?) as (\w+)", t):
            for n in other.nodes:
                for leaf, _ in n.each():
                    if leaf.define:
                        stay[m].update(re.findall(rf"(?<![^\s(){{}}\[\],;]){x}\.({W})", leaf.text()))
    edited = collections.defaultdict(list)
    for e in sorted(glob.glob(f"crates/{crate}/must-fail/*.edit")):
        file = None
        for l in open(e, encoding="utf-8"):
            if l.startswith("file: specs/"):
                file = l[12:].strip()[:-5].replace("/", ".")
            elif l.startswith("old: ") and file in mods:
                for n in mods[file].nodes:
                    for leaf, _ in n.each():
                        if l[5:].rstrip("\n") in leaf.text() and leaf.define:
                            stay[file].update(leaf.names)
    # with what they cite, definitions and theorems alike
    todo = [(m, n) for m, ns in stay.items() for n in ns]
    seen = set()
    while todo:
        m, n = todo.pop()
        if (m, n) in seen or m not in mods:
            continue
        seen.add((m, n))
        mod = mods[m]
        leaf = (mod.defs.get(n) or mod.thms.get(n) or (None, None))[0]
        if leaf is None:
            # passed on by `pub use`
            if n in mod.brought and mod.brought[n][0].startswith(own):
                todo.append((mod.brought[n][0][len(own) :], mod.brought[n][1]))
            continue
        for other in leaf.names:
            if (m, other) not in seen:
                todo.append((m, other))
        words = tokens(leaf.text()) - leaf.fields()
        heads = [h for nd in mod.nodes if nd.children is not None and any(l is leaf for l, _ in nd.each()) for h in ["\n".join(all_heads(nd, leaf))]]
        words |= tokens("\n".join(heads))
        bare = {w for w in words} | {re.sub(r"^_|_$", "", w) for w in words}
        for w in bare:
            if w in mod.defs or w in mod.thms:
                todo.append((m, w))
            elif w in mod.brought and mod.brought[w][0].startswith(own):
                todo.append((mod.brought[w][0][len(own) :], mod.brought[w][1]))
        for op, (of, name) in mod.brought.items():
            if "◌" in op and of.startswith(own):
                todo.append((of[len(own) :], name))
        for d in list(mod.defs) + list(mod.thms):
            if "◌" in d:
                todo.append((m, d))
    stays = collections.defaultdict(set)
    for m, n in seen:
        stays[m].add(n)
    where = {}
    moved = collections.defaultdict(list)
    os.makedirs(f"crates/{crate}/proofs", exist_ok=True)
    for name, mod in mods.items():
        kept = {n for n in stays.get(name, ()) if n in mod.defs or n in mod.thms}
        if kept or name in stays:
            # keep every definition of a module that stays, so that nothing is torn apart, but theorems only if cited
            for n in mod.defs:
                kept.add(n)
        go = {n for n in list(mod.defs) + list(mod.thms) if n not in kept}
        for n in kept:
            where[(name, n)] = "specs"
        for n in go:
            where[(name, n)] = "proofs"
        mod.kept, mod.go = kept, go
    # a definition that stays now may cite what moves: then that stays too
    again = True
    while again:
        again = False
        for name, mod in mods.items():
            for n in list(mod.kept):
                leaf, above = mod.defs.get(n) or mod.thms.get(n)
                words = tokens("\n".join([leaf.text(), *(l for a in above for l in a.head)])) - leaf.fields()
                for w in words | {re.sub(r"^_|_$", "", w) for w in words}:
                    m2, n2 = (name, w) if w in mod.defs or w in mod.thms else (mod.brought[w][0][len(own) :], mod.brought[w][1]) if w in mod.brought and mod.brought[w][0].startswith(own) else (None, None)
                    if m2 in mods and where.get((m2, n2)) == "proofs":
                        other = mods[m2]
                        grp = (other.defs.get(n2) or other.thms.get(n2))[0].names
                        for g in grp:
                            where[(m2, g)] = "specs"
                            other.kept.add(g)
                            other.go.discard(g)
                        again = True
    lib_s, lib_p = f"crates/{crate}/specs/Lib.antt", f"crates/{crate}/proofs/Lib.antt"
    libs = open(lib_s, encoding="utf-8").read()
    libp = open(lib_p, encoding="utf-8").read() if os.path.exists(lib_p) else ""
    texts = {}
    for name, mod in mods.items():
        if not mod.go:
            continue
        target = f"crates/{crate}/proofs/{pname(name).replace('.', '/')}.antt"
        for n in sorted(mod.go):
            if n in mod.thms:
                moved[name].append(n)
        if not mod.kept:
            texts[target] = open(mod.path, encoding="utf-8").read()
            texts[mod.path] = None
            libs = re.sub(rf"(?m)^(?:pub )?mod {re.escape(name)}\n", "", libs)
        else:
            takes = lambda leaf: bool(leaf.names) and leaf.names[0] in mod.kept
            spec, proof = [], []
            around = {}
            for nd in mod.nodes:
                for leaf, above in nd.each():
                    around[id(leaf)] = above
                    for i, m in enumerate(above):
                        around[id(m)] = above[:i]

            def applied(leaf):
                out = []
                calls = {}
                for n, (of, above) in list(mod.defs.items()) + list(mod.thms.items()):
                    shared = [v for a, b in zip(above, around[id(leaf)]) if a is b for v in a.tele]
                    if n in mod.kept and shared and (n == of.names[0] or re.match(MODS + "mutual", of.first)):
                        calls[n] = " ".join([n, *shared])
                whole = "\n".join(leaf.head) or leaf.text()
                bound = {v for grp in re.findall(rf"[({{]({W}(?: {W})*) :(?= )", whole) for v in grp.split()}
                bound |= {v for grp in re.findall(r"λ ([^.()]*)\.", whole) for v in grp.split()}
                bound |= set(re.findall(rf"let ({W})(?: :[^=]*)? =", whole))
                for l in leaf.head or leaf.lines:
                    if l.strip().startswith(("--", "unfolding ")):
                        out.append(l)
                        continue
                    for n, c in calls.items():
                        if n in bound:
                            continue
                        l = re.sub(rf"(?<![^\s(){{}}\[\],;]){re.escape(n)}(?![^\s(){{}}\[\],;.])", lambda k, l0=l, c=c: k[0] if re.match(r" =(?: |$)", l0[k.end() :]) and re.search(r"(?:[{;]|^)\s*$", l0[: k.start()]) else f"({c})", l)
                        l = re.sub(rf"(?<![^\s(){{}}\[\],;]){re.escape(n)}(?=\.)", f"({c})", l)
                    out.append(l)
                return out

            for nd in mod.nodes:
                spec.append(nd.keep(takes))
                proof.append(nd.keep(lambda leaf: bool(leaf.names) and leaf.names[0] in mod.go, applied))
            glue = lambda parts: "\n\n".join("\n".join(p).strip("\n") for p in parts if p)
            plain = mod.uses
            texts[mod.path] = "\n".join(mod.comment + mod.uses) + "\n\n" + glue(spec) + "\n"
            bring = ", ".join(sorted(mod.kept))
            texts[target] = "\n".join([f"-- Theorems about what specs/{name.replace('.', '/')}.antt defines. Assumes nothing."] + plain + [f"use {own}{name}.{{{bring}}}"]) + "\n\n" + glue(proof) + "\n"
        if f"pub mod {pname(name)}\n" not in libp:
            libp += f"pub mod {pname(name)}\n"
    for p, t in texts.items():
        if t is None:
            os.remove(p)
        else:
            os.makedirs(os.path.dirname(p), exist_ok=True)
            open(p, "w", encoding="utf-8").write(t)
    open(lib_s, "w", encoding="utf-8").write(libs)
    if libp:
        open(lib_p, "w", encoding="utf-8").write(libp)
    # what a module passes on stands where it came from
    for name, mod in mods.items():
        for u in mod.uses:
            m = re.match(rf"pub use Rattle\.{crate}\.specs\.([\w.]+)\.\{{([^{{}}]*)\}}", u)
            for it in m[2].split(",") if m else []:
                n = it.strip().split(" as ")[0]
                if n and (name, n) not in where:
                    where[(name, n)] = where.get((m[1], n), "specs") if mod.kept else "proofs"
    follow(crate, mods, where)
    for name, mod in mods.items():
        if mod.go and mod.kept:
            for p, side in ((mod.path, "proofs"), (f"crates/{crate}/proofs/{pname(name).replace('.', '/')}.antt", "specs")):
                t = open(p, encoding="utf-8").read()
                u = re.sub(rf"(?ms)^pub use Rattle\.{crate}\.{side}\.[\w.]+\.\{{[^{{}}]*\}}[ \t]*\n", "", t)
                if side == "proofs":
                    # the fields of a record that stays are public, as its theorems are in another file now
                    for leaf, _ in mod.defs.values():
                        if re.match(rf"(?:pub )?record ", leaf.first) and leaf.names[0] in mod.kept:
                            old = leaf.text()
                            new = re.sub(rf"(?m)^( {{{leaf.indent + 2}}})(?!pub |--)({W}(?: {W})*) :(?= |$)", r"\1pub \2 :", old)
                            u = u.replace(old.strip("\n"), new.strip("\n"))
                if u != t:
                    open(p, "w", encoding="utf-8").write(u)
            for p in (mod.path, f"crates/{crate}/proofs/{pname(name).replace('.', '/')}.antt"):
                prune(p)
            # what proofs/ names of the module is public
            there = open(f"crates/{crate}/proofs/{pname(name).replace('.', '/')}.antt", encoding="utf-8").read()
            m = re.search(rf"(?m)^use Rattle\.{crate}\.specs\.{re.escape(name)}\.\{{([^{{}}]*)\}}", there)
            t = u = open(mod.path, encoding="utf-8").read()
            for n in [x.strip() for x in m[1].split(",") if x.strip()] if m else []:
                leaf = (mod.defs.get(n) or mod.thms.get(n) or (None, None))[0]
                if leaf is None or leaf.names[0] != n or re.match(MODS + "mutual", leaf.first) or re.match(rf"(?:{MODS})?pub ", leaf.first):
                    continue
                m2 = re.match(r"((?:abbrev |unfoldable )*)(.*)$", leaf.first, re.S)
                u = re.sub(rf"(?m)^( *){re.escape(leaf.first)}$", lambda k: f"{k[1]}{m2[1]}pub {m2[2]}", u, count=1)
            if u != t:
                open(mod.path, "w", encoding="utf-8").write(u)
    return moved


def used(name, tokens_, text):
    n = name.split(" as ")[-1].strip()
    if "◌" in n and (n in tokens_ or n.replace("◌", "_") in tokens_):
        return True
    if "◌" in n:
        return all(p in tokens_ for p in n.split("◌") if p)
    return "[" in text if n == "[]" else n in tokens_


def prune(path):
    """Drops from `use` lines what the file does not use."""
    t = open(path, encoding="utf-8").read()
    uses = list(re.finditer(r"(?m)^use ([^\s{]+)\.\{([^{}]*)\}[ \t]*\n", t))
    body = t
    for m in reversed(uses):
        body = body[: m.start()] + body[m.end() :]
    body = re.sub(r"--[^\n]*", "", body)
    bare = re.sub(r"(?<=[^\s(){}\[\],;])\.(" + W + ")", "", body)
    words = set(re.findall(W, bare))
    out = t
    for m in reversed(uses):
        names = [x.strip() for x in m[2].split(",") if x.strip()]
        keep = [x for x in names if used(x, words, body)]
        if keep != names:
            line = f"use {m[1]}.{{{', '.join(keep)}}}\n" if keep else ""
            if keep and m[0].count("\n") == 1 and len(line) <= 161:
                line = line
            if len(line) > 161:
                line = f"use {m[1]}.{{\n  " + ",\n  ".join(keep) + ",\n}\n"
            out = out[: m.start()] + line + out[m.end() :]
    for m in reversed(list(re.finditer(r"(?m)^use ([^\s{]+) as (\S+)[ \t]*\n", out))):
        if not re.search(rf"(?<![^\s(){{}}\[\],;]){re.escape(m[2])}\.", body):
            out = out[: m.start()] + out[m.end() :]
    if out != t:
        open(path, "w", encoding="utf-8").write(out)


def all_heads(node, leaf):
    if node.children is None:
        return []
    for c in node.children:
        if any(l is leaf for l, _ in c.each()):
            return node.head + all_heads(c, leaf)
    return []


def follow(crate, mods, where):
    """Paths in all files."""
    files = glob.glob("crates/*/specs/**/*.antt", recursive=True) + glob.glob("crates/*/proofs/**/*.antt", recursive=True) + glob.glob("crates/*/src/**/*.rt", recursive=True)
    line = re.compile(rf"(?m)^((?:pub |ghost )*)use Rattle\.{crate}\.specs\.([\w.]+?)\.\{{([^{{}}]*)\}}(;?)[ \t]*$")
    for p in files:
        t = open(p, encoding="utf-8").read()
        if f"Rattle.{crate}.specs." not in t:
            continue

        def one(m):
            if m[2] not in mods:
                return m[0]
            side = collections.defaultdict(list)
            for it in m[3].split(","):
                it = it.strip()
                if not it:
                    continue
                n = it.split(" as ")[0].strip()
                at = where.get((m[2], n))
                if at is None:
                    at = "specs" if mods[m[2]].kept or not mods[m[2]].go else "proofs"
                side[at].append(it)
            return "\n".join(f"{m[1]}use Rattle.{crate}.{s}.{pname(m[2]) if s == 'proofs' else m[2]}.{{{', '.join(side[s])}}}{m[4]}" for s in ("specs", "proofs") if side[s])

        u = line.sub(one, t)
        for name, mod in mods.items():
            if mod.go and not mod.kept:
                u = re.sub(rf"(use Rattle\.{crate}\.)specs(\.{re.escape(name)} as )", lambda k, n=name: f"{k[1]}proofs.{pname(n)} as ", u)
            elif mod.go:
                for x in re.findall(rf"use Rattle\.{crate}\.specs\.{re.escape(name)} as (\w+)", u):
                    used = set(re.findall(rf"(?<![^\s(){{}}\[\],;]){x}\.({W})", u))
                    there = {n for n in used if where.get((name, n)) == "proofs"}
                    if not there:
                        continue
                    first = re.search(rf"(?m)^.*use Rattle\.{crate}\.specs\.{re.escape(name)} as {x};?[ \t]*$", u)[0]
                    laws = first.replace(f".specs.{name} ", f".proofs.{pname(name)} ").replace(f" as {x}", f" as {x}_laws")
                    u = u.replace(first, laws if there == used else first + "\n" + laws)
                    for n in there:
                        u = re.sub(rf"(?<![^\s(){{}}\[\],;]){x}\.{re.escape(n)}(?![^\s(){{}}\[\],;.])", f"{x}_laws.{n}", u)
        if u != t:
            open(p, "w", encoding="utf-8").write(u)
    for e in glob.glob(f"crates/{crate}/must-fail/*.edit"):
        t = open(e, encoding="utf-8").read()
        out, file = [], None
        for l in t.split("\n"):
            if l.startswith("file: specs/"):
                file = l[6:].strip()
                old = re.search(r"(?m)^old: (.*)$", t[t.index(l) :])[1]
                here = open(f"crates/{crate}/{file}", encoding="utf-8").read() if os.path.exists(f"crates/{crate}/{file}") else ""
                other = f"proofs/{pname(file[6:-5].replace('/', '.')).replace('.', '/')}.antt"
                there = open(f"crates/{crate}/{other}", encoding="utf-8").read() if os.path.exists(f"crates/{crate}/{other}") else ""
                if here.count(old) != 1 and there.count(old) == 1:
                    l = f"file: {other}"
                elif here.count(old) != 1:
                    print(f"look: {e}: {old[:60]} stands {here.count(old)} and {there.count(old)} times")
            out.append(l)
        if "\n".join(out) != t:
            open(e, "w", encoding="utf-8").write("\n".join(out))


if __name__ == "__main__":
    for c in sys.argv[1:]:
        moved = turn(c)
        print(f"{c}: {sum(len(v) for v in moved.values())} theorems of {len(moved)} modules")
