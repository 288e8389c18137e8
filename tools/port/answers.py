#!/usr/bin/env python3
"""Turns proofs/F/Proof.antt, which hands its answers to the generated module Tie, into proofs/F/Invariants.antt and proofs/F/Answers.antt.

usage: tools/port/answers.py NAMES CRATE [FUNCTION..]       at the top of the repository

NAMES is the names.json that `rt check --generated DIR --old-names` writes in crates/CRATE. A goal whose old answer was `search rules` gets none.
What it could not turn is said in a line that begins 'look:'. It proves nothing: rt check decides.
"""
import json
import os
import re
import sys

WORD = r"[^\s(){}\[\],;.\"«»]+"
TOKEN = re.compile(r"--[^\n]*|\"(?:[^\"\\\n]|\\.)*\"|«[^»\n]*»|" + WORD + r"(?:\." + WORD + r")*|[(){}\[\],;.]|\s+")
OPEN, CLOSE = "([{", ")]}"
norm = lambda it: it.replace("_", "-").lower()


def chunks(text):
    """The file's header of comments, its use lines, and its declarations, each with the comment above it."""
    lines = text.split("\n")
    head, uses, rest, at = [], [], [], 0
    while at < len(lines) and lines[at].startswith("--"):
        head.append(lines[at])
        at += 1
    while at < len(lines):
        if lines[at].startswith("use "):
            use = lines[at]
            while use.count("{") > use.count("}"):
                at += 1
                use += "\n" + lines[at]
            uses.append(use)
        elif lines[at].strip():
            break
        at += 1
    for line in lines[at:]:
        if rest and (line.startswith((" ", "\t")) or not line.strip()):
            rest[-1].append(line)
        elif rest and continues(rest[-1], line):
            rest[-1].append(line)
        else:
            rest.append([line])
    return head, uses, ["\n".join(it).rstrip() for it in rest]


def continues(block, line):
    """Whether a line at the margin goes on with the block: the equations after a signature, `unfolding` lines, a declaration under its comment."""
    last = [it for it in block if it.strip()][-1]
    if not block[-1].strip():
        return False
    return not last.startswith("--- ") or True


class Function:
    def __init__(self, listed):
        self.listed = listed
        self.places = {}
        last = {}
        for (old, *_), new, arm in zip(listed["places"], listed["places_by_name"], listed["arms"]):
            if arm:
                last[arm[0]] = (norm(old), new)
        for (old, parent, fields, callee, inner), new, clauses, arm, typed in zip(listed["places"], listed["places_by_name"], listed["clauses"], listed["arms"], listed["typed"]):
            if arm and re.search(r"-\d+$", new):
                base = re.sub(r"-\d+$", "", new)
                if base in listed["places_by_name"]:
                    new = base
            self.places[norm(old)] = {"parent": parent and norm(parent), "old": norm(fields[0]), "new": fields[1], "name": new, "clauses": clauses and clauses["fields"], "arm": arm, "callee": callee, "typed": bool(typed), "inner": {a: b for a, b in inner if b.endswith("-bits")}}

    def up(self, place):
        return self.places[place]["parent"] if place in self.places else None

    def chain(self, place):
        out = []
        while place:
            out.append(place)
            place = self.up(place)
        return out

    def back(self, var, place, want):
        """The earlier place `want` as a path from a variable at `place`, or None. A place with `type_inv` is a record of its own around the place."""
        chain = self.chain(place)
        if want not in chain or self.places[want]["typed"]:
            return None
        return var + ".before" * (chain.index(want) + self.places[place]["typed"])

    def find(self, place, ups, field):
        """The place whose step is called so: that many places up, or else the nearest to it."""
        field = norm(field)
        chain = self.chain(place)
        fits = [i for i, it in enumerate(chain) if self.places[it]["old"] == field]
        if not fits:
            fits = [i for i, it in enumerate(chain) if norm(self.places[it]["new"]) == field]
        if not fits and field.endswith("-lem"):
            return self.find(place, ups, field[: -len("-lem")])
        if not fits and re.search(r"\d$", field):
            return self.find(place, ups, re.sub(r"\d+$", "", field))
        if not fits:
            return None
        return chain[min(fits, key=lambda i: abs(i - ups))]


ROOT = {"good", "well_formed", "args", "requires", "pre", "ranges", "lifetimes", "auto", "type_inv", "utf8", "told"}


def clause(fields, steps):
    """Positions in the old conjunction of clauses, A × (B × C), as the clause's name, and what is left of the steps; or None."""
    i, n = 0, len(fields)
    while steps and steps[0] in ("0", "1"):
        if steps[0] == "0":
            return [fields[i], *steps[1:]]
        i, steps = i + 1, steps[1:]
        if i == n - 1:
            return [fields[i], *steps]
    return None


def closing(text, at):
    depth = 0
    for i in range(at, len(text)):
        if text[i] in OPEN:
            depth += 1
        elif text[i] in CLOSE:
            depth -= 1
            if depth == 0:
                return i
    return -1


def parts_of(text):
    """The parts of a tuple's inside, cut at commas of the outermost depth."""
    out, depth, start = [], 0, 0
    for i, it in enumerate(text):
        if it in OPEN:
            depth += 1
        elif it in CLOSE:
            depth -= 1
        elif it == "," and depth == 0:
            out.append(text[start:i])
            start = i + 1
    out.append(text[start:])
    return [it.strip() for it in out if it.strip()]


def arguments(text):
    out, at = [], 0
    while at < len(text):
        if text[at].isspace():
            at += 1
        elif text[at] in OPEN:
            end = closing(text, at)
            out.append(text[at : end + 1])
            at = end + 1
        else:
            end = at
            while end < len(text) and not text[end].isspace() and text[end] not in OPEN + CLOSE:
                end += 1
            out.append(text[at:end])
            at = end
    return out


class Turner:
    def __init__(self, crate, path, listed, text):
        self.crate, self.path, self.f = crate, path, Function(listed)
        # a name for the type of a place is the place itself
        for name, of in re.findall(r"(?m)^abbrev (" + WORD + r") : Type 0\n\1 = (tie\." + WORD + r")[^\n]*\n", text):
            text = re.sub(rf"(?m)^(?:--[^\n]*\n)*abbrev {re.escape(name)} : Type 0\n{re.escape(name)} = [^\n]*\n", "", text)
            text = re.sub(rf"(?<![^\s(){{}}\[\],;]){re.escape(name)}(?![^\s(){{}}\[\],;])", of, text)
        self.head, self.uses, self.blocks = chunks(text)
        self.said, self.wants = [], set()
        self.imports = set()
        self.loops = [(old, new, names) for (old, new), names in listed["loops"]]
        self.listed = listed

    def look(self, what):
        self.said.append(what)

    # ---- paths

    def body(self, text, place, env, goal=None):
        """Text of an answer at a place, with what `env` says of its variables: the place of each, or the clauses of a record that it stands for."""
        env = dict(env)
        out, pos = [], 0
        # lets that only name a place go
        let = re.compile(r"let (" + WORD + r")(?: : [^=\n]*?)? = (" + WORD + r")((?:\.before)*)\s+in\b[ \n]*")
        for name in self.accessors:
            text = re.sub(rf"let (" + WORD + rf") = {re.escape(name)} (" + WORD + r"(?:\.before)*)\s+in\b", r"let \1 = \2 in", text)
            text = re.sub(rf"let (" + WORD + rf") = \({re.escape(name)} (" + WORD + r"(?:\.before)*)\)((?:\.before)*)\s+in\b", r"let \1 = \2\3 in", text)
        again = True
        while again:
            again = False
            for m in let.finditer(text):
                if m[2] in env and isinstance(env[m[2]], tuple) and env[m[2]][0] == "place":
                    p, ups = env[m[2]][1], m[3].count(".before") + env[m[2]][2]
                    env[m[1]] = ("place", p, ups, env[m[2]][3])
                    text = text[: m.start()] + text[m.end() :]
                    again = True
                    break
        for name, want in self.accessors.items():
            def access(m):
                var = m[1].split(".")[0]
                if var in env and env[var][0] == "place":
                    got = self.path_of(var + m[2], env)
                    return got[0] if got else m[0]
                return m[0]
            text = re.sub(rf"\({re.escape(name)} (" + WORD + r"(?:\.before)*)\)((?:\." + WORD + r")+)", access, text)
            def whole(m):
                var = m[2].split(".")[0]
                if goal and var in env and env[var][0] == "place":
                    return f"{m[1]}«(goal.at.{goal} {env[var][3]}).{self.f.places[want]['name']}»"
                if var in env and env[var][0] == "place" and self.f.back(env[var][3], env[var][1], want):
                    return f"{m[1]}«{self.f.back(env[var][3], env[var][1], want)}»"
                if re.match(r"[a-z]", m[2]) and var in env:
                    self.look(f"{name} {m[2]}")
                return m[0]
            text = re.sub(rf"((?<![^\s(){{}}\[\],;]))\(?{re.escape(name)} (" + WORD + r"(?:\.before)*)\)?", whole, text)
        text = self.passed(text, env, goal)
        # lets of a whole record of clauses keep their name, and its parts go by name
        for m in re.finditer(r"let (" + WORD + r") = (?:rw (?:" + WORD + r"(?:\." + WORD + r")*|\([^()]*\)) at )?\(?(" + WORD + r"(?:\." + WORD + r")*\.(?:requires|pre|ensures))\)? in\b", text):
            got = self.path_of(m[2], env)
            if got and got[1]:
                env[m[1]] = ("record", got[1])
        for m in TOKEN.finditer(text):
            it = m[0]
            first = it.split(".")[0]
            if it.startswith("--") or first not in env or (out and out[-1] == "{" and re.match(r" = ", text[m.end() :])):
                out.append(it)
                continue
            if env[first][0] == "record":
                steps = it.split(".")
                got = clause(env[first][1], steps[1:])
                out.append(".".join([first, *got]) if got else it)
                continue
            got = self.path_of(it, env)
            out.append(got[0] if got else it)
        return re.sub(r"«((?:\(goal\.at\.[^()]*\)\." + WORD + r"|" + WORD + r"(?:\." + WORD + r")*))»", r"\1", "".join(out))

    def path_of(self, path, env):
        """The path as it reads now, and the clauses of the record that it ends in, if it is one."""
        steps = path.split(".")
        if steps[0] not in env or env[steps[0]][0] != "place":
            return None
        _, place, ups, var = env[steps[0]]
        steps = steps[1:]
        while steps and steps[0] == "before":
            ups += 1
            steps = steps[1:]
        if not steps:
            return var + ".before" * ups, None
        field = steps[0]
        if field in ROOT:
            field = {"pre": "requires", "good": "well_formed"}.get(field, field)
            fields = None
            if field == "requires" and self.listed["pre"]:
                fields = self.listed["pre"]["fields"]
                got = clause(fields, steps[1:])
                if got:
                    return ".".join([var, field, *got]), None
            if field == "requires" and len(steps) > 1:
                fields = None
            return ".".join([var, field, *steps[1:]]), fields
        found = self.f.find(place, ups, field)
        if found:
            chain = self.f.chain(place)
            under = [it for it in chain if found in self.f.chain(it)]
            for it in [found, *reversed(under)]:
                arm = self.f.places[it]["arm"]
                for new, step, old in (arm[2] if arm else []):
                    if old and norm(step) == self.f.places[found]["old"] and steps[1 : 1 + len(old)] == old:
                        return ".".join([var, arm[0], new, *steps[1 + len(old) :]]), None
        if not found:
            self.look(f"no step {field} at {place}")
            return ".".join([var, *steps]), None
        of = self.f.places[found]
        steps[0] = of["new"]
        if len(steps) > 1:
            steps[1] = {"inv": "invariant", "taken": "true", "left": "false"}.get(steps[1], steps[1])
            steps[1] = of["inner"].get(steps[1], steps[1])
            steps[1] = {"type-inv": "type_inv"}.get(steps[1], steps[1])
            if steps[1] == "auto" and (len(steps) == 2 or steps[2].isdigit()):
                changed = [v for i, (_, new, names) in enumerate(self.loops) if new == of["new"] for v, c in zip(names, self.listed["changed"][i]) if c]
                if "kept" in changed:
                    steps[1] = "kept"
                elif changed and not of["callee"]:
                    steps[2:3] = [changed[int(steps[2]) if len(steps) > 2 and int(steps[2]) < len(changed) else 0]]
            if steps[1] in ("last", "auto", "kept", "new") and of["callee"]:
                among = self.listed["params"].get(of["callee"], [])
                at, i = 2, 0
                while at < len(steps) and steps[at] == "1" and i < len(among) - 1:
                    at, i = at + 1, i + 1
                if at < len(steps) and steps[at] == "0":
                    at += 1
                if at > 2 and i < len(among) and steps[at - 1] == "0":
                    steps[1:at] = ["new" if steps[1] in ("last", "new") else "auto", among[i]]
                elif len(steps) > 2 and steps[2].isdigit():
                    self.look(f"{'.'.join(steps)}: which argument of {of['callee']}?")
        if len(steps) > 1 and steps[1] in ("ensures",) and of["clauses"]:
            got = clause(of["clauses"], steps[2:])
            if got:
                steps[2:] = got
            elif len(steps) == 2:
                return ".".join([var, *steps]), of["clauses"]
        return ".".join([var, *steps]), None

    # ---- declarations

    def declared(self, block):
        m = re.match(r"(?P<comment>(?:--[^\n]*\n)*)(?P<mods>(?:(?:abbrev|pub|unfoldable) )*)(?P<name>" + WORD + r") :(?P<type>.*?)(?=\n(?:unfolding |(?P=name)\b))(?P<rest>.*)", block, re.S)
        return m

    def turn(self):
        goals, invariants, helpers, final = {}, {}, [], None
        table = {}
        for block in self.blocks:
            d = self.declared(block)
            if d is None:
                helpers.append(("raw", None, block))
                continue
            of = d["type"].strip()
            name = d["name"]
            if re.match(r"tie\.(invariant|decreases)[-_]", of):
                invariants[name] = d
            elif re.match(r"tie\.Need[-_]", of):
                goals[name] = d
            elif "statement" in of and "tie.close" in d["rest"]:
                final = d
            else:
                helpers.append(("helper", d, block))
        if final is None:
            self.look("no tie.close")
            return None
        spec = re.search(r"tie\.spec\b(.*)\)\s*$", final["rest"], re.S)
        if spec is None:
            spec = re.search(r"tie\.close\s+tie\.spec\b(.*)$", final["rest"], re.S)
        args = arguments(spec[1]) if spec else []
        answers = [it for it in args if it not in invariants]
        needs = self.listed["needs"]
        placed = {}
        if len(answers) == len(needs):
            pairs = list(zip(answers, range(len(needs))))
        else:
            self.look(f"{len(answers)} answers, {len(needs)} goals")
            pairs, used = [], set()
            for it in answers:
                if it not in goals:
                    continue
                old = norm(re.match(r"tie\.Need[-_](\S+)", goals[it]["type"].strip())[1])
                fits = [i for i, (a, b) in enumerate(needs) if i not in used and old in (norm(a), norm(b), "overflow-" + norm(a), "nonzero-" + norm(a))]
                if fits:
                    used.add(fits[0])
                    pairs.append((it, fits[0]))
                else:
                    self.look(f"no goal for {it} ({old})")
        self.rename = {it: needs[i][1] for it, i in pairs if it in goals}
        self.signatures, self.accessors, self.inlines = {}, {}, {}
        pure = re.compile(r"(" + WORD + r")(?:\.before)*\s*$")
        kept = []
        for kind, d, block in helpers:
            if kind == "helper":
                arrow = re.match(r"\s*(?:tie\.\S+(?: [^→]*)?|\(\S+ : tie\.[^()]*\)) → tie\.(" + WORD + r")[^→()]*$", d["type"], re.S)
                eq = re.match(re.escape(d["name"]) + r" (\S+) = (" + WORD + r"(?:\.before)*)\s*$", d["rest"].strip())
                if arrow and norm(arrow[1]) in self.f.places:
                    self.accessors[d["name"]] = norm(arrow[1])
                    continue
            kept.append((kind, d, block))
        helpers = kept
        for kind, d, block in helpers:
            if kind == "helper":
                where = self.places_in(d["type"])
                if where:
                    self.signatures[d["name"]] = where
            else:
                m = re.match(r"(?:--[^\n]*\n)*module _ ((?:[({][^(){}]*[)}] ?)+)where\n(.*)", block, re.S)
                if m:
                    first, at = {}, 0
                    for grp in re.findall(r"\(([^(){}]*)\)", m[1]):
                        vs, _, of = grp.partition(" : ")
                        got = re.match(r"tie\.(" + WORD + ")", of.strip())
                        for v in vs.split():
                            if got and norm(got[1]) in self.f.places:
                                first[at] = norm(got[1])
                            at += 1
                    for n in re.findall(r"(?m)^  (?:(?:abbrev|pub|unfoldable) )*(" + WORD + r")(?: [^:=\n]*)? :", m[2]):
                        if first:
                            self.signatures[n] = first
        texts = []
        for kind, d, block in helpers:
            texts.append(self.helper(d, block) if kind == "helper" else self.raw(block))
        out = []
        done = set()
        for it, i in pairs:
            new, place = needs[i][1], norm(self.listed["asked_at"][i][0])
            fields = self.listed["asked"].get(new) or self.listed["asked"].get(needs[i][0])
            if it in goals:
                text = self.answer(goals[it], new, place, fields)
                done.add(it)
            else:
                m = re.match(r"\(λ ([^\s.]+)( κs)?\. (.*)\)$", it, re.S)
                if m and m[3].strip() == "search rules":
                    continue
                if m:
                    body = self.body(m[3], place, {m[1]: ("place", place, 0, "c")}, new)
                    text = f"pub {new} : goal.{new}\n{new} c = {self.record(body, fields)}"
                elif it in self.named(helpers):
                    text = f"pub {new} : goal.{new}\n{new} = {it}"
                else:
                    self.look(f"an answer {it[:60]}")
                    text = f"pub {new} : goal.{new}\n{new} = {it}"
            if text:
                out.append((i, new, text))
        for it in goals:
            if it not in done:
                self.look(f"{it} is in no answer")
        inv = []
        for it in args:
            if it in invariants:
                inv.append(self.invariant(invariants[it], it))
        answers_text = texts + [t for _, _, t in out]
        return inv, answers_text, invariants, helpers

    def named(self, helpers):
        return {d["name"] for kind, d, _ in helpers if kind == "helper"}

    def equations(self, d):
        """`unfolding` lines, and the equations."""
        rest = d["rest"].lstrip("\n")
        un = []
        while rest.startswith("unfolding "):
            line, _, rest = rest.partition("\n")
            un.append(line)
        return un, rest

    def answer(self, d, new, place, fields):
        un, rest = self.equations(d)
        name = d["name"]
        m = re.match(re.escape(name) + r"((?:\s+[^=\s]+)*)\s+=(.*)$", rest, re.S)
        if not m:
            m = re.match(re.escape(name) + r"(\s*)=(.*)$", rest, re.S)
        if not m:
            self.look(f"{name}: no equation")
            return f"-- {name}"
        params = m[1].split()
        body = m[2]
        if not params:
            return d["comment"] + f"pub {new} : goal.{new}\n" + "".join(it + "\n" for it in un) + f"{new} ={body}"
        if body.strip() == "search rules" and not un:
            return None
        body = self.body(body, place, {params[0]: ("place", place, 0, "c")}, new)
        body = self.renamed(self.record(body, fields))
        return d["comment"] + f"pub {new} : goal.{new}\n" + "".join(it + "\n" for it in un) + f"{new} c{''.join(' ' + it for it in params[1:] if it != 'κs')} ={body}"

    def record(self, body, fields):
        """A tuple as the record of the clauses that are asked."""
        if not fields or len(fields) < 2:
            return body
        text = body.rstrip()
        # the last expression after the lets
        at = 0
        while True:
            m = re.compile(r"\s*let\b").match(text, at)
            if not m:
                break
            end = self.let_end(text, m.end())
            if end < 0:
                break
            at = end
        tail = text[at:]
        inner = tail.strip()
        if inner.startswith("(") and closing(inner, 0) == len(inner) - 1:
            parts = parts_of(inner[1:-1])
            while len(parts) < len(fields) and parts[-1].startswith("(") and closing(parts[-1], 0) == len(parts[-1]) - 1 and len(parts_of(parts[-1][1:-1])) > 1:
                parts = parts[:-1] + parts_of(parts[-1][1:-1])[:1] + (["(" + ", ".join(parts_of(parts[-1][1:-1])[1:]) + ")"] if len(parts_of(parts[-1][1:-1])) > 2 else parts_of(parts[-1][1:-1])[1:])
            if len(parts) >= len(fields):
                if len(parts) > len(fields):
                    k = len(fields) - 1
                    parts = parts[:k] + ["(" + ", ".join(parts[k:]) + ")"]
                lead = tail[: len(tail) - len(tail.lstrip())]
                return text[:at] + lead + "record { " + "; ".join(f"{a} = {b}" for a, b in zip(fields, parts)) + " }"
        if inner in ("search rules",):
            return body
        lead = tail[: len(tail) - len(tail.lstrip())]
        args = arguments(inner)
        if args and args[0] == "rw" and len(args) == 3 and args[2].startswith("("):
            parts = parts_of(args[2][1:-1])
            if len(parts) == len(fields):
                return text[:at] + lead + "record { " + "; ".join(f"{a} = rw {args[1]} ({b})" for a, b in zip(fields, parts)) + " }"
        if args and re.match(r"[a-z]", args[0]) and args[0] not in ("rw", "simp", "elim", "subst", "search", "omega", "cc", "grind", "let"):
            return text[:at] + lead + f"let all = {inner} in record {{ " + "; ".join(f"{a} = all.{i}" for i, a in enumerate(fields)) + " }"
        self.look(f"a record of {', '.join(fields)} from {inner[:50]!r}")
        return body

    def let_end(self, text, at):
        """Where the text goes on after the `in` of a let whose text begins at `at`."""
        depth, lets = 0, 1
        for m in re.compile(r"[(\[{]|[)\]}]|(?<![^\s(){}\[\],;])(?:let|in)(?![^\s(){}\[\],;])").finditer(text, at):
            it = m[0]
            if it in OPEN:
                depth += 1
            elif it in CLOSE:
                depth -= 1
                if depth < 0:
                    return -1
            elif depth == 0:
                lets += 1 if it == "let" else -1
                if lets == 0:
                    return m.end()
        return -1

    def places_in(self, of):
        """The positions of the arguments that are places, in a type."""
        out, at, depth = {}, 0, 0
        for i, part in enumerate(re.split(r"( →\s|\n    → )", of)):
            if i % 2:
                continue
            if depth == 0:
                got = re.match(r"\s*tie\.(" + WORD + ")", part)
                groups = re.findall(r"\(([^(){}:]+?) : ([^(){}]*)", part)
                if got:
                    out[at] = norm(got[1])
                    at += 1
                elif groups and part.strip().startswith(("(", "{")):
                    for vs, ty in groups:
                        it = re.match(r"tie\.(" + WORD + ")", ty.strip())
                        for v in vs.split():
                            if it:
                                out[at] = norm(it[1])
                            at += 1
                else:
                    at += 1
            depth += sum(part.count(it) for it in OPEN) - sum(part.count(it) for it in CLOSE)
        return {k: v for k, v in out.items() if v in self.f.places}

    def passed(self, text, env, goal):
        """Places that are passed to lemmas of the file, by the place that each lemma wants."""
        for name, where in self.signatures.items():
            at = 0
            while True:
                m = re.compile(rf"(?<![^\s(){{}}\[\],;]){re.escape(name)}(?=[ \n])").search(text, at)
                if not m:
                    break
                at = m.end()
                pos, i = m.end(), 0
                while i <= max(where):
                    got = re.compile(r"[ \n]+").match(text, pos)
                    if not got or got.end() >= len(text):
                        break
                    start = got.end()
                    if text[start] in OPEN:
                        end = closing(text, start) + 1
                    else:
                        end = re.compile(r"[^\s(){}\[\],;]*").match(text, start).end()
                    if end <= start:
                        break
                    arg = text[start:end].strip("()") if re.fullmatch(r"\(" + WORD + r"(?:\.before)*\)", text[start:end]) else text[start:end]
                    if i in where and re.fullmatch(WORD + r"(?:\.before)*", arg):
                        var = arg.split(".")[0]
                        if var in env and env[var][0] == "place":
                            want = where[i]
                            if want == env[var][1] and (goal or env[var][2] + arg.count(".before") == 0):
                                new = env[var][3]
                            elif not goal and self.f.back(env[var][3], env[var][1], want):
                                new = self.f.back(env[var][3], env[var][1], want)
                            elif not goal and name in self.inlines and i == 0:
                                param, of = self.inlines[name]
                                new = re.sub(rf"(?<![^\s(){{}}\[\],;]){re.escape(param)}(?=\.)", env[var][3], of)
                                new = f"({new})" if re.search(r"\s", new) else new
                                text = text[: m.start()] + new + text[end:]
                                at = m.start() + len(new)
                                break
                            elif goal:
                                new = f"(goal.at.{goal} {env[var][3]}).{self.f.places[want]['name']}"
                            else:
                                self.look(f"{name} is passed a place {want} from {env[var][1]}")
                                new = arg
                            text = text[:start] + "«" + new + "»" + text[end:]
                            end = start + len(new) + 2
                    pos = end
                    i += 1
        return text

    def place_type(self, text):
        """The type of a place as Goals has it, and the place; or the text as it is."""
        m = re.match(r"tie\.(" + WORD + r")(?: .*)?$", text.strip(), re.S)
        if not m:
            return text, None
        old = norm(m[1])
        if old not in self.f.places:
            self.look(f"no place {m[1]}")
            return text, None
        name = self.f.places[old]["name"]
        self.imports.add(name)
        return name, old

    def binders(self, text, env):
        """A telescope or an arrow's left side, with places as Goals has them."""

        def one(m):
            of, old = self.place_type(m[3])
            if old:
                for v in m[2].split():
                    env[v] = ("place", old, 0, v)
            return f"{m[1]}{m[2]} : {of}{m[4]}"

        return re.sub(r"([({])([^(){}:]+?) : (tie\.[^(){}]*)([)}])", one, text)

    def helper(self, d, block):
        """A lemma of the file: a place in its type is imported from Goals."""
        parts = re.split(r"( →\s|\n    → )", d["type"])
        env, at, where = {}, 0, {}
        depth = 0
        for i, part in enumerate(parts):
            if i % 2:
                continue
            if depth == 0:
                groups = re.findall(r"[({]([^(){}:]+?) : ", part)
                bare, old = self.place_type(part)
                if old:
                    lead = part[: len(part) - len(part.lstrip())]
                    parts[i] = lead + bare
                    where[at] = old
                    at += 1
                else:
                    parts[i] = self.binders(part, env)
                    explicit = re.findall(r"\(([^(){}:]+?) : ", part)
                    names = [v for grp in explicit for v in grp.split()]
                    if names:
                        for v in names:
                            if v in env:
                                where[at] = env[v][1]
                            at += 1
                    else:
                        at += 1
            depth += sum(part.count(it) for it in OPEN) - sum(part.count(it) for it in CLOSE)
        types = "".join(parts)
        types = self.body(types, None, env) if env else types
        un, rest = self.equations(d)
        lines = re.match(re.escape(d["name"]) + r"((?: [^=\s]+)*)\s+=(.*)$", rest, re.S)
        body = rest
        if lines and where:
            params = [it for it in lines[1].split() if not it.startswith("{")]
            local = {}
            for i, old in where.items():
                if i < len(params):
                    local[params[i]] = ("place", old, 0, params[i])
            turned = self.body(lines[2], None, local)
            body = f"{d['name']}{lines[1]} ={turned}"
            if len(params) == 1 and where == {0: local[params[0]][1]} and not re.search(r"\blet\b|\bwhere\b", turned) and not un and not re.match(r"\s*(omega|search|grind|cc|simp|rw|elim)\b", turned):
                self.inlines[d["name"]] = (params[0], " ".join(turned.split()))
        elif where:
            self.look(f"{d['name']}: equations with a place")
        return d["comment"] + d["mods"] + d["name"] + " :" + types + "\n" + "".join(it + "\n" for it in un) + self.renamed(body)

    def raw(self, block):
        """A block with a telescope, as `module _ (a : tie.In-loop ..) where`."""
        if "tie." not in block:
            return self.renamed(block)
        env = {}
        text = self.binders(block, env)
        m = re.match(r"(?:--[^\n]*\n)*module _ ((?:[({][^(){}]*[)}] ?)+)where\n", block)
        if m and env:
            v0 = next(v for v in env)
            def inner(it):
                if norm(it[2]) not in self.f.places:
                    return it[0]
                env[it[1]] = ("place", env[v0][1], 0, v0)
                self.accessors[it[1]] = norm(it[2])
                return ""
            text = re.sub(r"(?m)^  (?:abbrev )?(?:pub )?(" + WORD + r") : tie\.(" + WORD + r")[^\n]*\n  \1 = [^\n]*\n\n?", inner, text)

        def typed(m):
            of, old = self.place_type(m[2])
            return m[1] + of
        text = re.sub(r"(?m)( : )(tie\.[^\n]*)$", typed, text)
        head, nl, rest = text.partition("\n")
        done = self.body(rest, None, env)
        if len(env) >= 1 and m:
            v0 = next(v for v in env)
            for n, of in re.findall(r"(?m)^  (" + WORD + r") = ((?:.+(?:\n    .*)*))$", done):
                mates = [it for it, w in self.signatures.items() if it != n and re.search(rf"(?m)^  {re.escape(it)}(?: |$)", done)]
                if not re.search(r"\blet\b|\bwhere\b|^(omega|search|grind|cc|simp|rw|elim)\b", of) and not any(re.search(rf"(?<![^\s(){{}}\[\],;]){re.escape(it)}(?![^\s(){{}}\[\],;])", of) for it in mates):
                    self.inlines[n] = (v0, " ".join(of.split()))
        return self.renamed(head + nl + done)

    def tests(self, text):
        """A test of `!x` says of x what it is."""
        path = r"(?<![^\s(){}\[\],;\0])[a-z]\w*\.if-not-[^\s(){}\[\],;.]*\.(?:true|false)"
        text = re.sub(r"(?<![^\s(){}\[\],;])not[-_](?:true|false) (?:_|\S+) (?=[a-z]\w*\.if[^\s()]*\.(?:true|false)\b)", "\0", text)

        def negated(m):
            if m[1] == "\0":
                return m[2]
            self.wants.add("not")
            return f"{m[1]}(ap not {m[2]})"

        return re.sub(r"(^|.)(" + path + r")(?![^\s(){}\[\],;])", negated, text, flags=re.S).replace("\0", "")

    def renamed(self, text):
        text = self.tests(text)
        for a, b in self.rename.items():
            if a != b:
                text = re.sub(rf"(?<![^\s(){{}}\[\],;])(?<!goal\.){re.escape(a)}(?![^\s(){{}}\[\],;])", b, text)
        return text

    def invariant(self, d, name):
        kind, old = re.match(r"tie\.(invariant|decreases)[-_](\S+)", d["type"].strip()).groups()
        hit = [(new, names, i) for i, (o, new, names) in enumerate(self.loops) if norm(o) == norm(old)]
        if not hit:
            self.look(f"no loop {old}")
            return d[0]
        new, names, i = hit[0]
        changed = self.listed["changed"][i]
        inner = next((it["inner"] for it in self.f.places.values() if it["new"] == new and it["inner"]), {})
        bits = lambda v: v
        _, rest = self.equations(d)
        m = re.match(re.escape(name) + r"((?:\s+[^=\s]+)*)\s+=(.*)$", rest, re.S)
        params = m[1].split()
        want = len(names) + sum(changed)
        env = {}
        var = next(it for it in ("l", "w", "turn") if not re.search(rf"(?<![^\s(){{}}\[\],;]){it}(?![^\s(){{}}\[\],;])", m[2]) or it in params)
        if len(params) != want:
            self.look(f"{name}: {len(params)} parameters, {want} wanted: {names} {changed}")
        for p, (v, c) in zip(params, zip(names, changed)):
            env[p] = f"{var}.initial.{bits(v)}" if c else f"{var}.{v}"
        for p, v in zip(params[len(names) :], [v for v, c in zip(names, changed) if c]):
            env[p] = f"{var}.{bits(v)}"
        out = []
        # a signed variable is an integer now
        whole_text = m[2]
        for p in params:
            one = re.escape(p)
            whole_text = re.sub(rf"\(to_z w\d+ {one}\)|(?<![^\s(){{}}\[\],;])to_z w\d+ {one}(?![^\s(){{}}\[\],;])", p.replace("\\", ""), whole_text)
            whole_text = re.sub(rf"(?<![^\s(){{}}\[\],;]){one} ≡ of_z w\d+ ", f"{p} ≡ ", whole_text)
        for t in TOKEN.finditer(whole_text):
            it = t[0]
            first, dot, rest = it.partition(".")
            out.append(env[first] + dot + rest if first in env and not it.startswith("--") else it)
        whole = f"{kind}-{new}"
        return d["comment"] + f"abbrev pub {whole} : goal.{whole}\n{whole} {var} ={''.join(out)}"


def main(argv):
    names, crate = json.load(open(argv[0])), argv[1]
    only = argv[2:]
    root = f"crates/{crate}/proofs"
    for top, _, files in sorted(os.walk(root)):
        if "Proof.antt" not in files:
            continue
        path = os.path.relpath(top, root).replace("/", ".")
        if only and path not in only:
            continue
        file = os.path.join(top, "Proof.antt")
        text = open(file, encoding="utf-8").read()
        if "tie.close" not in text:
            print(f"look: {file}: by hand")
            continue
        key = f"Rattle-{crate}-proofs.{path}.Lts"
        if key not in names:
            print(f"look: {file}: no {key}")
            continue
        t = Turner(crate, path, names[key], text)
        try:
            got = t.turn()
        except Exception as e:
            print(f"look: {file}: {type(e).__name__} {e}")
            continue
        for it in t.said:
            print(f"look: {file}: {it}")
        if got is None:
            continue
        inv, answers, invariants, helpers = got
        uses = [it for it in t.uses if not re.search(r"\.(Statement\.\{statement\}|Tie as tie)$", it)]
        module = f"Rattle.{crate}.proofs.{path}"
        # what the invariants cite of the file goes with them
        helped = []
        if inv:
            cited = set(re.findall(WORD, "\n".join(inv)))
            texts = {}
            for (kind, d, block), text_ in zip(helpers, answers):
                if kind == "helper":
                    texts[d["name"]] = text_
            grew = True
            while grew:
                grew = False
                for n, tx in texts.items():
                    if n in cited and n not in helped:
                        helped.append(n)
                        cited |= set(re.findall(WORD, tx))
                        grew = True
            moved = [texts[n] for n in texts if n in helped]
            answers = [a for a in answers if a not in moved]
            moved = [a if re.match(r"(?:--[^\n]*\n)*(?:abbrev |unfoldable )*pub ", a) else re.sub(r"^((?:--[^\n]*\n)*(?:(?:abbrev|unfoldable) )?)", r"\1pub ", a, count=1) for a in moved]
            with open(os.path.join(top, "Invariants.antt"), "w", encoding="utf-8") as f:
                f.write("\n".join(t.head + uses + [f"use {module}.Given as goal", ""]) + "\n" + "\n\n".join(moved + inv) + "\n")
        if answers:
            lines = t.head + uses
            if helped:
                lines.append(f"use {module}.Invariants.{{{', '.join(helped)}}}")
            if "not" in t.wants:
                have = " ".join(uses)
                if not re.search(r"[{ ]ap[,}]", have):
                    lines.append("use mathlib.Core.Path.{ap}")
                if not re.search(r"[{ ]not[,}]", have):
                    lines.append("use mathlib.Core.Bool.{not}")
            lines.append(f"use {module}.Goals as goal")
            if t.imports:
                lines.append(f"use {module}.Goals.{{{', '.join(sorted(t.imports))}}}")
            with open(os.path.join(top, "Answers.antt"), "w", encoding="utf-8") as f:
                f.write("\n".join(lines + [""]) + "\n" + "\n\n".join(answers) + "\n")
        os.remove(file)


if __name__ == "__main__":
    main(sys.argv[1:])
