#!/usr/bin/env python3
"""A model of equations in text (document 02, job 3): what the reader and the writer answer, from the documents' words alone.

Usage: model.py                 writes the second section of crates/try_texts/stdin and stdout
       model.py Q TEXT          says what TEXT comes to for Q unknowns
       model.py drawn N SEED    writes N drawn texts, most of them damaged, with what they come to, as tests/equations/ask.c reads them

The place of refusal 16 is found by an Earley recognizer over the grammar as it is written: a text begins something allowed as long as its chart goes on.
"""
import pathlib
import random
import re
import sys

LIMIT = 10000


# ---- the grammar, byte by byte

def grammar(q):
    digits = "0123456789"
    rules = {
        "equation": [["sum", "spaces", "=", "spaces", "sum"]],
        "sum": [["term"], ["sign", "spaces", "term"], ["sum", "spaces", "sign", "spaces", "term"]],
        "term": [["number"], ["unknown"], ["bracket"], ["number", "spaces", "*", "spaces", "unknown"], ["number", "spaces", "*", "spaces", "bracket"]],
        "bracket": [["(", "spaces", "sum", "spaces", ")"]],
        "sign": [["+"], ["-"]],
        "spaces": [[], [" ", "spaces"]],
        "digit": [[d] for d in digits],
        "first": [[d] for d in digits[1:]],
        "number": [["0"]] + [["first"] + ["digit"] * k for k in range(5)],
        "unknown": [list("x%d" % k) for k in range(1, q + 1)],
    }
    return rules


def chart_of(text, q):
    """The place of the first byte up to which the text begins nothing allowed, or one past the end; 0 if it is an equation."""
    rules = grammar(q)
    empty = {"spaces"}
    sets = [[]]

    def add(chart, seen, item):
        if item not in seen:
            seen.add(item)
            chart.append(item)

    seen = set()
    add(sets[0], seen, ("equation", tuple(rules["equation"][0]), 0, 0))
    for at in range(len(text) + 1):
        chart = sets[at]
        following, later = [], set()
        k = 0
        while k < len(chart):
            name, body, dot, start = chart[k]
            k += 1
            if dot == len(body):
                for item in list(sets[start]):
                    if item[2] < len(item[1]) and item[1][item[2]] == name:
                        add(chart, seen, (item[0], item[1], item[2] + 1, item[3]))
            elif body[dot] in rules:
                for other in rules[body[dot]]:
                    add(chart, seen, (body[dot], tuple(other), 0, at))
                if body[dot] in empty:
                    add(chart, seen, (name, body, dot + 1, start))
            elif at < len(text) and body[dot] == text[at]:
                add(following, later, (name, body, dot + 1, start))
        if at == len(text):
            done = any(n == "equation" and d == len(b) and s == 0 for n, b, d, s in chart)
            return 0 if done else at + 1
        if not following:
            return at + 1
        sets.append(following)
        seen = later
    raise AssertionError


# ---- the meaning

class Reading:
    def __init__(self, text):
        self.parts = re.findall(r"x?[0-9]+|[-+*()=]", text)
        self.at = 0
        self.deepest = 0
        self.exceeds = False

    def sum(self, depth, product):
        total, sign = {}, 1
        if self.parts[self.at] in "+-":
            sign = -1 if self.parts[self.at] == "-" else 1
            self.at += 1
        while True:
            for k, v in self.term(depth, product).items():
                total[k] = total.get(k, 0) + sign * v
            if self.at < len(self.parts) and self.parts[self.at] in "+-":
                sign = -1 if self.parts[self.at] == "-" else 1
                self.at += 1
            else:
                return total

    def term(self, depth, product):
        part = self.parts[self.at]
        times = 1
        if part[0].isdigit():
            self.at += 1
            if self.at == len(self.parts) or self.parts[self.at] != "*":
                return {0: int(part)}
            self.at += 1
            times = int(part)
            part = self.parts[self.at]
        self.at += 1
        if part[0] == "x":
            return {int(part[1:]): times}
        self.deepest = max(self.deepest, depth + 1)
        self.exceeds = self.exceeds or product * times > LIMIT
        inner = self.sum(depth + 1, product * times)
        self.at += 1
        return {k: times * v for k, v in inner.items()}


def read(text, q, n=None):
    """The row and its right side; or the refusal's number and its value, if it has one."""
    if len(text) > 4096:
        return ("refused", 10)
    if not 1 <= q <= 16:
        return ("refused", 2)
    if n is not None and n != q:
        return ("refused", 3)
    place = chart_of(text, q)
    if place:
        return ("refused", 16, place)
    r = Reading(text)
    left = r.sum(0, 1)
    r.at += 1
    right = r.sum(0, 1)
    if r.deepest > 8:
        return ("refused", 17)
    if r.exceeds:
        return ("refused", 18)
    row = [left.get(k, 0) - right.get(k, 0) for k in range(1, q + 1)]
    for k, c in enumerate(row, 1):
        if abs(c) > LIMIT:
            return ("refused", 7, k)
    constant = right.get(0, 0) - left.get(0, 0)
    if abs(constant) > LIMIT:
        return ("refused", 15)
    return ("read", row, constant)


def write(row, right):
    text = ""
    for k, c in enumerate(row, 1):
        if c:
            sign = ("-" if c < 0 else "") if not text else (" - " if c < 0 else " + ")
            text += sign + ("" if abs(c) == 1 else "%d*" % abs(c)) + "x%d" % k
    return (text or "0") + " = %d" % right


# ---- texts

NAMED = [
    (3, "2*(x1 + x3) - x2 = 3"), (3, "x12 = 0"), (3, "x4"), (3, "x4 = 0"), (3, "123456"), (3, "01"), (3, "x1=3 "), (3, " x1=3"), (3, ""), (3, "x1"),
    (1, "0*(99999*(x1))=0"), (1, "99999*(0)=0"), (1, "100*(100*(x1))=0"), (1, "101*(100*(x1))=0"), (1, "100*(10*(11*(x1)))=0"), (1, "10000*(x1)=0"),
    (1, "10001*(x1)=0"), (1, "10001*x1=0"), (1, "10000*x1=0"), (1, "x1=10000"), (1, "x1=10001"), (1, "x1=-10000"), (1, "-10001=x1"), (1, "20000*x1-15000*x1=0"),
    (1, "((((((((x1))))))))=0"), (1, "(((((((((x1)))))))))=0"), (1, "0=((((((((1))))))))"), (1, "0=(((((((((1)))))))))"), (1, "(((((((((99999*(x1"),
    (1, "(((((((((99999*(x1))))))))))=0"), (2, "(x1 = 2"), (2, "x1) = 2"), (2, "x1 = 2 = 3"), (2, "x1*2 = 3"), (2, "2*3 = x1"), (2, "x1 x2 = 3"), (2, "x1 + = 3"),
    (2, "+x1 = -2"), (2, "--x1 = 2"), (2, "- x1 = + 2"), (2, "x1 + -x2 = 2"), (2, "x1 - (-x2) = 2"), (2, "x1-(2-x2)=x1"), (2, "2 * ( x1 + x2 ) = 0"), (2, "2x1 = 0"),
    (2, "x 1 = 0"), (2, "x1=x2=0"), (2, "x1 == 0"), (2, "=0"), (2, "x1="), (2, "x1= "), (2, "X1=0"), (2, "x0=0"), (2, "x01=0"), (2, "1 2=0"), (2, "00=0"), (2, "()=0"),
    (2, "(x1+)=0"), (2, "2**x1=0"), (2, "2*-x1=0"), (2, "x1,x2=0"), (2, "x1\t=0"), (2, "3*(2*(x1-4)+1)-x2=2*x2-5"), (16, "x16 = 1"), (16, "x17 = 1"), (16, "x1 + ((((((((( x17"),
    (9, "x9=0"), (9, "x10=0"), (10, "x10=0"), (10, "x1 0=0"), (15, "x16=0"), (12, "x12-x11=x1+99999-99999"), (1, "99999=99999"), (1, "100000=0"), (2, "3=x1+x2"), (2, "0=0"),
    (0, "x1=0"), (17, "x1=0"),
]


def drawn_sum(draw, q, depth):
    terms = []
    for k in range(draw.randint(1, 3)):
        sign = draw.choice(["", "+", "-"]) if k == 0 else draw.choice(["+", "-"])
        terms += ([sign] if sign else []) + drawn_term(draw, q, depth)
    return terms


def drawn_number(draw):
    return str(draw.choice([0, 1, 2, 3, 7, 10, 99, 100, 101, 5000, 9999, 10000, 10001, 99999, draw.randint(0, 99999)]))


def drawn_term(draw, q, depth):
    kind = draw.randint(0, 5)
    unknown = ["x%d" % draw.randint(1, q)]
    bracket = ["("] + drawn_sum(draw, q, depth - 1) + [")"] if depth > 0 and kind in (2, 4) else unknown
    if kind == 0:
        return [drawn_number(draw)]
    if kind in (1, 2):
        return bracket
    return [drawn_number(draw) if draw.random() < 0.3 else str(draw.randint(0, 12)), "*"] + bracket


def spaced(draw, parts):
    loose = draw.random()
    text = parts[0]
    for part in parts[1:]:
        text += " " * (draw.randint(0, 2) if draw.random() < loose else 0) + part
    return text


def damaged(draw, text):
    at = draw.randint(0, len(text))
    kind = draw.randint(0, 3)
    byte = draw.choice("0123456789xX+-*()= .y")
    if kind == 0:
        return text[:at] + byte + text[at:]
    if kind == 1 and at < len(text):
        return text[:at] + text[at + 1:]
    if kind == 2 and at < len(text):
        return text[:at] + byte + text[at + 1:]
    return text[:at]


def texts():
    draw = random.Random(3)
    cases = list(NAMED)
    while len(cases) < 420:
        q = draw.randint(1, 16)
        text = spaced(draw, drawn_sum(draw, q, draw.choice([0, 1, 2, 9])) + ["="] + drawn_sum(draw, q, 1))
        if len(text) > 160:
            continue
        cases.append((q, text))
        for _ in range(draw.randint(0, 2)):
            cases.append((q, damaged(draw, text)))
    return cases


# ---- systems of several lines

def read_lines(text, q):
    """p, the coefficients and the right sides; or the refusal's number, its line and its place, 0 where there is none."""
    lines = text.split("\n")
    ended = lines.pop() == ""
    if not ended:
        lines = text.split("\n")
    if len(text) > 4096:
        return ("refused", 10, 0, 0)
    if not 1 <= len(lines) <= 8:
        return ("refused", 1, 0, 0)
    if not 1 <= q <= 16:
        return ("refused", 2, 0, 0)
    coefs, rights = [], []
    for k, line in enumerate(lines, 1):
        if k == len(lines) and not ended:
            return ("refused", 9, k, 0)
        answer = read(line, q)
        if answer[0] == "refused":
            return ("refused", answer[1], k, answer[2] if len(answer) == 3 else 0)
        coefs += answer[1]
        rights.append(answer[2])
    return ("read", len(lines), *coefs, *rights)


# ---- drawn texts, for the library

def drawn_text(draw, q):
    kind = draw.random()
    if kind < 0.12:
        return "".join(draw.choice("0123456789xxx+-*()= ") for _ in range(draw.randint(0, 12)))
    if kind < 0.16:
        return "".join(chr(draw.randint(0, 255)) for _ in range(draw.randint(0, 8)))
    while True:
        deep = draw.choice([0, 0, 1, 2, 9])
        text = spaced(draw, drawn_sum(draw, q, deep) + ["="] + drawn_sum(draw, q, draw.choice([0, 1])))
        if deep == 9 and draw.random() < 0.5:
            n = draw.randint(7, 10)
            text = "(" * n + text.replace("=", ")" * n + "=", 1)
        if len(text) <= 90:
            break
    for _ in range(draw.choice([0, 0, 1, 1, 2, 3])):
        text = damaged_anyhow(draw, text)
    return text


def damaged_anyhow(draw, text):
    if draw.random() < 0.8:
        return damaged(draw, text)
    at = draw.randint(0, len(text))
    return text[:at] + chr(draw.randint(0, 255)) + text[at + draw.randint(0, 1):]


def drawn_line(draw, q):
    if draw.random() < 0.15:
        return drawn_text(draw, q).replace("\n", "")
    return write([draw.choice([0, 1, -2]) for _ in range(q)], draw.choice([0, 0, 5]))


def hexed(text):
    return text.encode("latin-1").hex() or "-"


def drawn(n, seed):
    draw = random.Random(seed)
    for _ in range(n):
        q = draw.choice([1, 2, 3, 5, 9, 12, 16])
        if draw.random() < 0.85:
            text = drawn_text(draw, q)
            asked = draw.choice([0, 17, 99]) if draw.random() < 0.01 else q
            entries = draw.choice([0, q + 1, 16]) if draw.random() < 0.01 else asked
            if entries > 99:
                entries = 99
            if draw.random() < 0.002:
                text = text + " " * 4097
            answer = read(text, asked, entries)
            words = [answer[0]] + ([answer[1], answer[2] if len(answer) == 3 else 0] if answer[0] == "refused" else [answer[2], *answer[1]])
            print("equation", asked, entries, hexed(text), *words)
        else:
            text = "".join(drawn_line(draw, q) + "\n" for _ in range(draw.choice([0, 1, 2, 3, 8, 9])))
            if draw.random() < 0.1:
                text = damaged_anyhow(draw, text)
            asked = draw.choice([0, 17]) if draw.random() < 0.01 else q
            print("system", asked, hexed(text), *read_lines(text, asked))


def told(q, text):
    answer = read(text, q)
    if answer[0] == "refused":
        value = "" if len(answer) == 2 else (" place %d" % answer[2])
        return "refused %d%s\n" % (answer[1], value)
    row, right = answer[1], answer[2]
    again = write(row, right)
    assert read(again, q) == answer
    return again + "\n"


def put_section(path, text):
    """Puts the text into the place of the second section; a line of the sign @ stands between two."""
    sections = path.read_text(encoding="ascii").split("@\n")
    sections[1] = text
    path.write_text("@\n".join(sections), encoding="ascii")


def main():
    if len(sys.argv) == 4:
        drawn(int(sys.argv[2]), int(sys.argv[3]))
        return
    if len(sys.argv) == 3:
        print(told(int(sys.argv[1]), sys.argv[2]), end="")
        return
    there = pathlib.Path(__file__).resolve().parents[2] / "crates" / "try_texts"
    cases = texts()
    put_section(there / "stdin", "".join("%02d %s\n" % c for c in cases))
    put_section(there / "stdout", "".join("%s\n%s" % (t, told(q, t)) for q, t in cases) + "texts %d\n" % len(cases))


if __name__ == "__main__":
    main()
