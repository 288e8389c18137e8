"""Document 02, job 14, as a model: the dispatcher on words. Written from the document and from what include/dezgula.h says of the words; a turn is the continuing
call of calls.py on a copy of the run's parts. Run as a program it writes the vectors of crates/try_vectors into a folder."""

import sys
from collections import Counter
from dataclasses import dataclass

from build import any_numbers, drawer
from calls import Call, answered, row
from text import changes, numbers

MOST_RUNS, SHARE, RUN, ROUND = 8, 8, 9, 74
MOST_KIND, NO_HEIGHT, MOST_SUM = 4, 65, 16_000_000
SERVED = 110
NUMBERS = {"Complete": 0, "Started": 100, "Paused": 101}
HUGE = 2**64 - 1
DRAWN, SERIES = 700, 40

HEAD = """# Calls of the dispatcher and what must come of each, written by tests/model/dispatch.py, which reads document 02 by itself. Made anew by tests/dispatch_vectors.
# A line is: dispatch count quantum turns. Then, each after its letter: h the words of the shares; c the coefficients; s the stack; l the list; r the words of the
# dispatcher's record. Then Answer and its number; and after it what has changed: s4 1 0 says that entries 4 and 5 of the stack, from 0, are 1 and 0 now.
"""


@dataclass
class Dispatch:
    count: int
    quantum: int
    turns: int
    shares: list
    coefs: list
    stack: list
    list: list
    round: list

    def copy(self):
        return Dispatch(self.count, self.quantum, self.turns, self.shares[:], self.coefs[:], self.stack[:], self.list[:], self.round[:])

    def share(self, i):
        words = (self.shares + [0] * (MOST_RUNS * SHARE))[SHARE * i : SHARE * i + SHARE]
        return words[0], words[1], words[2:4], words[4:6], words[6:8]


def cut(table, part):
    start, size = part
    return table[start : start + size]


def coefficients(table, part):
    """Those of a run: a part that leaves the table has none, so that they are missing."""
    return cut(table, part) if sum(part) <= len(table) else []


def base(i):
    """Where the words of run i begin: those of its record, the number of its answer and the place that it comes with."""
    return 2 + RUN * i


def alone(d, i, budget):
    """A continuing call of run i on copies of its parts: its answer, and the call as it left them."""
    p, q, coefs, stack, table = d.share(i)
    at = base(i)
    call = Call("resume", p, q, coefficients(d.coefs, coefs), cut(d.stack, stack), cut(d.list, table), d.round[at : at + 3])
    kind, second, before, deepest = d.round[at + 3 : at + 7]
    if kind != 0 or deepest > MOST_SUM:
        refused = call.copy()
        refused.record[0] = NO_HEIGHT
        answer = answered(refused)
    else:
        answer = answered(call)
    call.budget = 1
    for _ in range(budget):
        if answer != ("Paused",):
            break
        *top, _ = row(call, call.record[0])
        steps = call.record[2]
        answer = answered(call)
        if call.record[2] > steps:
            deepest = max(deepest, sum(top))
    call.record += [kind, second, before, deepest]
    return answer, call


def back(d, i, call):
    _, _, _, (s, n), (l, m) = d.share(i)
    d.stack[s : s + n] = call.stack
    d.list[l : l + m] = call.list
    d.round[base(i) : base(i) + 7] = call.record


def overlap(a, b):
    return max(a[0], b[0]) < min(a[0] + a[1], b[0] + b[1])


def refusal(d):
    if not 1 <= d.count <= MOST_RUNS or d.quantum == 0 or len(d.round) != ROUND or d.round[0] > MOST_RUNS:
        return 27
    for k, table in ((3, d.stack), (4, d.list)):
        parts = [d.share(i)[k] for i in range(d.count)]
        if any(a[0] + a[1] > len(table) for a in parts):
            return 28
        if any(overlap(parts[i], parts[j]) for i in range(d.count) for j in range(i)):
            return 28
    return 0


def dispatched(d):
    """The number of the call, and each run's turns; d is changed as the call changes it."""
    if refusal(d):
        return refusal(d), []
    answers, taken, steps = [None] * d.count, [0] * d.count, 0
    staying = [i for i in range(d.count) if d.round[base(i)] > 0]
    for _ in range(d.turns):
        if not staying:
            break
        last = d.round[0]
        i = min(staying, key=lambda i: (i < last, i) if last <= d.count else (False, i))
        before = d.round[base(i) + 2]
        answers[i], call = alone(d, i, d.quantum)
        back(d, i, call)
        steps += d.round[base(i) + 2] - before
        taken[i] += 1
        d.round[0] = i + 1
        if answers[i] != ("Paused",):
            staying.remove(i)
    answers = [a or alone(d, i, 0)[0] for i, a in enumerate(answers)]
    d.round[1] = steps
    for i in range(MOST_RUNS):
        a = answers[i] if i < d.count else ("Started",)
        d.round[base(i) + 7 : base(i) + 9] = [a[1], a[2] if len(a) > 2 else 0] if a[0] == "Refused" else [NUMBERS[a[0]], 0]
    return SERVED, taken


def checked_alone(before, after, taken):
    """Each run is where it would be alone, from one continuing call for each of its turns; what lies in no part is as it was."""
    for i in range(before.count):
        single = before.copy()
        for _ in range(taken[i]):
            answer, call = alone(single, i, before.quantum)
            back(single, i, call)
        if not taken[i]:
            answer, _ = alone(single, i, 0)
        p, q, c, s, l = before.share(i)
        assert cut(single.stack, s) == cut(after.stack, s) and cut(single.list, l) == cut(after.list, l)
        assert single.round[base(i) : base(i) + 7] == after.round[base(i) : base(i) + 7]
        assert (answer[1] if answer[0] == "Refused" else NUMBERS[answer[0]]) == after.round[base(i) + 7]
    for k, old, new in ((3, before.stack, after.stack), (4, before.list, after.list)):
        inside = {x for i in range(before.count) for x in range(before.share(i)[k][0], sum(before.share(i)[k]))}
        assert all(old[x] == new[x] for x in range(len(old)) if x not in inside)


def line(d, counts):
    after = d.copy()
    number, taken = dispatched(after)
    if number == SERVED:
        checked_alone(d, after, taken)
    counts[number] += 1
    words = ["dispatch", str(d.count), str(d.quantum), str(d.turns), *numbers("h", d.shares), *numbers("c", d.coefs)]
    words += [*numbers("s", d.stack), *numbers("l", d.list), *numbers("r", d.round), "Answer", str(number)]
    for key, before, now in (("r", d.round, after.round), ("s", d.stack, after.stack), ("l", d.list, after.list)):
        words += changes(key, before, now)
    return " ".join(words), after


def shaped(rng):
    """Runs after plain starts, some of them out of order or of no meaning, their parts in a drawn order with gaps."""
    count = rng.choice((1, 2, 2, 3, 3, 4, 8))
    shares, coefs, starts, rounds = [[] for _ in range(count)], [], {}, [rng.randint(0, count), 0] + [0] * (ROUND - 2)
    for i in range(count):
        p, q = rng.randint(1, 2), rng.randint(1, 3 if count < 8 else 2)
        own = [rng.randint(-3, 3) for _ in range(p * q)]
        shares[i] = [p, q, len(coefs), p * q, 0, q * (q + 1) + rng.choice((0, 0, 1)), 0, rng.choice((0, q, 2 * q, 4 * q, 4 * q + 1))]
        coefs += own
        starts[i] = Call("start", p, q, own, [9] * shares[i][5], [9] * shares[i][7], [0, 0, 0])
        answered(starts[i])
        rounds[base(i) : base(i) + 3] = starts[i].record
    tables = {}
    for at, key in ((4, "stack"), (6, "list")):
        table = []
        for i in rng.sample(range(count), count):
            table += any_numbers(rng, rng.choice((0, 0, 1)))
            shares[i][at] = len(table)
            table += getattr(starts[i], key)
        tables[key] = table + any_numbers(rng, rng.choice((0, 1)))
    return Dispatch(count, rng.choice((1, 1, 2, 3, 5, 50)), rng.choice((0, 1, 2, 3, 5, 9, 40)), sum(shares, []), coefs, tables["stack"], tables["list"], rounds)


def faulty(d, rng):
    """One word of any meaning, or a fault of the whole call."""
    kind = rng.randrange(11)
    if kind == 0:
        d.count = rng.choice((0, 8, 9, HUGE))
    elif kind == 1:
        d.quantum = 0
    elif kind == 2:
        d.round[0] = rng.choice((8, 9, HUGE))
    elif kind == 3:
        d.round = d.round[: rng.choice((0, 42, ROUND - 1))]
    elif kind == 4:
        d.shares = d.shares[: rng.randrange(len(d.shares))]
    elif kind == 5:
        d.round[rng.randrange(2, ROUND)] = rng.choice((0, 1, 2, 17, HUGE))
    elif kind < 9:
        word = rng.randint(3, 6)
        d.round[base(rng.randrange(d.count)) + word] = rng.choice((1, 2, 3, MOST_KIND, MOST_KIND + 1, HUGE) if word < 6 else (1, MOST_SUM, MOST_SUM + 1, HUGE))
    else:
        k = rng.randrange(len(d.shares)) if rng.randrange(3) == 0 else 8 * rng.randrange(len(d.shares) // 8) + rng.randint(4, 7)
        d.shares[k] = rng.choice((0, 1, d.shares[k] + 1, d.shares[k] - 1 if d.shares[k] else 0, HUGE))
    return d


def lines(counts):
    yield "# series of calls, each on what the last one left"
    for n in range(SERIES):
        rng = drawer("dispatch series", n)
        d = shaped(rng)
        for _ in range(8):
            text, after = line(d, counts)
            yield text
            d = after
            d.turns = rng.choice((0, 1, 2, 3, 9))
    yield "# drawn calls"
    for n in range(DRAWN):
        rng = drawer("dispatch", n)
        d = shaped(rng)
        yield line(d if rng.randrange(3) else faulty(d, rng), counts)[0]


if __name__ == "__main__":
    counts = Counter()
    text = HEAD + "".join(l + "\n" for l in lines(counts))
    calls = sum(counts.values())
    with open(f"{sys.argv[1]}/stdin", "w") as f:
        f.write(text)
    with open(f"{sys.argv[1]}/stdout", "w") as f:
        f.write(f"calls {calls} agreed {calls}\n")
    print(", ".join(f"{n}: {k}" for n, k in sorted(counts.items())))
