"""Writes the vectors into a folder, and prints how many calls have each answer.

A further kind of call is a model of its own beside calls.py, its cases beside edges.py, a function in text.py that writes its line, and its word in
KINDS; crates/try_vectors then takes the line apart by one more function in replay.rt and counts it in tally.rt."""

import sys
from collections import Counter

import drawn
import edges
import faults
import series
import single_file
from build import with_
from text import HEAD, call_line, order_line, view_line

KINDS = ("start", "resume", "view", "begin", "go", "order")
DRAWN = 6000
CALLS_OF_A_RUN = 60


def expected(name, pairs, counts):
    yield f"# {name}"
    for call, answer in pairs:
        line, model, _ = call_line(call)
        if isinstance(answer, int):
            answer, model = ("Refused", answer), model[:2]
        assert model == answer, f"{line}: expected {answer}"
        counts[model[:2]] += 1
        yield line


def runs(counts):
    """Each run to its end and one call more."""
    for call, budgets in series.series():
        over = 0
        for n in range(CALLS_OF_A_RUN):
            line, answer, after = call_line(call)
            counts[answer[:2]] += 1
            yield line
            over += answer[0] in ("Complete", "Refused")
            if over == 2:
                break
            call = with_(after, kind="resume", budget=budgets[n % len(budgets)])
            if answer == ("Refused", 11):
                call.list += [8] * (2 * call.q)


def lines(counts):
    yield from expected("both sides of each edge", edges.edges(), counts)
    yield from expected("faults, alone and by twos", faults.faults(), counts)
    yield "# runs as series of calls"
    yield from runs(counts)
    yield "# rows asked of the reader"
    yield from (view_line(*view) for view in series.views())
    yield "# calls of single-file maps"
    for call in single_file.calls():
        line, answer, _ = call_line(call)
        counts[answer[:2]] += 1
        yield line
    yield "# listings of single-file maps"
    for listing in single_file.listings():
        line, answer = order_line(*listing)
        counts[answer[:2]] += 1
        yield line
    yield "# drawn calls"
    for n in range(DRAWN):
        line, answer, _ = call_line(drawn.drawn(n))
        counts[answer[:2]] += 1
        yield line


def main(folder):
    """Writes the vectors as the standard input of the program that replays them, and what it prints where all agree."""
    answers, kinds = Counter(), Counter()
    with open(f"{folder}/stdin", "w", encoding="ascii") as file:
        file.write(HEAD)
        for line in lines(answers):
            file.write(line + "\n")
            kinds[line.split()[0]] += 1
    del kinds["#"]
    with open(f"{folder}/stdout", "w", encoding="ascii") as file:
        for kind in KINDS:
            file.write(f"{kind} {kinds[kind]} agreed {kinds[kind]}\n")
        file.write(f"calls {kinds.total()} agreed {kinds.total()}\n")
    for answer, n in sorted(answers.items(), key=str):
        print(*answer, n)


main(sys.argv[1])
