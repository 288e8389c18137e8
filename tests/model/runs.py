"""Run as a program it writes the vectors of crates/try_vectors into a folder: the calls of plain and capped runs (capped.py), of runs from a lower bound
(lower.py) and of the training seat (training.py), with limits of components, both lists and the greatest sum."""

import sys
from collections import Counter

import capped
import lower
import lower_cases
import training
from text import changes, numbers

KINDS = ("start", "resume", "meet", "go", "from", "on", "begin", "learn", "above", "climb")

HEAD = """# Calls of plain and capped runs and of runs from a lower bound, and what must come of each, written by tests/model/runs.py, which reads documents
# 01 and 02 by itself. Made anew by tests/capped_vectors; never edited. A line is a kind of call with its numbers, p q budget limit: start, resume; with right
# sides meet (a start), go; from a lower bound from (a start), on; at the training seat begin, learn and, from a lower bound, above, climb, where the limit has
# no say. Then come, each after its letter: c the coefficients; b the right sides; t the lower bound; s the stack; l the list; n the second list; r the kind of
# run, height, found, steps, rows of the second list, steps of the plain walk before, greatest sum.
# Then the answer; and after it what has changed: s4 1 0 says that entries 4 and 5 of the stack, from 0, are 1 and 0 now. All else is as before.
"""


def line(call, number, counts):
    after = call.copy()
    model = training if call.kind in training.CORE else lower if call.kind in ("from", "on") else capped
    answer = model.answered(after)
    if number is not None:
        assert (answer[1] if answer[0] == "Refused" else 0) == number, (call, answer, number)
    counts[answer[:2]] += 1
    words = [call.kind, str(call.p), str(call.q), str(call.budget), str(call.limit)]
    for key, name in (("c", "coefs"), ("b", "rights"), ("t", "lower"), ("s", "stack"), ("l", "list"), ("n", "second"), ("r", "record")):
        words += numbers(key, getattr(call, name))
    words += map(str, answer)
    for key, name in (("r", "record"), ("s", "stack"), ("l", "list"), ("n", "second")):
        words += changes(key, getattr(call, name), getattr(after, name))
    return " ".join(words)


def main(folder):
    answers, kinds, text = Counter(), Counter(), [HEAD]
    for case in (*capped.cases(), *lower_cases.cases(), *training.cases()):
        if isinstance(case, str):
            text.append(f"# {case}\n")
            continue
        text.append(line(*case, answers) + "\n")
        kinds[case[0].kind] += 1
    with open(f"{folder}/stdin", "w", encoding="ascii") as file:
        file.write("".join(text))
    with open(f"{folder}/stdout", "w", encoding="ascii") as file:
        for kind in KINDS:
            file.write(f"{kind} {kinds[kind]} agreed {kinds[kind]}\n")
        file.write(f"calls {kinds.total()} agreed {kinds.total()}\n")
    for answer, n in sorted(answers.items(), key=str):
        print(*answer, n)


if __name__ == "__main__":
    main(sys.argv[1])
