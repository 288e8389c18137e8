"""The text of vectors: a line for each call, with what must come of it."""

from calls import answered, view
from single_file import listed

HEAD = """# Calls and what must come of each, written by tests/model, which reads document 01 by itself. Made anew by tests/vectors; never edited.
# A line is a kind of call with its numbers: start p q; resume p q budget; view q found n; of single-file maps begin p q; go p q budget;
# order p q found room.
# Then come, each after its letter: c the coefficients; t the row that is shown, or the bytes that are written; s the stack; l the list; r height, found, steps.
# Then the answer; and after it what has changed: s4 1 0 says that entries 4 and 5 of the stack, from 0, are 1 and 0 now. All else is as before.
"""


def numbers(key, values):
    return [" ".join([key, *map(str, values)])] if values else []


def changes(key, before, after):
    """Runs of changed entries; one unchanged entry between two is cheaper said than skipped."""
    words, last = [], None
    for i, (x, y) in enumerate(zip(before, after, strict=True)):
        if x == y:
            continue
        if last is None or i - last > 2:
            words.append(f"{key}{i}")
        elif i - last == 2:
            words.append(str(after[i - 1]))
        words.append(str(y))
        last = i
    return words


def call_line(call):
    """The line of a call, and the call as it leaves its tables and record."""
    after = call.copy()
    answer = answered(after)
    head = [call.kind, call.p, call.q] + ([call.budget] if call.kind in ("resume", "go") else [])
    words = [*map(str, head), *numbers("c", call.coefs), *numbers("s", call.stack), *numbers("l", call.list)]
    words += [*numbers("r", call.record), *map(str, answer)]
    for key, before, now in (("r", call.record, after.record), ("s", call.stack, after.stack), ("l", call.list, after.list)):
        words += changes(key, before, now)
    return " ".join(words), answer, after


def view_line(q, table, found, n):
    answer, row = view(q, table, found, n)
    return " ".join([f"view {q} {found} {n}", *numbers("t", row), *numbers("l", table), *map(str, answer)])


def order_line(p, q, coefs, table, found, room):
    """The line of a listing."""
    answer, text = listed(p, q, coefs, table, found, room)
    words = [f"order {p} {q} {found} {room}", *numbers("c", coefs), *numbers("t", text), *numbers("l", table), *map(str, answer)]
    return " ".join(words), answer
