"""Both sides of the edge of each refusal of document 01: each is a call and the answer that it is to have."""

from build import HUGE, KINDS, WORD, rows_in_order, valid, with_
from calls import MOST_COMPONENT, MOST_STEPS, Call


def fine(kind):
    return ("Paused",) if kind == "resume" else ("Started",)


def refused(*numbers):
    return ("Refused", *numbers)


def edges():
    for kind in KINDS:
        yield from shape_edges(kind)
        yield from coefficient_edges(kind)
    yield from starts_in_disorder()
    yield from record_edges()
    yield from row_edges()
    yield from mark_edges()
    yield from capacity_edges()
    yield from ending_edges()
    yield from component_edges()


def shape_edges(kind):
    for p, answer in ((0, refused(1)), (1, fine(kind)), (8, fine(kind)), (9, refused(1))):
        yield valid(kind, p, 3), answer
    yield with_(valid(kind, 1, 3), p=HUGE), refused(1)
    for p, q, answer in ((2, 0, refused(2)), (8, 2, fine(kind)), (8, 16, fine(kind)), (8, 17, refused(2))):
        yield valid(kind, p, q), answer
    yield with_(valid(kind, 2, 1), budget=0), fine(kind)
    yield with_(valid(kind, 2, 1), q=HUGE), refused(2)
    c = valid(kind, 2, 3)
    for n, answer in ((0, refused(3)), (5, refused(3)), (6, fine(kind)), (7, refused(3))):
        yield with_(c, coefs_length=n), answer
    for n, answer in ((0, refused(4)), (11, refused(4)), (12, fine(kind)), (13, fine(kind)), (20, fine(kind))):
        yield with_(c, stack_length=n), answer


def coefficient_edges(kind):
    c = valid(kind, 2, 3)
    for place in (1, 6):
        for x in (10000, -10000, 10001, -10001):
            yield with_(c, coefs_at=(place - 1, x)), refused(7, place) if abs(x) > 10000 else fine(kind)
    yield with_(c, coefs_at=(2, 2**31 - 1)), refused(7, 3)
    yield with_(c, coefs_at=(3, -(2**31))), refused(7, 4)
    yield with_(with_(c, coefs_at=(4, -10001)), coefs_at=(1, 10001)), refused(7, 2)


def starts_in_disorder():
    """"A start looks at no old content and so never gives 6.\""""
    c = valid("start", 2, 3)
    c.stack = [WORD - 7 * i for i in range(12)]
    for record in ([2, 1, 5], [HUGE, 1, 5], [HUGE, HUGE, 5], [HUGE, HUGE, HUGE]):
        yield with_(c, record=record), ("Started",)
    yield with_(c, record=[HUGE] * 3, list=[]), ("Started",)


def record_edges():
    c = with_(valid("resume", 2, 3), budget=0)
    c.stack = rows_in_order(3, [[0, 0, 0], [0, 0, 1], [2, 0, 0]])
    orders = {(3, 1, 5): 0, (4, 1, 5): 6, (HUGE, 1, 5): 6, (2, 3, 5): 0, (2, 4, 5): 6, (2, HUGE, 5): 6}
    orders |= {(2, 1, MOST_STEPS): 0, (2, 1, MOST_STEPS + 1): 6, (2, 1, HUGE): 6}
    for record, number in orders.items():
        yield with_(c, record=list(record)), refused(number) if number else ("Paused",)
    for length, found, number in ((8, 2, 0), (8, 3, 6), (9, 3, 0), (2, 0, 0), (2, 1, 6), (0, 0, 0), (0, 1, 6)):
        yield with_(c, list_length=length, record=[2, found, 5]), refused(number) if number else ("Paused",)


def row_edges():
    """Components in the first row, in that at the height, and in that above it, which nobody looks at."""
    c = valid("resume", 2, 3)
    for at in (0, 2, 4, 6):
        yield with_(c, stack_at=(at, MOST_COMPONENT)), ("Paused",)
        yield with_(c, stack_at=(at, MOST_COMPONENT + 1)), refused(6)
    yield with_(c, stack_at=(5, WORD)), refused(6)
    for at, x in ((8, MOST_COMPONENT), (8, MOST_COMPONENT + 1), (10, WORD)):
        yield with_(c, stack_at=(at, x)), ("Paused",)


def mark_edges():
    c = valid("resume", 2, 3)
    first, top, above = 3, 7, 11
    for at, marks in ((first, 0), (top, 1), (top, 2), (top, 4), (above, 0), (above, WORD)):
        yield with_(c, stack_at=(at, marks)), ("Paused",)
    for at, marks in ((first, 1), (top, 0), (top, 3), (top, 7), (top, 8), (top, 9), (top, 2**31)):
        yield with_(c, stack_at=(at, marks)), refused(6)
    wide = valid("resume", 1, 16)
    for unknown, number in ((15, 0), (16, 6), (31, 6)):
        yield with_(wide, stack_at=(33, 2**unknown)), refused(number) if number else ("Paused",)
    full = with_(wide, stack=rows_in_order(16, [[0] * 16] * 16), record=[16, 0, 0])
    yield full, ("Paused",)
    yield with_(full, stack_at=(271, 2**16 - 1)), refused(6)


def capacity_edges():
    """Lists with room for the next row and without, the top a solution; and without, the top none."""
    c = valid("resume", 2, 3)
    for length, found, budget, answer in (
        (6, 1, 1, ("Paused",)),
        (5, 1, 1, refused(11)),
        (3, 1, 1, refused(11)),
        (3, 0, 1, ("Paused",)),
        (3, 0, 2, refused(11)),
        (2, 0, 2, refused(11)),
        (0, 0, 2, refused(11)),
        (0, 0, 0, ("Paused",)),
    ):
        yield with_(c, list_length=length, record=[2, found, 5], budget=budget), answer
    top = with_(c, list_length=0, record=[2, 0, 5], stack_at=(5, 1), coefs_at=(1, 1))
    yield top, ("Paused",)


def ending_edges():
    """"complete" before "paused", and both before the limit of steps, which comes before 11."""
    c = valid("resume", 2, 3)
    for height, found, steps, budget, answer in (
        (2, 1, MOST_STEPS, 1, refused(14)),
        (2, 3, MOST_STEPS, 1, refused(14)),
        (2, 3, MOST_STEPS, 0, ("Paused",)),
        (0, 3, MOST_STEPS, 0, ("Complete",)),
        (0, 3, MOST_STEPS, HUGE, ("Complete",)),
        (0, 3, 5, 0, ("Complete",)),
        (2, 3, MOST_STEPS, HUGE, refused(14)),
        (2, 1, MOST_STEPS - 1, HUGE, refused(14)),
        (2, 1, MOST_STEPS - 1, 1, ("Paused",)),
        (1, 1, MOST_STEPS - 1, HUGE, ("Complete",)),
        (1, 1, MOST_STEPS - 1, 1, ("Complete",)),
    ):
        yield with_(c, record=[height, found, steps], budget=budget), answer


def large(height=1, listed=()):
    """2 -1 with components at the limit, where raising unknown 2 makes a child."""
    tuples = [[MOST_COMPONENT] * 2] * 2
    table = [x for t in listed for x in t] + [3] * (6 - 2 * len(listed))
    return Call("resume", 1, 2, [2, -1], rows_in_order(2, tuples), table, [height, len(listed), 5], 1)


def component_edges():
    """A child past the limit of components; none where a listed row stops it; and a refusal writes no earlier child either."""
    yield large(), refused(12)
    yield with_(large(), list_length=2), refused(12)
    yield with_(large(), list=[]), refused(12)
    yield with_(large(), record=[1, 0, MOST_STEPS]), refused(14)
    yield with_(large(), budget=0), ("Paused",)
    below = with_(large(), stack_at=(1, MOST_COMPONENT - 1))
    yield below, ("Paused",)
    yield with_(below, budget=2), refused(12)
    yield large(listed=[[0, 0]]), ("Complete",)
    yield large(listed=[[MOST_COMPONENT, MOST_COMPONENT + 1]]), ("Complete",)
    yield large(listed=[[MOST_COMPONENT, MOST_COMPONENT + 2]]), refused(12)
    yield large(listed=[[MOST_COMPONENT + 1, 0]]), refused(12)
    yield large(listed=[[WORD, WORD], [0, 0]]), ("Complete",)
    yield large(height=2), refused(12)
    frozen = with_(large(height=2), stack_at=(5, 2))
    yield frozen, ("Paused",)
    yield with_(frozen, budget=2), refused(12)
    good_first = Call("resume", 1, 3, [-1, 5, -1], [0, 1, MOST_COMPONENT, 0] + [7] * 8, [4] * 6, [1, 0, 5], 1)
    yield with_(good_first, stack_at=(1, MOST_COMPONENT)), refused(12)
    yield with_(good_first, stack_at=(2, 4)), ("Paused",)
