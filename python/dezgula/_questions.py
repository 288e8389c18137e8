"""Lists in one call, and questions about a list."""

from __future__ import annotations

import ctypes
from typing import Iterable, NamedTuple, Sequence

from ._engine import Solver
from ._library import LIBRARY, Refused, Row, Rows, list_of, naturals, system_of
from ._runs import Desk, LowerBound, Plain, Progress, Rights, SingleFile, Training, TrainingLowerBound

LISTING_WRITTEN, ALL_ZERO, OFF, STANDS, ABOVE, UNLISTED, MADE, AT_OR_BELOW, NOWHERE = 104, 120, 121, 122, 123, 124, 125, 126, 127


class WithRights(NamedTuple):
    """What `with_rights` gives: every tuple that meets the right sides is one of the smallest plus rows of the basis."""

    smallest: list[Row]  #: the smallest tuples that meet the right sides
    basis: list[Row]  #: the minimal solutions without right sides


class FromLower(NamedTuple):
    """What `from_lower` gives."""

    smallest: list[Row]  #: the smallest solutions at or above the lower bound
    basis: list[Row]  #: the minimal solutions


class Order(NamedTuple):
    """A minimal solution of a single-file map."""

    unknowns: Row  #: its unknowns rising, from 1
    order: Row  #: the same in the order in which each has its 1 where the next has its -1


class Reason(NamedTuple):
    """Why a tuple is not in a list. Equations and rows are counted from 0."""

    number: int  #: 120 all zero, 121 off, 122 in the list, 123 above a row, 124 nothing listed lies below it
    sentence: str
    row: int | None = None  #: 122: where it stands; 123: the row that lies below it
    equation: int | None = None  #: 121: the first equation that it does not bring to zero
    amount: int | None = None  #: 121: what it brings it to


class Plan(NamedTuple):
    """What a tuple is made of."""

    number: int  #: 125 made, 124 something is left that nothing listed lies below, 121 an equation is off
    sentence: str
    times: list[int] | None = None  #: how often each row of the list is taken
    equation: int | None = None  #: 121: as in a reason
    amount: int | None = None

    @property
    def made(self) -> bool:
        """Whether the rows add up to the tuple."""
        return self.number == MADE


# ---- lists


def basis(rows: Rows, *, progress: Progress = None, memory: int | None = None) -> list[Row]:
    """The minimal solutions of a system, all of them: at most 32 equations and 32 unknowns, an equation a row.

    `progress` is told how far it is, about 20 times a second; KeyboardInterrupt, or an exception of the callback, ends the call. `memory` is the most bytes
    that tables may take; where more are needed, Refused has the number 31.

    >>> sorted(basis([[-1, 1, 2, -3], [-1, 3, -2, -1]]))
    [(0, 1, 1, 1), (4, 2, 1, 0)]
    """
    solver = Solver(rows)
    if memory is not None:
        solver.limit(memory)
    return solver.complete(progress)


def walk(rows: Rows, *, training: bool = False, progress: Progress = None) -> list[Row]:
    """The same by the walk, in the order found: at most 8 equations and 16 unknowns; at the training seat 6, with components up to 20.

    >>> walk([[2, -3]], training=True)
    [(3, 2)]
    """
    return (Training if training else Plain)(rows).complete(progress).list


def with_rights(rows: Rows, rights: Sequence[int], *, progress: Progress = None) -> WithRights:
    """The smallest tuples that meet right sides, one for each equation.

    >>> with_rights([[2, -3]], [1])
    WithRights(smallest=[(2, 1)], basis=[(3, 2)])
    """
    run = Rights(rows, rights)
    run.complete(progress)
    return WithRights(run.second, run.list)


def from_lower(rows: Rows, lower: Sequence[int], *, training: bool = False, progress: Progress = None) -> FromLower:
    """The smallest solutions at or above a lower bound, which has a component for each unknown.

    >>> from_lower([[2, -3]], [4, 0])
    FromLower(smallest=[(6, 4)], basis=[(3, 2)])
    """
    run = (TrainingLowerBound if training else LowerBound)(rows, lower)
    run.complete(progress)
    return FromLower(run.list, run.second)


def desks(groups: Iterable[Rows], *, progress: Progress = None) -> list[Row]:
    """The minimal solutions of all groups of equations together, built one group after the other. Refused with 25 where the groups before one of them have more
    than 64 solutions.

    >>> desks([[[1, -1, 0]], [[0, 1, -2]]])
    [(2, 2, 1)]
    """
    listed: list[Row] | None = None
    for group in groups:
        group = [list(row) for row in group]
        listed = (Plain(group) if listed is None else Desk(group, listed)).complete(progress).list
    if listed is None:
        raise Refused(1)
    return listed


def single_file(rows: Rows, *, progress: Progress = None) -> list[Order]:
    """The minimal solutions of a single-file map, where each column has one 1, one -1 and otherwise zeros, or is all zeros, with the order of each.

    >>> single_file([[1, 0, -1], [-1, 1, 0], [0, -1, 1]])
    [Order(unknowns=(1, 2, 3), order=(1, 3, 2))]
    """
    rows = [list(row) for row in rows]
    listed = SingleFile(rows).complete(progress).list
    system, out = system_of(rows), ctypes.create_string_buffer(1 + len(listed) * 103)
    answer = LIBRARY.dezgula_listing(system, list_of(listed, system.q), out, len(out))
    if answer & 0xFF != LISTING_WRITTEN:
        raise Refused(answer)
    halves = (line.split(" order ") for line in out.raw[: answer >> 8].decode().splitlines())
    return [Order(*(tuple(map(int, half.split())) for half in line)) for line in halves]


# ---- questions, of at most 32 equations and 32 unknowns, and of lists of any length


def locate(rows: Rows, listed: Rows, tuple_: Sequence[int]) -> int | None:
    """Which row of a list is at or below a tuple: the last of such, from 0, or None.

    >>> locate([[1, 1, -1]], [(0, 1, 1), (1, 0, 1)], (0, 5, 5)), locate([[1, 1, -1]], [(0, 1, 1), (1, 0, 1)], (5, 5, 0))
    (0, None)
    """
    system, asked = system_of(rows), naturals(tuple_)
    answer = LIBRARY.dezgula_engine_locate(system, list_of(listed, system.q), asked, len(asked))
    if answer & 0xFF not in (AT_OR_BELOW, NOWHERE):
        raise Refused(answer)
    return (answer >> 8) - 1 if answer & 0xFF == AT_OR_BELOW else None


def why(rows: Rows, listed: Rows, tuple_: Sequence[int]) -> Reason:
    """Why a tuple is not in a list.

    >>> why([[2, -3]], [(3, 2)], (6, 4)).sentence
    'A row of the list lies below the tuple.'
    """
    system, asked, amount = system_of(rows), naturals(tuple_), ctypes.c_int64()
    answer = LIBRARY.dezgula_engine_reason(system, list_of(listed, system.q), asked, len(asked), amount)
    number, place = answer & 0xFF, answer >> 8
    if number not in (ALL_ZERO, OFF, STANDS, ABOVE, UNLISTED):
        raise Refused(answer)
    sentence = LIBRARY.dezgula_sentence(answer).decode()
    if number == OFF:
        return Reason(number, sentence, equation=place - 1, amount=amount.value)
    return Reason(number, sentence, row=place - 1 if place else None)


def plan(rows: Rows, listed: Rows, tuple_: Sequence[int]) -> Plan:
    """Which rows of a list make up a tuple, and how often each is taken.

    >>> plan([[2, -3]], [(3, 2)], (6, 4)).times
    [2]
    """
    system, asked, amount = system_of(rows), naturals(tuple_), ctypes.c_int64()
    handed = list_of(listed, system.q)
    times = (ctypes.c_uint32 * handed.found)()
    answer = LIBRARY.dezgula_engine_decompose(system, handed, asked, len(asked), times, len(times), amount)
    number, sentence = answer & 0xFF, LIBRARY.dezgula_sentence(answer).decode()
    if number == OFF:
        return Plan(number, sentence, equation=(answer >> 8) - 1, amount=amount.value)
    if number not in (MADE, UNLISTED):
        raise Refused(answer)
    return Plan(number, sentence, times=list(times))
