"""A map in the place of another, with the same minimal solutions but for further unknowns."""

from __future__ import annotations

import ctypes
import operator
from typing import NamedTuple

from ._library import LIBRARY, Reformulated, Refused, Row, Rows, integers, list_of, rows_of, system_of

NOT_SHOWN, SAME_LOOPS, PROJECTED = 36, 128, 129


class Reformulation(NamedTuple):
    """Another map for a system of p equations in q unknowns, and what shows that it may stand in its place. It has k further unknowns, behind the q."""

    extended: Rows  #: the system with the further unknowns: its p rows with k zeros behind, and k rows, each with -1 in the column of its own
    other: Rows  #: the other map: m rows of q + k coefficients
    onto: Rows  #: for each row of the other map: how often it is taken, 1 or more, and how often each row of the extended one, so that all adds up to zero
    back: Rows  #: the same for each row of the extended map, with the rows of the other one
    above: Rows  #: for each further unknown: how often its row is taken, and how often each of the system's, so that no column of the q is below zero


def _flat(rows: Rows, width: int) -> list[int]:
    """The numbers of rows of this length; another one is refused with 3 and its place."""
    rows = [list(row) for row in rows]
    for place, row in enumerate(rows, 1):
        if len(row) != width:
            raise Refused(3 + 256 * place)
    return [value for row in rows for value in row]


def _multiples(rows: Rows, width: int) -> ctypes.Array:
    """One that does not fit is far outside what is allowed either way."""
    values = [max(-(2**63), min(2**63 - 1, operator.index(value))) for value in _flat(rows, width)]
    return (ctypes.c_int64 * len(values))(*values)


def reformulates(rows: Rows, by: Reformulation) -> bool:
    """Whether the numbers show it: then the minimal solutions of the other map, without its further unknowns, are those of the system, each once.

    2 x = 3 y by x = 3 z and y = 2 z, where z = x - y:

    >>> by = Reformulation([[2, -3, 0], [1, -1, -1]], [[1, 0, -3], [0, 1, -2]], [[1, 1, -3], [1, 1, -2]], [[1, -2, 3], [1, -1, 1]], [[2, -1]])
    >>> reformulates([[2, -3]], by), reformulates([[2, -3]], by._replace(above=[[1, 0]]))
    (True, False)
    """
    system, extended, other = system_of(rows), [list(row) for row in by.extended], [list(row) for row in by.other]
    p, m, further = system.p, len(other), max(0, len(extended) - system.p)
    tables = [integers(_flat(extended, system.q + further)), integers(_flat(other, system.q + further))]
    tables += [_multiples(by.onto, 1 + p + further), _multiples(by.back, 1 + m), _multiples(by.above, 1 + p)]
    lent = [part for table in tables for part in (table, len(table))]
    answer = LIBRARY.dezgula_engine_reformulates(system, Reformulated(further, *lent[:2], m, *lent[2:]))
    if answer & 0xFF not in (SAME_LOOPS, NOT_SHOWN):
        raise Refused(answer)
    return answer & 0xFF == SAME_LOOPS


def projected(q: int, listed: Rows) -> list[Row]:
    """The rows of a list without the further unknowns: the first q numbers of each.

    >>> projected(2, [(3, 2, 1)])
    [(3, 2)]
    """
    listed = [list(row) for row in listed]
    width = len(listed[0]) if listed else q
    out = (ctypes.c_uint32 * (len(listed) * q))()
    answer = LIBRARY.dezgula_engine_project(q, max(0, width - q), list_of(listed, width), out, len(out))
    if answer & 0xFF != PROJECTED:
        raise Refused(answer)
    return rows_of(out, len(listed), q)
