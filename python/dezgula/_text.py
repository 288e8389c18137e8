"""Maps, equations and lists as texts and files."""

from __future__ import annotations

import ctypes
from typing import NamedTuple, Sequence

from ._library import LIBRARY, List, Refused, Row, Rows, System, integer, integers, list_of, rows_of, system_of

LIST_WRITTEN, LIST_READ, MAP_READ, EQUATION_READ, EQUATION_WRITTEN, SYSTEM_READ = 106, 107, 108, 130, 131, 132
MAP_COEFFICIENTS, MAP_RIGHTS = 128, 8


class Equation(NamedTuple):
    """An equation: its coefficients and its right side."""

    row: list[int]
    right: int


class Typed(NamedTuple):
    """A system: its rows of coefficients and its right sides."""

    rows: list[list[int]]
    rights: list[int]


class ListFile(NamedTuple):
    """What a list file has."""

    rows: list[list[int]]  #: of coefficients
    listed: list[Row]
    complete: bool  #: whether the run was complete, or paused


def _bytes(text: str | bytes) -> bytes:
    return text.encode() if isinstance(text, str) else bytes(text)


def _lists(coefs: Sequence[int], p: int, q: int) -> list[list[int]]:
    return [list(row) for row in rows_of(coefs, p, q)]


def read_map(text: str | bytes) -> list[list[int]]:
    """The rows of coefficients of a map: a line "p q", then p lines of q coefficients, single spaces between them, each line ended by a newline.

    >>> read_map("1 2\\n2 -3\\n")
    [[2, -3]]
    """
    coefs, system, text = (ctypes.c_int32 * MAP_COEFFICIENTS)(), System(), _bytes(text)
    answer = LIBRARY.dezgula_read_map(text, len(text), coefs, system)
    if answer != MAP_READ:
        raise Refused(answer)
    return _lists(coefs, system.p, system.q)


def read_equation(text: str | bytes, unknowns: int) -> Equation:
    """An equation as people write it, for so many unknowns.

    >>> read_equation("2*(x1 + x3) - x2 = 3", 3)
    Equation(row=[2, -1, 2], right=3)
    """
    text, unknowns = _bytes(text), max(0, unknowns)
    row, right = (ctypes.c_int32 * min(unknowns, MAP_COEFFICIENTS))(), ctypes.c_int32()
    answer = LIBRARY.dezgula_read_equation(text, len(text), unknowns, row, len(row), right)
    if answer != EQUATION_READ:
        raise Refused(answer)
    return Equation(list(row), right.value)


def write_equation(row: Sequence[int], right: int) -> str:
    """The equation with these coefficients and this right side, which `read_equation` reads again as the same.

    >>> write_equation([2, -1, 2], 3)
    '2*x1 - x2 + 2*x3 = 3'
    """
    coefs, out = integers(row), ctypes.create_string_buffer(256)
    answer = LIBRARY.dezgula_write_equation(len(coefs), coefs, len(coefs), integer(right), out, len(out))
    if answer & 0xFF != EQUATION_WRITTEN:
        raise Refused(answer)
    return out.raw[: answer >> 8].decode()


def read_system(text: str | bytes, unknowns: int) -> Typed:
    """A system for so many unknowns, an equation a line, each line ended by a newline. Of a line that is refused `place` is the line, `within` the place there.

    >>> read_system("2*(x1 + x3) - x2 = 3\\nx1 = x2\\n", 3)
    Typed(rows=[[2, -1, 2], [1, -1, 0]], rights=[3, 0])
    """
    text, unknowns = _bytes(text), max(0, unknowns)
    coefs, rights, system, within = (ctypes.c_int32 * MAP_COEFFICIENTS)(), (ctypes.c_int32 * MAP_RIGHTS)(), System(), ctypes.c_uint64()
    answer = LIBRARY.dezgula_read_system(text, len(text), unknowns, coefs, len(coefs), rights, len(rights), system, within)
    if answer & 0xFF != SYSTEM_READ:
        raise Refused(answer, within.value)
    return Typed(_lists(coefs, system.p, system.q), rights[: system.p])


def write_list(rows: Rows, listed: Rows, *, complete: bool) -> bytes:
    """The list of a system as a file, to be sent.

    >>> read_list(write_list([[2, -3]], [(3, 2)], complete=True))
    ListFile(rows=[[2, -3]], listed=[(3, 2)], complete=True)
    """
    system = system_of(rows)
    handed = list_of(listed, system.q)
    length = ((system.coefs_len + handed.rows_len + 125) // 126 + 1) * 512
    out = ctypes.create_string_buffer(length)
    answer = LIBRARY.dezgula_write_list(system, handed, 0 if complete else 1, out, length)
    if answer != LIST_WRITTEN:
        raise Refused(answer)
    return out.raw


def read_list(file: bytes) -> ListFile:
    """The system and the list that a file has."""
    file = bytes(file)
    coefs, rows = (ctypes.c_int32 * MAP_COEFFICIENTS)(), (ctypes.c_uint32 * (len(file) // 4))()
    system, found, ending = System(), List(), ctypes.c_uint32()
    answer = LIBRARY.dezgula_read_list(file, len(file), coefs, len(coefs), rows, len(rows), system, found, ending)
    if answer != LIST_READ:
        raise Refused(answer)
    return ListFile(_lists(coefs, system.p, system.q), rows_of(rows, found.found, system.q), ending.value == 0)
