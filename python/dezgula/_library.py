"""The shared library: where it is found, its calls, and refusals as exceptions."""

from __future__ import annotations

import ctypes
import ctypes.util
import operator
import os
import pathlib
import threading
from typing import Any, Iterable, Iterator, Sequence

VERSION = "2.0.0"
NAME = "libdezgula.so.2"

Row = tuple[int, ...]
Listed = list[Row]
Rows = Iterable[Sequence[int]]


class LibraryMissing(ImportError):
    """The shared library was not found, or is not one that this module can use."""


class Refused(ValueError):
    """A refusal of the library: `number`, `place` (from 1, or None), `within` (from 1, or None) and `sentence`."""

    def __init__(self, answer: int, within: int = 0) -> None:
        self.number: int = answer & 0xFF
        self.place: int | None = (answer >> 8) or None
        self.within: int | None = within or None
        self.sentence: str = LIBRARY.dezgula_sentence(answer).decode()
        place = f", place {self.place}" if self.place else ""
        there = f", there at {self.within}" if self.within else ""
        super().__init__(f"{self.sentence} (refusal {self.number}{place}{there})")

    def __reduce__(self) -> tuple:
        return Refused, (self.number + 256 * (self.place or 0), self.within or 0)


# ---- the structs of the headers

Numbers = ctypes.POINTER(ctypes.c_uint32)
Integers = ctypes.POINTER(ctypes.c_int32)
Multiples = ctypes.POINTER(ctypes.c_int64)


class System(ctypes.Structure):
    _fields_ = [("p", ctypes.c_size_t), ("q", ctypes.c_size_t), ("coefs", Integers), ("coefs_len", ctypes.c_size_t)]


class Record(ctypes.Structure):
    _fields_ = [(name, ctypes.c_uint64) for name in ("height", "found", "steps", "kind", "second", "before", "deepest")]


class RunTables(ctypes.Structure):
    _fields_ = [
        ("stack", Numbers),
        ("stack_len", ctypes.c_size_t),
        ("list", Numbers),
        ("list_len", ctypes.c_size_t),
        ("second", Numbers),
        ("second_len", ctypes.c_size_t),
        ("record", Record),
    ]


class List(ctypes.Structure):
    _fields_ = [("rows", Numbers), ("rows_len", ctypes.c_size_t), ("found", ctypes.c_size_t)]


class Reformulated(ctypes.Structure):
    _fields_ = [
        ("further", ctypes.c_size_t),
        ("extended", Integers),
        ("extended_len", ctypes.c_size_t),
        ("equations", ctypes.c_size_t),
        ("other", Integers),
        ("other_len", ctypes.c_size_t),
        ("onto", Multiples),
        ("onto_len", ctypes.c_size_t),
        ("back", Multiples),
        ("back_len", ctypes.c_size_t),
        ("above", Multiples),
        ("above_len", ctypes.c_size_t),
    ]


class Part(ctypes.Structure):
    _fields_ = [("start", ctypes.c_size_t), ("size", ctypes.c_size_t)]


class Share(ctypes.Structure):
    _fields_ = [("p", ctypes.c_size_t), ("q", ctypes.c_size_t), ("coefs", Part), ("stack", Part), ("list", Part)]


class Tables(ctypes.Structure):
    _fields_ = [
        ("coefs", Integers),
        ("coefs_len", ctypes.c_size_t),
        ("stack", Numbers),
        ("stack_len", ctypes.c_size_t),
        ("list", Numbers),
        ("list_len", ctypes.c_size_t),
    ]


class Turn(ctypes.Structure):
    _fields_ = [("record", Record), ("answer", ctypes.c_uint64)]


MOST_RUNS = 8


class Round(ctypes.Structure):
    _fields_ = [("last", ctypes.c_uint64), ("steps", ctypes.c_uint64), ("runs", Turn * MOST_RUNS)]


class SolverProgress(ctypes.Structure):
    _fields_ = [("done", ctypes.c_size_t), ("equations", ctypes.c_size_t), ("rows", ctypes.c_uint64), ("steps", ctypes.c_uint64)]


# ---- finding and loading


def _candidates() -> Iterator[str]:
    here = pathlib.Path(__file__).resolve().parent
    yield str(here / NAME)
    yield str(here.parent.parent / "target" / "library" / NAME)
    yield NAME
    found = ctypes.util.find_library("dezgula")
    if found:
        yield found


def _load() -> ctypes.CDLL:
    given = os.environ.get("DEZGULA_LIBRARY")
    if given:
        path = pathlib.Path(given) / NAME if os.path.isdir(given) else given
        try:
            return ctypes.CDLL(str(path))
        except OSError as error:
            raise LibraryMissing(f"DEZGULA_LIBRARY is {given}, which cannot be loaded: {error}") from None
    tried = []
    for path in _candidates():
        if "/" in path and not os.path.exists(path):
            tried.append(f"{path}: not there")
            continue
        try:
            return ctypes.CDLL(path)
        except OSError as error:
            tried.append(str(error))
    raise LibraryMissing(
        "the shared library of Dezgula was not found. Build it with library/build in the project, or install it with ./install there, and set "
        f"DEZGULA_LIBRARY to {NAME} where the system does not know it. Tried: " + "; ".join(tried)
    )


_SYSTEM, _RUN, _LIST = ctypes.POINTER(System), ctypes.POINTER(RunTables), ctypes.POINTER(List)
_SIZE, _TEXT, _BUDGET = ctypes.c_size_t, ctypes.c_char_p, ctypes.c_uint64
_ANSWER, _SOLVER = ctypes.POINTER(ctypes.c_uint64), ctypes.c_void_p
#: what the calls take that answer with a number; a call that begins with start has one beside it that goes on, with a budget
_CALLS = {
    "start": [_SYSTEM, _RUN],
    "start_rights": [_SYSTEM, Integers, _SIZE, _RUN],
    "start_from": [_SYSTEM, Numbers, _SIZE, _RUN],
    "start_desk": [_SYSTEM, _LIST, _RUN],
    "start_training": [_SYSTEM, _RUN],
    "start_training_from": [_SYSTEM, Numbers, _SIZE, _RUN],
    "start_single_file": [_SYSTEM, _RUN],
    "engine_locate": [_SYSTEM, _LIST, Numbers, _SIZE],
    "engine_reason": [_SYSTEM, _LIST, Numbers, _SIZE, Multiples],
    "engine_decompose": [_SYSTEM, _LIST, Numbers, _SIZE, Numbers, _SIZE, Multiples],
    "engine_reformulates": [_SYSTEM, ctypes.POINTER(Reformulated)],
    "engine_project": [_SIZE, _SIZE, _LIST, Numbers, _SIZE],
    "listing": [_SYSTEM, _LIST, _TEXT, _SIZE],
    "dispatch": [ctypes.POINTER(Share), _SIZE, ctypes.POINTER(Tables), ctypes.POINTER(Round), _BUDGET, ctypes.c_uint64],
    "read_map": [_TEXT, _SIZE, Integers, _SYSTEM],
    "read_equation": [_TEXT, _SIZE, _SIZE, Integers, _SIZE, Integers],
    "write_equation": [_SIZE, Integers, _SIZE, ctypes.c_int32, _TEXT, _SIZE],
    "read_system": [_TEXT, _SIZE, _SIZE, Integers, _SIZE, Integers, _SIZE, _SYSTEM, _ANSWER],
    "write_list": [_SYSTEM, _LIST, ctypes.c_uint32, _TEXT, _SIZE],
    "read_list": [_TEXT, _SIZE, Integers, _SIZE, Numbers, _SIZE, _SYSTEM, _LIST, ctypes.POINTER(ctypes.c_uint32)],
    "solver_work": [_SOLVER, _BUDGET],
}
#: what the others take, and what they give
_OTHERS: dict[str, tuple[list[Any], Any]] = {
    "version": ([], ctypes.c_char_p),
    "sentence": ([ctypes.c_uint64], ctypes.c_char_p),
    "full_list": ([_SYSTEM, _RUN], ctypes.c_uint),
    "solver_new": ([_SYSTEM, _ANSWER], _SOLVER),
    "solver_new_from": ([_SYSTEM, _LIST, _ANSWER], _SOLVER),
    "solver_new_sides": ([_SYSTEM, Integers, Numbers, _ANSWER], _SOLVER),
    "solver_limit": ([_SOLVER, _SIZE], None),
    "solver_told": ([_SOLVER], SolverProgress),
    "solver_system": ([_SOLVER], System),
    "solver_rows": ([_SOLVER, ctypes.POINTER(_SIZE)], Numbers),
    "solver_smallest": ([_SOLVER, ctypes.POINTER(_SIZE)], Numbers),
    "solver_saved_length": ([_SOLVER], _SIZE),
    "solver_save": ([_SOLVER, Numbers], None),
    "solver_load": ([Numbers, _SIZE, _ANSWER], _SOLVER),
    "solver_free": ([_SOLVER], None),
}


def _signatures() -> Iterator[tuple[str, list[Any], Any]]:
    for name, arguments in _CALLS.items():
        yield name, arguments, ctypes.c_uint64
        if name.startswith("start"):
            yield "resume" + name[len("start") :], arguments + [_BUDGET], ctypes.c_uint64
    for name, (arguments, result) in _OTHERS.items():
        yield name, arguments, result


def _declared(library: ctypes.CDLL) -> ctypes.CDLL:
    try:
        for name, arguments, result in _signatures():
            call = getattr(library, "dezgula_" + name)
            call.argtypes, call.restype = arguments, result
    except AttributeError as error:
        raise LibraryMissing(f"{library._name} is not the library of Dezgula, or an older one: {error}") from None
    version = library.dezgula_version().decode()
    if version.split(".")[0] != VERSION.split(".")[0]:
        raise LibraryMissing(f"{library._name} is version {version}, and this module is for version {VERSION}")
    return library


LIBRARY = _declared(_load())


# ---- what is handed over


def integer(value: int) -> int:
    """A number as a coefficient is handed over. One that does not fit is far outside what is allowed either way, so that its place is refused."""
    return max(-(2**31), min(2**31 - 1, operator.index(value)))


def natural(value: int) -> int:
    """A number as a component is handed over."""
    value = operator.index(value)
    if value < 0:
        raise ValueError(f"a component is negative: {value}")
    return min(2**32 - 1, value)


def integers(values: Iterable[int]) -> ctypes.Array:
    values = [integer(value) for value in values]
    return (ctypes.c_int32 * len(values))(*values)


def naturals(values: Iterable[int]) -> ctypes.Array:
    values = [natural(value) for value in values]
    return (ctypes.c_uint32 * len(values))(*values)


def system_of(rows: Rows) -> System:
    """A system with these rows of coefficients; a row of another length than the first is refused with 3 and its place."""
    rows = [list(row) for row in rows]
    q = len(rows[0]) if rows else 0
    for place, row in enumerate(rows, 1):
        if len(row) != q:
            raise Refused(3 + 256 * place)
    if not rows or not q:
        raise Refused(2 if rows else 1)
    coefs = integers(value for row in rows for value in row)
    return System(len(rows), q, coefs, len(coefs))


def list_of(rows: Rows, q: int) -> List:
    """Rows of q components each; another length is refused with 5 and its place."""
    rows = [list(row) for row in rows]
    for place, row in enumerate(rows, 1):
        if len(row) != q:
            raise Refused(5 + 256 * place)
    numbers = naturals(value for row in rows for value in row)
    return List(numbers, len(numbers), len(rows))


def rows_of(table: Sequence[int], count: int, q: int) -> list[Row]:
    """The first `count` rows of q numbers that stand in a table."""
    numbers = table[: count * q] if count else []
    return [tuple(numbers[i : i + q]) for i in range(0, count * q, q)]


class OneAtATime:
    """What goes on in one thread at a time: its tables belong to the call under way."""

    def __init__(self) -> None:
        self._lock = threading.Lock()

    def __enter__(self) -> None:
        if not self._lock.acquire(blocking=False):
            raise RuntimeError("this run is under way in another thread")

    def __exit__(self, *_: object) -> None:
        self._lock.release()
