"""Runs of the walk: every kind, paused and gone on with, and lists that grow."""

from __future__ import annotations

import ctypes
import sys
import time
from typing import Any, Callable, NamedTuple, Optional, Sequence, TypeVar

from ._library import LIBRARY, Integers, Listed, Numbers, OneAtATime, Record, Refused, Row, Rows, RunTables, integers, list_of, naturals, rows_of, system_of

COMPLETE, LIST_FULL, STARTED, PAUSED = 0, 11, 100, 101
A_CALL = 0.05  # seconds that a call takes, about
MOST_BUDGET = 2**64 - 1


class Told(NamedTuple):
    """How far a run is: what a progress callback is told."""

    steps: int  #: steps or turns taken
    rows: int  #: rows listed; of the engine, rows of the stage under way
    done: int | None = None  #: of the engine: equations done; it may try one order and then another, so that this can fall
    equations: int | None = None  #: of the engine: equations


Progress = Optional[Callable[[Told], Any]]
_Run = TypeVar("_Run", bound="Run")


class Run:
    """A run of the walk, of at most 8 equations and 16 unknowns. Make one of the kinds below.

    A run can be paused and gone on with, also after an exception or KeyboardInterrupt: what is listed stands, and nothing is lost or listed twice.
    """

    _call = ""  # the part of the calls' names that tells the kind
    _two_lists = False

    def __init__(self, rows: Rows) -> None:
        self._system = system_of(rows)
        self._one_at_a_time = OneAtATime()
        self._limit = sys.maxsize
        length = self._stack_length(min(self._system.q, 16))
        self._tables = RunTables((ctypes.c_uint32 * length)(), length, None, 0, None, 0, Record())
        answer = getattr(LIBRARY, "dezgula_start" + self._call)(self._system, *self._given(), self._tables)
        if answer != STARTED:
            raise Refused(answer)

    def _given(self) -> tuple[Any, ...]:
        """What the calls are handed besides the system."""
        return ()

    def _stack_length(self, q: int) -> int:
        return q * (q + 1)

    # ---- going on

    def resume(self, budget: int) -> bool:
        """Goes on for at most `budget` steps and says whether the run is complete. Raises Refused, with the run as after its last whole step."""
        left = max(0, min(budget, MOST_BUDGET))
        with self._one_at_a_time:
            while True:
                before = self.steps
                answer = getattr(LIBRARY, "dezgula_resume" + self._call)(self._system, *self._given(), self._tables, left)
                left -= self.steps - before
                if answer in (COMPLETE, PAUSED):
                    return answer == COMPLETE
                if answer != LIST_FULL or not self._grow():
                    raise Refused(answer)

    def complete(self: _Run, progress: Progress = None) -> _Run:
        """Goes on to the end, in calls of about 50 ms; between two of them `progress` is told, and KeyboardInterrupt gets through."""
        budget = 1000
        while True:
            begun = time.monotonic()
            if self.resume(budget):
                return self
            if progress is not None:
                progress(self.told)
            took = time.monotonic() - begun
            budget = max(100, min(10**9, int(budget * max(0.25, min(4.0, A_CALL / max(took, 1e-6))))))

    def _grow(self) -> bool:
        """Makes the full list twice as long; a list that is longer than its length says is in order at any moment."""
        full = LIBRARY.dezgula_full_list(self._system, self._tables)
        name = {1: "list", 2: "second"}.get(full)
        if name is None:
            return False
        q, length = self._system.q, getattr(self._tables, name + "_len")
        rows = min(max(16, 2 * (length // q)), self._limit)
        if rows * q <= length:
            return False
        try:
            longer = (ctypes.c_uint32 * (rows * q))()
        except MemoryError:
            return False
        ctypes.memmove(longer, getattr(self._tables, name), 4 * length)
        setattr(self._tables, name, longer)
        setattr(self._tables, name + "_len", rows * q)
        return True

    def limit(self, rows: int) -> None:
        """The most rows of a list: where one more is needed the run is refused with 11, and goes on once more are allowed."""
        self._limit = rows

    # ---- what there is

    @property
    def steps(self) -> int:
        """The steps taken since the start, of both walks where there are two."""
        return self._tables.record.steps + self._tables.record.before

    @property
    def deepest(self) -> int:
        """The greatest sum of components among the tuples taken off so far."""
        return self._tables.record.deepest

    @property
    def told(self) -> Told:
        """How far it is."""
        record = self._tables.record
        return Told(self.steps, record.found + (record.second if self._two_lists else 0))

    @property
    def list(self) -> Listed:
        """What is listed so far, in the order found."""
        return rows_of(self._tables.list, self._tables.record.found, self._system.q)


class TwoLists(Run):
    """A run with two lists."""

    _two_lists = True

    @property
    def second(self) -> Listed:
        """What the second list has so far."""
        return rows_of(self._tables.second, self._tables.record.second, self._system.q)


class Plain(Run):
    """The minimal solutions of a system."""


class SingleFile(Run):
    """The same for a single-file map: each column has one 1, one -1 and otherwise zeros, or is all zeros."""

    _call = "_single_file"


class Training(Run):
    """As Plain, at the training seat: at most 6 unknowns, and components up to 20."""

    _call = "_training"


class Rights(TwoLists):
    """With a right side for each equation, and at most 15 unknowns: `list` has the minimal solutions without right sides, `second` the smallest with them."""

    _call = "_rights"

    def __init__(self, rows: Rows, rights: Sequence[int]) -> None:
        self._rights = integers(rights)
        super().__init__(rows)

    def _given(self) -> tuple[Any, ...]:
        return ctypes.cast(self._rights, Integers), len(self._rights)

    def _stack_length(self, q: int) -> int:
        return (q + 1) * (q + 2)


class LowerBound(TwoLists):
    """From a lower bound: `list` has the smallest solutions at or above it, `second` the minimal solutions, which come first."""

    _call = "_from"

    def __init__(self, rows: Rows, lower: Sequence[int]) -> None:
        self._lower = naturals(lower)
        super().__init__(rows)

    def _given(self) -> tuple[Any, ...]:
        return ctypes.cast(self._lower, Numbers), len(self._lower)


class TrainingLowerBound(LowerBound):
    """As LowerBound, at the training seat."""

    _call = "_training_from"


class Desk(Run):
    """One group of equations after others, of which the whole list is handed over: at most 64 rows. Complete, the list is that of all groups together."""

    _call = "_desk"

    def __init__(self, rows: Rows, generators: Rows) -> None:
        rows = [list(row) for row in rows]
        self._generators = list_of(generators, len(rows[0]) if rows else 0)
        super().__init__(rows)

    def _given(self) -> tuple[Any, ...]:
        return (self._generators,)

    def _stack_length(self, q: int) -> int:
        return self._generators.found * (q + 2)
