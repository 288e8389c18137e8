"""Up to eight plain runs in turns."""

from __future__ import annotations

import ctypes
import sys
import time
from typing import Iterable, NamedTuple

from ._library import (
    LIBRARY, MOST_RUNS, Integers, Listed, Numbers, OneAtATime, Part, Record, Refused, Round, Rows, RunTables, Share, System, Tables, Turn, rows_of, system_of,
)  # fmt: skip
from ._runs import A_CALL, COMPLETE, LIST_FULL, MOST_BUDGET, PAUSED, STARTED, Progress, Told

SCHEDULE, SERVED = 27, 110


class InTurn(NamedTuple):
    """One of the runs in turns."""

    complete: bool  #: whether it is at its end
    refused: Refused | None  #: why it does not go on, where it does not
    steps: int  #: the steps that it has taken
    list: Listed  #: what it has listed so far, in the order found


class Several:
    """Up to eight plain runs in fair turns of `quantum` steps: each goes on as it would alone, and none waits longer than the others' turns take.

    >>> several = Several([[[2, -3]], [[-1, 1, 2, -3], [-1, 3, -2, -1]]])
    >>> [run.list for run in several.complete().runs]
    [[(3, 2)], [(0, 1, 1, 1), (4, 2, 1, 0)]]
    """

    def __init__(self, systems: Iterable[Rows] = (), *, quantum: int = 1000) -> None:
        if not 1 <= quantum <= MOST_BUDGET:
            raise Refused(SCHEDULE)
        self._one_at_a_time = OneAtATime()
        self._quantum, self._limit = quantum, sys.maxsize
        self._count, self._shares, self._round = 0, (Share * MOST_RUNS)(), Round()
        self._coefs, self._stack, self._list = (ctypes.c_int32 * 0)(), (ctypes.c_uint32 * 0)(), (ctypes.c_uint32 * 0)()
        for rows in systems:
            self.add(rows)

    def add(self, rows: Rows) -> int:
        """Starts a run of a system, of at most 8 equations and 16 unknowns, and gives its place, from 0. A ninth run is refused with 27."""
        with self._one_at_a_time:
            return self._added(system_of(rows))

    def _added(self, system: System) -> int:
        place, q = self._count, min(system.q, 16)
        if place == MOST_RUNS:
            raise Refused(SCHEDULE)
        stack = (ctypes.c_uint32 * (q * (q + 1)))()
        run = RunTables(stack, len(stack), None, 0, None, 0, Record())
        answer = LIBRARY.dezgula_start(system, run)
        if answer != STARTED:
            raise Refused(answer)
        parts = Part(len(self._coefs), system.coefs_len), Part(len(self._stack), len(stack)), Part(len(self._list), 0)
        coefs = (ctypes.c_int32 * (len(self._coefs) + system.coefs_len))(*self._coefs, *system.coefs[: system.coefs_len])
        stacks = (ctypes.c_uint32 * (len(self._stack) + len(stack)))(*self._stack, *stack)
        # only now, so that an exception on the way leaves all as it was
        self._shares[place] = Share(system.p, system.q, *parts)
        self._round.runs[place].record, self._round.runs[place].answer = run.record, STARTED
        self._coefs, self._stack, self._count = coefs, stacks, place + 1
        return place

    # ---- going on

    def serve(self, turns: int) -> int:
        """Hands out so many turns round the runs that are not at their end, rising from the one after the run served last, and says how many can go on after
        that. A run that is refused takes its turns without a step."""
        with self._one_at_a_time:
            left = turns
            self._grow_full()
            while left > 0 and self._able():
                # one turn each, so that a list that is full grows before the run's next one
                now = min(left, sum(turn.record.height > 0 for turn in self._turns()))
                tables = Tables(
                    ctypes.cast(self._coefs, Integers), len(self._coefs), ctypes.cast(self._stack, Numbers), len(self._stack),
                    ctypes.cast(self._list, Numbers), len(self._list),
                )  # fmt: skip
                answer = LIBRARY.dezgula_dispatch(self._shares, self._count, tables, self._round, self._quantum, now)
                if answer != SERVED:
                    raise Refused(answer)
                left -= now
                self._grow_full()
            return self._able()

    def complete(self, progress: Progress = None) -> Several:
        """Hands out turns until no run can go on: each is at its end or refused. About 20 times a second `progress` is told, of all runs together, and
        KeyboardInterrupt gets through."""
        turns = 1
        while True:
            begun = time.monotonic()
            if not self.serve(turns):
                return self
            if progress is not None:
                progress(self.told)
            took = time.monotonic() - begun
            turns = max(1, min(10**6, int(turns * max(0.25, min(4.0, A_CALL / max(took, 1e-6))))))

    def limit(self, rows: int) -> None:
        """The most rows of a list: where one more is needed its run is refused with 11, and goes on once more are allowed."""
        self._limit = rows

    def _turns(self) -> list[Turn]:
        return self._round.runs[: self._count]

    def _able(self) -> int:
        return sum(turn.answer in (STARTED, PAUSED) for turn in self._turns())

    def _grow_full(self) -> None:
        for place, turn in enumerate(self._turns()):
            if turn.answer == LIST_FULL and self._grow(place):
                turn.answer = PAUSED

    def _grow(self, place: int) -> bool:
        """Gives a run a part that is twice as long, behind the others. All stands where it stood until the one assignment that names the new part, so that an
        interrupt finds the tables in order at any moment."""
        q, own, behind = self._shares[place].q, self._shares[place].list, len(self._list)
        size = min(max(16, 2 * (own.size // q)), self._limit) * q
        if size <= own.size:
            return False
        try:
            longer = (ctypes.c_uint32 * (behind + size))()
        except MemoryError:
            return False
        ctypes.memmove(longer, self._list, 4 * behind)
        ctypes.memmove(ctypes.byref(longer, 4 * behind), ctypes.byref(longer, 4 * own.start), 4 * own.size)
        self._list = longer
        self._shares[place].list = Part(behind, size)
        return True

    # ---- what there is

    def __len__(self) -> int:
        return self._count

    @property
    def told(self) -> Told:
        """How far the runs are, all together."""
        return Told(sum(turn.record.steps for turn in self._turns()), sum(turn.record.found for turn in self._turns()))

    @property
    def runs(self) -> list[InTurn]:
        """The runs, in the order in which they were added."""
        with self._one_at_a_time:
            return [self._in_turn(self._shares[place], turn) for place, turn in enumerate(self._turns())]

    def _in_turn(self, share: Share, turn: Turn) -> InTurn:
        refused = None if turn.answer in (COMPLETE, PAUSED, STARTED) else Refused(turn.answer)
        begun, found = share.list.start, turn.record.found
        listed = rows_of(self._list[begun : begun + found * share.q], found, share.q)
        return InTurn(turn.answer == COMPLETE, refused, turn.record.steps, listed)
