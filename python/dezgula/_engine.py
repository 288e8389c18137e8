"""The engine's solver, for at most 32 equations and 32 unknowns."""

from __future__ import annotations

import ctypes
from collections.abc import Iterable

from ._library import LIBRARY, OneAtATime, Refused, Row, Rows, integers, list_of, naturals, rows_of, system_of
from ._runs import COMPLETE, MOST_BUDGET, PAUSED, Progress, Told

COUNT, TUPLE_LENGTH, OUT_OF_ORDER = 3, 5, 6


class Solver:
    """The engine at work on a system: it can be paused and gone on with, also after an exception or KeyboardInterrupt, and kept in a file.

    >>> solver = Solver([[3, -2, -1, 4], [1, 1, -5, 0]])
    >>> while not solver.work(): print(solver.told)
    >>> len(solver.rows)
    6
    """

    def __init__(self, rows: Rows) -> None:
        system, answer = system_of(rows), ctypes.c_uint64()
        self._hold(LIBRARY.dezgula_solver_new(system, answer), answer.value)

    @classmethod
    def from_list(cls, listed: Rows, rows: Rows) -> Solver:
        """The engine from a list of the equations before, whoever made it, with further equations: its list is that of both together, in any grouping and
        however many rows a list has. That the list is whole is what the caller answers for. Refused with 6 where a row is all zero or has a component above
        1,000,000.

        >>> before = Solver([[1, -1, 1, -1, 0], [0, 1, -1, 0, 0]]).complete()
        >>> Solver.from_list(before, [[0, 0, 0, 1, -2]]).complete() == [(0, 1, 1, 0, 0), (2, 0, 0, 2, 1)]
        True
        """
        system, answer = system_of(rows), ctypes.c_uint64()
        solver = cls.__new__(cls)
        solver._hold(LIBRARY.dezgula_solver_new_from(system, list_of(listed, system.q), answer), answer.value)
        return solver

    @classmethod
    def with_sides(cls, rows: Rows, rights: Iterable[int] | None = None, lower: Iterable[int] | None = None) -> Solver:
        """The engine with right sides, a lower bound or both: `rows` has the minimal solutions without right sides, `smallest` the smallest tuples at or above the
        bound that meet them; where there are none of these, nothing at or above the bound does. At most 31 unknowns, right sides from -10,000 to 10,000, components
        of the bound up to 1,000,000.

        >>> solver = Solver.with_sides([[1, -2]], rights=[3], lower=[4, 0])
        >>> solver.complete(), solver.smallest
        ([(2, 1)], [(5, 1)])
        """
        system, answer = system_of(rows), ctypes.c_uint64()
        sides, bound = (None if rights is None else integers(rights)), (None if lower is None else naturals(lower))
        if sides is not None and len(sides) != system.p:
            raise Refused(COUNT)
        if bound is not None and len(bound) != system.q:
            raise Refused(TUPLE_LENGTH)
        solver = cls.__new__(cls)
        solver._hold(LIBRARY.dezgula_solver_new_sides(system, sides, bound, answer), answer.value)
        return solver

    def _hold(self, own: int | None, answer: int) -> None:
        self._own = own
        self._one_at_a_time = OneAtATime()
        if not own:
            raise Refused(answer)

    def __del__(self) -> None:
        if getattr(self, "_own", None):
            LIBRARY.dezgula_solver_free(self._own)
            self._own = None

    def work(self, budget: int = 0) -> bool:
        """Works for about `budget` turns, 0 being as many as take about 50 ms, and says whether the list is complete. Refused with 31 where no more rows fit
        into memory or into the limit: it may be called again when there is more of it."""
        with self._one_at_a_time:
            answer = LIBRARY.dezgula_solver_work(self._own, max(0, min(budget, MOST_BUDGET)))
        if answer not in (COMPLETE, PAUSED):
            raise Refused(answer)
        return answer == COMPLETE

    def complete(self, progress: Progress = None) -> list[Row]:
        """Goes on to the end, in calls of about 50 ms, and gives the whole list; between two calls `progress` is told, and KeyboardInterrupt gets through."""
        while not self.work():
            if progress is not None:
                progress(self.told)
        return self.rows

    def limit(self, bytes_: int) -> None:
        """The most bytes of all tables together; at first there is no limit."""
        with self._one_at_a_time:
            LIBRARY.dezgula_solver_limit(self._own, max(0, min(bytes_, MOST_BUDGET)))

    @property
    def told(self) -> Told:
        """How far it is."""
        with self._one_at_a_time:
            told = LIBRARY.dezgula_solver_told(self._own)
        return Told(told.steps, told.rows, told.done, told.equations)

    @property
    def system(self) -> list[list[int]]:
        """The rows of coefficients of the system that it is for; of one from a list, of the further equations."""
        with self._one_at_a_time:
            system = LIBRARY.dezgula_solver_system(self._own)
            return [list(row) for row in rows_of(system.coefs, system.p, system.q)]

    @property
    def rows(self) -> list[Row]:
        """The whole list. Before it is complete, LookupError is raised."""
        with self._one_at_a_time:
            count = ctypes.c_size_t()
            rows = LIBRARY.dezgula_solver_rows(self._own, count)
            if not rows:
                raise LookupError("the list is not complete yet")
            return rows_of(rows, count.value, LIBRARY.dezgula_solver_system(self._own).q)

    @property
    def smallest(self) -> list[Row]:
        """Of a solver with right sides or a lower bound, the smallest tuples that meet them. Before the list is complete, and of any other solver, LookupError is
        raised."""
        with self._one_at_a_time:
            count = ctypes.c_size_t()
            rows = LIBRARY.dezgula_solver_smallest(self._own, count)
            if not rows:
                raise LookupError("there is no such list, or it is not complete yet")
            return rows_of(rows, count.value, LIBRARY.dezgula_solver_system(self._own).q)

    def save(self) -> bytes:
        """The solver as bytes, to be kept in a file and gone on from elsewhere: the words of `dezgula_solver_save`, lowest byte first, as the crate in Rust has
        them too.

        >>> solver = Solver([[30, -2, -1, 4, -7], [1, 1, -5, 0, 3]])
        >>> solver.work(10)
        False
        >>> elsewhere = Solver.load(solver.save())
        >>> elsewhere.system == solver.system, elsewhere.told == solver.told, elsewhere.complete() == solver.complete()
        (True, True, True)
        """
        with self._one_at_a_time:
            words = (ctypes.c_uint32 * LIBRARY.dezgula_solver_saved_length(self._own))()
            LIBRARY.dezgula_solver_save(self._own, words)
        return bytes(words)

    @classmethod
    def load(cls, saved: bytes) -> Solver:
        """The solver that was saved as these bytes. It has no limit of memory. Other bytes are refused with 6; the list is right where the bytes are those saved:
        a row that is missing in them cannot be told."""
        if len(saved) % 4:
            raise Refused(OUT_OF_ORDER)
        words, answer = (ctypes.c_uint32 * (len(saved) // 4)).from_buffer_copy(saved), ctypes.c_uint64()
        solver = cls.__new__(cls)
        solver._hold(LIBRARY.dezgula_solver_load(words, len(words), answer), answer.value)
        return solver

    def __reduce__(self) -> tuple:
        return type(self).load, (self.save(),)
