"""The module as a program uses it: lists against code that tries every tuple of a box, every kind of run, pauses, limits, interrupts, refusals, texts."""

import doctest
import inspect
import itertools
import os
import pathlib
import pickle
import random
import signal
import subprocess
import sys
import threading
import time
import unittest

import dezgula
from dezgula import _engine, _library, _questions, _reformulation, _several, _text

MANY = [[3, -2, 1, -4, 2, -1, 5, -3], [1, 1, -2, 1, -3, 2, -1, 1], [-1, 2, 1, -1, -1, 1, -2, 1]]
#: far more solutions than are listed in a second
LONG = [[9973, -9967, 9949, -9941, 9931, -9929], [7919, 7907, -7901, -7883, 7879, -7877]]


def minimal(rows, rights, side, lower=None):
    """The smallest of the tuples of a box that bring each row to its right side; zero is left out, unless there is a lower bound."""
    starts = lower or [0] * len(rows[0])
    solutions = [
        t
        for t in itertools.product(*(range(start, start + side + 1) for start in starts))
        if (lower or any(rights) or any(t)) and all(sum(a * x for a, x in zip(row, t)) == b for row, b in zip(rows, rights))
    ]
    return [t for t in solutions if not any(s != t and all(x <= y for x, y in zip(s, t)) for s in solutions)]


def within(rows, side, lower=None):
    starts = lower or [0] * (len(rows[0]) if rows else 0)
    return sorted(row for row in rows if all(x <= start + side for x, start in zip(row, starts)))


class Lists(unittest.TestCase):
    def drawn(self, count, p, q):
        draw = random.Random(f"{p} {q}")
        for _ in range(count):
            yield [[draw.randint(-3, 3) for _ in range(q)] for _ in range(p)], draw

    def test_basis_against_every_tuple_of_a_box(self):
        for p, q in ((1, 3), (2, 4), (3, 4)):
            for rows, _ in self.drawn(40, p, q):
                listed = dezgula.basis(rows)
                self.assertEqual(within(listed, 6), minimal(rows, [0] * p, 6), rows)
                self.assertEqual(sorted(dezgula.walk(rows)), sorted(listed))

    def test_right_sides_and_lower_bounds_against_every_tuple_of_a_box(self):
        for rows, draw in self.drawn(40, 2, 3):
            rights = [draw.randint(-4, 4), draw.randint(-4, 4)]
            listed = dezgula.with_rights(rows, rights)
            self.assertEqual(within(listed.smallest, 8), minimal(rows, rights, 8) if any(rights) else [(0, 0, 0)], (rows, rights))
            self.assertEqual(sorted(listed.basis), sorted(dezgula.basis(rows)))
        for rows, draw in self.drawn(40, 1, 3):
            lower = [draw.randint(0, 4) for _ in range(3)]
            try:
                listed = dezgula.from_lower(rows, lower)
            except dezgula.Refused as refused:
                self.assertEqual(refused.number, 12)
                continue
            self.assertEqual(within(listed.smallest, 8, lower), minimal(rows, [0], 8, lower), (rows, lower))
            self.assertEqual(sorted(listed.basis), sorted(dezgula.basis(rows)))

    def test_desks_are_the_whole_map(self):
        for rows, _ in self.drawn(40, 3, 5):
            for groups in ([rows[:1], rows[1:]], [rows[:2], rows[2:]], [[row] for row in rows]):
                try:
                    self.assertEqual(sorted(dezgula.desks(groups)), sorted(dezgula.basis(rows)), rows)
                except dezgula.Refused as refused:
                    self.assertEqual(refused.number, 25)

    def test_training_seat(self):
        self.assertEqual(dezgula.walk([[2, -3, 1]], training=True), dezgula.walk([[2, -3, 1]]))
        self.assertEqual(dezgula.from_lower([[2, -3, 1]], [1, 0, 2], training=True), dezgula.from_lower([[2, -3, 1]], [1, 0, 2]))
        with self.assertRaises(dezgula.Refused) as refused:
            dezgula.walk([[1] * 7], training=True)
        self.assertEqual(refused.exception.number, 23)

    def test_single_file(self):
        self.assertEqual(sorted(dezgula.single_file([[1, -1, 0], [-1, 1, 0]])), [((1, 2), (1, 2)), ((3,), (3,))])

    def test_no_solutions(self):
        self.assertEqual(dezgula.basis([[1, 2]]), [])
        self.assertEqual(dezgula.walk([[1, 2]]), [])

    def test_as_large_as_the_engine_takes(self):
        ring = [[1 if j == i else -1 if j == (i + 1) % 32 else 0 for j in range(32)] for i in range(32)]
        self.assertEqual(dezgula.basis(ring), [(1,) * 32])


class Questions(unittest.TestCase):
    def setUp(self):
        self.rows = [[-1, 1, 2, -3], [-1, 3, -2, -1]]
        self.listed = dezgula.basis(self.rows)

    def test_why(self):
        ask = lambda tuple_: dezgula.why(self.rows, self.listed, tuple_)
        self.assertEqual(ask((0, 0, 0, 0)).number, 120)
        self.assertEqual((ask((1, 0, 0, 0)).number, ask((1, 0, 0, 0)).equation, ask((1, 0, 0, 0)).amount), (121, 0, -1))
        place = self.listed.index((4, 2, 1, 0))
        self.assertEqual((ask((4, 2, 1, 0)).number, ask((4, 2, 1, 0)).row), (122, place))
        self.assertEqual((ask((8, 4, 2, 0)).number, ask((8, 4, 2, 0)).row), (123, place))
        self.assertEqual(dezgula.why(self.rows, [], (4, 2, 1, 0)).number, 124)

    def test_plan(self):
        times = {(0, 1, 1, 1): 2, (4, 2, 1, 0): 3}
        made = dezgula.plan(self.rows, self.listed, (12, 8, 5, 2))
        self.assertTrue(made.made)
        self.assertEqual(made.times, [times[row] for row in self.listed])
        self.assertEqual(dezgula.plan(self.rows, self.listed, (1, 0, 0, 0)).equation, 0)
        self.assertFalse(dezgula.plan(self.rows, [(0, 1, 1, 1)], (4, 2, 1, 0)).made)

    def test_large_maps(self):
        ring = [[int(j == i) - int(j == (i + 1) % 20) for j in range(20)] + [0] for i in range(20)]
        listed = dezgula.basis(ring)
        plan = (3,) * 20 + (5,)
        self.assertEqual(dezgula.plan(ring, listed, plan).times, [3 if row[0] else 5 for row in listed])
        self.assertEqual((dezgula.why(ring, listed, plan).number, dezgula.why(ring, listed, listed[0]).row, dezgula.locate(ring, listed, plan)), (123, 0, 1))
        self.assertEqual(dezgula.why(ring, listed, (4,) + plan[1:]).equation, 0)

    def test_locate(self):
        self.assertEqual(dezgula.locate(self.rows, self.listed, (0, 9, 9, 9)), self.listed.index((0, 1, 1, 1)))
        self.assertIsNone(dezgula.locate(self.rows, self.listed, (0, 9, 0, 9)))


class Reformulations(unittest.TestCase):
    def setUp(self):
        self.by = dezgula.Reformulation(
            extended=[[2, -3, 0], [1, -1, -1]],
            other=[[1, 0, -3], [0, 1, -2]],
            onto=[[1, 1, -3], [1, 1, -2]],
            back=[[1, -2, 3], [1, -1, 1]],
            above=[[2, -1]],
        )

    def test_what_is_shown_has_the_same_list(self):
        self.assertTrue(dezgula.reformulates([[2, -3]], self.by))
        self.assertEqual(dezgula.projected(2, dezgula.basis(self.by.other)), dezgula.basis([[2, -3]]))
        self.assertEqual(dezgula.projected(2, []), [])

    def test_one_number_changed_shows_nothing(self):
        for name in self.by._fields:
            for i, row in enumerate(getattr(self.by, name)):
                for j, value in enumerate(row):
                    for other in (value + 1, 10**30):
                        changed = [list(row) for row in getattr(self.by, name)]
                        changed[i][j] = other
                        if name == "above" and j == 0 and other != 10**30:  # three times its equation less the map's is not below zero either
                            continue
                        self.assertFalse(dezgula.reformulates([[2, -3]], self.by._replace(**{name: changed})), (name, i, j))

    def test_refusals(self):
        for name, rows, number, place in (("back", [], 3, None), ("onto", [[1, 1], [1, 1, -2]], 3, 1), ("extended", [[2, -3, 0], [1, -1]], 3, 2)):
            with self.assertRaises(dezgula.Refused) as refused:
                dezgula.reformulates([[2, -3]], self.by._replace(**{name: rows}))
            self.assertEqual((refused.exception.number, refused.exception.place), (number, place))
        with self.assertRaises(dezgula.Refused) as refused:
            dezgula.projected(0, [(1,)])
        self.assertEqual(refused.exception.number, 2)


class Runs(unittest.TestCase):
    def kinds(self):
        rows = [[2, -3, 1]]
        yield lambda: dezgula.Plain(MANY)
        yield lambda: dezgula.Training(rows)
        yield lambda: dezgula.Rights(rows, [5])
        yield lambda: dezgula.LowerBound(rows, [1, 0, 2])
        yield lambda: dezgula.TrainingLowerBound(rows, [1, 0, 2])
        yield lambda: dezgula.Desk([[0, 1, -2]], dezgula.basis([[1, -1, 0]]))
        yield lambda: dezgula.SingleFile([[1, 0, -1], [-1, 1, 0], [0, -1, 1]])

    def test_pauses_change_nothing(self):
        for kind in self.kinds():
            at_once, often, calls = kind().complete(), kind(), 0
            while not often.resume(7):
                calls += 1
                self.assertEqual(often.steps, 7 * calls)
            self.assertEqual((often.list, often.steps, often.deepest), (at_once.list, at_once.steps, at_once.deepest))
            if isinstance(often, dezgula.TwoLists):
                self.assertEqual(often.second, at_once.second)

    def test_a_limit_is_kept_and_can_be_raised(self):
        run = dezgula.Plain(MANY)
        run.limit(5)
        for _ in range(2):
            with self.assertRaises(dezgula.Refused) as refused:
                run.complete()
            self.assertEqual((refused.exception.number, len(run.list)), (11, 5))
        run.limit(10**6)
        self.assertEqual(sorted(run.complete().list), sorted(dezgula.basis(MANY)))
        with self.assertRaises(dezgula.Refused) as refused:
            dezgula.basis(MANY, memory=1)
        self.assertEqual(refused.exception.number, 31)

    def test_solver_pauses(self):
        solver, calls = dezgula.Solver(MANY), 0
        while not solver.work(50):
            calls += 1
            with self.assertRaises(LookupError):
                solver.rows
        self.assertGreater(calls, 3)
        self.assertEqual(sorted(solver.rows), sorted(dezgula.walk(MANY)))

    def test_a_solver_is_saved_and_gone_on_with(self):
        whole = sorted(dezgula.basis(MANY))
        for budget in (1, 40, 2000):
            solver = dezgula.Solver(MANY)
            while not solver.work(budget):
                kept = solver.save()
                loaded = dezgula.Solver.load(kept)
                self.assertEqual((loaded.told, loaded.system, loaded.save()), (solver.told, MANY, kept))
                solver = loaded
            self.assertEqual(sorted(solver.rows), whole)
            self.assertEqual(pickle.loads(pickle.dumps(solver)).rows, solver.rows)

    def test_a_solver_from_a_list(self):
        whole = sorted(dezgula.basis(MANY))
        for groups in ([MANY[:1], MANY[1:]], [MANY[:2], MANY[2:]], [[row] for row in MANY]):
            listed = dezgula.basis(groups[0])
            for group in groups[1:]:
                solver = dezgula.Solver.from_list(listed, group)
                while not solver.work(100):
                    solver = dezgula.Solver.load(solver.save())
                self.assertEqual(solver.system, group)
                listed = solver.rows
            self.assertEqual(sorted(listed), whole)
        self.assertEqual(dezgula.Solver.from_list([], [[1, -1]]).complete(), [])
        for listed, number in (([[0, 0]], 6), ([[1, 1_000_001]], 6), ([[1]], 5)):
            with self.assertRaises(dezgula.Refused) as refused:
                dezgula.Solver.from_list(listed, [[1, -1]])
            self.assertEqual(refused.exception.number, number)

    def test_damaged_bytes_of_a_solver(self):
        draw, solver, loaded = random.Random(3), dezgula.Solver(MANY), 0
        self.assertFalse(solver.work(500))
        kept = solver.save()
        for length in (0, 1, 4, 11, len(kept) - 4, len(kept) - 1):
            with self.assertRaises(dezgula.Refused) as refused:
                dezgula.Solver.load(kept[:length])
            self.assertEqual(refused.exception.number, 6)
        for _ in range(300):
            damaged = bytearray(kept)
            for _ in range(draw.randint(1, 3)):
                damaged[draw.randrange(draw.choice((len(kept), 280)))] ^= 1 << draw.randrange(8)
            try:
                solver = dezgula.Solver.load(damaged)
                loaded += 1
                solver.work(200)
            except dezgula.Refused:
                pass
            self.assertEqual(len(solver.save()) % 4, 0)
        self.assertGreater(loaded, 20)

    def test_progress_is_told_and_can_stop(self):
        class Enough(Exception):
            pass

        def stop_after(times, told=[]):
            def progress(now):
                told.append(now)
                if len(told) == times:
                    raise Enough

            return progress

        run, told = dezgula.Plain(LONG), []
        begun = time.monotonic()
        with self.assertRaises(Enough):
            run.complete(stop_after(20, told))
        self.assertLess(time.monotonic() - begun, 10)
        self.assertEqual([now.steps for now in told], sorted(now.steps for now in told))
        steps = run.steps
        self.assertFalse(run.resume(10))
        self.assertEqual(run.steps, steps + 10)

    def test_interrupt(self):
        # a shell starts what it runs in the background with the interrupt ignored
        self.addCleanup(signal.signal, signal.SIGINT, signal.signal(signal.SIGINT, signal.default_int_handler))
        run = dezgula.Plain(LONG)
        threading.Timer(0.5, os.kill, (os.getpid(), signal.SIGINT)).start()
        begun = time.monotonic()
        with self.assertRaises(KeyboardInterrupt):
            run.complete()
        self.assertLess(time.monotonic() - begun, 5)
        steps, listed = run.steps, run.list
        self.assertFalse(run.resume(1000))
        self.assertEqual((run.steps, run.list[: len(listed)]), (steps + 1000, listed))
        again = dezgula.Plain(LONG)
        self.assertFalse(again.resume(run.steps))
        self.assertEqual(again.list, run.list)

    def test_threads(self):
        lists = [None] * 4

        def work(i):
            lists[i] = sorted(dezgula.basis(MANY) if i % 2 else dezgula.walk(MANY))

        threads = [threading.Thread(target=work, args=(i,)) for i in range(4)]
        for thread in threads:
            thread.start()
        for thread in threads:
            thread.join()
        self.assertEqual(lists, [lists[0]] * 4)

    def test_one_thread_at_a_time(self):
        run = dezgula.Plain(LONG)
        thread = threading.Thread(target=run.resume, args=(3_000_000,))
        thread.start()
        time.sleep(0.05)
        if thread.is_alive():
            with self.assertRaises(RuntimeError):
                run.resume(1)
        thread.join()


class SeveralRuns(unittest.TestCase):
    def test_each_as_alone(self):
        systems = [MANY, [[2, -3, 1]], [[1, 2]], [[97, -89, 83, -79]]] * 2
        for quantum in (1, 50, 100_000):
            several = dezgula.Several(systems, quantum=quantum)
            self.assertEqual(several.serve(20), sum(not run.complete for run in several.runs))
            told = []
            several.complete(told.append)
            self.assertEqual([now.steps for now in told], sorted(now.steps for now in told))
            for run, rows in zip(several.runs, systems):
                alone = dezgula.Plain(rows).complete()
                self.assertEqual((run.complete, run.refused, run.steps, run.list), (True, None, alone.steps, alone.list))

    def test_limits_refusals_and_later_runs(self):
        several = dezgula.Several(quantum=10)
        self.assertEqual((several.serve(5), len(several), several.runs), (0, 0, []))
        with self.assertRaises(dezgula.Refused) as refused:
            several.add([[1, 10_001]])
        self.assertEqual((refused.exception.number, refused.exception.place, len(several)), (7, 2, 0))
        self.assertEqual((several.add(MANY), several.serve(3), several.runs[0].steps), (0, 1, 30))
        self.assertEqual(several.add([[2, -3]]), 1)
        several.limit(5)
        several.complete()
        self.assertEqual([(run.complete, run.refused and run.refused.number, len(run.list)) for run in several.runs], [(False, 11, 5), (True, None, 1)])
        self.assertEqual(several.serve(1), 0)
        several.limit(10**6)
        self.assertEqual(several.complete().runs[0].list, dezgula.walk(MANY))
        for systems, quantum in (([[[1, -1]]] * 9, 1), ([], 0)):
            with self.assertRaises(dezgula.Refused) as refused:
                dezgula.Several(systems, quantum=quantum)
            self.assertEqual(refused.exception.number, 27)

    def test_interrupt(self):
        self.addCleanup(signal.signal, signal.SIGINT, signal.signal(signal.SIGINT, signal.default_int_handler))
        several = dezgula.Several([LONG, [[2, -3]]], quantum=100)
        threading.Timer(0.3, os.kill, (os.getpid(), signal.SIGINT)).start()
        with self.assertRaises(KeyboardInterrupt):
            several.complete()
        self.assertEqual([run.complete for run in several.runs], [False, True])
        alone = dezgula.Plain(LONG)
        alone.resume(several.runs[0].steps)
        self.assertEqual(several.runs[0].list, alone.list)


class Refusals(unittest.TestCase):
    def refused(self, call, *given, **named):
        with self.assertRaises(dezgula.Refused) as refused:
            call(*given, **named)
        return refused.exception.number, refused.exception.place

    def test_numbers_and_places(self):
        self.assertEqual(self.refused(dezgula.basis, []), (1, None))
        self.assertEqual(self.refused(dezgula.basis, [[]]), (2, None))
        self.assertEqual(self.refused(dezgula.basis, [[1] * 40]), (2, None))
        self.assertEqual(self.refused(dezgula.walk, [[1] * 1000]), (2, None))
        self.assertEqual(self.refused(dezgula.basis, [[1, -1], [1]]), (3, 2))
        self.assertEqual(self.refused(dezgula.basis, [[1, -10_001]]), (7, 2))
        self.assertEqual(self.refused(dezgula.basis, [[1, 2**32]]), (7, 2))
        self.assertEqual(self.refused(dezgula.basis, [[1, -(2**70)]]), (7, 2))
        self.assertEqual(self.refused(dezgula.with_rights, [[1, -1]], [1, 2]), (3, None))
        self.assertEqual(self.refused(dezgula.with_rights, [[1, -1]], [2**32]), (15, None))
        self.assertEqual(self.refused(dezgula.from_lower, [[1, -1]], [1]), (5, None))
        self.assertEqual(self.refused(dezgula.from_lower, [[1, -1]], [1, 2**40]), (8, None))
        self.assertEqual(self.refused(dezgula.single_file, [[1, -1], [-1, 0]]), (26, 2))
        self.assertEqual(self.refused(dezgula.desks, []), (1, None))
        self.assertEqual(self.refused(dezgula.Desk, [[1, -1]], [(i, i) for i in range(65)]), (25, None))
        self.assertEqual(self.refused(dezgula.why, [[1, -1]], [(1, 1, 1)], (1, 1)), (5, 1))

    def test_what_is_no_number(self):
        with self.assertRaises(TypeError):
            dezgula.basis([[1.5, -1]])
        with self.assertRaises(ValueError):
            dezgula.from_lower([[1, -1]], [-1, 0])

    def test_the_exception(self):
        with self.assertRaises(dezgula.Refused) as caught:
            dezgula.read_system("x1 = 1\nx1 + = 1\n", 1)
        refused = caught.exception
        self.assertEqual((refused.number, refused.place, refused.within), (16, 2, 6))
        self.assertEqual(str(refused), "The text is no equation, or it names an unknown that is not there. (refusal 16, place 2, there at 6)")
        self.assertEqual(str(pickle.loads(pickle.dumps(refused))), str(refused))


class Texts(unittest.TestCase):
    def test_maps(self):
        self.assertEqual(dezgula.read_map(b"2 3\n1 -1 0\n0 1 -2\n"), [[1, -1, 0], [0, 1, -2]])
        for text, number, place in (("1 2\n1 -1", 9, 2), ("1 2\n1 -10001\n", 7, 2), ("9 1\n", 1, None), ("1 \0", 9, 1)):
            with self.assertRaises(dezgula.Refused) as refused:
                dezgula.read_map(text)
            self.assertEqual((refused.exception.number, refused.exception.place), (number, place), text)

    def test_equations_are_read_as_written(self):
        draw = random.Random(7)
        for _ in range(500):
            row, right = [draw.randint(-10_000, 10_000) * draw.randint(0, 1) for _ in range(draw.randint(1, 16))], draw.randint(-10_000, 10_000)
            self.assertEqual(dezgula.read_equation(dezgula.write_equation(row, right), len(row)), (row, right))

    def test_list_files(self):
        listed = dezgula.basis(MANY)
        file = dezgula.write_list(MANY, listed, complete=False)
        self.assertEqual(dezgula.read_list(file), (MANY, listed, False))
        damaged = file[:700] + bytes([file[700] ^ 1]) + file[701:]
        for content, number in ((damaged, 20), (file[:-1], 19), (b"", 19)):
            with self.assertRaises(dezgula.Refused) as refused:
                dezgula.read_list(content)
            self.assertEqual(refused.exception.number, number)


class Documented(unittest.TestCase):
    def test_every_name_has_a_docstring_and_hints(self):
        for name in dezgula.__all__:
            item = getattr(dezgula, name)
            own = [item] if not inspect.isclass(item) else [getattr(member, "fget", getattr(member, "__func__", member)) for member in vars(item).values()]
            self.assertTrue(item.__doc__, name)
            for call in filter(inspect.isfunction, own):
                if call.__name__.startswith("_"):
                    continue
                self.assertTrue(call.__doc__, f"{name}.{call.__name__}")
                given = [parameter for parameter in inspect.signature(call).parameters if parameter not in ("self", "cls")]
                self.assertEqual([parameter for parameter in given + ["return"] if parameter not in call.__annotations__], [], f"{name}.{call.__name__}")


class Finding(unittest.TestCase):
    def test_what_is_declared_is_exported(self):
        symbols = pathlib.Path(__file__).resolve().parents[2] / "library" / "symbols"
        if not symbols.is_file():
            self.skipTest("the module is not in its project")
        exported = {line for line in symbols.read_text().splitlines() if line.startswith("dezgula_")}
        declared = {"dezgula_" + name for name, _, _ in _library._signatures()}
        self.assertEqual(declared - exported, set())
        # what Python does by itself, what is for tables that a program lends, and questions about smaller maps, which those of the engine answer alike
        own = {"number", "place", "lent", "lent_length", "listed", "second_listed", "row", "second_row", "locate", "reason", "decompose"}
        left = {name for name in exported - declared - {"dezgula_" + name for name in own} if not name.startswith(("dezgula_engine_", "dezgula_raw_"))}
        self.assertEqual(left, set())

    def test_what_is_missing_is_said(self):
        asked = dict(os.environ, DEZGULA_LIBRARY="/nowhere/libdezgula.so.2", PYTHONPATH=os.pathsep.join(sys.path))
        said = subprocess.run([sys.executable, "-c", "import dezgula"], env=asked, capture_output=True, text=True)
        self.assertNotEqual(said.returncode, 0)
        self.assertIn("LibraryMissing: DEZGULA_LIBRARY is /nowhere/libdezgula.so.2, which cannot be loaded", said.stderr)

    def test_another_library(self):
        asked = dict(os.environ, DEZGULA_LIBRARY="libc.so.6", PYTHONPATH=os.pathsep.join(sys.path))
        said = subprocess.run([sys.executable, "-c", "import dezgula"], env=asked, capture_output=True, text=True)
        self.assertIn("is not the library of Dezgula, or an older one", said.stderr)


def load_tests(loader, tests, pattern):
    for module in (dezgula, _engine, _questions, _reformulation, _several, _text):
        tests.addTests(doctest.DocTestSuite(module))
    return tests


if __name__ == "__main__":
    unittest.main()
