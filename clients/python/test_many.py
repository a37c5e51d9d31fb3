#!/usr/bin/env python3
"""Tests of many cells at once: their answers next to those of single calls, what is refused, pins.

They need numpy and the library. ARRAYS in the environment is how much is tried, 150 where it isn't
there.
"""
import os
import pathlib
import pickle
import signal
import sys
import threading
import time
import unittest

import numpy as np

HERE = pathlib.Path(__file__).resolve().parent
sys.path.append(str(HERE.parent.parent / "tools"))

import clearmap
from clearmap import many
from fakes import Fake, Ring
from served import Served

ARRAYS = int(os.environ.get("ARRAYS", "150"))
METRICS = ("euclid2", "city", "chess")
EDGES = ("open", "wall")
INTEGERS = "bBhHiIlLqQ"
NOWHERE = clearmap.NO_OBSTACLE, clearmap.NOWHERE, clearmap.NOWHERE


def near_of(nears, index):
    """One of many answers, as a single call has it."""
    told = tuple(int(part[index]) for part in nears)
    return None if told == NOWHERE else (told[0], told[1:])


def random_map(numbers):
    """A random map, and its edge."""
    shape = numbers.integers(1, 150, 2)
    grid = numbers.random(shape) < numbers.choice([0.0, 0.0005, 0.01, 0.3])
    return clearmap.Map(grid, EDGES[numbers.integers(2)])


class Answers(unittest.TestCase):
    def test_as_single_calls(self):
        numbers = np.random.default_rng(1)
        for turn in range(ARRAYS):
            area, metric = random_map(numbers), METRICS[turn % 3]
            shape = tuple(numbers.integers(0, 5, numbers.integers(0, 4)))
            xs, ys = (numbers.integers(0, side, shape) for side in area.size)
            d = int(numbers.choice([0, 1, 2, 9, 50, 2**32 - 1]))
            nears, clear = area.at_many(xs, ys, metric), area.clear_many(xs, ys, d, metric)
            kinds = [(part.dtype, part.shape) for part in (*nears, clear)]
            self.assertEqual(
                kinds, [(np.uint32, shape), (np.int16, shape), (np.int16, shape), (bool, shape)]
            )
            for index in np.ndindex(*shape):
                cell = int(xs[index]), int(ys[index])
                self.assertEqual(near_of(nears, index), area.at(*cell, metric))
                self.assertEqual(clear[index], area.is_clear(d, [cell], metric))
            np.testing.assert_array_equal(clear, nears.distances >= d)

    def test_all_dtypes(self):
        """Each dtype of integers, of each byte order and in memory of any order."""
        grid = np.zeros((90, 120), bool)
        grid[40, 70] = True
        area, cells = clearmap.Map(grid), np.mgrid[:89, :119].astype("i8")
        wanted = area.at_many(cells[1], cells[0])
        for letter in INTEGERS:
            for order in "<>":
                rows, columns = cells.astype(np.dtype(letter).newbyteorder(order))
                for told in (
                    area.at_many(columns, rows),
                    area.at_many(columns[::-1], rows[::-1]),
                    area.at_many(np.asfortranarray(columns), rows),
                    area.at_many(columns.tolist(), rows),
                    area.at_many(columns.astype(object), rows),
                ):
                    same = told.distances if told.distances[0, 0] == wanted.distances[0, 0] else (
                        told.distances[::-1]
                    )  # fmt: skip
                    np.testing.assert_array_equal(same, wanted.distances)

    def test_broadcasts(self):
        area = clearmap.Map(np.eye(7, dtype=bool))
        whole = area.distances()
        row, column = np.arange(7), np.arange(7)[:, None]
        np.testing.assert_array_equal(area.at_many(row, column).distances, whole)
        np.testing.assert_array_equal(area.at_many(row, 3).distances, whole[3])
        np.testing.assert_array_equal(area.clear_many(2, column, 3)[:, 0], whole[:, 2] >= 3)
        self.assertEqual(area.at_many(3, np.uint8(4)).distances, whole[4, 3])
        self.assertEqual(area.at_many([], []).distances.shape, (0,))
        self.assertEqual(area.at_many([], 3).rows.shape, (0,))
        for wrong in (([1, 2], [1, 2, 3]), (np.zeros((2, 3), int), np.zeros((3, 2), int))):
            self.assertRaises(ValueError, area.at_many, *wrong)

    def test_indices(self):
        grid = np.zeros((20, 30), bool)
        grid[5, 7] = grid[15, 2] = True
        nears = clearmap.Map(grid).at_many(*np.mgrid[:30, :20])
        self.assertTrue(grid[nears.indices(grid.shape)].all())
        np.testing.assert_array_equal(nears.indices(grid.shape)[1], nears.columns)
        self.assertRaises(ValueError, nears.indices, (20, 7))  # another array
        for area in (clearmap.Map(grid, "wall"), clearmap.Map(grid & False)):
            with self.assertRaisesRegex(ValueError, r"obstacle \(0,\) is column -\d and row"):
                area.at_many([0], [10]).indices(grid.shape)

    def test_paths_of_arrays(self):
        numbers = np.random.default_rng(2)
        for turn in range(ARRAYS):
            area, metric = random_map(numbers), METRICS[turn % 3]
            points = np.stack([numbers.integers(0, side, 8) for side in area.size], 1)
            points[1::2, 0] = points[::2, 0]
            points[2::2, 1] = points[1:-1:2, 1]
            if turn % 5 == 0:
                points = points[: numbers.integers(0, 9)]
            kind = np.dtype(INTEGERS[turn % len(INTEGERS)])
            points = (points % 128).astype(kind) if kind.itemsize == 1 else points.astype(kind)
            d = int(numbers.choice([0, 1, 9, 50]))
            listed = [(int(x), int(y)) for x, y in points]
            for call in (
                lambda it: area.path(it, metric),
                lambda it: area.clear_of(d, it, metric),
                lambda it: area.is_clear(d, it, metric),
            ):
                self.assertEqual(answered(call, points), answered(call, listed))


def answered(call, *words):
    """What a call answers, or what it raises in words."""
    try:
        return call(*words)
    except (clearmap.ClearmapError, ValueError, TypeError) as fault:
        return type(fault).__name__, str(fault)


class Refused(unittest.TestCase):
    def test_the_first_cell_off_the_map(self):
        """It is named as it was given, and isn't cut to a number of fewer bits."""
        area = clearmap.Map(np.ones((20, 30), bool))
        for xs, ys, words in (
            ([3, 30, 31], [0, 0, 0], r"cell 1 is \(30, 0\), and the map has columns 0 to 29"),
            ([3, 3], [0, -1], r"cell 1 is \(3, -1\), and"),
            (np.array([65536, 0]), 0, r"cell 0 is \(65536, 0\)"),
            (np.array([-(2**63), 0]), 0, r"cell 0 is \(-9223372036854775808, 0\)"),
            (np.array([2**64 - 1], "u8"), 0, r"cell 0 is \(18446744073709551615, 0\)"),
            ([2**70], 0, r"cell 0 is \(1180591620717411303424, 0\)"),
            ([[1, 2], [3, 40]], [[0], [0]], r"cell \(1, 1\) is \(40, 0\)"),
            (0, 20, r"the cell is \(0, 20\)"),
            (np.array([-1], "i1"), np.array([5], "u1"), r"cell 0 is \(-1, 5\)"),
            (np.array([256 + 3], "u2"), [4], r"cell 0 is \(259, 4\)"),
        ):  # fmt: skip
            for call in (
                area.at_many, lambda *it: area.clear_many(*it, 3), area.paint_cells,
                clearmap.Field(area).at_many,
            ):  # fmt: skip
                with self.assertRaisesRegex((clearmap.OutOfRange, clearmap.BadArguments), words) as it:
                    call(xs, ys)
                again = pickle.loads(pickle.dumps(it.exception))
                self.assertEqual(str(again), str(it.exception))
        self.assertTrue(area.grid().all())

    def test_what_is_not_whole(self):
        area = clearmap.Map(np.ones((5, 6), bool))
        masked = np.ma.array([1, 2], mask=[True, False])
        for wrong in (
            1.0, [1.0], np.array([1.5]), "1", ["1"], None, [None], [True], np.array([True]), 1j,
            masked, np.array(["2020-01-01"], "M8[D]"), [[1, 2], [3]], [1, 2.0], {1}, b"1",
        ):  # fmt: skip
            for xs, ys in ((wrong, 0), (0, wrong)):
                self.assertRaises((TypeError, ValueError), area.at_many, xs, ys)
                self.assertRaises((TypeError, ValueError), area.clear_many, xs, ys, 1)
        points = np.array([[1, 1], [2, 1]])
        for wrong in (
            points.astype(float), points[0], points[:, :1], points[None],
            np.ma.array(points, mask=[[1, 0], [0, 0]]), points.T[:, :, None],
            np.array([[1, 1, 1]]), points.astype("M8[s]"),
        ):  # fmt: skip
            self.assertRaises((TypeError, ValueError), area.path, wrong)
            self.assertRaises((TypeError, ValueError), area.is_clear, 1, wrong)
        self.assertRaises(clearmap.BadPath, area.path, np.zeros((0, 2), int))
        self.assertRaises(clearmap.BadPath, area.path, np.zeros((1001, 2), int))
        for wrong in (-1, 2**32, 2**64):
            self.assertRaises(clearmap.BadArguments, area.clear_many, [0], [0], wrong)
        self.assertRaises(TypeError, area.clear_many, [0], [0], 1.0)
        for call in (area.at_many, lambda *it: area.clear_many(*it[:2], 1, *it[2:])):
            self.assertRaises(ValueError, call, [], [], "l2")

    def test_paths_off_the_map(self):
        """Numbers that 16 bits would make cells of the map."""
        area = clearmap.Map(np.zeros((5, 6), bool))
        for far in (65536, -65536, 6, -1, 2**31, 2**32, -(2**63)):
            for points in (np.array([[far, 0]]), np.array([[0, 0], [far, 0]]), [(far, 0)]):
                refusals = clearmap.OutOfRange, clearmap.BadArguments
                self.assertRaises(refusals, area.path, points)
        with self.assertRaises(clearmap.Crooked) as it:
            area.path(np.array([[0, 0], [3, 0], [4, 1]], "u1"))
        self.assertEqual(it.exception.index, 2)


class Threads(unittest.TestCase):
    def test_other_threads_go_on(self):
        """While a call for many cells runs in one thread: it lets go of the interpreter's lock."""
        grid = np.zeros((4096, 4096), bool)
        grid[0, 0] = True
        area = clearmap.Map(grid)
        xs, ys = np.full(20000, 4095), np.full(20000, 4095)
        turns, done = [0], threading.Event()

        def counts():
            while not done.is_set():
                turns[0] += 1
                time.sleep(0)  # lets go of the lock

        self.addCleanup(sys.setswitchinterval, sys.getswitchinterval())
        sys.setswitchinterval(60)  # seconds: nobody is made to let go of it
        thread = threading.Thread(target=counts)
        thread.start()
        has_gone_on, until = False, time.monotonic() + 30  # one call may be too short
        while not has_gone_on and time.monotonic() < until:
            before = turns[0]
            told = area.at_many(xs, ys)
            has_gone_on = turns[0] > before
        done.set()
        thread.join()
        self.assertTrue((told.distances == 2 * 4095**2).all())
        self.assertTrue(has_gone_on)

    def test_cells_of_one_time(self):
        """Many cells are answered by one map, while another thread paints and clears."""
        grid = np.zeros((200, 300), bool)
        grid[150, 20] = True
        area, faults, done = clearmap.Map(grid), [], threading.Event()
        cells = np.mgrid[:300:7, :200:9]
        before = area.at_many(*cells).distances
        area.paint(100, 60, 164, 130)
        after = area.at_many(*cells).distances

        def asks():
            while not done.is_set():
                told = area.at_many(*cells).distances
                if not ((told == before).all() or (told == after).all()):
                    faults.append(told)

        threads = [threading.Thread(target=asks) for _ in range(3)]
        for thread in threads:
            thread.start()
        for turn in range(400):
            (area.clear, area.paint)[turn % 2](100, 60, 164, 130)
        done.set()
        for thread in threads:
            thread.join()
        self.assertEqual(faults, [])


class Pins(unittest.TestCase):
    def test_as_the_map(self):
        grid = np.zeros((20, 30), bool)
        grid[5, 7] = True
        image = b"P4\n30 20\n" + np.packbits(grid, axis=1).tobytes()
        rows, columns = np.mgrid[:20, :30]
        for edge in EDGES:
            with Served(image, "--edge", edge) as server, clearmap.Client(server.port) as client:
                area = clearmap.Map(grid, edge)
                with client.pin() as pinned:
                    for metric in METRICS:
                        told = pinned.at_many(columns, rows, metric)
                        for one, other in zip(told, area.at_many(columns, rows, metric)):
                            np.testing.assert_array_equal(one, other)
                            self.assertEqual(one.dtype, other.dtype)
                    self.assertEqual(pinned.at_many([], []).distances.shape, (0,))
                    self.assertEqual(pinned.at_many(3, 4).distances, area.at(3, 4).distance)
                    self.check_refusals(pinned)
                    self.assertEqual(pinned.at(0, 0), area.at(0, 0))  # in step

    def check_refusals(self, pinned):
        """One refusal for all, of the first, in whichever write it is."""
        many_cells = np.zeros(200, int)
        many_cells[150] = many_cells[180] = 30
        with self.assertRaisesRegex(clearmap.OutOfRange, r"cell 150 is \(30, 3\), and the map has"):
            pinned.at_many(many_cells, 3)
        with self.assertRaisesRegex(clearmap.BadArguments, r"cell \(0, 1\) is \(-1, 0\)"):
            pinned.at_many([[0, -1]], [[0, 0]])
        for wrong in (1.0, "1", [True], np.ma.array([1])):
            self.assertRaises(TypeError, pinned.at_many, wrong, 0)
        self.assertRaises(ValueError, pinned.at_many, 0, 0, "l2")

    def test_a_blank_map(self):
        with Served(b"P1\n3 1\n000\n") as server, clearmap.Client(server.port) as client:
            with client.pin() as pinned:
                self.assertEqual(near_of(pinned.at_many([1], [0]), 0), None)

    def test_wrong_servers(self):
        """What no array can hold isn't cut to its bits, and a lost answer is no other's."""
        for reply in (b"OK 70000 1", b"OK 1 70000 1", b"OK 1 1 -70000", b"OK 4294967296 1 1"):
            with Fake(b"OK 0\n", reply + b"\n") as fake:
                with clearmap.Client(fake.port, timeout=5) as client:
                    self.assertRaises(clearmap.WrongAnswer, client.pin().at_many, [1], [1])
        with Fake(b"OK 0\n", b"OK 1 1 1\n", b"") as fake:
            with clearmap.Client(fake.port, timeout=5) as client:
                pinned = client.pin()
                self.assertRaises(clearmap.ConnectionLost, pinned.at_many, [1, 2], [1, 1])
                self.assertRaises(clearmap.ConnectionLost, pinned.at_many, [1], [1])


    def test_an_interrupt(self):
        """In the middle of many answers: those that come later answer nothing else."""

        class Cut(Exception):
            """What a signal's handler raises."""

        def cut(*_):
            raise Cut

        old = signal.signal(signal.SIGALRM, cut)
        try:
            replies = b"OK 0\n", b"OK 1 1 1\n", Ring(b"OK 4 2 1\n")
            with Fake(*replies, closes=False) as fake:
                with clearmap.Client(fake.port, timeout=5) as client:
                    pinned = client.pin()
                    self.assertRaises(Cut, pinned.at_many, [1, 2, 3], [1, 1, 1])
                    self.assertRaises(clearmap.ConnectionLost, pinned.at_many, [1], [1])
                    self.assertRaises(clearmap.ConnectionLost, pinned.at, 1, 1)
        finally:
            signal.signal(signal.SIGALRM, old)

    def test_threads_share_a_pin(self):
        """Each call has the answers to its own cells."""
        grid = np.zeros((20, 30), bool)
        grid[5, 7] = True
        image = b"P4\n30 20\n" + np.packbits(grid, axis=1).tobytes()
        faults = []
        with Served(image) as server, clearmap.Client(server.port) as client:
            with client.pin() as pinned:
                wanted = clearmap.distances(grid)

                def asks(row):
                    for _ in range(20):
                        told = pinned.at_many(np.arange(30), row).distances
                        if (told != wanted[row]).any():
                            faults.append(row)

                threads = [threading.Thread(target=asks, args=(row,)) for row in range(4)]
                for thread in threads:
                    thread.start()
                for thread in threads:
                    thread.join()
        self.assertEqual(faults, [])


class Numbers(unittest.TestCase):
    def test_ends(self):
        for letter in INTEGERS:
            ends = np.iinfo(letter)
            for end in (1, 127, 4096):
                for number in (ends.min, ends.max, 0, min(end, ends.max), min(end - 1, ends.max)):
                    told = many.are_below(np.array([0, number], letter), end)
                    self.assertEqual(told, 0 <= number < end, (letter, end, number))


if __name__ == "__main__":
    unittest.main()
