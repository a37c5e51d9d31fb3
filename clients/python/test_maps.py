#!/usr/bin/env python3
"""Tests of maps in process: their queries next to the server's, threads, copies of pinned versions.

They need numpy and the library. ARRAYS in the environment is how much is tried, 150 where it isn't
there.
"""
import os
import pathlib
import pickle
import random
import sys
import threading
import unittest

import numpy as np

HERE = pathlib.Path(__file__).resolve().parent
sys.path.append(str(HERE.parent.parent / "tools"))

import clearmap
from clearmap import copies, words
from fakes import Fake
from served import Served

ARRAYS = int(os.environ.get("ARRAYS", "150"))
METRICS = ("euclid2", "city", "chess")
EDGES = ("open", "wall")


def answered(call):
    """What a call answers, or the kind and the words of what it raises: of a refusal without its
    cure, which only a map in process knows."""
    try:
        return call()
    except clearmap.Refused as refusal:
        return type(refusal).__name__, refusal.args
    except (clearmap.ClearmapError, ValueError, TypeError) as fault:
        return type(fault).__name__, str(fault)


def asked_at_random(chance, width, height):
    """A query as a name and its arguments, some of which are refused."""

    def number(side):
        if chance.random() < 0.02:
            return chance.choice((-1, side, 4096, 2**32 - 1, 2**32, 10**10))
        return chance.randrange(side)

    metric = chance.choice(METRICS)
    name = chance.choice(("at", "rect", "path", "clear_of", "is_clear"))
    if name == "at":
        return name, (number(width), number(height), metric)
    if name == "rect":
        x0, y0 = number(width), number(height)
        return name, (x0, y0, x0 + number(9), y0 + number(9), metric)
    points = [(number(width), number(height))]
    for _ in range(chance.randrange(5)):
        x, y = points[-1]
        points.append((number(width), y) if chance.random() < 0.5 else (x, number(height)))
    if chance.random() < 0.1:
        points = chance.choice(([], points * 400, [*points, (number(width), number(height))]))
    if name == "path":
        return name, (points, metric)
    return name, (chance.choice((0, 1, 4, 30, 2**32 - 1, 2**32, -1)), points, metric)


class Outside(unittest.TestCase):
    def test_what_would_be_right(self):
        """A refusal says which columns and rows there are, also once it was pickled."""
        area = clearmap.Map(np.zeros((20, 30), bool))
        for asked in (
            lambda: area.at(30, 4), lambda: area.at(-1, 4), lambda: area.at(3, 20),
            lambda: area.gradient(30, 4), lambda: area.rect(0, 0, 31, 4),
            lambda: area.paint(0, 0, 3, 21), lambda: area.path([(0, 0), (0, 20)]),
            lambda: area.clear_of(3, [(-2, 0)]), lambda: area.grid(0, 21),
        ):  # fmt: skip
            with self.assertRaisesRegex(clearmap.Refused, "columns 0 to 29 and rows 0 to 19$") as it:
                asked()
            again = pickle.loads(pickle.dumps(it.exception))
            self.assertEqual((str(again), again.cure), (str(it.exception), it.exception.cure))
        for distance in (-1, 2**32, 2**64):  # which isn't the map's fault
            with self.assertRaisesRegex(clearmap.BadArguments, "a distance is 0 to 4294967295$"):
                area.is_clear(distance, [(0, 0)])


class Maps(unittest.TestCase):
    def test_as_the_server(self):
        numbers, chance = np.random.default_rng(10), random.Random(10)
        for edge in EDGES:
            for shape in ((1, 1), (3, 5), (40, 70), (130, 200)):
                for share in (0.0, 0.01, 0.3):
                    grid = numbers.random(shape) < share
                    self.check_server(grid, edge, chance)

    def check_server(self, grid, edge, chance):
        """Queries, painting and copies of a map, and the server's of the same cells."""
        height, width = grid.shape
        image = b"P4\n%d %d\n" % (width, height) + np.packbits(grid, axis=1).tobytes()
        with Served(image, "--edge", edge) as server, clearmap.Client(server.port) as client:
            area = clearmap.Map(grid, edge)
            self.assertEqual(area.size, client.size)
            for _ in range(3):
                with client.pin() as pinned:
                    for _ in range(max(ARRAYS // 6, 20)):
                        name, words = asked_at_random(chance, width, height)
                        told = answered(lambda: getattr(area, name)(*words))
                        wanted = answered(lambda: getattr(pinned, name)(*words))
                        self.assertEqual(told, wanted, (name, words))
                    copy = answered(pinned.map)
                    if not isinstance(copy, clearmap.Map):
                        self.assertTrue(area.grid()[[0, -1]].all(), copy)
                        copy = pinned.map(edge)
                    self.assertEqual((copy.edge, copy.size), (edge, area.size))
                    np.testing.assert_array_equal(copy.grid(), area.grid())
                    told = pinned.distances("city", threads=2)
                    np.testing.assert_array_equal(told, area.distances("city"))
                for _ in range(6):
                    name = chance.choice(("paint", "clear"))
                    x0, y0 = chance.randrange(width), chance.randrange(height)
                    words = x0, y0, x0 + chance.randrange(90), y0 + chance.randrange(70)
                    told = answered(lambda: getattr(area, name)(*words))
                    wanted = answered(lambda: getattr(client, name)(*words))
                    self.assertEqual(told is None, isinstance(wanted, clearmap.Change))
                    self.assertTrue(told is None or told == wanted, (told, wanted))
                client.publish()

    def test_bands(self):
        numbers = np.random.default_rng(11)
        grid = np.zeros((300, 150), bool)
        area = clearmap.Map(grid)
        for turn in range(60):
            x0, y0 = numbers.integers(150), numbers.integers(300)
            x1, y1 = numbers.integers(x0, 151), numbers.integers(y0, 301)
            if x0 == x1 or y0 == y1:
                continue
            (area.paint, area.clear)[turn % 3 > 0](x0, y0, x1, y1)
            grid[y0:y1, x0:x1] = turn % 3 == 0
            np.testing.assert_array_equal(area.grid(), grid)
            bands = sum(1 << k for k in range(5) if grid[64 * k : 64 * k + 64].any())
            self.assertEqual(area._held.memory.layout.blank_bands, 2**64 - 1 - bands)
            self.assertFalse((area._held.memory.cells[:, 2] >> np.uint64(150 - 128)).any())
            drawn = range(y0 // 64, (y1 - 1) // 64 + 1) if turn % 3 else ()
            for made in (area, clearmap.Map(grid)):  # each tile with an obstacle has no mark
                marks = words.marks_of(made._held.memory.cells)
                for (band, tile), mark in np.ndenumerate(marks[:, None] >> np.arange(3, dtype="u8")):
                    part = grid[64 * band : 64 * band + 64, 64 * tile : 64 * tile + 64]
                    is_marked, is_exact = bool(mark & np.uint64(1)), made is not area or band in drawn
                    self.assertIn(is_marked, (not part.any(), is_exact and not part.any()))
            np.testing.assert_array_equal(area.distances(), clearmap.distances(grid))

    def test_is_clear(self):
        """Whether nothing is too near: the opposite of the truth of what `clear_of` answers."""
        area = clearmap.Map(np.pad([[True]], ((0, 0), (4, 0))))
        way = [(0, 0), (2, 0)]
        for far in (0, 1, 4, np.uint8(4)):
            self.assertIs(area.is_clear(far, way), True)
            self.assertIsNone(area.clear_of(far, way))
        for near in (5, 2**32 - 1, np.int64(5)):
            self.assertIs(area.is_clear(near, way), False)
            self.assertEqual(area.clear_of(near, way).obstacle, (4, 0))
        self.assertIs(area.is_clear(2, way, "city"), True)
        self.assertIs(area.is_clear(3, way, "chess"), False)
        for wrong in (-1, 2**32, 2**64):
            self.assertRaises(clearmap.BadArguments, area.is_clear, wrong, way)
        self.assertRaises(clearmap.BadPath, area.is_clear, 1, [])
        self.assertRaises(TypeError, area.is_clear, 1.0, way)

    def test_a_grid_that_changes_later(self):
        grid = np.zeros((5, 6), np.uint8)
        grid[2, 3] = 100
        area = clearmap.Map(grid, low=65)
        grid[:] = 100
        self.assertEqual(area.at(0, 2), (9, (3, 2)))

    def test_what_is_no_query(self):
        area = clearmap.Map(np.zeros((5, 6), bool))
        for wrong in (1.0, "1", None, np.float64(1)):
            self.assertRaises(TypeError, area.at, wrong, 0)
            self.assertRaises(TypeError, area.rect, 0, wrong, 1, 1)
            self.assertRaises(TypeError, area.path, [(0, wrong)])
            self.assertRaises(TypeError, area.clear_of, wrong, [(0, 0)])
            self.assertRaises(TypeError, area.paint, 0, 0, wrong, 1)
        self.assertRaises(ValueError, area.at, 0, 0, "l2")
        self.assertRaises(ValueError, area.rect, 0, 0, 1, 1, "l2")
        self.assertRaises(ValueError, area.path, [(0, 0)], "l2")
        cells = np.array([[0, 0], [4, 0]], np.uint16)
        self.assertEqual(area.path(cells), None)

    def test_threads_share_a_map(self):
        """Queries of four threads, while a fifth paints and clears one rectangle: each answer is
        one of the two maps'."""
        grid = np.zeros((200, 300), bool)
        grid[150, 20] = True
        area, faults = clearmap.Map(grid), []
        before = {cell: area.at(*cell) for cell in ((0, 0), (299, 199), (120, 90))}
        area.paint(100, 60, 164, 130)
        after = {cell: area.at(*cell) for cell in before}
        done = threading.Event()

        def asks():
            while not done.is_set():
                for cell in before:
                    if area.at(*cell) not in (before[cell], after[cell]):
                        faults.append(cell)

        threads = [threading.Thread(target=asks) for _ in range(4)]
        for thread in threads:
            thread.start()
        for turn in range(300):
            (area.clear, area.paint)[turn % 2](100, 60, 164, 130)
        done.set()
        for thread in threads:
            thread.join()
        self.assertEqual(faults, [])
        self.assertEqual(area.at(0, 0), after[0, 0])

    def test_painters_wait_for_one_another(self):
        area = clearmap.Map(np.zeros((64, 512), bool))

        def paints(first):
            for x in range(first, 512, 4):
                area.paint(x, 0, x + 1, 64)

        threads = [threading.Thread(target=paints, args=(k,)) for k in range(4)]
        for thread in threads:
            thread.start()
        for thread in threads:
            thread.join()
        self.assertTrue(area.grid().all())


class Copies(unittest.TestCase):
    def test_the_edge(self):
        """Each map of 1 to 3 by 3 cells, and some of 4 by 3: where a cell of the border tells the
        edge, it is found, and where none does, both edges have the same answers."""
        untold = 0
        for width in (1, 2, 3, 4):
            for number in range(0, 1 << 3 * width, 1 if width < 4 else 9):
                bits = np.array([number >> k & 1 for k in range(3 * width)], bool)
                untold += sum(self.check_edge(bits.reshape(3, width), edge) for edge in EDGES)
        self.assertGreaterEqual(untold, 8)  # a border of obstacles leaves the middle

    def check_edge(self, grid, edge):
        """Whether no cell of the border tells this edge of a grid."""
        text = b"P1\n%d %d\n" % grid.shape[::-1]
        text += b"\n".join(b"".join(b"%d" % cell for cell in row) for row in grid) + b"\n"
        served = clearmap.Map(grid, edge)
        copy = copies.copied(text, None, lambda request: self.answer(served, request))
        if isinstance(copy, clearmap.Map):
            self.assertEqual(copy.edge, edge)
            np.testing.assert_array_equal(copy.grid(), grid)
            return False
        copy = copies.copied(text, None, None, "open")
        for metric in METRICS:
            told, wanted = (area.distances(metric, nearest=True) for area in (copy, served))
            np.testing.assert_array_equal(told[0], wanted[0])
            np.testing.assert_array_equal(told[1], wanted[1])
        return True

    def answer(self, served, request):
        """What a server of this map answers."""
        _, metric, x, y = request.line.split(" ")
        return served.at(int(x), int(y), metric)

    def test_wrong_dumps(self):
        for text in (b"", b"P4\n1 1\n0\n", b"P1\n0 3\n\n", b"P1\n2 2\n00\n0\n", b"P1\n1 1\n2\n",
                     b"P1\n4097 1\n" + b"0" * 4097, b"P1\n2 1\n0 1\n"):  # fmt: skip
            self.assertRaises(clearmap.WrongAnswer, copies.read_dump, text)
            with Fake(b"OK 0\n", b"OK %d\n" % len(text) + text, b"") as fake:
                with clearmap.Client(fake.port, timeout=5) as client:
                    self.assertRaises(clearmap.WrongAnswer, client.pin().map, "open")

    def test_another_answer(self):
        with Fake(b"OK 0\n", b"OK 10\nP1\n2 1\n01\n", b"OK 7 1 0\n") as fake:
            with clearmap.Client(fake.port, timeout=5) as client:
                self.assertRaises(clearmap.WrongAnswer, client.pin().map)

    def test_an_edge_for_maps_that_tell_none(self):
        """It isn't taken where a cell tells another one."""
        with Served(b"P1\n2 1\n00\n", "--edge", "wall") as server:
            with clearmap.Client(server.port) as client, client.pin() as pinned:
                self.assertEqual(pinned.map(untold="open").edge, "wall")

    def test_a_border_of_obstacles(self):
        with Served(b"P1\n2 1\n11\n") as server, clearmap.Client(server.port) as client:
            with client.pin() as pinned:
                with self.assertRaisesRegex(clearmap.ClearmapError, "name it"):
                    pinned.map()
                self.assertEqual(pinned.map("wall").edge, "wall")
                self.assertEqual(pinned.map(untold="open").edge, "open")
                self.assertRaises(ValueError, pinned.map, "none")
                with self.assertRaises(ValueError):
                    pinned.map(untold="none")
                self.assertEqual(pinned.at(0, 0), (0, (0, 0)))  # the pin goes on
            self.assertRaises(clearmap.ClearmapError, pinned.map)


if __name__ == "__main__":
    unittest.main()
