#!/usr/bin/env python3
"""Tests of maps that go to other threads and processes: copies, pickles and what is equal, a fork
while a map is painted, and threads that read a grid while another one writes it. They need numpy
and the library. ARRAYS in the environment is how many random maps are tried, 150 where it isn't
there.
"""
import concurrent.futures
import copy
import multiprocessing
import os
import pickle
import random
import subprocess
import sys
import unittest
from unittest import mock

import numpy as np

import clearmap
from clearmap import rows, tiles, transforms
from clearmap.grids import Memory
from clearmap.library import Bits
from clearmap.signed import NO_BANDS

ARRAYS = int(os.environ.get("ARRAYS", "150"))
EDGES = ("open", "wall")
WAYS = (
    clearmap.Map.copy,
    copy.copy,
    copy.deepcopy,
    *(lambda area, p=protocol: pickle.loads(pickle.dumps(area, p)) for protocol in range(2, 6)),
)


class Named(clearmap.Map):
    """A map that keeps more."""


def random_grid(numbers, chance):
    """A map whose last word is full, or has some columns."""
    shape = chance.choice((1, 3, 64, 65, 130)), chance.choice((1, 63, 64, 65, 128, 200))
    return numbers.random(shape) < chance.choice((0.0, 0.01, 0.5, 1.0))


class Copies(unittest.TestCase):
    def test_all_ways(self):
        """A copy is equal, answers the same, and neither changes with the other."""
        numbers, chance = np.random.default_rng(20), random.Random(20)
        for _ in range(max(ARRAYS // 5, 20)):
            grid, edge = random_grid(numbers, chance), chance.choice(EDGES)
            area = clearmap.Map(grid, edge)
            for way in WAYS:
                other = way(area)
                self.assertEqual(other, area)
                self.assertEqual((other.size, other.edge), (area.size, edge))
                np.testing.assert_array_equal(other.grid(), grid)
                np.testing.assert_array_equal(other.distances("city"), area.distances("city"))
                (other.clear if grid[0, 0] else other.paint)(0, 0, 1, 1)
                self.assertNotEqual(other, area)
                np.testing.assert_array_equal(area.grid(), grid)

    def test_fixed_maps(self):
        """The map of a version stays one that isn't painted; `copy` may be."""
        area = clearmap.FixedMap(np.eye(5, dtype=bool))
        for way in WAYS[1:]:
            other = way(area)
            self.assertIs(type(other), clearmap.FixedMap)
            self.assertRaises(TypeError, other.paint, 0, 0, 1, 1)
            self.assertEqual(other, area)
        other = area.copy()
        self.assertEqual(other, area)
        other.paint(1, 0, 2, 1)
        self.assertNotEqual(other, area)

    def test_a_subclass(self):
        """What its maps keep besides goes with them: of a deep copy and a pickle copies."""
        area = Named(np.eye(70, dtype=bool), "wall")
        area.name, area.marks = "hall", [[3, 4]]
        for way in WAYS[1:]:
            other = way(area)
            self.assertIs(type(other), Named)
            self.assertEqual((other, other.name, other.marks), (area, "hall", [[3, 4]]))
            other.paint(0, 1, 1, 2)
            self.assertNotEqual(other, area)
        self.assertIs(copy.copy(area).marks, area.marks)
        self.assertIsNot(copy.deepcopy(area).marks[0], area.marks[0])
        area.itself = area
        other = copy.deepcopy(area)
        self.assertIs(other.itself, other)
        self.assertIs(type(area.copy()), clearmap.Map)

    def test_the_row_on_top(self):
        """Copies of a map whose row 0 is the lowest are such maps."""
        area = clearmap.Map.of_occupancy([0, 100], width=1, height=2, upwards=False)
        for way in WAYS:
            self.assertTrue(way(area).is_upside_down)
            self.assertEqual(way(area), area)
        self.assertFalse(clearmap.Map(area.grid()).is_upside_down)
        self.assertNotEqual(clearmap.Map(area.grid()), area)

    def test_what_is_equal(self):
        numbers = np.random.default_rng(21)
        for width in (1, 63, 64, 65, 130):
            grid = numbers.random((7, width)) < 0.3
            area = clearmap.Map(grid)
            self.assertEqual(area, clearmap.Map(grid * np.uint8(100), low=65))
            self.assertNotEqual(area, clearmap.Map(grid, "wall"))
            self.assertNotEqual(area, clearmap.Map(grid[:-1]))
            self.assertNotEqual(area, clearmap.Map(np.pad(grid, ((0, 0), (0, 1)))))
            for x in {0, width // 2, width - 1}:
                other = grid.copy()
                other[3, x] ^= True
                self.assertNotEqual(area, clearmap.Map(other))
            for other in (None, 5, "map", grid.tolist()):
                self.assertFalse(area == other)
        self.assertRaises(TypeError, hash, area)

    def test_bits_past_the_last_column(self):
        """They are no cells: maps that differ there are equal."""
        words = np.array([[0b101], [0]], np.uint64)
        one, other = (
            clearmap.Map._of(Memory("bits", cells, 2, Bits(3, 2, 1, NO_BANDS)), "open")
            for cells in (words, words | np.uint64(1 << 3))
        )
        self.assertEqual(one, other)
        for way in WAYS:
            self.assertEqual(way(other), one)
            np.testing.assert_array_equal(way(other).grid(), [[1, 0, 1], [0, 0, 0]])

    def test_wrong_pickles(self):
        """A pickle whose words are those of another size is no map."""
        call, (kind, words, size, edge) = clearmap.Map(np.eye(5, dtype=bool)).__reduce__()
        for wrong in ((70, 5), (5, 4), (0, 5)):
            self.assertRaises(ValueError, call, kind, words, wrong, edge)
        self.assertRaises(ValueError, call, kind, words.astype(np.int64), size, edge)
        self.assertRaises(ValueError, call, kind, words, size, "none")

    def test_other_processes(self):
        """Maps go to workers that were started anew, and come back."""
        area = clearmap.Map(np.eye(70, dtype=bool), "wall")
        context = multiprocessing.get_context("spawn")
        with concurrent.futures.ProcessPoolExecutor(1, context) as pool:
            self.assertEqual(pool.submit(copy.copy, area).result(60), area)
            self.assertEqual(pool.submit(clearmap.Map.at, area, 40, 30).result(60), area.at(40, 30))


FORKS = """
import os, signal, threading, clearmap, numpy
area, done = clearmap.Map(numpy.zeros((1024, 1024), bool)), threading.Event()
def paints():
    while not done.is_set():
        area.paint(0, 0, 1024, 1024)
        area.clear(0, 0, 1024, 1024)
threading.Thread(target=paints).start()
wrong = 0
for _ in range(20):
    child = os.fork()
    if child == 0:
        signal.alarm(20)  # else one that waits for good stays
        cells = area.grid()
        area.paint(5, 5, 6, 6)
        threads = [threading.Thread(target=area.paint, args=(x, 7, x + 1, 8)) for x in range(4)]
        for thread in threads: thread.start()
        for thread in threads: thread.join()
        drawn = area.grid()
        whole = (cells == cells[0, 0]).all() and drawn[5, 5] and drawn[7, :4].all()
        os._exit(0 if whole else 1)
    wrong += os.waitpid(child, 0)[1] != 0
done.set()
print("wrong", wrong)
"""


class Forks(unittest.TestCase):
    @unittest.skipUnless(hasattr(os, "fork"), "this system has no fork")
    def test_while_a_map_is_painted(self):
        """The child paints too: it doesn't wait for a thread that only the parent has."""
        said = subprocess.run(
            [sys.executable, "-W", "ignore", "-c", FORKS],
            env={**os.environ, "PYTHONPATH": os.pathsep.join(sys.path)},
            capture_output=True,
            text=True,
            timeout=500,
        )
        self.assertEqual((said.stdout, said.stderr), ("wrong 0\n", ""))


class Threads(unittest.TestCase):
    def test_a_grid_in_place(self):
        """All threads answer for the cells as they are when the call starts, though a grid is
        cleared after the first band of rows."""
        grid = np.zeros((40, 30), np.uint8)

        def in_turn(height, threads, work):
            work(0, height // 2)
            grid[:] = 255 - grid
            work(height // 2, height)

        for module, call in (
            (rows, lambda: clearmap.distances(grid, threads=2, low=1)),
            (rows, lambda: clearmap.distances(grid, nearest=True, threads=2, low=1)[0]),
            (tiles, lambda: clearmap.capped_distances(grid, 900, threads=2, low=1)),
            (transforms, lambda: clearmap.distance_transform_edt(grid, threads=2)),
            (transforms, lambda: clearmap.distance_transform_cdt(grid, "taxicab", threads=2)),
        ):
            grid[:], grid[0, 0], grid[39, 20] = 0, 255, 255
            wanted = call()
            with mock.patch.object(module, "in_bands", in_turn):
                np.testing.assert_array_equal(call(), wanted)


if __name__ == "__main__":
    unittest.main()
