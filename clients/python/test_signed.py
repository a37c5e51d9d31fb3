#!/usr/bin/env python3
"""Tests of signed distances and of the directions away from obstacles: against a search of all
cells, and scipy where it is installed. They need numpy and the library. ARRAYS in the environment
is how many random arrays are tried, 150 where it isn't there.
"""
import importlib.util
import math
import os
import unittest

import numpy as np

import clearmap

ARRAYS = int(os.environ.get("ARRAYS", "150"))
HAS_SCIPY = importlib.util.find_spec("scipy") is not None
METRICS = ("euclid2", "city", "chess")
EDGES = ("open", "wall")


def random_grid(numbers, longest=14):
    """A map: blank, sparse, dense or full."""
    height, width = numbers.integers(1, longest, 2)
    return numbers.random((height, width)) < numbers.choice([0.0, 0.02, 0.1, 0.5, 0.9, 1.0])


def ways(cells, width, height):
    """Columns and rows from each of these cells to each cell of a map: (rows, columns, cells)."""
    xs, ys = np.array(cells, int).reshape(-1, 2).T
    rows, columns = np.mgrid[:height, :width]
    return columns[:, :, None] - xs, rows[:, :, None] - ys


def lengths(metric, dx, dy):
    """Distances in cells."""
    if metric == "euclid2":
        return np.sqrt(dx * dx + dy * dy)
    return 1.0 * (abs(dx) + abs(dy) if metric == "city" else np.maximum(abs(dx), abs(dy)))


def least(metric, cells, shape):
    """Each cell's distance to the nearest of some cells, by a search of all."""
    dx, dy = ways(cells, shape[1], shape[0])
    return lengths(metric, dx, dy).min(axis=2, initial=np.inf)


def cells_of(grid, edge="open"):
    """Columns and rows of the obstacles, with the frame's."""
    found = [(x, y) for y, x in np.argwhere(grid)]
    height, width = grid.shape
    if edge == "wall":
        found += [(x, y) for x in range(-1, width + 1) for y in (-1, height)]
        found += [(x, y) for x in (-1, width) for y in range(height)]
    return found


def searched(grid, metric, edge):
    """The signed distances by a search."""
    free = least(metric, cells_of(grid, edge), grid.shape)
    return np.where(grid, -least(metric, cells_of(~grid), grid.shape), free)


class Signed(unittest.TestCase):
    def test_against_a_search(self):
        numbers = np.random.default_rng(1)
        for _ in range(ARRAYS):
            grid = random_grid(numbers)
            metric, edge = numbers.choice(METRICS), numbers.choice(EDGES)
            wanted = searched(grid, metric, edge)
            threads = int(numbers.integers(1, 5))
            told = clearmap.signed_distances(grid, metric, edge, threads=threads)
            self.assertEqual(told.dtype, np.float64)
            np.testing.assert_array_equal(told, wanted)
            area = clearmap.Map(grid, edge)
            np.testing.assert_array_equal(area.signed_distances(metric, threads=threads), wanted)
            in_metres = clearmap.signed_distances(grid, metric, edge, 0.05)
            np.testing.assert_array_equal(in_metres, wanted * 0.05)

    @unittest.skipUnless(HAS_SCIPY, "there is no scipy")
    def test_against_scipy(self):
        from scipy import ndimage

        numbers = np.random.default_rng(2)
        for shape in ((200, 130), (64, 64), (1, 500), (333, 1)):
            for share in (0.01, 0.5, 0.99):
                grid = numbers.random(shape) < share
                grid[0, 0], grid[-1, -1] = True, False
                free, blocked = map(ndimage.distance_transform_edt, (~grid, grid))
                told = clearmap.signed_distances(grid.astype(np.int16), low=1)
                np.testing.assert_array_equal(told, free - blocked)
                steps = [ndimage.distance_transform_cdt(part, "taxicab") for part in (~grid, grid)]
                told = clearmap.signed_distances(grid, "city", threads=3)
                np.testing.assert_array_equal(told, np.subtract(*steps))

    def test_what_is_told_of_maps_of_one_kind(self):
        blank, full = np.zeros((3, 5), bool), np.ones((3, 5), bool)
        for metric in METRICS:
            told = clearmap.signed_distances(blank, metric, resolution=2)
            self.assertTrue((told == np.inf).all())
            for edge in EDGES:
                told = clearmap.signed_distances(full, metric, edge, threads=2)
                self.assertTrue((told == -np.inf).all())
        told = clearmap.signed_distances(blank, edge="wall", resolution=0.5)
        self.assertEqual(told[1].tolist(), [0.5, 1, 1, 1, 0.5])

    def test_largest(self):
        grid = np.zeros((4096, 4096), bool)
        grid[0, 0] = True
        told = clearmap.signed_distances(grid, threads=2)
        self.assertEqual((told[0, 0], told[4095, 4095]), (-1, math.sqrt(2 * 4095**2)))

    def test_refused(self):
        grid = np.zeros((3, 5), bool)
        for size in (0, -1, math.nan, math.inf):
            self.assertRaisesRegex(
                ValueError, "a cell of", clearmap.signed_distances, grid, resolution=size
            )
        for call in (clearmap.signed_distances, clearmap.gradients):
            self.assertRaises(ValueError, call, grid, "l2")
            self.assertRaises(ValueError, call, grid, "city", "none")
            self.assertRaises(ValueError, call, grid, threads=0)
            self.assertRaises(ValueError, call, grid.astype(int))
            self.assertRaises(ValueError, call, np.zeros((0, 3), bool))


class Gradients(unittest.TestCase):
    def test_against_a_search(self):
        """Each direction is the unit vector from the obstacle that `distances` names, and that is
        one of the least distance."""
        numbers = np.random.default_rng(3)
        for _ in range(ARRAYS):
            grid = random_grid(numbers)
            metric, edge = str(numbers.choice(METRICS)), str(numbers.choice(EDGES))
            threads = int(numbers.integers(1, 5))
            told = clearmap.gradients(grid, metric, edge, threads=threads)
            wanted = self.wanted(grid, metric, edge)
            np.testing.assert_array_equal(told, wanted)
            area = clearmap.Map(grid, edge)
            np.testing.assert_array_equal(area.gradients(metric, threads=threads), wanted)
            for y, x in np.ndindex(*grid.shape):
                way = area.gradient(x, y, metric)
                self.assertEqual(way or (0, 0), tuple(told[y, x]))
                self.assertEqual(way is None, not told[y, x].any())
            inside = clearmap.gradients(grid, metric, edge, inside=True, threads=threads)
            to_free = -self.wanted(~grid, metric, "open")
            np.testing.assert_array_equal(inside, np.where(grid[:, :, None], to_free, wanted))

    def wanted(self, grid, metric, edge):
        """The directions by the nearest obstacle of each cell, which is looked for here."""
        cells = cells_of(grid, edge)
        found = np.zeros((*grid.shape, 2))
        for y, x in np.ndindex(*grid.shape) if cells else ():
            if not grid[y, x]:
                near = min(cells, key=lambda c: self.rank(metric, x - c[0], y - c[1], c))
                dx, dy = x - near[0], y - near[1]
                found[y, x] = dx / math.sqrt(dx * dx + dy * dy), dy / math.sqrt(dx * dx + dy * dy)
        return found

    def rank(self, metric, dx, dy, cell):
        """The map's rule: the least distance, then the least column, the fewest rows, the upper."""
        return lengths(metric, np.int64(dx), np.int64(dy)), cell[0], abs(dy), cell[1]

    def test_follows_the_distance(self):
        """A step of half a cell along the direction leads away from the obstacle."""
        grid = np.random.default_rng(4).random((40, 60)) < 0.02
        squares, near = clearmap.distances(grid, nearest=True)
        for inside in (False, True):
            way = clearmap.gradients(grid, inside=inside)
            rows, columns = np.mgrid[:40, :60]
            before = np.hypot(columns - near[..., 0], rows - near[..., 1])
            after = np.hypot(
                columns + 0.5 * way[..., 0] - near[..., 0], rows + 0.5 * way[..., 1] - near[..., 1]
            )
            np.testing.assert_allclose((after - before)[~grid], 0.5)
            np.testing.assert_allclose(np.hypot(*way.T).T[~grid], 1)

    def test_one_cell(self):
        grid = np.zeros((9, 9), bool)
        area = clearmap.Map(grid)
        self.assertIsNone(area.gradient(4, 4))
        area.paint(1, 0, 2, 1)
        self.assertEqual(area.gradient(4, 4), (0.6, 0.8))
        self.assertIsNone(area.gradient(1, 0))
        self.assertEqual(area.gradient(np.int16(1), np.uint8(3)), (0, 1))
        self.assertRaises(clearmap.OutOfRange, area.gradient, 9, 0)
        self.assertRaises(TypeError, area.gradient, 0.5, 0)
        self.assertRaises(ValueError, area.gradient, 0, 0, "l2")


if __name__ == "__main__":
    unittest.main()
