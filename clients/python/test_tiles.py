#!/usr/bin/env python3
"""Tests of capped distances: tile by tile, against the whole array by scipy and by the library.

They need numpy and the library; scipy is compared with where it is installed.
"""
import importlib.util
import random
import unittest

import numpy as np

import clearmap
from clearmap import tiles

HAS_SCIPY = importlib.util.find_spec("scipy") is not None
METRICS = ("euclid2", "city", "chess")
EDGES = ("open", "wall")


def capped(told, cap):
    """Distances of a whole array, as they are told up to a cap."""
    return np.where(told <= cap, told, clearmap.FARTHER).astype(np.uint32)


def by_scipy(obstacles, metric, edge):
    """Distances of a whole array of any size. A wall is a row and a column of obstacles more at
    each side."""
    from scipy import ndimage

    free = np.pad(~obstacles, 1, constant_values=edge == "open")
    if free.all():
        return np.full(obstacles.shape, clearmap.NO_OBSTACLE, np.int64)
    if metric == "euclid2":
        found = np.rint(ndimage.distance_transform_edt(free) ** 2).astype(np.int64)
    else:
        name = {"city": "taxicab", "chess": "chessboard"}[metric]
        found = ndimage.distance_transform_cdt(free, name).astype(np.int64)
    return found[1:-1, 1:-1]


def cap_of(metric, reach):
    """A cap that reaches over this many cells, and with squares over a part of one more."""
    return reach * reach + reach if metric == "euclid2" else reach


class Small(unittest.TestCase):
    """Small tiles, against `distances` of the whole array."""

    def test_each_tile_size(self):
        numbers, chance = np.random.default_rng(3), random.Random(3)
        told_farther = 0
        for _ in range(60):
            shape = tuple(numbers.integers(1, 70, 2))
            grid = (numbers.random(shape) < chance.choice((0, 0.002, 0.02, 0.3, 1))) * 90
            for metric in METRICS:
                edge, cap = chance.choice(EDGES), cap_of(metric, chance.randrange(25))
                words = {"low": 65, "threads": chance.choice((1, 3))}
                wanted = capped(clearmap.distances(grid, metric, edge, **words), cap)
                side = chance.choice((5, 7, 16, 64, None))
                told = clearmap.capped_distances(grid, cap, metric, edge, tile=side, **words)
                np.testing.assert_array_equal(told, wanted)
                self.assertEqual(told.dtype, np.uint32)
                told_farther += (told == clearmap.FARTHER).any()
        self.assertGreater(told_farther, 50)

    def test_an_obstacle_at_the_cap(self):
        """One obstacle in another tile, at the cap and one cell beyond, from each side."""
        for metric in METRICS:
            for x, y in ((40, 20), (0, 20), (20, 40), (20, 0)):
                grid = np.zeros((41, 41), bool)
                grid[y, x] = True
                for reach in (19, 20):
                    cap = reach * reach if metric == "euclid2" else reach
                    told = clearmap.capped_distances(grid, cap, metric, tile=10)[20, 20]
                    wanted = cap if reach == 20 else clearmap.FARTHER
                    self.assertEqual(told, wanted)

    def test_tiles_of_one_cell(self):
        grid = np.random.default_rng(2).random((11, 13)) < 0.05
        for metric in METRICS:
            told = clearmap.capped_distances(grid, 9, metric, "wall", tile=1)
            wanted = capped(clearmap.distances(grid, metric, "wall"), 9)
            np.testing.assert_array_equal(told, wanted)

    def test_corners_of_squares(self):
        """A cap that is no square of a whole number: what lies aslant counts by its square."""
        grid = np.zeros((30, 30), bool)
        grid[15, 15] = True
        for cap in range(60):
            told = clearmap.capped_distances(grid, cap, tile=7)
            np.testing.assert_array_equal(told, capped(clearmap.distances(grid), cap))

    def test_grids_as_of_distances(self):
        grid = np.zeros((20, 30), np.int8)
        grid[3, 4], grid[9, 9] = 100, -1
        wanted = capped(clearmap.distances(grid, low=65), 50)
        for laid in (grid, np.asfortranarray(grid), grid.astype(float), grid[::-1][::-1]):
            told = clearmap.capped_distances(laid, 50, low=65, tile=7)
            np.testing.assert_array_equal(told, wanted)
        blank = clearmap.capped_distances(np.zeros((5, 6), bool), 3)
        self.assertTrue((blank == clearmap.FARTHER).all())
        self.assertGreater(clearmap.FARTHER, tiles.LARGEST_REACH**2)
        self.assertNotEqual(clearmap.FARTHER, clearmap.NO_OBSTACLE)

    def test_what_is_refused(self):
        grid = np.zeros((20, 30), bool)
        for error, cap, words in (
            (ValueError, -1, {}),
            (ValueError, 1025, {"metric": "city"}),
            (ValueError, 1024 * 1024 + 1, {}),
            (TypeError, 2.5, {}),
            (ValueError, 4, {"tile": 0}),
            (ValueError, 4, {"tile": 4093}),
            (TypeError, 4, {"tile": 9.5}),
            (ValueError, 4, {"metric": "far"}),
            (ValueError, 4, {"edge": "none"}),
            (ValueError, 4, {"threads": 0}),
        ):
            self.assertRaises(error, clearmap.capped_distances, grid, cap, **words)
        self.assertRaises(ValueError, clearmap.capped_distances, np.zeros((0, 9), bool), 4)
        self.assertRaises(ValueError, clearmap.capped_distances, np.zeros(9, bool), 4)
        self.assertRaises(ValueError, clearmap.capped_distances, np.zeros((3, 3)), 4)
        unknown = np.zeros((9, 5000))
        unknown[-1, -1] = np.nan
        self.assertRaises(ValueError, clearmap.capped_distances, unknown, 4, low=1)


@unittest.skipUnless(HAS_SCIPY, "there is no scipy")
class Large(unittest.TestCase):
    """Sides over 4096, against the whole array by scipy."""

    def test_against_scipy(self):
        numbers = np.random.default_rng(4)
        for turn, shape in enumerate(((4097, 40), (40, 4097), (30, 9001), (5000, 20))):
            obstacles = numbers.random(shape) < (0.0004, 0.01)[turn % 2]
            for metric in METRICS:
                for edge in EDGES:
                    whole = by_scipy(obstacles, metric, edge)
                    for reach in (0, 300):
                        cap = cap_of(metric, reach)
                        told = clearmap.capped_distances(
                            obstacles, cap, metric, edge, threads=turn % 2 + 1
                        )
                        np.testing.assert_array_equal(told, capped(whole, cap))

    def test_both_sides_over(self):
        obstacles = np.zeros((4110, 4120), bool)
        spots = np.random.default_rng(5).integers(0, 4110, (40, 2))
        obstacles[spots[:, 0], spots[:, 1]] = True
        told = clearmap.capped_distances(obstacles, 300 * 300)
        np.testing.assert_array_equal(told, capped(by_scipy(obstacles, "euclid2", "open"), 90000))

    def test_the_greatest_cap(self):
        obstacles = np.zeros((4500, 3), bool)
        obstacles[0, 1] = obstacles[4499, 0] = True
        for metric in METRICS:
            cap = tiles.LARGEST_REACH ** (2 if metric == "euclid2" else 1)
            told = clearmap.capped_distances(obstacles, cap, metric)
            np.testing.assert_array_equal(told, capped(by_scipy(obstacles, metric, "open"), cap))
            self.assertEqual(told[tiles.LARGEST_REACH, 1], cap)


if __name__ == "__main__":
    unittest.main()
