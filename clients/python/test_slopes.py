#!/usr/bin/env python3
"""Tests of distances and gradients at points in metres, against the same surface in fractions.

They need numpy and the library. ARRAYS in the environment is how much is tried, 150 where it isn't
there.
"""
import math
import os
import unittest
from fractions import Fraction

import numpy as np

import clearmap

ARRAYS = int(os.environ.get("ARRAYS", "150"))
HALF, NONE = Fraction(1, 2), clearmap.NO_OBSTACLE
DIGITS = 40


def root(square):
    """The root of a whole number, to 40 digits."""
    return Fraction(math.isqrt(square * 100**DIGITS), 10**DIGITS)


def middle_of(squares, edge, column, row):
    """The distance of a middle in cells: of one off the map as of the nearest on it, or 0 on the
    frame of a wall."""
    height, width = squares.shape
    x, y = min(max(column, 0), width - 1), min(max(row, 0), height - 1)
    return Fraction(0) if edge == "wall" and (x, y) != (column, row) else root(int(squares[y, x]))


def surface(squares, edge, frame, x, y):
    """Distance, gradient to the right and upwards, and the distance of the point's own cell."""
    across, down = frame.place((x, y))
    left, top = math.floor(across - HALF), math.floor(down - HALF)
    f, g = across - HALF - left, down - HALF - top
    a, b, c, d = (
        middle_of(squares, edge, left + i, top + j) for j in (0, 1) for i in (0, 1)
    )
    value = (1 - g) * ((1 - f) * a + f * b) + g * ((1 - f) * c + f * d)
    right, downwards = (1 - g) * (b - a) + g * (d - c), (1 - f) * (c - a) + f * (d - b)
    return value * frame.resolution, right, -downwards


class Surfaces(unittest.TestCase):
    def test_in_fractions(self):
        """Points between middles, on lines and corners of cells, and at the map's border."""
        numbers = np.random.default_rng(4)
        for turn in range(max(ARRAYS // 3, 20)):
            width, height = (int(side) for side in numbers.integers(1, 30, 2))
            grid = numbers.random((height, width)) < numbers.choice([0.01, 0.1, 0.5, 1])
            grid[numbers.integers(height), numbers.integers(width)] = True
            edge = ("open", "wall")[turn % 2]
            frame = clearmap.Frame(width, height, *((0.25, -3, 2), (0.05, 0.1, -7.3))[turn % 2])
            size, x0, y0 = (float(n) for n in (frame.resolution, frame.origin_x, frame.origin_y))
            xs = x0 + size * (numbers.integers(0, 4 * width, 40) / 4 + (turn % 4 > 1) * 0.11)
            ys = y0 + size * (numbers.integers(0, 4 * height, 40) / 4 + (turn % 4 > 1) * 0.07)
            area = clearmap.Map(grid, edge)
            squares = area.distances()
            for told in (
                area.distance_and_gradient(frame, xs, ys),
                clearmap.Field(area).distance_and_gradient(frame, xs, ys),
            ):
                self.check(told, squares, edge, frame, xs, ys, exact=turn % 2 == 0)

    def check(self, told, squares, edge, frame, xs, ys, exact):
        """Where cells of 1/4 m are computed exactly, points on lines have their own square; with
        others rounding may give them the next one, whose surface is the same there."""
        for index, point in enumerate(zip(xs.tolist(), ys.tolist())):
            try:
                cell = frame.cell(point)
            except clearmap.RosError:  # rounded off the map
                continue
            distance, right, up = surface(squares, edge, frame, *point)
            self.assertAlmostEqual(told.distances[index], float(distance), delta=1e-9)
            if exact:
                self.assertAlmostEqual(told.gradients[index, 0], float(right), delta=1e-9)
                self.assertAlmostEqual(told.gradients[index, 1], float(up), delta=1e-9)
                square = int(squares[cell[1], cell[0]])
                free = max((root(square) - root(2)) * frame.resolution, Fraction(0))
                self.assertLessEqual(told.free[index], free)
                self.assertAlmostEqual(told.free[index], frame.free_metres(square), delta=1e-8)

    def test_a_slope_by_small_steps(self):
        """The gradient is that of the distances, and these are near the point's own."""
        numbers = np.random.default_rng(5)
        grid = numbers.random((40, 50)) < 0.02
        frame, area = clearmap.Frame(50, 40, 0.1, 0, 0), clearmap.Map(grid, "wall")
        xs, ys = 0.2 + 4.6 * numbers.random(300), 0.2 + 3.6 * numbers.random(300)
        here = area.distance_and_gradient(frame, xs, ys)
        step = 1e-7
        right = area.distance_and_gradient(frame, xs + step, ys).distances
        up = area.distance_and_gradient(frame, xs, ys + step).distances
        self.assertTrue((abs((right - here.distances) / step - here.gradients[:, 0]) < 1e-5).all())
        self.assertTrue((abs((up - here.distances) / step - here.gradients[:, 1]) < 1e-5).all())
        spots = np.argwhere(np.pad(grid, 1, constant_values=True)) - 1
        gaps = np.hypot(*(np.stack((40 - ys / 0.1, xs / 0.1))[:, :, None] - spots.T[:, None] - 0.5))
        own = 0.1 * gaps.min(axis=1)
        self.assertTrue((abs(here.distances - own) <= 0.0711).all())
        self.assertTrue((here.free <= own).all())

    def test_many_as_few(self):
        """By all distances of the map as by single queries."""
        grid = np.random.default_rng(6).random((90, 70)) < 0.01
        frame, area = clearmap.Frame(70, 90, 0.5, -1, -2), clearmap.Map(grid)
        xs, ys = np.meshgrid(np.linspace(-1, 33.9, 60), np.linspace(-2, 42.9, 50))
        told = area.distance_and_gradient(frame, xs, ys)
        self.assertEqual([part.shape for part in told], [(50, 60), (50, 60, 2), (50, 60)])
        for index in ((0, 0), (49, 59), (20, 31)):
            alone = area.distance_and_gradient(frame, xs[index], ys[index])
            for part, one in zip(told, alone):
                np.testing.assert_array_equal(part[index], one)
        for part, one in zip(told, area.distance_and_gradient(frame, xs[0], ys[:, :1])):
            np.testing.assert_array_equal(part, one)

    def test_a_corridor(self):
        """By hand: obstacles left and right of three columns of 1 m."""
        grid = np.array([[1, 0, 0, 0, 1]] * 3, bool)
        frame, area = clearmap.Frame(5, 3, 1, 0, 0), clearmap.Map(grid)
        told = area.distance_and_gradient(frame, [0.5, 1, 1.5, 2, 2.5, 3, 0.2, 4.9], 1.5)
        self.assertEqual(told.distances.tolist(), [0, 0.5, 1, 1.5, 2, 1.5, 0, 0])
        self.assertEqual(told.gradients[:, 0].tolist(), [1, 1, 1, 1, -1, -1, 0, 0])
        self.assertEqual(told.gradients[:, 1].tolist(), [0] * 8)
        self.assertEqual((told.free == 0).tolist(), [True] * 3 + [False] * 2 + [True] * 3)

    def test_no_obstacle(self):
        frame = clearmap.Frame(4, 3, 0.1, 0, 0)
        for area in (clearmap.Map(np.zeros((3, 4), bool)), clearmap.Field(clearmap.Map(np.zeros((3, 4), bool)))):
            told = area.distance_and_gradient(frame, [0.1, 0.2], 0.1)
            self.assertEqual(told.distances.tolist(), [math.inf] * 2)
            self.assertEqual(told.free.tolist(), [math.inf] * 2)
            self.assertEqual(told.gradients.tolist(), [[0, 0]] * 2)
        self.assertEqual(area.distance_and_gradient(frame, [], []).gradients.shape, (0, 2))

    def test_what_is_refused(self):
        area, frame = clearmap.Map(np.eye(4, dtype=bool)), clearmap.Frame(4, 4, 0.1, 0, 0)
        for x, y in ((-0.01, 0.1), (0.4, 0.1), (0.1, 0.41), (0.1, -1e-9)):
            with self.assertRaisesRegex(clearmap.RosError, "the point .* isn't on the map"):
                area.distance_and_gradient(frame, [0.1, x], [0.1, y])
        for wrong in (math.nan, math.inf, [math.nan]):
            self.assertRaises(ValueError, area.distance_and_gradient, frame, wrong, 0.1)
        for wrong in ("0.1", None, 1j, np.ma.array([0.1])):
            self.assertRaises(TypeError, area.distance_and_gradient, frame, wrong, 0.1)
        other = clearmap.Frame(5, 4, 0.1, 0, 0)
        self.assertRaises(clearmap.RosError, area.distance_and_gradient, other, 0.1, 0.1)
        low = clearmap.Map.of_occupancy([0] * 16, width=4, height=4, upwards=False)
        self.assertRaises(clearmap.RosError, low.distance_and_gradient, frame, 0.1, 0.1)
        self.assertRaises(ValueError, clearmap.Field(area, "city").distance_and_gradient, frame, 0.1, 0.1)


if __name__ == "__main__":
    unittest.main()
