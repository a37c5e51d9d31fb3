#!/usr/bin/env python3
"""Tests of costs as costmap_2d inflates them: cell by cell against its formula, in the floats that
it computes in and in fractions.

They need numpy and the library. ARRAYS in the environment is how much is tried, 150 where it isn't
there.
"""
import math
import os
import unittest
from decimal import Decimal, getcontext

import numpy as np

import clearmap
from clearmap import inflation

ARRAYS = int(os.environ.get("ARRAYS", "150"))
SETTINGS = (  # inscribed, radius, scaling, resolution
    (0.3, 0.55, 10.0, 0.05), (0.15, 0.55, 3.0, 0.05), (0.0, 0.0, 1.0, 0.05), (0.0, 1.0, 0.0, 0.1),
    (0.2, 0.2, 5.0, 0.05), (1.0, 3.0, 0.5, 0.25), (0.46, 0.75, 258.0, 0.02), (0.325, 1.75, 2.58, 0.1),
    (0.1, 0.1001, 1e-9, 0.1), (5.0, 5.0, 1.0, 1.0), (0.0, 40.0, 0.01, 1.0), (0.3, 0.55, 1e300, 0.05),
)  # fmt: skip


def cost_by_floats(square, inscribed, radius, scaling, resolution):
    """computeCost of costmap_2d's inflation layer, and where it ends."""
    distance = math.sqrt(square)
    if distance > math.ceil(radius / resolution):
        return 0
    if distance == 0:
        return 254
    if distance * resolution <= inscribed:
        return 253
    return int(252 * math.exp(-1.0 * scaling * (distance * resolution - inscribed)))


def cost_exactly(square, *numbers):
    """The same rule without rounding, of the floats as they are: a cost, or None so close to
    another that floats may have that one."""
    getcontext().prec = 60
    inscribed, radius, scaling, resolution = map(Decimal, numbers)
    distance = Decimal(square).sqrt()
    if distance > math.ceil(numbers[1] / numbers[3]):
        return 0
    if distance == 0:
        return 254
    over = distance * resolution - inscribed
    if abs(over) < Decimal("1e-12"):
        return None
    exact = 252 * (-scaling * over).exp() if over > 0 else Decimal(253)
    is_close = abs(exact - round(exact)) < Decimal("1e-9") and round(exact) > 0
    return None if is_close and over > 0 else int(exact)


class Costs(unittest.TestCase):
    def test_the_table(self):
        for numbers in SETTINGS:
            table = inflation.cost_table(*numbers)
            self.assertTrue(table[-1] == 0 and (len(table) == 2 or table[-2] != 0 or len(table) < 3))
            unsure = 0
            for square in range(len(table) + 99):
                told = int(table[min(square, len(table) - 1)])
                self.assertEqual(told, cost_by_floats(square, *numbers), (square, numbers))
                exact = cost_exactly(square, *numbers)
                unsure += exact is None
                self.assertIn(exact, (told, None), (square, numbers))
            self.assertLessEqual(unsure, len(table) if numbers[2] < 1e-6 else 3, numbers)

    def test_each_cell(self):
        numbers = np.random.default_rng(3)
        for turn in range(max(ARRAYS // 3, 20)):
            grid = numbers.random(numbers.integers(1, 40, 2)) < numbers.choice([0, 0.01, 0.1, 1])
            settings, edge = SETTINGS[turn % len(SETTINGS)], ("open", "wall")[turn % 2]
            words = dict(zip(("inscribed", "radius", "scaling", "resolution"), settings))
            squares = clearmap.distances(grid, edge=edge)
            each = [cost_by_floats(square, *settings) for square in squares.ravel().tolist()]
            wanted = np.array(each, np.uint8).reshape(grid.shape)
            costs = np.where(grid, 254, numbers.integers(0, 253, grid.shape)).astype(np.uint8)
            for told in (
                clearmap.inflate(grid, edge=edge, **words),
                clearmap.inflate(grid, edge=edge, threads=3, **words),
                clearmap.inflate(np.asfortranarray(costs), edge=edge, low=253, **words),
                clearmap.inflate(grid.astype(float), edge=edge, low=1, **words),
                clearmap.inflate(clearmap.Map(grid, edge), **words),
                clearmap.inflate(clearmap.Map(grid, edge), threads=2, **words),
            ):
                self.assertEqual(told.dtype, np.uint8)
                np.testing.assert_array_equal(told, wanted)

    def test_three_cells_of_a_twentieth(self):
        """Floats have 3 * 0.05 above 0.15, and costmap_2d with them."""
        table = inflation.cost_table(0.15, 0.3, 1.0, 0.05)
        self.assertEqual(table[[4, 8, 9]].tolist(), [253, 253, 252])

    def test_the_largest(self):
        """A radius over the whole of the largest map, with obstacles and without."""
        words = {"inscribed": 0, "radius": 1e9, "scaling": 0, "resolution": 1}
        grid = np.zeros((4096, 4096), bool)
        self.assertFalse(clearmap.inflate(grid, **words).any())
        grid[0, 0] = True
        told = clearmap.inflate(grid, threads=4, **words)
        self.assertEqual((told[0, 0], told[-1, -1], told.min()), (254, 252, 252))

    def test_what_is_refused(self):
        grid = np.zeros((3, 3), bool)
        usual = {"inscribed": 0.3, "radius": 0.55, "scaling": 10, "resolution": 0.05}
        for wrong in (
            {"inscribed": -0.1}, {"inscribed": math.nan}, {"radius": math.inf}, {"scaling": -1},
            {"resolution": 0}, {"resolution": -0.05}, {"resolution": math.nan}, {"radius": 0.2},
            {"edge": "none"}, {"threads": 0}, {"low": 2},
        ):  # fmt: skip
            with self.assertRaises(ValueError, msg=wrong):
                clearmap.inflate(grid, **{**usual, **wrong})
        for wrong in ({"edge": "open"}, {"low": 1}, {"high": 1}, {"unknown": 1}):
            with self.assertRaises(TypeError, msg=wrong):
                clearmap.inflate(clearmap.Map(grid), **{**usual, **wrong})
        self.assertRaises(TypeError, clearmap.inflate, np.ma.array(grid), **usual)
        self.assertRaises(TypeError, clearmap.inflate, grid, 0.3, 0.55, 10, 0.05)
        self.assertRaises(ValueError, clearmap.inflate, np.zeros((3, 3)), **usual)


if __name__ == "__main__":
    unittest.main()
