#!/usr/bin/env python3
"""Tests of shapes that are drawn: each cell against the rule in whole numbers, by a search.

They need numpy and the library. ARRAYS in the environment is how much is tried, 150 where it isn't
there.
"""
import math
import os
import unittest

import numpy as np

import clearmap
from clearmap import words

ARRAYS = int(os.environ.get("ARRAYS", "150"))
STEPS = 65536


def rounded(number):
    """A number of cells in whole steps."""
    return math.floor(number * STEPS + 0.5)


def disc_cells(size, x, y, radius):
    """The cells whose squares meet the inside of a disc, each by its nearest point."""
    width, height = size
    cx, cy, r = rounded(x), rounded(y), rounded(radius)
    found = np.zeros((height, width), bool)
    for row, column in np.ndindex(height, width):
        dx = max(column * STEPS - cx, cx - (column + 1) * STEPS, 0)
        dy = max(row * STEPS - cy, cy - (row + 1) * STEPS, 0)
        found[row, column] = dx * dx + dy * dy < r * r
    return found


def polygon_cells(size, points):
    """The cells whose squares no side of a polygon and no side of their own separates from it."""
    corners = [(rounded(x), rounded(y)) for x, y in points]
    area = sum(a[0] * b[1] - a[1] * b[0] for a, b in zip(corners, corners[1:] + corners[:1]))
    corners = corners if area > 0 else corners[::-1]
    sides = list(zip(corners, corners[1:] + corners[:1]))
    (left, right), (low, high) = ((min(n), max(n)) for n in zip(*corners))
    found = np.zeros(size[::-1], bool)
    for row, column in np.ndindex(*found.shape):
        x, y = column * STEPS, row * STEPS
        square = [(x + i * STEPS, y + j * STEPS) for i in (0, 1) for j in (0, 1)]
        meets = x < right and left < x + STEPS and y < high and low < y + STEPS
        found[row, column] = meets and all(
            any((b[0] - a[0]) * (p[1] - a[1]) > (b[1] - a[1]) * (p[0] - a[0]) for p in square)
            for a, b in sides
        )
    return found


class Shapes(unittest.TestCase):
    def drawn(self, area, name, shape, cells):
        """Draws a shape on a map and its field, and checks all cells and marks."""
        before, field = area.grid(), clearmap.Field(area)
        for paints in (True, False, True):
            for it in (area, field):
                getattr(it, ("paint_" if paints else "clear_") + name)(*shape)
            wanted = before | cells if paints else before & ~cells
            np.testing.assert_array_equal(area.grid(), wanted, f"{name} {shape}")
            self.assertEqual(field.map, area)
            np.testing.assert_array_equal(field.distances, area.distances())
            self.check_marks(area, wanted)

    def check_marks(self, area, grid):
        """Each tile and band with an obstacle has no mark, and each other one has."""
        memory = area._held.memory
        for (band, tile), mark in np.ndenumerate(
            words.marks_of(memory.cells)[:, None] >> np.arange((area.width + 63) // 64, dtype="u8")
        ):
            part = grid[64 * band : 64 * band + 64, 64 * tile : 64 * tile + 64]
            self.assertEqual(mark & np.uint64(1), not part.any())
        for band in range((area.height + 63) // 64):
            blank = not grid[64 * band : 64 * band + 64].any()
            self.assertEqual(memory.layout.blank_bands >> band & 1, blank)

    def test_discs(self):
        numbers = np.random.default_rng(15)
        area = clearmap.Map(numbers.random((70, 90)) < 0.02)
        for x, y, radius in (
            (0, 0, 1), (0.5, 0.5, 0.5), (3, 4, 1), (3, 4, 1 + 1 / STEPS), (64, 64, 1.5), (89.5, 69.5, 9),
            (3.5, 4.5, math.sqrt(0.5)), (-5, 30, 5), (-5, 30, 5.00001), (200, 30, 3), (30, -1e4, 2),
            (45, 35, 200), (1e-9, 1e-9, 1e-9), (10, 10, 1e-5), (40.25, 20.75, 1 / STEPS), (64, 10, 3),
            *(tuple(numbers.uniform(-5, 95, 2)) + (numbers.uniform(0.01, 12),) for _ in range(20)),
        ):  # fmt: skip
            self.drawn(area, "disc", (x, y, radius), disc_cells(area.size, x, y, radius))

    def test_polygons(self):
        numbers = np.random.default_rng(16)
        area = clearmap.Map(numbers.random((50, 70)) < 0.02)
        boxes = [[(2, 3), (5, 3), (5, 9), (2, 9)], [(2, 9), (5, 9), (5, 3), (2, 3)]]
        far = [(-9000, -9000), (16000, -9000), (16000, 9000)]
        for points in (
            *boxes, [(2.5, 3.5), (4.5, 3.5), (3.5, 6.25)], [(63.5, 0), (66, 2), (62, 49.9)],
            [(-9, -9), (90, -3), (40, 70)], [(-9, -9), (-3, -9), (-3, -3)], [(0.2, 0.2), (0.4, 0.2), (0.3, 0.5)],
            *(self.random_polygon(numbers) for _ in range(20)),
        ):  # fmt: skip
            self.drawn(area, "polygon", (points,), polygon_cells(area.size, points))
        self.assertRaises(ValueError, area.paint_polygon, far)  # no footprint is so large

    def random_polygon(self, numbers):
        """Corners on an ellipse, in their order."""
        middle, reach = numbers.uniform(0, 60, 2), numbers.uniform(1, 25, 2)
        turns = np.sort(numbers.choice(24, numbers.integers(3, 9), replace=False)) * math.tau / 24
        return [(middle[0] + reach[0] * math.cos(t), middle[1] + reach[1] * math.sin(t)) for t in turns]

    def test_cells(self):
        area = clearmap.Map(np.zeros((70, 130), bool))
        numbers = np.random.default_rng(17)
        for count in (0, 1, 2, 50, 5000):
            xs, ys = numbers.integers(0, 130, count), numbers.integers(0, 70, count)
            cells = np.zeros((70, 130), bool)
            cells[ys, xs] = True
            self.drawn(area, "cells", (xs, ys), cells)
            self.drawn(area, "cells", (xs.astype("u1"), ys.tolist()), cells)
        cells = np.zeros((70, 130), bool)
        cells[5, 3:9] = cells[60, 100] = True
        self.drawn(area, "cells", ([3, 4, 5, 6, 7, 8, 100], [5] * 6 + [60]), cells)

    def test_grids(self):
        numbers = np.random.default_rng(18)
        area = clearmap.Map(numbers.random((130, 200)) < 0.3)
        wanted = area.grid()
        for _ in range(max(ARRAYS // 4, 20)):
            height, width = (int(side) for side in numbers.integers(1, 80, 2))
            x, y = int(numbers.integers(200 - width)), int(numbers.integers(130 - height))
            grid = numbers.random((height, width)) < numbers.choice([0, 0.3, 1])
            area.stamp(np.uint8(x), y, grid)
            wanted[y : y + height, x : x + width] = grid
            np.testing.assert_array_equal(area.grid(), wanted)
            self.check_marks(area, wanted)

    def test_what_is_refused(self):
        area = clearmap.Map(np.eye(9, dtype=bool))
        nan, inf, line = math.nan, math.inf, [(0, 0), (1, 1), (2, 2)]
        for it in (area, clearmap.Field(area)):
            for wrong in (
                (1, 1, 0), (1, 1, -1), (nan, 1, 1), (1, inf, 1), (1, 1, nan), (1, 1, inf), (1e9, 1, 1),
                (1, 1, 1e9),
            ):  # fmt: skip
                self.assertRaises(ValueError, it.paint_disc, *wrong)
                self.assertRaises(ValueError, it.clear_disc, *wrong)
            for wrong in (
                [], [(0, 0), (1, 1)], line, [(0, 0), (4, 0), (1, 1), (0, 4)], [(0, 0), (nan, 0), (0, 4)],
                [(0, 0), (1e9, 0), (0, 4)], [(0, 0, 0)] * 3, [(0, 0), (4, 4), (4, 0), (0, 4)],
            ):  # fmt: skip
                self.assertRaises(ValueError, it.paint_polygon, wrong)
                self.assertRaises(ValueError, it.clear_polygon, wrong)
            for x, y in ((8, 0), (0, 8), (-1, 0), (2**40, 0)):
                with self.assertRaises(clearmap.Refused):
                    it.stamp(x, y, np.ones((2, 2), bool))
            self.assertRaises(TypeError, it.stamp, 0.0, 0, np.ones((2, 2), bool))
            self.assertRaises(TypeError, it.paint_cells, [0.5], [0])
            self.assertRaises(clearmap.OutOfRange, it.paint_cells, [1, 9], [1, 1])
        np.testing.assert_array_equal(area.grid(), np.eye(9, dtype=bool))

    def test_a_version_stays(self):
        """A followed version's map is drawn by none of these."""
        fixed = clearmap.FixedMap(np.eye(9, dtype=bool))
        for name, shape in (
            ("paint", (0, 0, 1, 1)), ("clear", (0, 0, 1, 1)), ("paint_cells", ([1], [2])),
            ("clear_cells", ([1], [1])), ("paint_disc", (1, 2, 1)), ("clear_disc", (1, 1, 1)),
            ("paint_polygon", ([(0, 0), (3, 0), (0, 3)],)), ("stamp", (0, 0, [[True]])),
            ("clear_polygon", ([(0, 0), (3, 0), (0, 3)],)),
        ):  # fmt: skip
            self.assertRaises(TypeError, getattr(fixed, name), *shape)
        np.testing.assert_array_equal(fixed.grid(), np.eye(9, dtype=bool))


if __name__ == "__main__":
    unittest.main()
