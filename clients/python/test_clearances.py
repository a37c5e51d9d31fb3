#!/usr/bin/env python3
"""Tests of clearances of footprints, at a pose and along a way, against a model.

They need numpy and the library. ARRAYS in the environment is how many random maps are tried, 150
where it isn't there.
"""
import math
import os
import random
import unittest
from fractions import Fraction

import numpy as np

import clearmap
from clearance_model import (
    FINE, between, cases, cell_box, corners_of, is_root, model_square, moved, sampled_way,
    true_corners,
)  # fmt: skip
from clearmap import gaps

ARRAYS = int(os.environ.get("ARRAYS", "150"))
SQUARE = [(-1, -1), (1, -1), (1, 1), (-1, 1)]


class Poses(unittest.TestCase):
    def test_against_the_model(self):
        told = []
        for grid, edge, resolution, points, asked in cases(random.Random(1), 2 * ARRAYS):
            area, robot = clearmap.Map(grid, edge), clearmap.Footprint(points, resolution)
            for pose in asked[:4]:
                found = robot.clearance(area, *pose)
                square = model_square(grid, edge, corners_of(robot, points, resolution, pose))
                if square is None:
                    self.assertEqual(found, math.inf)
                    continue
                scale = Fraction(str(resolution))
                less = moved(points, resolution, pose) * scale
                what = edge, points, pose, found, float(square)
                self.assertTrue(is_root(found, square * scale**2, less), what)
                if robot.hits(area, *pose):
                    self.assertEqual(found, 0)
                told.append(found)
        self.assertGreater(sum(found > 0 for found in told), ARRAYS // 2)
        self.assertGreater(sum(found == 0 for found in told), ARRAYS // 2)

    def test_wide_maps(self):
        """Rows of several words, with obstacles on both sides of the robot and of words' ends."""
        chance = random.Random(6)
        for _ in range(max(ARRAYS // 5, 4)):
            grid = np.zeros((chance.randint(1, 90), chance.randint(65, 300)), bool)
            height, width = grid.shape
            for _ in range(chance.randint(1, 12)):
                grid[chance.randrange(height), chance.choice((0, 63, 64, 127, 128, width - 1))
                     if chance.random() < 0.3 and width > 128 else chance.randrange(width)] = True
            points = [(-4, -1.5), (3, -2), (5, 0.25), (2, 2)]
            area, robot = clearmap.Map(grid), clearmap.Footprint(points)
            for _ in range(4):
                pose = chance.uniform(0, width), chance.uniform(0, height), chance.uniform(-4, 4)
                square = model_square(grid, "open", corners_of(robot, points, 1, pose))
                found, less = robot.clearance(area, *pose), moved(points, 1, pose)
                self.assertTrue(is_root(found, square, less), pose)

    def test_never_too_much(self):
        """No clearance is more than that of the polygon as it is given, which isn't on steps, nor
        is one of a way; and none is less by more than 1/8192 of a cell."""
        tight = 0
        for grid, edge, resolution, points, asked in cases(random.Random(8), ARRAYS):
            area, robot = clearmap.Map(grid, edge), clearmap.Footprint(points, resolution)
            for pose in asked[:3]:
                corners = true_corners(points, resolution, pose)
                square = model_square(grid, edge, corners, FINE)
                if square is None:
                    continue
                true = math.sqrt(square)
                found = robot.clearance(area, *pose) / resolution
                self.assertLessEqual(found, true + 1e-10, (edge, points, pose))
                self.assertGreaterEqual(found, true - 1 / 8192 - 1e-10, (edge, points, pose))
                along = robot.clearance_along(area, [pose]).clearance / resolution
                self.assertLessEqual(along, true + 1e-10, (edge, points, pose))
                tight += found > 0
        self.assertGreater(tight, ARRAYS // 2)

    def test_by_hand(self):
        grid = np.zeros((20, 30), bool)
        grid[5, 7] = True
        area, square = clearmap.Map(grid), clearmap.Footprint(SQUARE)
        for pose, wanted in (
            ((12, 5.5, 0), 3), ((9, 5.5, 0), 0), ((8.5, 5.5, 0), 0), ((7.5, 10, 0), 3),
            ((12, 11, 0), 5), ((-3, 5.5, 0), 9), ((12, 5.5, math.pi), 3 - 2**-14),
            ((12.1, 5.5, 0), 3.1 - 2**-14), ((9 + 2**-16, 5.5, 1e-300), 0),
            ((12 + math.sqrt(2) - 1, 5.5, math.pi / 4), 3 - 2**-14),
        ):  # fmt: skip
            self.assertAlmostEqual(square.clearance(area, *pose), wanted, 4, pose)
            self.assertLessEqual(square.clearance(area, *pose), wanted + 2**-16, pose)
        small = clearmap.Footprint([(x / 20, y / 20) for x, y in SQUARE], 0.05)
        self.assertEqual(small.clearance(area, 12, 5.5, 0), 0.15)

    def test_no_obstacle(self):
        square, blank = clearmap.Footprint(SQUARE), np.zeros((8, 10), bool)
        self.assertEqual(square.clearance(clearmap.Map(blank), 5, 4, 0), math.inf)
        self.assertEqual(square.clearance(clearmap.Map(blank, "wall"), 5, 4, 0), 3)
        self.assertEqual(square.clearance(clearmap.Map(blank, "wall"), 50, 4, 0), 0)

    def test_far(self):
        grid = np.zeros((4096, 4096), bool)
        grid[4095, 4095] = True
        area, square = clearmap.Map(grid), clearmap.Footprint(SQUARE)
        self.assertAlmostEqual(square.clearance(area, 1, 4095.5, 0), 4093, 9)
        self.assertAlmostEqual(square.clearance(area, -(2.0**20), 4095.5, 0), 2**20 + 4094, 9)
        for pose in ((2.0**21, 0, 0), (0, -1e300, 0)):
            self.assertRaisesRegex(ValueError, "1048576", square.clearance, area, *pose)

    def test_refused(self):
        grid = np.zeros((20, 30), bool)
        area, square = clearmap.Map(grid), clearmap.Footprint(SQUARE)
        for asked in (square.hits, square.is_clear, square.clearance):
            self.assertRaisesRegex(ValueError, "finite", asked, area, math.nan, 0, 0)
            with self.assertRaisesRegex(TypeError, r"x is of ndarray.*hits_many takes arrays"):
                asked(area, np.zeros(3), 0, 0)
            with self.assertRaisesRegex(TypeError, r"theta is of list.*hits_many takes arrays"):
                asked(area, 0, 0, [1, 2])
            with self.assertRaisesRegex(TypeError, r"ndarray.*clearmap.Map\(grid\) makes one"):
                asked(grid, 0, 0, 0)
        with self.assertRaisesRegex(TypeError, r"clearmap.Map\(grid\)"):
            square.hits_many(grid, [0], [0], [0])
        with self.assertRaisesRegex(TypeError, r"clearmap.Map\(grid\)"):
            square.clearance_along(grid, [(0, 0, 0)])


class Ways(unittest.TestCase):
    def test_against_samples(self):
        """On a way no pose has less than what is told, and one has nearly that."""
        chance, tight = random.Random(3), 0
        for grid, edge, resolution, points, asked in cases(random.Random(2), ARRAYS // 2):
            if abs(np.array(points)).max() > 12 * resolution:
                continue
            area, robot = clearmap.Map(grid, edge), clearmap.Footprint(points, resolution)
            way, within = asked[:3], chance.choice([1, 0.125, 1 / 16])
            found, at = robot.clearance_along(area, way, within)
            sampled = min(robot.clearance(area, *pose) for pose in sampled_way(way, 60))
            self.assertLessEqual(found, sampled + 1e-4 * resolution)
            if math.isinf(found):
                self.assertTrue(math.isinf(sampled))
                continue
            there = robot.clearance(area, *at)
            self.assertGreaterEqual(found, there - (within + 1e-4) * resolution)
            self.assertLessEqual(found, there)
            tight += found > 0
        self.assertGreater(tight, ARRAYS // 40)

    def test_between_two_poses(self):
        """A post between two poses is hit, by a straight way and by a turn."""
        grid = np.zeros((20, 30), bool)
        grid[5, 15] = True
        area, square = clearmap.Map(grid), clearmap.Footprint(SQUARE)
        ends = [(5, 5.5, 0), (25, 5.5, 0)]
        self.assertGreater(min(square.clearance(area, *pose) for pose in ends), 5)
        found, (x, _, _) = square.clearance_along(area, ends)
        self.assertEqual(found, 0)
        self.assertLess(abs(x - 15.5), 2)
        rod = clearmap.Footprint([(0, -0.25), (8, -0.25), (8, 0.25), (0, 0.25)])
        turns = [(9.5, 2, 3.0), (9.5, 2, -3.0)]
        self.assertGreater(rod.clearance_along(area, turns).clearance, 0)
        self.assertEqual(rod.clearance_along(area, [(9.5, 5, -1), (9.5, 5, 1)]).clearance, 0)

    def test_the_shorter_way(self):
        """From 3 to -3.2 is a turn by 0.08."""
        grid = np.zeros((20, 30), bool)
        grid[10, 20] = True
        rod = clearmap.Footprint([(0, -0.25), (8, -0.25), (8, 0.25), (0, 0.25)])
        found = rod.clearance_along(clearmap.Map(grid), [(15, 10.5, 3), (15, 10.5, -3.2)])
        self.assertGreater(found.clearance, 4)

    def test_forms(self):
        grid = np.zeros((20, 30), bool)
        grid[5, 15] = True
        area, square = clearmap.Map(grid), clearmap.Footprint(SQUARE)
        one = square.clearance_along(area, np.array([[5, 5.5, 0]]))
        self.assertEqual(one, (square.clearance(area, 5, 5.5, 0), (5, 5.5, 0)))
        blank = clearmap.Map(np.zeros((3, 3), bool))
        self.assertEqual(square.clearance_along(blank, [(1, 1, 0), (2, 2, 1)]).clearance, math.inf)
        self.assertRaisesRegex(ValueError, "a pose at least", square.clearance_along, area, [])
        for within in (0, math.nan, -1):
            with self.assertRaisesRegex(ValueError, "1/512"):
                square.clearance_along(area, [(1, 1, 0)], within)
        for wrong in ([(1, 2)], [(1, 2, 3, 4)], [(1, math.inf, 0)], [1, 2, 3]):
            self.assertRaises((TypeError, ValueError), square.clearance_along, area, wrong)


class Gaps(unittest.TestCase):
    def test_one_square(self):
        """Points and segments, also those that go through a square without an end in it."""
        for corners, wanted in (
            ([(5, 5)], 0), ([(20, 5)], 100), ([(13, 14)], 25), ([(-5, 5), (15, 5)], 0),
            ([(-5, 15), (15, -5)], 0), ([(-6, 15), (15, 36)], 37), ([(10, 10), (20, 20)], 0),
        ):  # fmt: skip
            number, parts = gaps.square_gap(corners, (0, 0), 10)
            model = between(corners * (2 if len(corners) == 1 else 1), cell_box(0, 0, 10))
            self.assertEqual(Fraction(number, parts), model)
            if wanted != 37:
                self.assertEqual(model, wanted)


if __name__ == "__main__":
    unittest.main()
