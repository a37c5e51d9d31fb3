#!/usr/bin/env python3
"""Tests of plans and footprints in metres: clearances against a model, and places in the world.

They need numpy and the library. ARRAYS in the environment is how many random maps are tried, 150
where it isn't there.
"""
import math
import os
import random
import unittest
from fractions import Fraction

import numpy as np

import clearmap
from clearance_model import between, cases, cell_box, is_root, model_square
from clearmap import decimals, polygons
from footprint_model import CELL

ARRAYS = int(os.environ.get("ARRAYS", "150"))
FRAMES = (("0.05", "-1", "-2.5"), ("1", "0", "0"), ("0.1", "3.7", "1.25"))


class Plans(unittest.TestCase):
    def test_against_the_model(self):
        chance = random.Random(3)
        for grid, edge, _, _, _ in cases(chance, ARRAYS):
            height, width = grid.shape
            parts = chance.choice([1, 2, 10, 1000])
            scale, left, low = (Fraction(word) for word in chance.choice(FRAMES))
            frame = clearmap.Frame(width, height, scale, left, low)
            plan = [
                (left + Fraction(chance.randrange(width * parts), parts) * scale,
                 low + Fraction(chance.randrange(height * parts), parts) * scale)
                for _ in range(chance.randint(1, 4))
            ]  # fmt: skip
            found = clearmap.plan_clearance(clearmap.Map(grid, edge), frame, plan)
            self.check(grid, edge, frame, plan, found)

    def check(self, grid, edge, frame, plan, found):
        """Compares an answer with the model's, whose cells have `parts` steps."""
        parts = 1000
        corners = [
            (int((x - frame.origin_x) / frame.resolution * parts),
             int((frame.height - (y - frame.origin_y) / frame.resolution) * parts))
            for x, y in plan
        ]  # fmt: skip
        ends = list(zip(corners, corners[1:])) or [(corners[0], corners[0])]
        squares = [model_square(grid, edge, list(pair), parts) for pair in ends]
        if found is None:
            self.assertEqual(squares, [None] * len(ends))
            return
        self.assertTrue(is_root(found.clearance, min(squares) * frame.resolution**2))
        self.assertEqual(squares[found.segment], min(squares))
        x, y = found.obstacle
        if 0 <= x < frame.width and 0 <= y < frame.height:
            self.assertTrue(grid[y, x])
            near = between(list(ends[found.segment]), cell_box(x, y, parts)) / parts**2
            self.assertEqual(near, min(squares))
        else:
            self.assertEqual(edge, "wall")

    def test_a_radius(self):
        grid = np.zeros((20, 30), bool)
        grid[9, 7] = True
        area = clearmap.Map(grid)
        frame = clearmap.Frame(30, 20, *map(Fraction, ("0.05", "-1", "-2")))
        plan = [("-0.975", "-1.475"), ("0.4", "-1.475")]  # the middles of row 9
        self.assertEqual(clearmap.plan_clearance(area, frame, plan), (0, 0, (7, 9)))
        plan = [("-0.975", "-1.6"), ("0.4", "-1.6")]
        self.assertEqual(clearmap.plan_clearance(area, frame, plan, "0.04"), (0.06, 0, (7, 9)))
        self.assertEqual(clearmap.plan_clearance(area, frame, plan, 1), (0, 0, (7, 9)))
        for wrong in (-1, "nan", "a"):
            with self.assertRaises(clearmap.RosError):
                clearmap.plan_clearance(area, frame, plan, wrong)
        for wrong in ([], [(9, 9)]):
            with self.assertRaises(clearmap.RosError):
                clearmap.plan_clearance(area, frame, wrong)
        with self.assertRaisesRegex(TypeError, r"clearmap.Map\(grid\)"):
            clearmap.plan_clearance(grid, frame, plan)
        other = clearmap.Map(np.zeros((20, 31), bool))
        with self.assertRaisesRegex(clearmap.RosError, r"\(31, 20\) cells.*\(30, 20\)"):
            clearmap.plan_clearance(other, frame, plan)


class Places(unittest.TestCase):
    def test_a_footprint_in_metres(self):
        """The corners at a pose of ROS are where they are in the world."""
        chance = random.Random(4)
        points = [(0.4, 0.1), (0.1, 0.3), (-0.3, 0.2), (-0.2, -0.25)]  # no side is another's image
        for _ in range(ARRAYS):
            scale, left, low = (Fraction(word) for word in chance.choice(FRAMES))
            frame = clearmap.Frame(30, 20, scale, left, low)
            x, y, yaw = (chance.uniform(0.1, 0.9) for _ in range(3))
            x, y = float(left + x * 30 * scale), float(low + y * 20 * scale)
            robot, pose = frame.footprint(points), frame.pose_in_cells(x, y, 8 * yaw - 4)
            cosine, sine = math.cos(8 * yaw - 4), math.sin(8 * yaw - 4)
            wanted = {
                ((x + a * cosine - b * sine - float(left)) / float(scale),
                 20 - (y + a * sine + b * cosine - float(low)) / float(scale))
                for a, b in points
            }  # fmt: skip
            corners = polygons.placed(robot.in_cells._outline, *pose)
            for across, down in wanted:
                off = min(math.dist((a / CELL, b / CELL), (across, down)) for a, b in corners)
                self.assertLess(off, 1 / 8192)
            self.assertEqual(len(corners), len(wanted))

    def test_a_pose_off_the_map(self):
        frame = clearmap.Frame(30, 20, *map(Fraction, ("0.05", "-1", "-2")))
        with self.assertRaisesRegex(clearmap.RosError, "isn't on the map"):
            frame.pose_in_cells(9, 0, 0)
        found = frame.point(frame.place(("0.1", "-1.7")))
        self.assertEqual(found, (Fraction(1, 10), Fraction(-17, 10)))

    def test_numbers(self):
        """A frame takes numbers for their decimals, and lengths are the same of any integers."""
        exact = clearmap.Frame(100, 80, *map(Fraction, ("0.05", "0.1", "-0.3")))
        for parts in ((0.05, 0.1, -0.3), ("0.05", "0.1", "-0.3"), np.array([0.05, 0.1, -0.3])):
            self.assertEqual(clearmap.Frame(np.uint16(100), 80, *parts), exact)
        self.assertEqual(clearmap.Frame(100, 80, 0.05, 0, 0).cell((0.15, 0.15)), (3, 76))
        for kind in (np.uint32, np.int64, np.int32, np.uint64):
            for square in (0, 1, 2, 16, 100, 6500, 33570818):
                self.assertEqual(exact.metres(kind(square)), exact.metres(square))
                self.assertEqual(exact.free_metres(kind(square)), exact.free_metres(square))
        self.assertEqual((exact.metres(np.uint32(100)), exact.free_metres(2)), (0.5, 0))
        none = clearmap.distances(np.zeros((1, 1), bool))[0, 0]
        self.assertEqual((exact.metres(none), exact.free_metres(none)), (math.inf, math.inf))
        self.assertRaisesRegex(clearmap.RosError, "0 or more", exact.metres, np.int64(-1))
        for wrong in (2.5, "4", None, np.float64(4)):
            self.assertRaisesRegex(TypeError, "a whole number is wanted", exact.metres, wrong)
        for wrong in (0, -0.05, "x", math.nan, math.inf):
            with self.assertRaises(clearmap.RosError):
                clearmap.Frame(100, 80, wrong, 0, 0)
        with self.assertRaises(TypeError):
            clearmap.Frame(100.0, 80, 1, 0, 0)
        plan = [(1.0, 1.0), (2.0, 0.5)]
        np.testing.assert_array_equal(exact.staircase(np.array(plan)), exact.staircase(plan))
        self.assertRaisesRegex(clearmap.RosError, "no point", exact.staircase, np.zeros((0, 2)))

    def test_rounded_down(self):
        """Roots and floats against their definition, from the least float to the greatest."""
        chance = random.Random(5)
        for _ in range(20 * ARRAYS):
            square = Fraction(chance.randrange(1, 1 << chance.randint(1, 200)),
                              chance.randrange(1, 1 << chance.randint(1, 200)))  # fmt: skip
            self.assertTrue(is_root(decimals.root_float_below(square), square))
        for number in ("0", "0.1", "0.3", "1e-300", "123456789.123456789"):
            exact = decimals.exact(number)
            found = decimals.float_below(exact)
            self.assertLessEqual(Fraction(found), exact)
            self.assertGreater(Fraction(math.nextafter(found, math.inf)), exact)


if __name__ == "__main__":
    unittest.main()
