#!/usr/bin/env python3
"""Tests of cells and paths of arrays of points in metres: those of single points, exactly.

They need numpy. ARRAYS in the environment is how much is tried, 150 where it isn't there.
"""
import math
import os
import unittest
from fractions import Fraction

import numpy as np

import clearmap
from clearmap import stairs

ARRAYS = int(os.environ.get("ARRAYS", "150"))
FRAMES = (
    clearmap.Frame(60, 40, 0.05, 0, 0), clearmap.Frame(60, 40, "0.05", "-1.5", "0.37"),
    clearmap.Frame(7, 5, 0.25, -100, 1e4), clearmap.Frame(4000, 3000, 0.1, 1e-3, -7),
    clearmap.Frame(90, 80, Fraction(1, 3), 0, 0), clearmap.Frame(30, 20, 1, 0.1, 0.2),
)  # fmt: skip


def walked(start, end):
    """The cells that a segment crosses, by fractions of the segment."""
    x, y = math.floor(start[0]), math.floor(start[1])
    crossings = []
    for axis in (0, 1):
        first, last = math.floor(start[axis]), math.floor(end[axis])
        step = 1 if last > first else -1
        for at in range(first, last, step):
            edge = at + 1 if step > 0 else at
            crossings.append(((edge - start[axis]) / (end[axis] - start[axis]), axis, step))
    for _, axis, step in sorted(crossings):
        x, y = (x + step, y) if axis == 0 else (x, y + step)
        yield x, y


def staircase(frame, plan):
    """A path along a plan, by fractions."""
    ends = [frame._upwards(point) for point in plan]
    cells = [(math.floor(ends[0][0]), math.floor(ends[0][1]))]
    for start, end in zip(ends, ends[1:]):
        cells += walked(start, end)
    return stairs.corners([(x, frame.height - 1 - up) for x, up in cells])


def random_points(numbers, frame, count):
    """Points on the map: anywhere, on borders and corners of cells, and next to them."""
    size, x0, y0 = (float(n) for n in (frame.resolution, frame.origin_x, frame.origin_y))
    xs, ys = x0 + size * frame.width * numbers.random(count), y0 + size * frame.height * numbers.random(count)
    kind = numbers.integers(4)
    if kind:
        xs = x0 + size * numbers.integers(0, frame.width, count)
        ys = np.round(y0 + size * numbers.integers(0, frame.height, count), 6)
    if kind == 2:
        xs, ys = np.nextafter(xs, xs + 1), np.nextafter(ys, ys + 1)
    points = [(float(x), float(y)) for x, y in zip(xs, ys)]
    return np.array([point for point in points if is_on(frame, point)]).reshape(-1, 2)


def is_on(frame, point):
    """Whether a point is on the map."""
    try:
        frame.cell(point)
    except clearmap.RosError:
        return False
    return True


class Cells(unittest.TestCase):
    def test_as_single_points(self):
        numbers = np.random.default_rng(19)
        for turn in range(ARRAYS):
            frame = FRAMES[turn % len(FRAMES)]
            points = random_points(numbers, frame, 20)
            columns, rows = frame.cell_many(points[:, 0], points[:, 1])
            self.assertEqual((columns.dtype, rows.dtype), (np.int32, np.int32))
            told = list(zip(columns.tolist(), rows.tolist()))
            self.assertEqual(told, [frame.cell(point) for point in points.tolist()])

    def test_dtypes(self):
        """Floats of fewer bits for the decimals that they are written as; integers; broadcasts."""
        frame = clearmap.Frame(60, 40, 0.1, 0, 0)
        for kind in ("f2", "f4", "f8"):
            xs = (np.arange(30) / 10).astype(kind)
            columns, rows = frame.cell_many(xs, kind == "f2")
            self.assertEqual(columns.tolist(), [frame.cell((x, 0))[0] for x in xs])
            self.assertEqual(columns.tolist(), list(range(30)))
        columns, rows = frame.cell_many([0, 1, 5], np.array([[0], [3]]))
        self.assertEqual(columns.tolist(), [[0, 10, 50]] * 2)
        self.assertEqual(rows.tolist(), [[39] * 3, [9] * 3])
        self.assertEqual(frame.cell_many([], [])[0].shape, (0,))
        self.assertEqual(frame.cell_many(0.25, 0.1)[0], 2)

    def test_what_is_refused(self):
        frame = clearmap.Frame(60, 40, 0.05, 0, 0)
        for x, y in ((3, 0), (-1e-300, 0), (0, 2), (0, -0.05), (1e300, 0)):
            with self.assertRaisesRegex(clearmap.RosError, r"the point \(.*\) isn't on the map"):
                frame.cell_many([0, x], [0, y])
            with self.assertRaises(clearmap.RosError):
                frame.staircase(np.array([[0, 0], [x, y]]))
        for wrong in (math.nan, -math.inf):
            self.assertRaises(ValueError, frame.cell_many, [wrong], [0])
            self.assertRaises(ValueError, frame.staircase, np.array([[wrong, 0]]))
        for wrong in ("0", None, 1j, np.ma.array([0.1]), np.array(["0.1"])):
            self.assertRaises(TypeError, frame.cell_many, wrong, 0)
        for shape in ((4,), (2, 3), (1, 2, 2), (0,)):
            self.assertRaises(ValueError, frame.staircase, np.zeros(shape))
        self.assertRaises(TypeError, frame.staircase, np.ma.zeros((2, 2)))
        self.assertRaises(clearmap.RosError, frame.staircase, np.zeros((0, 2)))
        self.assertRaises(ValueError, frame.cell_many, [0, 1], [0, 1, 2])


class Stairs(unittest.TestCase):
    def test_of_lists_and_arrays(self):
        """Both are those of fractions, also through corners and along lines of cells."""
        numbers = np.random.default_rng(20)
        for turn in range(ARRAYS):
            frame = FRAMES[turn % len(FRAMES)]
            points = random_points(numbers, frame, int(numbers.integers(1, 6)))
            if frame.width > 1000:
                points[1:] = np.clip(points[1:], points[:1] - 9, points[:1] + 9)
                points = points[[is_on(frame, point) for point in points.tolist()]]
            if not len(points):
                continue
            wanted = staircase(frame, points.tolist())
            self.assertEqual(frame.staircase(points.tolist()), wanted)
            told = frame.staircase(points)
            self.assertEqual((told.dtype, told.tolist()), (np.int32, [list(c) for c in wanted]))
            with_same = np.repeat(points, 2, axis=0)
            self.assertEqual(frame.staircase(with_same).tolist(), [list(c) for c in wanted])

    def test_through_corners(self):
        """Where crossings meet, the next column comes first; close ones are told apart exactly."""
        frame = clearmap.Frame(60, 40, "0.05", 0, 0)
        for plan in (
            [(0, 0), (1, 1)], [(1, 1), (0, 0)], [(0, 1), (1, 0)], [(1, 0), (0, 1)], [(0.025, 0), (1.025, 1)],
            [(0, 1e-12), (1, 1)], [(0, 0), (2.95, 1e-9)], [(0, 0), (1e-9, 1.9)], [(0.05, 0.05), (0.1, 0.1)],
            [(0.049999999, 0.05), (0.05, 0.049999999)], [(1, 1), (1, 1)], [(0.1, 0), (0.1, 1.95)],
            [(0, 0.1), (2.95, 0.1)], [(0, 0), (0.6, 0.4), (0, 0)],
        ):  # fmt: skip
            wanted = [list(cell) for cell in staircase(frame, plan)]
            self.assertEqual(frame.staircase(np.array(plan)).tolist(), wanted, plan)
            self.assertEqual([list(cell) for cell in frame.staircase(plan)], wanted, plan)
            for points in (np.array(plan, "f4"), np.array(plan, "f2")):
                listed = [tuple(float(str(n)) for n in point) for point in points]
                if all(is_on(frame, point) for point in listed):
                    wanted_here = [list(cell) for cell in staircase(frame, listed)]
                    self.assertEqual(frame.staircase(points).tolist(), wanted_here, points)

    def test_as_a_path(self):
        grid = np.zeros((40, 60), bool)
        grid[20, 30] = True
        frame, area = FRAMES[0], clearmap.Map(grid)
        plan = np.array([[0.1, 0.1], [2.7, 1.9], [2.7, 0.1]])
        found = area.path(frame.staircase(plan))
        self.assertEqual(found, area.path(frame.staircase(plan.tolist())))


if __name__ == "__main__":
    unittest.main()
