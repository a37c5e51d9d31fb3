#!/usr/bin/env python3
"""Tests of footprints: each answer against a model that asks each cell by separating axes.

They need numpy and the library. ARRAYS in the environment is how many random arrays are tried, 150
where it isn't there; of maps with a footprint and twelve poses it is twice as many.
"""
import math
import os
import random
import threading
import unittest
from unittest import mock

import numpy as np

import clearmap
from clearmap import polygons, poses
from footprint_model import (
    CELL, corners_at, covered, draw_case, draw_points, draw_pose, model_hits, slivers,
)  # fmt: skip

ARRAYS = int(os.environ.get("ARRAYS", "150"))
SQUARE = [(-1, -1), (1, -1), (1, 1), (-1, 1)]


def by_arrays(footprint, area, asked):
    """The answers of all poses by calls for a few, and by one for all."""
    for piece in (3, poses.PIECE):
        with mock.patch.object(poses, "PIECE", piece):
            yield footprint.hits_many(area, *np.array(asked, float).T).tolist()


class Answers(unittest.TestCase):
    def test_against_the_model(self):
        chance = random.Random(1)
        for case in range(2 * ARRAYS):
            grid, edge, resolution, points, asked = draw_case(chance, clearmap.Footprint)
            footprint = clearmap.Footprint(points, resolution)
            area = clearmap.Map(grid, edge)
            wanted = [model_hits(grid, edge, points, resolution, pose) for pose in asked]
            told = [footprint.hits(area, *pose) for pose in asked]
            self.assertEqual(told, wanted, (case, points, asked))
            self.assertEqual(told, [not footprint.is_clear(area, *pose) for pose in asked])
            for answers in by_arrays(footprint, area, asked):
                self.assertEqual(answers, wanted, (case, points, asked))

    def test_slivers(self):
        """What no float tells: half of the obstacles on one side of a border are hit, none next to
        them."""
        hits = []
        for grid, edge, resolution, points, asked in slivers():
            wanted = [model_hits(grid, edge, points, resolution, asked[0])]
            footprint, area = clearmap.Footprint(points, resolution), clearmap.Map(grid, edge)
            self.assertEqual([footprint.hits(area, *asked[0])], wanted)
            for answers in by_arrays(footprint, area, asked):
                self.assertEqual(answers, wanted)
            hits += wanted
        self.assertEqual(4 * sum(hits), len(hits))

    def test_the_polygon_itself(self):
        """No corner is farther than 1/16384 of a cell from where floats put it."""
        chance = random.Random(3)
        for _ in range(2 * ARRAYS):
            _, _, resolution, points, asked = draw_case(chance, clearmap.Footprint)
            x, y, theta = asked[0]
            turned = np.array(points) / resolution @ [
                [math.cos(theta), math.sin(theta)],
                [-math.sin(theta), math.cos(theta)],
            ]
            corners = np.array(corners_at(points, resolution, asked[0])) / CELL
            self.assertLess(np.abs(corners - (turned + [x, y])).max(), 1 / 16384)

    def test_rows(self):
        """The rows of a polygon's cells against those of the model, also cut off."""
        chance = random.Random(4)
        for _ in range(2 * ARRAYS):
            _, _, resolution, points, asked = draw_case(chance, clearmap.Footprint)
            outline = polygons.outline_of(points, resolution)
            corners = polygons.placed(outline, *asked[0])
            top = chance.randint(-20, 20)
            bottom = top + chance.randint(0, 40)
            exact = corners_at(points, resolution, asked[0])
            wanted = covered(exact, -99, top, 140, bottom)
            told = np.zeros_like(wanted)
            for row, first, end in polygons.rows_of(corners, top, bottom):
                self.assertLess(first, end)
                told[row - top, first + 99 : end + 99] = True
            np.testing.assert_array_equal(told, wanted)


    def test_corners_that_rounding_moves(self):
        """Corners a few steps apart: at many angles one is in the polygon or on a side, and the
        pose is asked alone."""
        step = 2.0**-16
        small = [(0, 0), (2, 1), (3, 2), (0, 5)]
        points = [(3 + step * x, 1 + step * y) for x, y in small] + [(0, 2), (-2, 0)]
        outline = polygons.outline_of(points, 1)
        grid = np.random.default_rng(6).random((24, 24)) < 0.1
        area, footprint = clearmap.Map(grid), clearmap.Footprint(points)
        chance = random.Random(6)
        made = [draw_pose(chance, 24, 24, 3) for _ in range(300)]
        moved = sum(len(polygons.placed(outline, *pose)) < len(outline) for pose in made)
        self.assertIn(moved, range(20, 280))
        wanted = [model_hits(grid, "open", points, 1, pose) for pose in made]
        self.assertEqual([footprint.hits(area, *pose) for pose in made], wanted)
        for answers in by_arrays(footprint, area, made):
            self.assertEqual(answers, wanted)


class Definitions(unittest.TestCase):
    def test_touching_is_no_hit(self):
        """A square of 2 by 2 cells on the sides of cells, turned by right angles: it hits the four
        cells that it has inside, and no neighbour."""
        for theta in [k * math.pi / 2 for k in range(-9, 10)]:
            for x, y in [(0, 0), (2, 2), (1, 3), (4, 4)]:
                grid = np.zeros((5, 5), bool)
                grid[y, x] = True
                told = clearmap.Footprint(SQUARE).hits(clearmap.Map(grid), 3, 3, theta)
                self.assertEqual(told, (x, y) == (2, 2), (x, y, theta))
        grid = np.zeros((5, 5), bool)
        grid[0, 0] = True
        corner = clearmap.Footprint([(1, 1), (3, 2), (2, 3)])
        self.assertFalse(corner.hits(clearmap.Map(grid), 0, 0, 0))
        self.assertTrue(corner.hits(clearmap.Map(grid), -2**-16, -2**-16, 0))

    def test_sides_through_corners(self):
        """The cell that such a corner belongs to alone isn't covered."""
        for half in range(2, 130):
            area = clearmap.Map(np.zeros((300, 12), bool))
            robots = [
                (clearmap.Footprint([(0, 0), (2 * sign, 2 * half), (5 * sign, 0)]), at, column)
                for sign, at, column in ((1, 0, 0), (-1, 12, 11))
            ]
            for rows, hits in ((half, False), (half - 1, True)):
                for robot, at, column in robots:
                    area.paint(column, rows, column + 1, rows + 1)
                    self.assertEqual(robot.hits(area, at, 0, 0), hits)
                    for answers in by_arrays(robot, area, [(at, 0, 0)]):
                        self.assertEqual(answers, [hits])

    def test_turns_from_x_towards_y(self):
        grid = np.zeros((9, 9), bool)
        grid[7, 4] = True
        rod = clearmap.Footprint([(0, -0.25), (4, -0.25), (4, 0.25), (0, 0.25)])
        area = clearmap.Map(grid)
        self.assertTrue(rod.hits(area, 4.5, 4.5, math.pi / 2))
        for theta in (0, math.pi, -math.pi / 2):
            self.assertFalse(rod.hits(area, 4.5, 4.5, theta))

    def test_metres(self):
        """Decimals of metres that are whole cells are so, though 0.15 / 0.05 isn't 3."""
        by_cells = clearmap.Footprint([(-3, -2), (3, -2), (3, 2), (-3, 2)])
        points = [(-0.15, -0.1), (0.15, -0.1), (0.15, 0.1), (-0.15, 0.1)]
        by_metres = clearmap.Footprint(points, resolution=0.05)
        self.assertEqual(by_metres._outline, by_cells._outline)

    def test_borders(self):
        """Around the map all is free, or all are obstacles, near the map and far from it."""
        blank = np.zeros((8, 10), bool)
        square = clearmap.Footprint(SQUARE)
        asked = [(5, 4, 0), (1, 1, 0), (9, 7, 0), (0.99, 4, 0), (9.01, 4, 0), (5, 0.9, 0),
                 (5, 7.5, 0), (-3, 4, 0), (5, 30, 0), (-1e300, 0, 1), (1e300, -1e300, 1e300),
                 (5000, 4, 0)]  # fmt: skip
        inside = 3
        for edge in ("open", "wall"):
            wanted = [edge == "wall" and number >= inside for number in range(len(asked))]
            area = clearmap.Map(blank, edge)
            self.assertEqual([square.hits(area, *pose) for pose in asked], wanted)
            for answers in by_arrays(square, area, asked):
                self.assertEqual(answers, wanted)

    def test_huge(self):
        chance = random.Random(5)
        for size in (500, 4000):
            for _ in range(3):
                grid = np.zeros((30, 40), bool)
                grid[chance.randrange(30), chance.randrange(40)] = True
                points = [(x, y) for x, y in draw_points(chance, size) if math.hypot(x, y) < 4096]
                try:
                    footprint = clearmap.Footprint(points)
                except ValueError:
                    continue
                area = clearmap.Map(grid)
                asked = [tuple(chance.uniform(-size, size) for _ in range(3)) for _ in range(40)]
                wanted = [model_hits(grid, "open", points, 1, pose) for pose in asked]
                self.assertEqual([footprint.hits(area, *pose) for pose in asked], wanted)
                for answers in by_arrays(footprint, area, asked):
                    self.assertEqual(answers, wanted)

    def test_largest_map(self):
        grid = np.zeros((4096, 4096), bool)
        grid[4095, 4095] = True
        area = clearmap.Map(grid)
        for reach, hits in ((4096, True), (2047, False), (2048.5, True)):
            side = reach / math.sqrt(2) * (1 - 1e-9)
            square = clearmap.Footprint([(side * x, side * y) for x, y in SQUARE])
            self.assertEqual(square.hits(area, 4096 - reach, 4095.5, math.pi / 4), reach > 2)
            self.assertEqual(square.hits(area, 2048, 4095.5, math.pi / 4), hits)
            told = square.hits_many(area, [2048, 2048], 4095.5, math.pi / 4)
            self.assertEqual(told.tolist(), [hits, hits])


class Polygons(unittest.TestCase):
    def test_any_order(self):
        """The same polygon from any point on, either way round, with points on its sides."""
        wanted = clearmap.Footprint(SQUARE)._outline
        ring = [(-1, -1), (0, -1), (1, -1), (1, -1), (1, 0.25), (1, 1), (-1, 1), (-1, 0.1)]
        for start in range(len(ring)):
            turned = ring[start:] + ring[:start]
            for points in (turned, turned[::-1], np.array(turned), map(tuple, turned)):
                self.assertEqual(clearmap.Footprint(points)._outline, wanted)

    def test_points_of_a_straight_side(self):
        """Decimals in one line are taken, though rounding puts them next to it."""
        for side in (0.1, 0.3, 0.7, 1.1):
            line = [(k * 0.1, k * side) for k in range(8)]
            for points in ([*line, (-3, 3)], [*line[::-1], (-3, 3)]):
                corners = set(clearmap.Footprint(points)._outline)
                for x, y in (points[0], points[7], points[8]):
                    self.assertIn((round(x * CELL), round(y * CELL)), corners)

    def test_refused(self):
        star = [(math.cos(k * 0.8 * math.pi), math.sin(k * 0.8 * math.pi)) for k in range(5)]
        for points, words in (
            ([], "this one 0"),
            (SQUARE[:2], "this one 2"),
            ([(0, 0), (1, 1), (2, 2)], "in one line"),
            ([(3, 3)] * 5, "in one line"),
            ([(-1, -1), (1, -1), (0, 0), (1, 1), (-1, 1)], "convex"),
            ([(-1, -1), (1, 1.5), (1, -1), (-1, 1)], "convex"),
            (star, "convex"),
            ([*SQUARE[:3], (0, -1), SQUARE[3]], "convex"),
            ([*SQUARE, *SQUARE], "convex"),
            ([(0, 0), (5, 0), (5, 1e-4)], "1/1024 of a cell wide"),
            ([(0, 0), (math.nan, 0), (0, 1)], "point 1"),
            ([(0, 0), (1, 0), (0, math.inf)], "point 2"),
            ([(0, 0), (1, 0), (0, 4096.01)], "4096 are the most"),
            ([(0, 0), (1e308, 1e308), (0, 1)], "4096 are the most"),
            ([(math.cos(k / 21), math.sin(k / 21)) for k in range(129)], "this one 129"),
        ):
            self.assertRaisesRegex(ValueError, words, clearmap.Footprint, points)
        for resolution in (0, -1, math.nan, math.inf):
            self.assertRaisesRegex(ValueError, "a cell of", clearmap.Footprint, SQUARE, resolution)
        for points in (None, 7, ["ab", "cd", "ef"], [(1, 2, 3)] * 4, [(1,)] * 4, [1, 2, 3]):
            self.assertRaises((TypeError, ValueError), clearmap.Footprint, points)


class Poses(unittest.TestCase):
    def setUp(self):
        grid = np.zeros((20, 30), bool)
        grid[5, 7] = True
        self.area, self.square = clearmap.Map(grid), clearmap.Footprint(SQUARE)

    def test_refused(self):
        for wrong in (math.nan, math.inf, -math.inf):
            for place in range(3):
                pose = [1.0, 2.0, 3.0]
                pose[place] = wrong
                self.assertRaisesRegex(ValueError, "finite", self.square.hits, self.area, *pose)
                many = [[number, 0.5] for number in pose]
                self.assertRaisesRegex(
                    ValueError, r"\[0\] isn't finite", self.square.hits_many, self.area, *many
                )
        self.assertRaises(TypeError, self.square.hits, self.area, 1j, 0, 0)
        self.assertRaises(TypeError, self.square.hits_many, self.area, [1j], 0, 0)
        self.assertRaises(TypeError, self.square.hits_many, self.area, ["1"], 0, 0)
        self.assertRaises(ValueError, self.square.hits_many, self.area, [1, 2, 3], [1, 2], 0)

    def test_shapes(self):
        hits = self.square.hits_many
        self.assertEqual(hits(self.area, 7.5, 5.5, 0).shape, ())
        self.assertEqual(hits(self.area, [], [], []).shape, (0,))
        self.assertEqual(hits(self.area, [], 3, 0).tolist(), [])
        table = hits(self.area, np.arange(30) + 0.5, np.arange(20)[:, None] + 0.5, np.float32(0))
        wanted = np.zeros((20, 30), bool)
        wanted[4:7, 6:9] = True
        np.testing.assert_array_equal(table, wanted)

    def test_a_map_that_changes(self):
        """Four threads ask while a fifth paints and clears: each answer is one of both maps', and
        all of one call's are of one map."""
        done, faults = threading.Event(), []
        xs = np.full(700, 20.5)

        def asks():
            while not done.is_set():
                told = self.square.hits_many(self.area, xs, 10.5, 0)
                if told.any() != told.all() or not self.square.hits(self.area, 7.5, 5.5, 1):
                    faults.append(told)

        threads = [threading.Thread(target=asks) for _ in range(4)]
        for thread in threads:
            thread.start()
        for turn in range(300):
            (self.area.paint, self.area.clear)[turn % 2](20, 10, 21, 11)
        done.set()
        for thread in threads:
            thread.join()
        self.assertEqual(faults, [])


if __name__ == "__main__":
    unittest.main()
