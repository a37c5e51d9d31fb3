#!/usr/bin/env python3
"""Tests of what is asked in metres: in which order a map's rows lie, footprints of a frame, and
what is free in any case. They need numpy and the library. ARRAYS in the environment is how many
random maps are tried, 150 where it isn't there.
"""
import copy
import math
import os
import pathlib
import pickle
import random
import runpy
import unittest

import numpy as np

import clearmap

HERE = pathlib.Path(__file__).resolve().parent
ARRAYS = int(os.environ.get("ARRAYS", "150"))
UPSIDE_DOWN = r"row 0 of the map is the lowest.*Map.of_occupancy\(data, frame\)"
OUTLINE = [(0.3, 0.2), (-0.3, 0.2), (-0.3, -0.2), (0.3, -0.2)]


def random_frame(chance):
    """A frame of a small map."""
    scale, left, low = chance.choice((("0.05", "-1", "-2.5"), (1, 0, 0), (0.1, 3.7, 1.25)))
    return clearmap.Frame(chance.randint(1, 40), chance.randint(1, 30), scale, left, low)


def random_message(chance, frame):
    """The cells of an occupancy grid, the lowest row first."""
    rare = chance.choice((2, 20, 200))
    cells = range(frame.width * frame.height)
    return [100 if chance.randrange(rare) == 0 else chance.choice((0, 0, 30)) for _ in cells]


def gap(message, frame, x, y):
    """How far a point is from the nearest obstacle's square in metres, by a search of all."""
    scale, left, low = map(float, (frame.resolution, frame.origin_x, frame.origin_y))
    across, up = (x - left) / scale, (y - low) / scale
    found = math.inf
    for number, cell in enumerate(message):
        if cell == 100:
            column, row = number % frame.width, number // frame.width
            dx = max(column - across, across - column - 1, 0)
            dy = max(row - up, up - row - 1, 0)
            found = min(found, math.hypot(dx, dy) * scale)
    return found


def random_point(chance, frame):
    """A point on the map, as a planner has it."""
    x = chance.uniform(0.001, float(frame.width) - 0.001) * float(frame.resolution)
    y = chance.uniform(0.001, float(frame.height) - 0.001) * float(frame.resolution)
    return x + float(frame.origin_x), y + float(frame.origin_y)


class Rows(unittest.TestCase):
    def test_a_message_in_its_frame(self):
        """An obstacle of the message is where the message has it, and so are the distances."""
        chance = random.Random(1)
        for _ in range(ARRAYS):
            frame = random_frame(chance)
            message = random_message(chance, frame)
            area = clearmap.Map.of_occupancy(message, frame, edge="open")
            self.assertEqual(area.size, frame.size)
            self.assertFalse(area.is_upside_down)
            for _ in range(5):
                x, y = random_point(chance, frame)
                found = clearmap.plan_clearance(area, frame, [(x, y)])
                told = math.inf if found is None else found.clearance
                self.assertAlmostEqual(told, gap(message, frame, x, y), 9)

    def test_no_order_is_taken_for_granted(self):
        """Without a frame the order of the rows has to be said, and with one it can't be."""
        frame, cells = clearmap.Frame(3, 2, 1, 0, 0), [0] * 6
        for words in (
            {"width": 3, "height": 2}, {"width": 3, "upwards": True}, {"upwards": True}, {},
            {"frame": frame, "width": 3, "height": 2}, {"frame": frame, "upwards": True},
            {"frame": frame, "upwards": False}, {"frame": (3, 2)}, {"frame": frame, "height": 2},
        ):  # fmt: skip
            with self.assertRaisesRegex(TypeError, "give the map's Frame", msg=words):
                clearmap.Map.of_occupancy(cells, **words)
        for wrong in (5, 7):
            with self.assertRaisesRegex(ValueError, f"3 by 2 cells .* these are {wrong}"):
                clearmap.Map.of_occupancy([0] * wrong, frame)

    def test_upside_down(self):
        """No call takes a frame and a map whose row 0 is the lowest, nor a copy of such a map."""
        frame, cells = clearmap.Frame(3, 2, 0.5, -1, -1), [100, 0, 0, 0, 0, 0]
        kept = clearmap.Map.of_occupancy(cells, width=3, height=2, upwards=False)
        turned = clearmap.Map.of_occupancy(cells, width=3, height=2, upwards=True)
        self.assertEqual(turned, clearmap.Map.of_occupancy(cells, frame))
        robot, pose = frame.footprint([(0.1, 0), (-0.1, 0.1), (0, -0.1)]), (-0.75, -0.75, 0)
        calls = (
            lambda area: clearmap.plan_clearance(area, frame, [(0, -0.5)]),
            lambda area: robot.hits(area, *pose), lambda area: robot.is_clear(area, *pose),
            lambda area: robot.hits_many(area, *pose), lambda area: robot.clearance(area, *pose),
            lambda area: robot.clearance_along(area, [pose]),
        )  # fmt: skip
        ways = (
            lambda area: area, clearmap.Map.copy, copy.copy, copy.deepcopy,
            lambda area: pickle.loads(pickle.dumps(area)),
        )  # fmt: skip
        for way in ways:
            for call in calls:
                with self.assertRaisesRegex(clearmap.RosError, UPSIDE_DOWN):
                    call(way(kept))
                call(way(turned))
        self.assertTrue(robot.hits(turned, *pose))


class Footprints(unittest.TestCase):
    def test_a_pose_in_metres(self):
        """All of a robot of a frame is in metres: its outline, its poses and its clearances."""
        frame = clearmap.Frame(100, 80, "0.05", "-1", "-0.5")
        message = [0] * 8000
        message[50 * 100 + 70] = 100  # from (2.5, 2) to (2.55, 2.05) in metres
        area = clearmap.Map.of_occupancy(message, frame)
        robot = frame.footprint(OUTLINE)
        self.assertAlmostEqual(robot.clearance(area, 2.0, 2.025, 0), 0.2, 5)
        self.assertAlmostEqual(robot.clearance(area, 2.0, 2.025, math.pi / 2), 0.3, 5)
        self.assertAlmostEqual(robot.clearance(area, 2.525, 1.5, 0), 0.3, 5)
        cosine, sine = math.cos(0.3), math.sin(0.3)  # turned left, the right corner is nearest
        corner = 2.0 + 0.3 * cosine + 0.2 * sine, 2.1 + 0.3 * sine - 0.2 * cosine
        wanted = math.dist(corner, (2.5, 2.0))
        self.assertAlmostEqual(robot.clearance(area, 2.0, 2.1, 0.3), wanted, 5)
        for theta, hits in ((0.5, True), (-0.5, False)):  # turned left the front is higher
            rod = frame.footprint([(0, -0.01), (0.6, -0.01), (0.6, 0.01), (0, 0.01)])
            pose = 2.025, 1.75, theta
            self.assertIs(rod.hits(area, *pose), hits)
            self.assertIs(rod.is_clear(area, *pose), not hits)
            self.assertEqual(rod.hits_many(area, *pose).tolist(), hits)
            self.assertEqual(rod.clearance(area, *pose) == 0, hits)
        self.assertTrue(robot.hits(area, "2.21", 2.025, "0"))
        self.assertFalse(robot.hits(area, "2.2", 2.025, "0"))  # it touches

    def test_as_in_cells(self):
        """The answers are those of the outline in cells at the pose in cells."""
        chance = random.Random(3)
        for _ in range(ARRAYS):
            frame = random_frame(chance)
            edge = chance.choice(("open", "wall"))
            area = clearmap.Map.of_occupancy(random_message(chance, frame), frame, edge=edge)
            scale = float(frame.resolution)
            robot = frame.footprint([(2 * x * scale, y * scale) for x, y in OUTLINE])
            poses = [(*random_point(chance, frame), chance.uniform(-4, 4)) for _ in range(4)]
            cells = [frame.pose_in_cells(*pose) for pose in poses]
            told = [robot.hits(area, *pose) for pose in poses]
            self.assertEqual(told, [robot.in_cells.hits(area, *pose) for pose in cells])
            self.assertEqual(told, robot.hits_many(area, *np.array(poses).T).tolist())
            free = [robot.clearance(area, *pose) for pose in poses]
            self.assertEqual(free, [robot.in_cells.clearance(area, *pose) for pose in cells])
            found, pose = robot.clearance_along(area, poses)
            self.assertLessEqual(found, min(free))
            wanted = robot.in_cells.clearance_along(area, cells)
            self.assertEqual(found, wanted.clearance)
            for told, there in zip(frame.pose_in_cells(*pose), wanted.pose):
                self.assertAlmostEqual(told, there, 9)

    def test_refused(self):
        frame = clearmap.Frame(30, 20, "0.05", "-1", "-2")
        area, robot = clearmap.Map(np.zeros((20, 30), bool)), frame.footprint(OUTLINE)
        calls = (robot.hits, robot.is_clear, robot.hits_many, robot.clearance)
        for call in calls:
            for off in ((15, 10, 0), (0, -2.01, 0), (0.5, -1.5, 0), (-1.01, -1.5, 0)):
                with self.assertRaisesRegex(clearmap.RosError, "isn't on the map"):
                    call(area, *off)
            with self.assertRaisesRegex(clearmap.RosError, r"\(31, 20\) cells.*\(30, 20\)"):
                call(clearmap.Map(np.zeros((20, 31), bool)), 0, -1.5, 0)
            with self.assertRaises((clearmap.RosError, ValueError)):
                call(area, 0, math.nan, 0)
            with self.assertRaisesRegex(TypeError, r"clearmap.Map\(grid\)"):
                call(np.zeros((20, 30), bool), 0, -1.5, 0)
        with self.assertRaisesRegex(clearmap.RosError, r"\(9.0, -1.5\) isn't on the map"):
            robot.hits_many(area, [0, 9], -1.5, [[0], [1]])
        with self.assertRaisesRegex(clearmap.RosError, "isn't on the map"):
            robot.clearance_along(area, [(0, -1.5, 0), (9, -1.5, 0)])
        with self.assertRaises(AttributeError):  # whose poses in cells would be taken for metres
            frame.pose(0, -1.5, 0)


class Free(unittest.TestCase):
    def test_never_more(self):
        """No point of a cell is nearer than `free_metres` tells; `metres` is more for most."""
        chance, above, points = random.Random(5), 0, 0
        for _ in range(ARRAYS):
            frame = random_frame(chance)
            message = random_message(chance, frame)
            area = clearmap.Map.of_occupancy(message, frame)
            for _ in range(5):
                x, y = random_point(chance, frame)
                near = area.at(*frame.cell((x, y)))
                square = clearmap.NO_OBSTACLE if near is None else near.distance
                real = gap(message, frame, x, y)
                self.assertLessEqual(frame.free_metres(square), real + 1e-12)
                above += frame.metres(square) > real + 1e-12
                points += near is not None
        self.assertGreater(2 * above, points)

    def test_a_radius_of_0(self):
        """No radius has the `d` of 0, by which each path is clear, through obstacles too."""
        area = clearmap.Map(np.ones((3, 3), bool))
        self.assertTrue(area.is_clear(0, [(0, 0), (2, 0)]))
        for metric in ("euclid2", "city", "chess"):
            for whole_cells in (False, True):
                for radius in (0, "0.0", -0.0, 1e-300):
                    d = clearmap.clear_distance(radius, 0.05, metric, whole_cells)
                    self.assertGreaterEqual(d, 1)
                    self.assertFalse(area.is_clear(d, [(0, 0), (2, 0)], metric))
        for wrong in (math.nan, math.inf, -1, "a"):
            for whole_cells in (False, True):
                with self.assertRaises(clearmap.RosError):
                    clearmap.clear_distance(wrong, 0.05, whole_cells=whole_cells)

    def test_numbers_without_a_sign(self):
        """What is computed of distances, which are uint32, wants `astype` first, as is told."""
        grid = np.zeros((3, 40), bool)
        squares = clearmap.distances(grid)
        self.assertEqual((squares + 1).max(), 0)
        grid[0, 0] = True
        squares = clearmap.distances(grid)
        self.assertTrue((squares - 36 > 0)[squares != 36].all())
        wanted = [[(x * x + y * y) > 36 for x in range(40)] for y in range(3)]
        self.assertEqual((squares.astype(np.int64) - 36 > 0).tolist(), wanted)
        for told in (clearmap.distances.__doc__, (HERE / "../../docs/use/LIBRARY.md").read_text()):
            self.assertTrue("astype(numpy.int64)" in told)

    def test_typed_uses(self):
        """What mypy takes runs."""
        made = runpy.run_path(str(HERE / "typed_uses.py"))
        self.assertEqual((made["d"], made["other"].width, made["kept"].size), (30, 5, (3, 5)))


if __name__ == "__main__":
    unittest.main()
