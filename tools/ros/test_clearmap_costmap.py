#!/usr/bin/env python3
"""Tests of costmaps and of clouds of distances: against a search of all obstacles, on maps drawn at
random. Needs numpy and python3-pil, and no ROS."""
import math
import pathlib
import random
import sys
import unittest
from fractions import Fraction

HERE = pathlib.Path(__file__).resolve().parent
FOLDERS = HERE, HERE.parent, HERE.parent.parent / "clients/python", HERE.parent / "view"
sys.path[:0] = [str(folder) for folder in FOLDERS]

import numpy

import clearmap
import clearmap_costmap as costmaps
import clearmap_follow as follow
import clearmap_grid as grids
import clearmap_messages as messages
from clearmap_ros import MODES, Frame, Gray, Map, RosError, Settings, obstacles, read_map

HOUSE = HERE.parent.parent / "examples/house.yaml"


def least_of(cells):
    """For each cell, by rows from the top, the square of its distance to the nearest obstacle: a
    search of all."""
    obstacles = [(x, y) for y, row in enumerate(cells) for x, full in enumerate(row) if full]

    def least(x, y):
        return min(((x - i) ** 2 + (y - j) ** 2 for i, j in obstacles), default=math.inf)

    return [[least(x, y) for x in range(len(row))] for y, row in enumerate(cells)]


def published(square, resolution, robot, inflated, scaling):
    """What costmap_2d publishes for a cell, as its source computes it, in doubles."""
    if square == 0:
        return 100
    cells = math.sqrt(square)
    if cells > math.ceil(round(inflated / resolution, 9)):
        return 0
    if square <= round((robot / resolution) ** 2, 9):
        return 99
    cost = int(252 * math.exp(-scaling * (cells * resolution - robot)))
    return 1 + 97 * (cost - 1) // 251 if cost else 0


def drawn(draw, width, height):
    """A map of few or many obstacles."""
    share = draw.choice((0, 0.02, 0.1, 0.5))
    return [[draw.random() < share for _ in range(width)] for _ in range(height)]


def squares_of(least):
    """The same as the library has them."""
    return numpy.array(
        [[clearmap.NO_OBSTACLE if it == math.inf else it for it in row] for row in least],
        numpy.uint32,
    )


class Costs(unittest.TestCase):
    def test_random_maps(self):
        """Each cell of a message, which begins at the lower left, has what costmap_2d publishes."""
        draw = random.Random(11)
        for _ in range(150):
            width, height = draw.randint(1, 24), draw.randint(1, 24)
            resolution = draw.choice(("0.05", "0.1", "0.025", "1"))
            robot = draw.choice(("0", "0.05", "0.22", "0.3", "1"))
            inflated = str(float(robot) + draw.choice((0, 0.05, 0.33, 2)))
            numbers = robot, inflated, draw.choice("0258")
            least = least_of(drawn(draw, width, height))
            values = costmaps.Inflation(*numbers).values(Fraction(resolution))
            data = costmaps.from_below(costmaps.costs(squares_of(least), values))
            floats = [float(it) for it in (resolution, *numbers)]
            for y in range(height):
                for x in range(width):
                    wanted = published(least[height - 1 - y][x], *floats)
                    self.assertEqual(data[y * width + x], wanted, (numbers, resolution, x, y))

    def test_the_radii_are_exact(self):
        """6 cells of 0.05 m are 0.3 m, and not a little more or less, as doubles have it."""
        values = costmaps.Inflation(0.3, 0.3, 0).values(Fraction("0.05"))
        self.assertEqual(values.tolist(), [100] + [99] * 36 + [0])
        values = costmaps.Inflation("0.3", "0.55", 0).values(Fraction("0.05"))
        self.assertEqual((values[36], values[37], values[121], values[122]), (99, 98, 98, 0))

    def test_refused(self):
        rows = (
            ((-1, 1, 1), "none is below 0"),
            ((1, 0.5, 1), "the first isn't above the second"),
            ((0.1, 1, -2), "none is below 0"),
            ((0.1, "far", 1), "'far' is no number"),
            ((0.1, math.inf, 1), "'inf' is no number"),
            ((0.1, 60, 1), "an inflation_radius of 1200 cells, and 1000 are most"),
        )
        for numbers, sentence in rows:
            with self.assertRaisesRegex(RosError, sentence):
                costmaps.Inflation(*numbers).values(Fraction("0.05"))
        with self.assertRaisesRegex(RosError, "'0' is no distance_points"):
            messages.Painter(None, costmaps.Inflation(), points=0)
        for frequency in (0, -1, 51, "often", math.nan):
            with self.assertRaisesRegex(RosError, "is no publish_frequency"):
                follow.pause_of(frequency)

    def test_unknown_cells(self):
        """-1 where a cell is as it was made, and the value where a painter changed it."""
        draw = random.Random(12)
        values = costmaps.Inflation("0.1", "0.2", 3).values(Fraction("0.05"))
        for _ in range(100):
            width, height, are_free = draw.randint(1, 12), draw.randint(1, 12), draw.random() < 0.5
            unknown, cells = drawn(draw, width, height), drawn(draw, width, height)
            least = least_of(cells)
            mark = costmaps.Unknown(numpy.array(unknown), are_free)
            found = costmaps.costs(squares_of(least), values, mark)
            plain = costmaps.occupancy(squares_of(least), mark)
            for y in range(height):
                for x in range(width):
                    cost = published(least[y][x], 0.05, 0.1, 0.2, 3)
                    stays = cost < 99 if are_free else cells[y][x]
                    self.assertEqual(found[y, x], -1 if unknown[y][x] and stays else cost)
                    stays = cells[y][x] != are_free
                    wanted = -1 if unknown[y][x] and stays else 100 * cells[y][x]
                    self.assertEqual(plain[y, x], wanted)

    def test_yaml_maps(self):
        """Images of each kind, by each mode: as the conversions have them, cell by cell."""
        draw = random.Random(16)
        for turn in range(60):
            width, height, most = draw.randint(1, 9), draw.randint(1, 9), draw.choice((1, 255, 700))
            samples = [draw.randint(0, most) for _ in range(width * height)]
            opaque = bytes(draw.randint(0, 1) for _ in samples) if turn % 3 == 0 else b""
            image = Gray(width, height, most, bytes(samples) if most < 256 else samples, opaque)
            limits = sorted(Fraction(draw.randint(0, 100), 100) for _ in range(2))
            mode = draw.choice(MODES)
            settings = Settings("", 1, 0, 0, draw.random() < 0.5, limits[1], limits[0], mode)
            known = Map(settings, image, Frame(width, height, Fraction(1), 0, 0))
            safe, free = (sum(obstacles(image, settings, is_free), []) for is_free in (False, True))
            unknown = bytes(one != two for one, two in zip(safe, free))
            for is_free, cells in ((False, safe), (True, free)):
                grid, mark = grids.grids_of_map(known, is_free)
                self.assertEqual((grid.cells, mark.cells), (bytes(cells), unknown), turn)

    def test_the_house(self):
        """Unknown cells are obstacles, or free, and are known as such."""
        known = read_map(HOUSE)
        safe, unknown = grids.grids_of_map(known)
        free, same = grids.grids_of_map(known, unknown_is_free=True)
        self.assertEqual((safe.size, unknown.size, same), ((320, 220), (320, 220), unknown))
        for x, y, blocked, is_unknown in ((160, 100, 0, 0), (113, 40, 1, 0), (5, 5, 1, 1)):
            at = y * 320 + x
            self.assertEqual((safe.cells[at], unknown.cells[at]), (blocked, is_unknown))
            self.assertEqual(free.cells[at], blocked and not is_unknown)


class Clouds(unittest.TestCase):
    def test_random_maps(self):
        """One point for each free cell that is taken, at its middle, with its distance."""
        draw = random.Random(13)
        for _ in range(150):
            width, height = draw.randint(1, 20), draw.randint(1, 20)
            frame = Frame(width, height, Fraction("0.05"), Fraction(-3), Fraction(2))
            least = least_of(drawn(draw, width, height))
            most = draw.choice((1, 30, 1000))
            data = costmaps.cloud(squares_of(least), frame, most)
            points = numpy.frombuffer(data, costmaps.POINT)
            step = costmaps.step_of((width, height), most)
            wanted = [
                (*frame.centre((x, y)), 0, math.sqrt(least[y][x]) * 0.05)
                for y in range(0, height, step)
                for x in range(0, width, step)
                if 0 < least[y][x] < math.inf
            ]
            self.assertLessEqual(len(points), most)
            self.assertEqual(len(points), len(wanted))
            for point, other in zip(points, wanted):
                for one, two in zip(point, other):
                    self.assertAlmostEqual(one, two, places=5)

    def test_steps(self):
        sizes = (4096, 4096), (400, 300), (4096, 1), (1, 1)
        for size, most in zip(sizes, (250_000, 250_000, 10, 1)):
            step = costmaps.step_of(size, most)
            count = -(-size[0] // step) * -(-size[1] // step)
            self.assertLessEqual(count, most)
            less = max(step - 1, 1)
            if step > 1:
                self.assertGreater(-(-size[0] // less) * -(-size[1] // less), most)


if __name__ == "__main__":
    unittest.main()
