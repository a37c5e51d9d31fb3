#!/usr/bin/env python3
"""Tests of the paths that clearmap-view asks about: which cells they have, that a long one holds
nothing up, and what is drawn of it. CLEARMAP names the built program."""
import json
import random
import sys
import threading
import time
import unittest
from fractions import Fraction

from testing import InBrowser, Viewing

import clearmap_ros as ros
import paths
from served import Served, blank

SIDE = 4096
HELD_UP = 2.0  # seconds that an answer may take on a busy machine while a long path is asked


def staircase(points, width, height):
    """The corners that the nodes of ROS find between cells' middles, in fractions."""
    frame = ros.Frame(width, height, 1, 0, 0)
    half = Fraction(1, 2)
    return frame.staircase([(x + half, height - 1 - y + half) for x, y in points])


class Cells(unittest.TestCase):
    def test_the_cells_of_a_path(self):
        """They are those that the nodes of ROS find, also through corners and back."""
        chance = random.Random(48)
        for _ in range(500):
            width, height = chance.randint(1, 12), chance.randint(1, 12)
            points = [
                (chance.randrange(width), chance.randrange(height))
                for _ in range(chance.randint(1, 5))
            ]
            cells = paths.walk(points)
            self.assertEqual(paths.corners(cells), staircase(points, width, height), points)
            steps = abs(cells[1:] - cells[:-1]).sum(axis=1).tolist()
            self.assertEqual(steps, [1] * len(steps))

    def test_through_corners(self):
        cells = paths.walk([(0, 2), (2, 0), (2, 0)]).tolist()
        self.assertEqual(cells, [[0, 2], [1, 2], [1, 1], [2, 1], [2, 0]])


class LongPaths(Viewing):
    def setUp(self):
        self.served = Served(blank(SIDE, SIDE))
        self.addCleanup(self.served.end)

    def test_a_long_path_holds_nothing_up(self):
        """While one of 200 points is asked, other questions are answered."""
        viewed, _ = self.view()
        chance = random.Random(48)
        points = [[chance.randrange(SIDE), chance.randrange(SIDE)] for _ in range(200)]
        body = json.dumps({"metric": "euclid2", "points": points, "radius": "2"})
        told = []
        asking = threading.Thread(target=lambda: told.append(viewed.ask("POST", "/path", body)))
        asking.start()
        took = []
        while asking.is_alive():
            start = time.monotonic()
            self.assertEqual(viewed.ask("GET", "/at?metric=city&x=0&y=0")[0], 200)
            took.append(time.monotonic() - start)
            time.sleep(0.02)
        [(status, said)] = told
        self.assertEqual(status, 200)
        self.assertGreater(len(json.loads(said)["corners"]), 200_000)
        self.assertLess(max(took), HELD_UP)


class Drawn(InBrowser):
    def parts(self, cells, scale):
        """The parts of a line that are seen in a window of 800 by 600 pixels at the map's corner,
        with this many pixels per cell."""
        return self.driver.execute_async_script(
            """const [cells, scale, done] = arguments;
            Promise.all([import("/lines.js"), import("/sight.js")]).then(([lines, { Sight }]) => {
              const sight = Object.assign(new Sight(), { width: 800, height: 600, scale });
              done(lines.partsSeen(cells, sight));
            });""",
            cells, scale,
        )  # fmt: skip

    def test_a_path_that_takes_its_time(self):
        """Until there is an answer, the page says that it is asked about."""
        self.open(blank(SIDE, SIDE))
        chance = random.Random(48)
        way = ";".join(f"{chance.randrange(SIDE)},{chance.randrange(SIDE)}" for _ in range(200))
        self.driver.get("about:blank")
        self.driver.get(f"{self.viewed.url}#path={way}")
        self.until(lambda: self.text("path") == "The path is being asked about ..")
        self.until(lambda: self.text("path") == "the map has no obstacle")
        self.assertTrue(self.text("long").startswith("200 points, "))

    def test_what_is_drawn(self):
        """Of cells off the window nothing, and of many next to one pixel few."""
        self.open()
        stairs = [(k // 2 + k % 2, k // 2) for k in range(8001)]
        [part] = self.parts(stairs, 0.125)
        self.assertTrue(250 < len(part) < 510, len(part))  # a line of 500 by 500 pixels
        self.assertEqual((part[0], part[-1]), ([0.0625, 0.0625], [500.0625, 500.0625]))
        [part] = self.parts(stairs, 100)
        self.assertEqual((part[:3], len(part)), ([[50, 50], [150, 50], [150, 150]], 13))
        away = [[1, 1], [1, 9], [3, 9], [3, 1]]
        there, back = self.parts(away, 100)
        self.assertEqual(there, [[150, 150], [150, 950]])
        self.assertEqual(back, [[350, 950], [350, 150]])
        self.assertEqual(self.parts([[2, 2]], 100), [[[250, 250]]])
        self.assertEqual(self.parts([[9, 9]], 100), [])


if __name__ == "__main__":
    sys.exit(unittest.main())
