#!/usr/bin/env python3
"""Tests of `clearmap-ros clearance` on a map made by hand, and of a Python that lacks python3-pil.
The first need numpy and the library."""
import argparse
import io
import math
import pathlib
import random
import re
import subprocess
import sys
import tempfile
import unittest
from unittest import mock

import clearmap_ros as ros

try:
    import clearmap.library

    LACKS = clearmap.library.numpy() and clearmap.library.library() and None
except ImportError as fault:
    LACKS = str(fault)

ROOM = """image: room.pgm
resolution: 0.1
origin: [-1.0, -0.5, 0.0]
negate: 0
occupied_thresh: 0.65
free_thresh: 0.196
"""


def turned(points, x, y, theta):
    """The points of an outline at a pose."""
    c, s = math.cos(theta), math.sin(theta)
    return [(x + c * a - s * b, y + s * a + c * b) for a, b in points]


def sides(corners):
    """The sides of a polygon."""
    return list(zip(corners, [*corners[1:], corners[0]]))


def from_side(point, side):
    """How far a point is from a segment."""
    (ax, ay), (bx, by) = side
    dx, dy = bx - ax, by - ay
    at = min(1, max(0, ((point[0] - ax) * dx + (point[1] - ay) * dy) / (dx * dx + dy * dy)))
    return math.hypot(ax + at * dx - point[0], ay + at * dy - point[1])


def are_apart(first, second):
    """Whether a side of the first has all of the second on its other side."""
    return any(
        all((b[0] - a[0]) * (y - a[1]) - (b[1] - a[1]) * (x - a[0]) < 0 for x, y in second)
        for a, b in sides(first)
    )


def gap(first, second):
    """The distance between two convex polygons."""
    if not (are_apart(first, second) or are_apart(second, first)):
        return 0
    pairs = (first, second), (second, first)
    return min(from_side(point, side) for one, other in pairs for point in one for side in sides(other))


@unittest.skipIf(LACKS, LACKS)
class Clearances(unittest.TestCase):
    """A room of 2 by 1 m: a post of one cell from (0.4, 0.2) to (0.5, 0.3), and an unknown cell in
    the lower right corner."""

    def setUp(self):
        folder = tempfile.TemporaryDirectory()
        self.addCleanup(folder.cleanup)
        samples = [254] * 200
        samples[2 * 20 + 14], samples[199] = 0, 205
        self.yaml = pathlib.Path(folder.name, "room.yaml")
        self.yaml.write_text(ROOM)
        self.yaml.with_name("room.pgm").write_bytes(b"P5 20 10 255\n" + bytes(samples))

    def asked(self, plan, *words):
        """What the command answers about a plan: its status, and its line."""
        tool = pathlib.Path(__file__).with_name("clearmap_ros.py")
        line = [sys.executable, str(tool), "clearance", str(self.yaml), *words]
        told = subprocess.run(line, input=plan.encode(), capture_output=True, timeout=60)
        return told.returncode, (told.stdout or told.stderr).decode().rstrip("\n")

    def test_a_plan(self):
        """Its line passes the post at 0.3 m, and with unknown cells free nothing else is near."""
        plan = "-0.9 -0.1\n0.45 -0.1\n"
        post = "between points 1 and 2, by the obstacle at (0.45, 0.25)"
        self.assertEqual(self.asked(plan), (0, f"0.300000 m free {post}"))
        self.assertEqual(self.asked(plan, "--radius", "0.22"), (0, f"0.080000 m free {post}"))
        self.assertEqual(self.asked(plan, "--radius", "0.3"), (0, f"0.000000 m free {post}"))
        self.assertEqual(self.asked("0.9 -0.35\n")[1][:24], "0.050000 m free at the p")
        free = self.asked("0.9 -0.35\n", "--unknown-is-free")
        self.assertEqual(free, (0, "0.680073 m free at the point, by the obstacle at (0.45, 0.25)"))
        wall = self.asked(plan, "--edge", "wall")
        self.assertEqual(wall[1][:38], "0.100000 m free between points 1 and 2")

    def test_a_footprint(self):
        """An L's arm: what is to the left of the robot as ROS has it is towards the post."""
        left = "0.1,0.3 -0.1,0.3 -0.1,0 0.1,0"
        at = "m free at (0.450000, -0.150000), turned by 0.000000"
        self.assertEqual(self.asked("0.45 -0.15 0\n", "--footprint", left), (0, f"0.050000 {at}"))
        right = "0.1,-0.3 -0.1,-0.3 -0.1,0 0.1,0"
        self.assertEqual(self.asked("0.45 -0.15 0\n", "--footprint", right), (0, f"0.350000 {at}"))
        through = self.asked("-0.5 0.2 0\n0.9 0.2 0\n", "--footprint", "0.1,0.1 -0.1,0.1 -0.1,-0.1")
        self.assertEqual((through[0], through[1][:15]), (0, "0.000000 m free"))

    def test_never_too_much(self):
        """Footprints and poses drawn at random: what is told isn't above the distance of the turned
        outline from the post, and at most an eighth of a cell below it."""
        draw, told = random.Random(16), []
        for _ in range(80):
            n = draw.randint(3, 6)
            angles = sorted(draw.uniform(0, math.tau) for _ in range(n))
            radius = draw.uniform(0.05, 0.3)
            points = [(round(radius * math.cos(a), 4), round(radius * math.sin(a), 4)) for a in angles]
            pose = [round(draw.uniform(*ends), 4) for ends in ((-0.9, 0.9), (-0.4, 0.4), (-4, 4))]
            corners = turned(points, *pose)
            words = argparse.Namespace(map=self.yaml, edge="open", unknown_is_free=True, radius=None)
            words.footprint = " ".join("%s,%s" % point for point in points)
            plan = io.StringIO("%s %s %s\n" % tuple(pose))
            try:
                with mock.patch.object(sys, "stdin", plan):
                    (line,) = ros.clearance(words)
            except ros.RosError:
                continue  # too thin, or in one line
            truth = gap(corners, [(0.4, 0.2), (0.5, 0.2), (0.5, 0.3), (0.4, 0.3)])
            told.append(float(line.split()[0]))
            self.assertLessEqual(told[-1], truth + 1e-12, (points, pose))
            self.assertGreater(told[-1], truth - 0.0126, (points, pose))
        self.assertGreater(sum(metres > 0 for metres in told), 40)

    def test_refused(self):
        square = "0.1,0.1 -0.1,0.1 -0.1,-0.1 0.1,-0.1"
        for plan, words, said in (
            ("", (), "no point"), ("9 9\n", (), "isn't on the map"), ("0 0 0\n", (), "X and Y"),
            ("0 0\n", ("--radius", "-1"), "0 or more"), ("0 0\n", ("--radius", "x"), "no number"),
            ("0 0\n", ("--radius", ""), "no number"),
            ("0 0\n", ("--footprint", square), "X, Y and THETA"), ("", ("--footprint", square), "no pose"),
            ("0 0 0\n", ("--footprint", "1,1 2,2 3"), "points of a footprint"),
            ("0 0 0\n", ("--footprint", "0,0 1,1"), "3 to 128"), ("0 0 0\n", ("--footprint", "1,a 2,2 3,4"), "no number"),
            ("0 0 x\n", ("--footprint", square), "no number"), ("9 9 0\n", ("--footprint", square), "isn't on the map"),
        ):  # fmt: skip
            status, line = self.asked(plan, *words)
            self.assertEqual((status, line.count("\n"), line[:14]), (1, 0, "clearmap-ros: "), line)
            self.assertIn(said, line)


class Interpreters(unittest.TestCase):
    def test_one_without_pil(self):
        """It is named: Debian's package is for another one."""
        said = f"want python3-pil, which {sys.executable} doesn't have: Debian's is for /usr/bin/python3"
        with mock.patch.dict(sys.modules, {"PIL": None, "PIL.Image": None}):
            with self.assertRaisesRegex(ros.RosError, re.escape(said)):
                ros.read_image(b"\x89PNG")


if __name__ == "__main__":
    unittest.main()
