#!/usr/bin/env python3
"""Tests of clearmap_ros.py against small maps made by hand, whose answers are known. Given the
program as CLEARMAP, it reads what was written, too."""
import io
import math
import os
import pathlib
import random
import subprocess
import sys
import tempfile
import unittest
from fractions import Fraction

import clearmap_ros as ros

try:
    from PIL import Image
except ImportError:
    Image = None

YAML = """# a map of four by three cells
image: map.pgm
resolution: 0.050000
origin: [-1.0, -2.0, 0.0]   # lower left
negate: 0
occupied_thresh: 0.65
free_thresh: 0.196
"""

# occupied, unknown and free samples as map_saver writes them, and what they are as rows
SAMPLES = [0, 205, 254, 254, 254, 254, 254, 0, 100, 89, 90, 206]
SAFE = [[1, 1, 0, 0], [0, 0, 0, 1], [1, 1, 1, 0]]
UNKNOWN_FREE = [[1, 0, 0, 0], [0, 0, 0, 1], [0, 1, 0, 0]]


def plain(samples, most=255, comment=""):
    return f"P2\n{comment}4 3\n{most}\n{' '.join(map(str, samples))}\n".encode()


def raw(samples, most=255, comment=""):
    size = 1 if most < 256 else 2
    return f"P5\n{comment}4 3\n{most}\n".encode() + b"".join(sample.to_bytes(size, "big") for sample in samples)


def rows_of(data, yaml=YAML, unknown_is_free=False):
    rows = ros.obstacles(ros.read_pgm(data), ros.read_settings(yaml), unknown_is_free)
    return [[int(black) for black in row] for row in rows]


class Images(unittest.TestCase):
    def test_both_forms_and_comments(self):
        for form in (plain, raw):
            for comment in ("", "# CREATOR: map_saver.cpp 0.050 m/pix\n", "#\n#4 4\n  "):
                self.assertEqual(rows_of(form(SAMPLES, comment=comment)), SAFE)
                self.assertEqual(rows_of(form(SAMPLES), unknown_is_free=True), UNKNOWN_FREE)
        self.assertEqual(ros.obstacles(ros.read_pgm(raw(SAMPLES)), ros.read_settings(YAML)), [[black == 1 for black in row] for row in SAFE])
        self.assertEqual(rows_of(b"P2 4 3 255 0 205 254 254 # a row\n254 254 254 0\n100 89 # here\n90 206"), SAFE)

    def test_other_maxima(self):
        # 0.65 of 100 is dark above 65: sample 35 is at the threshold and unknown, 34 is occupied.
        # 0.196 of 1000 is 196: sample 804 is unknown.
        hundred = [34, 35, 80, 81, 100, 0, 100, 100, 100, 100, 100, 100]
        for form in (plain, raw):
            self.assertEqual(rows_of(form(hundred, 100)), [[1, 1, 1, 0], [0, 1, 0, 0], [0, 0, 0, 0]])
            self.assertEqual(rows_of(form(hundred, 100), unknown_is_free=True), [[1, 0, 0, 0], [0, 1, 0, 0], [0, 0, 0, 0]])
            wide = [349, 350, 804, 805, 1000, 0, 256, 255, 1, 1000, 1000, 1000]
            self.assertEqual(rows_of(form(wide, 1000), unknown_is_free=True), [[1, 0, 0, 0], [0, 1, 1, 1], [1, 0, 0, 0]])
            self.assertEqual(rows_of(form(wide, 1000)), [[1, 1, 1, 0], [0, 1, 1, 1], [1, 0, 0, 0]])
            self.assertEqual(rows_of(form([65535] + 11 * [0], 65535)), [[0, 1, 1, 1], [1, 1, 1, 1], [1, 1, 1, 1]])

    def test_negate(self):
        turned = YAML.replace("negate: 0", "negate: 1")
        self.assertEqual(rows_of(raw([255 - sample for sample in SAMPLES]), turned), SAFE)
        self.assertEqual(rows_of(raw(SAMPLES), turned, True), [[0, 1, 1, 1], [1, 1, 1, 0], [0, 0, 0, 1]])

    def test_thresholds(self):
        # at a threshold a cell is neither occupied nor free: 51 of 255 is 0.2, and 153 is 0.6
        yaml = YAML.replace("0.65", "0.6").replace("0.196", "0.2")
        samples = [102, 101, 204, 205] + 8 * [255]
        self.assertEqual(rows_of(raw(samples), yaml)[0], [1, 1, 1, 0])
        self.assertEqual(rows_of(raw(samples), yaml, True)[0], [0, 1, 0, 0])

    def test_pbm(self):
        self.assertEqual(ros.pbm([[True, False, True], [False, False, False]]), b"P4\n3 2\n\xa0\x00")
        nine = [[False] * 8 + [True]]
        self.assertEqual(ros.pbm(nine), b"P4\n9 1\n\x00\x80")

    def test_refused_images(self):
        rows = (
            (b"P6\n1 1\n255\n\0\0\0", "no PGM"),
            (b"", "no PGM"),
            (b"P5\n4 3\n255\n\0", "ends before"),
            (b"P2\n4 3\n255\n0 1", "ends before"),
            (b"P5\n4", "ends before"),
            (b"P2\n1 1\n255\nx", "something else"),
            (b"P5\n1 x\n255\n\0", "something else"),
            (b"P5\n0 3\n255\n", "0 by 3"),
            (b"P5\n4097 3\n255\n", "4097 by 3"),
            (b"P5\n1 1\n65536\n\0\0", "65536"),
            (b"P5\n1 1\n0\n\0", "largest sample is 0"),
            (b"P5\n1 1\n100\n\x65", "sample of 101"),
        )
        for data, text in rows:
            with self.assertRaisesRegex(ros.RosError, text, msg=data):
                ros.read_pgm(data)


class Modes(unittest.TestCase):
    """What map_server publishes in a mode, and which cells are obstacles, as the node has them."""

    def test_scale(self):
        settings = ros.read_settings(YAML + "mode: scale\n")
        rows = (  # sample, value: (share - 0.196) / 0.454 of 98, and 1
            (254, 0), (206, 0), (205, 1), (150, 47), (100, 89), (91, 97), (90, 98), (89, 100), (0, 100),
        )  # fmt: skip
        for sample, value in rows:
            self.assertEqual(ros.value_of(Fraction(255 - sample, 255), settings), value, sample)
        samples = [254, 205, 180, 140, 100, 89, 0, 206, 254, 254, 254, 254]
        wanted = {
            False: [[0, 0, 1, 1], [1, 1, 1, 0], [0] * 4],
            True: [[0, 0, 0, 0], [1, 1, 1, 0], [0] * 4],
        }
        for free, rows in wanted.items():  # 22 of a hundred at 180, 56 at 140
            self.assertEqual(rows_of(raw(samples), YAML + "mode: scale\n", free), rows)

    def test_scale_of_one_threshold(self):
        yaml = YAML.replace("0.65", "0.2").replace("0.196", "0.2") + "mode: scale\n"
        settings = ros.read_settings(yaml)
        values = [ros.value_of(Fraction(share, 10), settings) for share in (1, 2, 3)]
        self.assertEqual(values, [0, 1, 100])

    def test_raw(self):
        samples = [0, 19, 20, 65, 66, 100, 101, 254, 255, 0, 0, 0]
        wanted = {
            False: [[0, 0, 1, 1], [1, 1, 1, 1], [1, 0, 0, 0]],
            True: [[0, 0, 0, 0], [1, 1, 1, 1], [0, 0, 0, 0]],
        }
        for free, rows in wanted.items():
            self.assertEqual(rows_of(raw(samples), YAML + "mode: raw\n", free), rows)
            turned = YAML.replace("negate: 0", "negate: 1") + "mode: raw\n"
            self.assertEqual(rows_of(raw([255 - it for it in samples]), turned, free), rows)


@unittest.skipIf(Image is None, "other images than PGM aren't tried: install python3-pil")
class OtherImages(unittest.TestCase):
    def png(self, mode, pixels, size=(4, 3), kind="PNG"):
        """The bytes of an image of python3-pil."""
        image = Image.new(mode, size)
        image.putdata(pixels)
        data = io.BytesIO()
        image.save(data, kind)
        return data.getvalue()

    def rows(self, data, yaml=YAML, unknown_is_free=False):
        rows = ros.obstacles(ros.read_image(data), ros.read_settings(yaml), unknown_is_free)
        return [[int(black) for black in row] for row in rows]

    def test_kinds(self):
        """Gray, in one byte and in two, in colours, opaque, and by a palette: as the same PGM."""
        colours = [(it, it, it) for it in SAMPLES]
        palette = Image.new("RGB", (4, 3))
        palette.putdata(colours)
        by_palette = io.BytesIO()
        palette.quantize(16).save(by_palette, "PNG")
        for data in (
            self.png("L", SAMPLES),
            self.png("I", [257 * it for it in SAMPLES]),
            self.png("RGB", colours),
            self.png("RGBA", [(*it, 255) for it in colours]),
            self.png("RGB", colours, kind="BMP"),
            by_palette.getvalue(),
            raw(SAMPLES),
        ):
            self.assertEqual(self.rows(data), SAFE)
            self.assertEqual(self.rows(data, unknown_is_free=True), UNKNOWN_FREE)

    def test_the_mean_of_colours(self):
        image = ros.read_image(self.png("RGB", [(255, 0, 255)] * 12))
        self.assertEqual((image.most, image.samples[0]), (765, 510))

    def test_what_can_be_seen_through(self):
        """It is unknown; in `scale` where it lies between the thresholds, in `raw` not at all."""
        pixels = [(0, 0, 0, 0), (254, 254, 254, 254), (140, 140, 140, 0), (140, 140, 140, 255)] * 3
        for mode, safe, free in (
            ("trinary", [1, 1, 1, 1], [0, 0, 0, 0]),
            ("scale", [1, 0, 1, 1], [1, 0, 0, 0]),
            ("raw", [0, 1, 1, 1], [0, 1, 1, 1]),
        ):
            yaml, data = YAML + f"mode: {mode}\n", self.png("RGBA", pixels)
            self.assertEqual(self.rows(data, yaml), [safe] * 3, mode)
            self.assertEqual(self.rows(data, yaml, True), [free] * 3, mode)

    def test_refused(self):
        large = self.png("L", [0] * 4097, (4097, 1))
        rows = (
            (b"not an image", "python3-pil can't read it"),
            (self.png("L", SAMPLES)[:40], "python3-pil can't read it"),
            (large, "4097 by 1 pixels"),
        )
        for data, text in rows:
            with self.assertRaisesRegex(ros.RosError, text):
                ros.read_image(data)

    def test_the_house(self):
        house = ros.read_map(pathlib.Path(__file__).resolve().parents[2] / "examples/house.yaml")
        self.assertEqual(house.frame.size, (320, 220))
        rows = ros.obstacles(house.image, house.settings)
        with self.assertRaisesRegex(TypeError, "where a bool is wanted"):
            house.cells(unknown_is_free="false")
        free = ros.obstacles(house.image, house.settings, unknown_is_free=True)
        for (x, y), blocked, known in (
            ((160, 100), 0, 0), ((113, 40), 1, 1), ((5, 5), 1, 0), ((113, 72), 0, 0),
        ):  # fmt: skip
            self.assertEqual((rows[y][x], free[y][x]), (blocked, known), (x, y))


class Settings(unittest.TestCase):
    def test_forms(self):
        listed = YAML.replace("origin: [-1.0, -2.0, 0.0]   # lower left", "origin:\n- -1.0\n- -2.0\n- 0.0").replace("image: map.pgm", 'image: "a map.pgm"')
        settings = ros.read_settings(listed + "mode: trinary\n")
        self.assertEqual((settings.image, settings.resolution, settings.origin_x, settings.origin_y), ("a map.pgm", Fraction(1, 20), -1, -2))
        self.assertEqual(ros.read_settings(YAML.replace("negate: 0", "negate: false")).negate, False)
        self.assertEqual(ros.read_settings(YAML.replace("negate: 0", "negate: true")).negate, True)

    def test_refused(self):
        rows = (
            (YAML.replace("-2.0, 0.0", "-2.0, 0.1"), "yaw is 0.1, and a map that is turned isn't supported"),
            (YAML + "mode: fine\n", "mode is 'fine', and there are trinary, scale and raw"),
            (YAML + "mode: [raw]\n", "there are trinary, scale and raw"),
            (YAML.replace("image: map.pgm\n", ""), "no 'image'"),
            (YAML.replace("0.050000", "0"), "resolution isn't above 0"),
            (YAML.replace("0.050000", "fine"), "'fine' is no number"),
            (YAML.replace("0.050000", "1e-999999999"), "'1e-999999999' is no number of a map"),
            (YAML.replace("0.050000", "1e9_9_9_9_9_9"), "is no number of a map"),
            (YAML.replace("0.050000", "1" * 401), "is no number of a map"),
            (YAML.replace("0.65", "0.1"), "thresholds"),
            (YAML.replace("0.65", "1.5"), "thresholds"),
            (YAML.replace("negate: 0", "negate: 2"), "'negate' of the yaml is 0 or 1"),
            (YAML.replace("[-1.0, -2.0, 0.0]", "[0, 0]"), "no 'origin' of three numbers"),
            (YAML.replace("[-1.0, -2.0, 0.0]", "[0, 0"), "doesn't end"),
            (YAML + "image: b.pgm\n", "isn't one key"),
            (YAML + "other:\n  resolution: 0.1\n", "is nested in another one"),
            (YAML.replace("resolution", "  resolution"), "is nested in another one"),
        )
        for text, sentence in rows:
            with self.assertRaisesRegex(ros.RosError, sentence, msg=text):
                ros.read_settings(text)


FRAME = ros.Frame(4, 3, Fraction("0.05"), Fraction(-1), Fraction(-2))


class Places(unittest.TestCase):
    def test_cells(self):
        rows = (
            ((-1.0, -2.0), (0, 2)),
            ((-0.95, -2.0), (1, 2)),
            ((-0.9500001, -1.95), (0, 1)),
            ((-0.81, -1.86), (3, 0)),
            (("-0.85", "-1.90"), (3, 0)),
        )
        for point, cell in rows:
            self.assertEqual(FRAME.cell(point), cell, point)
        for x in range(4):
            for y in range(3):
                self.assertEqual(FRAME.cell(FRAME.centre((x, y))), (x, y))
        self.assertEqual(FRAME.centre((0, 0)), (-0.975, -1.875))
        for point in ((-1.0001, -2), (-0.8, -2), (-1, -1.85), (-1, -2.01), (math.inf, 0), ("x", 0)):
            with self.assertRaises(ros.RosError, msg=point):
                FRAME.cell(point)

    def test_metres_are_rounded_down(self):
        self.assertAlmostEqual(FRAME.metres(16), 0.2, places=12)
        self.assertEqual(FRAME.metres(0), 0.0)
        for square in (1, 2, 3, 20, 34, 33538050):
            metres, free = Fraction(FRAME.metres(square)), Fraction(FRAME.free_metres(square))
            self.assertLessEqual(metres**2, square * FRAME.resolution**2)
            self.assertLess(float(metres) + 1e-9, math.sqrt(square + 1) * 0.05)
            self.assertTrue(free <= metres - Fraction("0.0707") or free == 0)
        self.assertEqual(FRAME.free_metres(2), 0.0)

    def test_radius(self):
        rows = (
            (0.22, "0.05", "euclid2", 34, 20),
            (0.3, "0.05", "euclid2", 55, 36),
            (0, "0.05", "euclid2", 2, 1),
            (0, "0.05", "city", 2, 1),
            (0, "0.05", "chess", 1, 1),
            (0.05, "0.05", "euclid2", 6, 1),
            (0.22, "0.05", "city", 9, 7),
            (0.22, "0.05", "chess", 6, 5),
            (0.15, "0.05", "chess", 4, 3),
            ("1e12", "1", "city", 1414213562376, 1414213562374),
        )
        for radius, resolution, metric, safe, centres in rows:
            self.assertEqual(ros.clear_distance(radius, resolution, metric), safe, (radius, metric))
            self.assertEqual(ros.clear_distance(radius, resolution, metric, whole_cells=False), centres, (radius, metric))
        for radius, resolution, metric in ((-1, 1, "city"), (1, 0, "city"), (1, 1, "euclid")):
            with self.assertRaises(ros.RosError):
                ros.clear_distance(radius, resolution, metric)

    def test_radius_is_safe(self):
        """Of all cells up to 24 away: those at `d` or more keep the radius between any two of their
        points, or between their middles."""
        for tenths in (0, 3, 10, 44, 60, 79):
            radius = Fraction(tenths, 10)
            for metric, distance in (("euclid2", lambda x, y: x * x + y * y), ("city", lambda x, y: x + y), ("chess", max)):
                safe, centres = (ros.clear_distance(radius, 1, metric, whole) for whole in (True, False))
                for x in range(25):
                    for y in range(25):
                        gap = max(x - 1, 0) ** 2 + max(y - 1, 0) ** 2
                        if distance(x, y) >= safe:
                            self.assertGreaterEqual(gap, radius**2, (metric, tenths, x, y))
                        if distance(x, y) >= centres:
                            self.assertGreaterEqual(x * x + y * y, radius**2, (metric, tenths, x, y))


def cells_of(path):
    """The cells of a path from corner to corner."""
    cells = [path[0]]
    for (x0, y0), (x1, y1) in zip(path, path[1:]):
        assert x0 == x1 or y0 == y1, "a slanted piece"
        steps = max(abs(x1 - x0), abs(y1 - y0))
        cells += [(x0 + (x1 - x0) * i // steps, y0 + (y1 - y0) * i // steps) for i in range(1, steps + 1)]
    return cells


def from_segment(point, start, end):
    """The square of how far a point is from a segment."""
    dx, dy = end[0] - start[0], end[1] - start[1]
    length = dx * dx + dy * dy
    along = min(1, max(0, ((point[0] - start[0]) * dx + (point[1] - start[1]) * dy) / length)) if length else 0
    return (start[0] + along * dx - point[0]) ** 2 + (start[1] + along * dy - point[1]) ** 2


class Plans(unittest.TestCase):
    def test_worked(self):
        wide = ros.Frame(10, 10, Fraction(1), Fraction(0), Fraction(0))
        rows = (
            ([("0.5", "0.5")], [(0, 9)]),
            ([("0.5", "0.5"), ("0.6", "0.7")], [(0, 9)]),
            ([("0.5", "0.5"), ("5.5", "0.5"), ("5.5", "4.5")], [(0, 9), (5, 9), (5, 5)]),
            ([("0.5", "0.5"), ("2.5", "2.5")], [(0, 9), (1, 9), (1, 8), (2, 8), (2, 7)]),
            ([("2.5", "2.5"), ("0.5", "1.5")], [(2, 7), (1, 7), (1, 8), (0, 8)]),
            ([("3.5", "0.5"), ("1.5", "0.5"), ("4.5", "0.5")], [(3, 9), (1, 9), (4, 9)]),
        )
        for plan, path in rows:
            self.assertEqual(wide.staircase(plan), path, plan)
        for plan in ([], [("0.5", "0.5"), ("10", "0.5")]):
            with self.assertRaises(ros.RosError):
                wide.staircase(plan)

    def test_never_further_than_a_cell(self):
        """Plans drawn by a fixed rule: each cell's middle is within a cell of its plan, neighbours
        are next to one another, and each point is in a cell."""
        frame = ros.Frame(40, 40, Fraction("0.05"), Fraction(-1), Fraction(-1))
        state = 7
        for _ in range(60):
            plan = []
            for _ in range(3):
                state = state * 1103515245 % 2147483648 + 12345
                plan.append((Fraction(state // 64 % 200, 100) - 1, Fraction(state // 65536 % 200, 100) - 1))
            cells = cells_of(frame.staircase(plan))
            self.assertEqual(cells[0], frame.cell(plan[0]))
            self.assertEqual(cells[-1], frame.cell(plan[-1]))
            for (x0, y0), (x1, y1) in zip(cells, cells[1:]):
                self.assertEqual(abs(x0 - x1) + abs(y0 - y1), 1)
            inside = set(cells)
            for start, end in zip(plan, plan[1:]):
                for part in range(0, 101, 7):
                    point = tuple(a + (b - a) * Fraction(part, 100) for a, b in zip(start, end))
                    x, y = frame.cell(point)
                    twins = {(x - dx, y + dy) for dx in (0, 1) for dy in (0, 1)}  # where it is on an edge, the cell on the other side is as good
                    self.assertTrue((x, y) in inside or (twins & inside and self.on_edge(frame, point)), (plan, point))
            for x, y in cells:
                middle = (frame.origin_x + (x + Fraction(1, 2)) * frame.resolution, frame.origin_y + (39 - y + Fraction(1, 2)) * frame.resolution)
                near = min(from_segment(middle, start, end) for start, end in zip(plan, plan[1:]))
                self.assertLessEqual(near, frame.resolution**2)

    @staticmethod
    def on_edge(frame, point):
        u, t = ((point[0] - frame.origin_x) / frame.resolution, (point[1] - frame.origin_y) / frame.resolution)
        return u.denominator == 1 or t.denominator == 1

    def test_long_plans_are_split(self):
        path = [(i, i % 2) for i in range(2501)]
        split = list(ros.pieces(path))
        self.assertEqual([len(piece) for piece in split], [1000, 1000, 503])
        joined = list(split[0])
        for piece in split[1:]:
            self.assertEqual(piece[0], joined[-1])
            joined += piece[1:]
        self.assertEqual(joined, path)
        for length in (1, 2, 999, 1000):
            self.assertEqual(len(list(ros.pieces(path[:length]))), 1)
        self.assertEqual([len(piece) for piece in ros.pieces(path[:1001])], [1000, 2])
        lines = ros.query_lines("PATH city", path)
        self.assertTrue(all(line.startswith("PATH city ") and len(line) < 16384 for line in lines))
        self.assertEqual(len(lines), 3)


class Commands(unittest.TestCase):
    def run_words(self, *words, text=""):
        tool = pathlib.Path(__file__).with_name("clearmap_ros.py")
        return subprocess.run([sys.executable, str(tool), *map(str, words)], input=text.encode(), capture_output=True, timeout=60)

    def test_whole_run(self):
        with tempfile.TemporaryDirectory() as folder:
            yaml = pathlib.Path(folder, "map.yaml")
            yaml.write_text(YAML)
            pathlib.Path(folder, "map.pgm").write_bytes(raw(SAMPLES, comment="# CREATOR: map_saver\n"))
            written = self.run_words("pbm", yaml).stdout
            self.assertEqual(written, b"P4\n4 3\n\xc0\x10\xe0")
            self.assertEqual(self.run_words("pbm", yaml, "--unknown-is-free").stdout, b"P4\n4 3\n\x80\x10\x40")
            self.assertEqual(self.run_words("cell", yaml, "-0.81", "-1.86").stdout, b"3 0\n")
            self.assertEqual(self.run_words("centre", yaml, 0, 0).stdout, b"-0.975 -1.875\n")
            self.assertEqual(self.run_words("metres", yaml, 34).stdout, b"0.291547 from middle to middle\n0.220836 free in any case\n")
            self.assertIn(b"euclid2 34 against whole cells (safe), 20 from middle to middle\n", self.run_words("radius", yaml, "0.22").stdout)
            plan = "# a plan\n-0.975 -1.975\n-0.875, -1.875\n"
            self.assertEqual(self.run_words("path", yaml, text=plan).stdout, b"PATH euclid2 0 2 1 2 1 1 2 1 2 0\n")
            self.assertEqual(self.run_words("path", yaml, "--radius", "0.05", text=plan).stdout, b"CLEAROF euclid2 6 0 2 1 2 1 1 2 1 2 0\n")
            for square in ("-3", "-25"):
                refused = self.run_words("metres", yaml, square)
                said = f"clearmap-ros: a euclid2 distance is a square in cells, 0 or more, and no {square}\n"
                self.assertEqual((refused.returncode, refused.stdout, refused.stderr.decode()), (1, b"", said))
            refused = self.run_words("cell", yaml, 7, 7)
            self.assertEqual((refused.returncode, refused.stdout), (1, b""))
            self.assertIn(b"isn't on the map", refused.stderr)
            self.assertEqual(self.run_words("pbm", yaml.with_name("no.yaml")).returncode, 1)
            refused = self.run_words("pbm", yaml.with_name("map.pgm"))
            self.assertIn(b"is an image: name its map.yaml", refused.stderr)
            self.assertEqual((refused.returncode, refused.stdout), (1, b""))
            if program := os.environ.get("CLEARMAP"):
                read = subprocess.run([program, "dist", "--metric", "city"], input=written, capture_output=True, timeout=60)
                self.assertEqual(read.stdout, b"0 0 1 1\n1 1 1 0\n0 0 0 1\n")


    def test_whole_words(self):
        """A word is read whole, or refused."""
        with tempfile.TemporaryDirectory() as folder:
            yaml = pathlib.Path(folder, "map.yaml")
            yaml.write_text(YAML)
            pathlib.Path(folder, "map.pgm").write_bytes(raw(SAMPLES))
            for words in (
                ("metres", "3_4"), ("metres", "34x"), ("metres", "3.4"), ("metres", "\u0663"),
                ("centre", "0,1", "0"), ("centre", "1/2", "0"), ("cell", "0,81", "-1.86"),
                ("radius", "0,22"), ("radius", "0.22m"), ("radius", "1/"), ("radius", "0x1"),
            ):  # fmt: skip
                refused = self.run_words(words[0], yaml, *words[1:])
                self.assertEqual(refused.stdout, b"", words)
                self.assertIn(refused.returncode, (1, 2), words)
                self.assertRegex(refused.stderr.decode(), "is no (whole )?number", words)
            for word in ("1/20", "0.05", "5e-2"):
                self.assertIn(b"euclid2 6 ", self.run_words("radius", yaml, word).stdout)

    def test_metres_go_down(self):
        """What is printed is never more than a length whose float was rounded down, and it is the
        length itself where six digits say it."""
        draw = random.Random(17)
        for _ in range(3000):
            length = Fraction(draw.randrange(10**9), 10 ** draw.choice((3, 6, 7, 9, 15, 22)))
            told = Fraction(ros.down(ros.float_below(length)))
            if (length * 10**6).denominator == 1:
                self.assertEqual(told, length)
            self.assertTrue(length - Fraction(1, 10**6) < told <= length, length)


class Images(unittest.TestCase):
    def test_an_image_for_a_map(self):
        """It is refused with the cure, of whatever kind it is."""
        with tempfile.TemporaryDirectory() as folder:
            for number, image in enumerate((raw(SAMPLES), b"P2 1 1 1 0", b"\x89PNG\r\n", b"GIF89a", b"II*\0")):
                path = pathlib.Path(folder, f"{number}.pgm")
                path.write_bytes(image)
                with self.assertRaisesRegex(ros.RosError, "is an image: name its map.yaml"):
                    ros.read_map(path)


if __name__ == "__main__":
    unittest.main()
