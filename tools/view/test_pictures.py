#!/usr/bin/env python3
"""Tests of what clearmap-view's pictures are made of: distances by the library and by the program,
levels, pieces and unknown cells. CLEARMAP names the built program."""
import pathlib
import sys
import tempfile
import unittest
import zlib

from testing import POST, YAML

import clearmap
import numpy
import picture
import tables
import yaml_map
from clearmap.runs import TableError, no_library
from served import PROGRAM

LACKING = no_library()


def numbers(piece, width):
    """The numbers of a piece, by rows."""
    return numpy.frombuffer(zlib.decompress(piece), "<i4").reshape(-1, width).tolist()


def table(image, metric, edge="open", program=PROGRAM):
    """The distances of an image by the program."""
    return tables.table_of(program, None, image, metric, edge)


class Tables(unittest.TestCase):
    def test_distances(self):
        self.assertEqual(table(b"P1\n4 1\n1000\n", "city").tolist(), [[0, 1, 2, 3]])
        self.assertEqual(table(POST, "euclid2")[3].tolist(), [8, 5, 4, 5, 8, 13])
        walls = table(b"P1\n5 3\n00000\n00000\n00000\n", "euclid2", "wall")
        self.assertEqual(walls.tolist(), [[1] * 5, [1, 4, 4, 4, 1], [1] * 5])
        none = table(b"P1\n2 2\n00\n00\n", "chess")
        self.assertEqual(none.tolist(), [[clearmap.NO_OBSTACLE] * 2] * 2)

    def test_refused(self):
        for program, image in ((PROGRAM, b"P1\n2 1\n1\n"), ("/no/such/program", POST)):
            with self.assertRaises(TableError):
                table(image, "city", program=program)
        with self.assertRaisesRegex(TableError, "neither libclearmap nor the program"):
            table(POST, "city", program=None)

    @unittest.skipIf(LACKING, LACKING)
    def test_the_library_answers_what_the_program_does(self):
        random = numpy.random.default_rng(48)
        for width, height, share in ((1, 1, 1.0), (70, 33, 0.02), (64, 130, 0.3), (5, 9, 0.0)):
            bits = random.random((height, width)) < share
            rows = "\n".join("".join(map(str, row)) for row in bits.astype(int).tolist())
            image = f"P1\n{width} {height}\n{rows}\n".encode()
            self.assertTrue((picture.bits_of(image) == bits).all())
            for metric in ("euclid2", "city", "chess"):
                for edge in ("open", "wall"):
                    area = clearmap.Map(bits, edge)
                    found = tables.table_of(None, area, image, metric, edge)
                    self.assertTrue((found == table(image, metric, edge)).all(), (metric, edge))


class Pictures(unittest.TestCase):
    def test_numbers(self):
        made = picture.Picture(table(POST, "euclid2"))
        self.assertEqual((made.width, made.height, made.most), (6, 4, 13))
        self.assertEqual(numbers(made.piece(0, 0, 0), 6)[1], [5, 2, 0, 2, 5, 10])
        self.assertEqual(made.distance(numpy.array([(2, 1), (3, 1), (5, 3)])).tolist(), [0, 1, 13])
        self.assertFalse(made.has_unknown)

    def test_no_obstacle(self):
        made = picture.Picture(table(b"P1\n2 1\n00\n", "chess"))
        self.assertEqual(made.most, None)
        self.assertEqual(numbers(made.piece(0, 0, 0), 2), [[picture.FAR] * 2])
        self.assertEqual(made.distance(numpy.array([(1, 0)])).tolist(), [clearmap.NO_OBSTACLE])

    def test_unknown(self):
        """A cell that the yaml's image doesn't know is hatched just where it is an obstacle."""
        unknown = numpy.zeros((4, 6), bool)
        unknown[1, 2] = unknown[0, 0] = True
        made = picture.Picture(table(POST, "city"), unknown)
        self.assertEqual(numbers(made.piece(0, 0, 0), 6)[1], [3, 2, 1, 2, 3, 4])
        self.assertEqual(numbers(made.piece(0, 0, 0), 6)[0][0], 4)
        self.assertEqual(made.distance(numpy.array([(2, 1), (3, 1)])).tolist(), [0, 1])
        self.assertTrue(made.has_unknown)
        unknown[1, 2] = False
        self.assertFalse(picture.Picture(table(POST, "city"), unknown).has_unknown)

    def test_levels(self):
        """No obstacle is lost from one level to the next, nor is it hidden by an unknown cell."""
        distances = numpy.ones((601, 1100), numpy.uint32)
        distances[600, 1099] = distances[0, 513] = distances[1, 512] = 0
        unknown = numpy.zeros(distances.shape, bool)
        unknown[1, 512] = unknown[600, 1099] = True
        made = picture.Picture(distances, unknown)
        sizes = [level.shape for level in made.levels]
        self.assertEqual(sizes, [(601, 1100), (301, 550), (151, 275)])
        self.assertEqual([int(level[-1, -1]) for level in made.levels], [1, 1, 1])
        self.assertEqual(int(made.levels[2][0, 128]), 0)
        self.assertEqual(len(numbers(made.piece(0, 2, 1), 76)), 89)
        for place in ((0, 3, 0), (0, 0, 2), (3, 0, 0), (0, -1, 0)):
            with self.assertRaises(IndexError):
                made.piece(*place)

    def test_tight_runs(self):
        cells = numpy.array([(x, 0) for x in range(7)])
        rows = (
            ([9, 9, 9, 9, 9, 9, 9], []),
            ([1, 1, 1, 1, 1, 1, 1], [(0, 6)]),
            ([4, 5, 4, 3, 5, 5, 4], [(0, 0), (2, 3), (6, 6)]),
        )
        for distances, wanted in rows:
            runs = picture.tight_runs(cells, numpy.array(distances, numpy.uint32), 5)
            self.assertEqual([(run[0][0], run[-1][0]) for run in runs], wanted)

    def test_cells_that_tell_a_wall(self):
        rows = (
            (b"P1\n1 1\n0\n", (0, 0)),
            (b"P1\n1 1\n1\n", None),
            (b"P1\n5 3\n01000\n00000\n00000\n", (3, 0)),
            (b"P1\n5 3\n00100\n00000\n00000\n", (0, 0)),
            (b"P1\n5 3\n01010\n00000\n00000\n", (0, 2)),
            (b"P1\n3 6\n000\n110\n000\n000\n000\n111\n", (0, 3)),
            (b"P1\n3 6\n110\n100\n100\n100\n100\n111\n", (2, 2)),
            (b"P1\n3 3\n000\n010\n000\n", None),
        )
        for image, wanted in rows:
            self.assertEqual(picture.telling_cell(picture.bits_of(image)), wanted, image)


class Yaml(unittest.TestCase):
    def test_unknown_cells(self):
        for text, samples in (
            ("negate: 0", b"\x00\xcd\xfe\x80"),
            ("negate: 1", b"\xff\x32\x00\x80"),
        ):
            with tempfile.TemporaryDirectory() as folder:
                yaml = pathlib.Path(folder, "house.yaml")
                yaml.write_text(YAML.replace("negate: 0", text))
                pathlib.Path(folder, "map.pgm").write_bytes(b"P5\n2 2\n255\n" + samples)
                known = yaml_map.read_yaml_map(str(yaml))
                plain = b"P2\n2 2\n255\n" + b" ".join(b"%d" % sample for sample in samples)
                pathlib.Path(folder, "map.pgm").write_bytes(plain)
                again = yaml_map.read_yaml_map(str(yaml))
            self.assertEqual((known.name, known.frame.size), ("house", (2, 2)))
            self.assertEqual(known.unknown.tolist(), [[False, True], [False, True]])
            self.assertEqual(again.unknown.tolist(), known.unknown.tolist())


if __name__ == "__main__":
    sys.exit(unittest.main())
