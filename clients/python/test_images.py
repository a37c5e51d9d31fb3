#!/usr/bin/env python3
"""Tests of maps from PBM images and from the cells of occupancy grids. They need the library, and
for the faults of cut and changed images the built program, or the one that CLEARMAP names. ARRAYS
in the environment is how many random images are tried, 150 where it isn't there.
"""
import array
import os
import pathlib
import random
import re
import subprocess
import sys
import unittest

import numpy as np

HERE = pathlib.Path(__file__).resolve().parent
sys.path.insert(0, str(HERE.parent.parent / "tools"))

import clearmap
from served import PROGRAM

ARRAYS = int(os.environ.get("ARRAYS", "150"))
FAULTS = (
    ("Truncated", b"", b"P", b"P1", b"P1\n", b"P1 #", b"P1 # 3", b"P1 3", b"P1 3 ", b"P1 3 1",
     b"P1 3 1\n", b"P1 3 1\n#", b"P1 3 1\n10", b"P1 3 1\n10 #0\r", b"P1 3 1\n10 # 1", b"P4 9 1",
     b"P4 9 1\n\xff", b"P4 8 2\n\xff"),
    ("BadMagic", b"p1 1 1\n1", b"Q", b"P2 1 1 1\n1", b"\x89PNG", b"1"),
    ("BadComment", b"P1# a\n1 1\n1", b"P1 1# a\n1\n1", b"P1 1 1# a\n1", b"P4 1 1#\n\xff",
     b"P1 3 1\n1#\n10", b"P1 3 1\n1 #\n1#0"),
    ("MissingSpace", b"P11 1\n1", b"P1 1x1\n1", b"P1 1 1x1", b"P1\v1 1\n1", b"P4 1 1\f\xff"),
    ("BadNumber", b"P1 x 1\n1", b"P1 -1 1\n1", b"P1 1 +1\n1", b"P1 1 \v1\n1"),
    ("ZeroSize", b"P1 0 1\n", b"P1 0#", b"P1 0x", b"P1 1 000\n", b"P4 0 4097\n"),
    ("TooLarge", b"P1 4097 0\n", b"P1 1 4097x", b"P4 " + b"9" * 5000 + b" 1\n"),
    ("BadPixel", b"P1 3 1\n12", b"P1 3 1\n1\v1", b"P1 3 1\nx#", b"P1 3 1\n1\x00", b"P1 3 1\n#\n#\n,"),
    ("JunkNotSpaced", b"P1 3 1\n1010", b"P1 3 1\n101#", b"P1 3 1\n1 0 #\n1P1 1 1\n1",
     b"P1 1 1\n1\x00"),
)  # fmt: skip


def plain(grid, gaps, between=b""):
    """A plain image with these bytes as the gaps of its head, and between its pixels."""
    height, width = grid.shape
    head = b"P1%s%d%s%d%s" % (gaps, width, gaps, height, gaps)
    return head + between.join(b"01"[cell : cell + 1] for cell in grid.ravel().tolist())


def raw(grid, fill=0):
    """A raw image, whose fill bits are all this one."""
    height, width = grid.shape
    filled = np.pad(grid, ((0, 0), (0, -width % 8)), constant_values=bool(fill))
    return b"P4\n%d %d\n" % (width, height) + np.packbits(filled, axis=1).tobytes()


def random_grid(numbers):
    """A map of any number of columns."""
    return numbers.random(numbers.integers(1, 90, 2)) < numbers.choice([0.0, 0.1, 0.5, 1.0])


class Images(unittest.TestCase):
    def test_all_forms(self):
        """An image by either form is the map of its black pixels."""
        numbers, chance = np.random.default_rng(30), random.Random(30)
        gaps = (b" ", b"\n", b"\r\n\t ", b"\n# 10 # 1\r", b" #\n#\n\n#x\n")
        for _ in range(ARRAYS):
            grid, edge = random_grid(numbers), chance.choice(("open", "wall"))
            wanted = clearmap.Map(grid, edge)
            between = chance.choice((b"", *gaps))
            for image in (
                plain(grid, chance.choice(gaps), between),
                plain(grid, chance.choice(gaps), between) + b"\n1 x #",
                raw(grid), raw(grid, 1) + b"P1 1 1\n0",
            ):  # fmt: skip
                for form in (image, bytearray(image), memoryview(image), array.array("B", image)):
                    self.assertEqual(clearmap.Map.of_pbm(form, edge), wanted, image[:80])

    def test_what_is_answered(self):
        area = clearmap.Map.of_pbm(b"P1\n# left, then right\n3 2\n100\n000\n")
        self.assertEqual((area.size, area.edge), ((3, 2), "open"))
        self.assertEqual(area.at(2, 1), (5, (0, 0)))
        self.assertEqual(clearmap.Map.of_pbm(b"P4 3 2 \x80\0", edge="wall").at(2, 1)[0], 1)
        area.paint(2, 0, 3, 1)
        self.assertEqual(area.grid().tolist(), [[True, False, True], [False] * 3])

    def test_largest(self):
        numbers = np.random.default_rng(31)
        grid = numbers.random((4096, 4096)) < 0.5
        image = np.where(grid, ord("1"), ord("0")).astype(np.uint8).tobytes()
        self.assertTrue((clearmap.Map.of_pbm(b"P1 4096 4096\n" + image).grid() == grid).all())
        self.assertTrue((clearmap.Map.of_pbm(raw(grid)).grid() == grid).all())

    def test_faults(self):
        """Each first fault by its name, in the words of C++."""
        for name, *images in FAULTS:
            for image in images:
                with self.assertRaises(ValueError, msg=image[:80]) as caught:
                    clearmap.Map.of_pbm(image)
                self.assertEqual(str(caught.exception), f"BadImage {name}", image[:80])

    def test_what_is_no_image(self):
        for wrong in ("P1 1 1\n1", 3, None, [1], pathlib.Path("room.pbm")):
            with self.assertRaisesRegex(TypeError, "is no image: bytes"):
                clearmap.Map.of_pbm(wrong)
        self.assertRaises(ValueError, clearmap.Map.of_pbm, b"P1 1 1\n1", "round")

    @unittest.skipUnless(os.path.exists(PROGRAM), "the program isn't built")
    def test_against_the_program(self):
        """Images that are cut off, or changed in a byte, have the faults that the program tells."""
        chance = random.Random(32)
        seeds = (b"P1 #a\n 3\t2 \n#1\n10 0\n#\n0 01\n#", b"P4\n11 2#c\n\n\xff\x01#1", b"P4 9 1 ab")
        for _ in range(ARRAYS):
            image = bytearray(chance.choice(seeds))
            for _ in range(chance.randrange(3)):
                image[chance.randrange(len(image))] = chance.choice(b"P014# \n\r\tx\v\xff")
            image = bytes(image[: chance.choice((len(image), chance.randrange(len(image) + 1)))])
            told = subprocess.run([PROGRAM, "dist"], input=image, capture_output=True).stdout
            fault = re.match(rb"ERR 15 (BadImage \w+)\n", told)
            if fault is None:
                self.assertEqual(self.table(image), told, image)
                continue
            with self.assertRaises(ValueError, msg=image) as caught:
                clearmap.Map.of_pbm(image)
            self.assertEqual(str(caught.exception).encode(), fault[1], image)

    def table(self, image):
        """The table of an image, as the program writes it."""
        squares = clearmap.Map.of_pbm(image).distances().tolist()
        entry = {clearmap.NO_OBSTACLE: "-"}
        lines = (" ".join(str(entry.get(cell, cell)) for cell in row) for row in squares)
        return "".join(line + "\n" for line in lines).encode()


class OccupancyGrids(unittest.TestCase):
    KINDS = (
        list, tuple, lambda cells: array.array("b", cells), lambda cells: np.array(cells, np.int8),
        lambda cells: np.array(cells, ">i4"), lambda cells: memoryview(array.array("h", cells)),
    )  # fmt: skip

    def test_each_cell(self):
        """A cell of each number that a message has, of each kind of sequence."""
        cells = [*range(-1, 101)]
        for kind in self.KINDS:
            for width, height in ((102, 1), (1, 102), (51, 2)):
                made = clearmap.Map.of_occupancy(
                    kind(cells), width=width, height=height, upwards=False
                )
                wanted = [cell == -1 or cell >= 65 for cell in cells]
                self.assertEqual((made.size, made.edge), ((width, height), "open"))
                self.assertEqual(made.grid().ravel().tolist(), wanted)
                for least in (1, 50, 100):
                    made = clearmap.Map.of_occupancy(
                        kind(cells), width=width, height=height, upwards=False, edge="wall",
                        occupied=least, unknown_is_free=True,
                    )  # fmt: skip
                    self.assertEqual(made.edge, "wall")
                    self.assertEqual(
                        made.grid().ravel().tolist(), [cell >= least for cell in cells]
                    )

    def test_rows_as_they_lie(self):
        cells = [0, 0, 0, 0, 0, 100]
        made = clearmap.Map.of_occupancy(cells, width=3, height=2, upwards=False)
        self.assertEqual(made.at(0, 0), (5, (2, 1)))
        wanted = clearmap.Map([[0, 0, 0], [0, 0, 100]], low=65)
        self.assertEqual(made.grid().tolist(), wanted.grid().tolist())
        self.assertNotEqual(made, wanted)  # whose row 0 is the top one

    def test_rows_turned_round(self):
        """Row 0 is then the highest in the world, as a frame has it."""
        cells = [100, 0, 0, 0, 0, 0]  # an obstacle at the lower left
        made = clearmap.Map.of_occupancy(cells, width=3, height=2, upwards=True)
        self.assertEqual(made, clearmap.Map([[0, 0, 0], [100, 0, 0]], low=65))
        frame = clearmap.Frame(3, 2, 0.5, -1, -1)
        self.assertEqual(made.at(*frame.cell((-0.9, -0.9))), (0, (0, 1)))
        plain = clearmap.Map.of_occupancy(cells, width=3, height=2, upwards=False)
        self.assertEqual(plain.at(*frame.cell((-0.9, -0.9))).distance, 1)

    def test_cells_that_change_later(self):
        cells = np.zeros(6, np.int8)
        made = clearmap.Map.of_occupancy(cells, width=3, height=2, upwards=True)
        cells[:] = 100
        self.assertIsNone(made.at(0, 0))

    def refused(self, kind, words, data=(0, 0, 0, 0, 0, 0), **others):
        """A call with these arguments is refused so."""
        others = {"width": 3, "height": 2, "upwards": True, **others}
        with self.assertRaisesRegex(kind, words):
            clearmap.Map.of_occupancy(data, **others)

    def test_refused(self):
        for count in (0, 5, 7):
            self.refused(ValueError, f"3 by 2 cells .* these are {count}$", [0] * count)
        self.refused(ValueError, "these are 2 by 3", np.zeros((2, 3), np.int8))
        self.refused(ValueError, "these are no", 7)
        for wrong in (-2, 101, 127, 255, -128, 2**40):
            for cells in ([0, 0, 0, 0, wrong, 0], np.array([-1, 0, 0, 0, wrong, 0])):
                self.refused(ValueError, rf"data\[4\] is {wrong}, where -1 to 100", cells)
        self.refused(ValueError, r"data\[0\] is 255", np.full(6, 255, np.uint8))
        for wrong in ([0.0] * 6, [True] * 6, b"\0\0\0\0\0\0", "000000", [None] * 6, [2**70] * 6):
            self.refused(TypeError, "no occupancy grid: whole numbers", wrong)
        for sides in ((0, 2), (3, 0), (-3, -2), (4097, 1), (1, 4097), (2**32 + 3, 2)):
            self.refused(ValueError, "1 to 4096 columns and rows", width=sides[0], height=sides[1])
        self.refused(TypeError, "whole number", width=3.0)
        for wrong in (0, -1, 101):
            self.refused(ValueError, f"occupied is {wrong}, where 1 to 100", occupied=wrong)
        self.refused(TypeError, "whole number", occupied=0.65)
        self.refused(ValueError, "is no edge", edge="round")
        self.refused(TypeError, "where a bool is wanted", unknown_is_free="false")
        self.refused(TypeError, "upwards is 'no', where a bool is wanted", upwards="no")
        with self.assertRaises(TypeError):  # sides in either order would fit
            clearmap.Map.of_occupancy([0] * 6, 3, 2)


if __name__ == "__main__":
    unittest.main()
