#!/usr/bin/env python3
"""Tests of numbers of numpy in calls: integers as cells, and limits of a grid's obstacles.

NPY_PROMOTION_STATE=weak in the environment gives numpy 1 the rules of numpy 2, by which a number of
few bits stays one in a sum with an int: the gate runs these tests by both. They need the library.
"""
import math
import os
import threading
import time
import unittest
from unittest import mock

import numpy as np

import clearmap
from fakes import Fake

CALLS = (
    clearmap.Map,
    clearmap.distances,
    lambda grid, **words: clearmap.capped_distances(grid, 9, **words),
    clearmap.signed_distances,
    clearmap.gradients,
)
INTEGERS = (int, *(np.dtype(code).type for code in np.typecodes["AllInteger"]))


class Cells(unittest.TestCase):
    def test_gradient(self):
        """An obstacle at (7, 2), from the left, from above and from below at a slant."""
        area = clearmap.Map(np.pad([[True]], ((2, 5), (7, 4))))
        for kind in INTEGERS:
            self.assertEqual(area.gradient(kind(3), kind(2)), (-1, 0), kind)
            self.assertEqual(area.gradient(kind(7), kind(0)), (0, -1), kind)
            self.assertEqual(area.gradient(kind(3), kind(5)), (-0.8, 0.6), kind)

    def test_queries(self):
        area = clearmap.Map(np.pad([[True]], ((2, 5), (7, 4))))
        for kind in INTEGERS:
            near = (16, (7, 2))
            self.assertEqual(area.at(kind(3), kind(2)), near, kind)
            tight = (9, (4, 2), (7, 2))
            self.assertEqual(area.rect(kind(3), kind(0), kind(5), kind(8)), tight, kind)
            self.assertEqual(area.path([(kind(3), kind(2)), (kind(4), kind(2))]), tight, kind)
            self.assertEqual(area.clear_of(kind(10), [(kind(4), kind(2))]), tight, kind)
            painted = clearmap.Map(area.grid())
            painted.paint(kind(0), kind(0), kind(9), kind(3))
            self.assertEqual(painted.grid(kind(1), kind(4)).sum(), 18, kind)


class TimeOuts(unittest.TestCase):
    """A clock's time and a number of few bits have a sum of few bits: they are made floats."""

    def test_a_client(self):
        with Fake(b"OK 0\n") as fake:
            seconds = {"timeout": np.float16(5), "call_timeout": np.float16(9)}
            with clearmap.Client(fake.port, **seconds) as client:
                self.assertIs(type(client._connection._timeout), float)
                self.assertIs(type(client._connection._call_timeout), float)
                self.assertEqual(client.pin().version, 0)

    def test_a_follower(self):
        follower = clearmap.Follower.__new__(clearmap.Follower)  # one without a thread
        follower._process, follower._what, follower._version = os.getpid(), "it", None
        follower._error, follower._ended = None, threading.Event()
        follower._changed = threading.Condition()
        with mock.patch("threading._time", lambda: 1e5 + time.monotonic()):
            for seconds in (np.float16(0.05), np.float32(0.05), 0.05, np.uint8(0)):
                begun = time.monotonic()
                self.assertRaises(clearmap.NoVersion, follower.wait, timeout=seconds)
                self.assertLess(time.monotonic() - begun, 5)


def obstacles(grid, **words):
    """Which cells are obstacles, by each call."""
    found = clearmap.Map(grid, **words).grid()
    np.testing.assert_array_equal(clearmap.distances(grid, **words) == 0, found)
    np.testing.assert_array_equal(clearmap.capped_distances(grid, 9, **words) == 0, found)
    np.testing.assert_array_equal(clearmap.signed_distances(grid, **words) < 0, found)
    return found.ravel().tolist()


class Limits(unittest.TestCase):
    def refused(self, said, dtype, **words):
        """Each call refuses these limits of a grid of this dtype, and says this."""
        grid = np.zeros((3, 4), dtype)
        for call in CALLS:
            with self.assertRaisesRegex(ValueError, said):
                call(grid, **words)

    def test_no_number_meets_them(self):
        """Such limits, made for another dtype, would make a blank map."""
        self.refused("low is 253, but int8 ends at 127: no cell", "int8", low=253)
        self.refused("low is 253, but int8 ends at 127: no cell", "int8", low=253, high=254)
        self.refused("high is -1, but uint8 begins at 0: no cell", "uint8", low=-1, high=-1)
        self.refused("low is 65, but bool ends at 1: no cell", bool, low=65)
        self.refused("high is -1, but bool begins at 0: no cell", bool, high=-1)
        self.refused("no bool, 0 or 1, is from 0.2 to 0.8", bool, low=0.2, high=0.8)
        self.refused("low is 70000.0, but float16 ends at 65504", "float16", low=70000.0)
        self.refused("high is -1e\\+39, but float32 begins at -3.4", "float32", high=-1e39)
        self.refused("low is inf, but bool ends at 1", bool, low=math.inf)
        for dtype in "bBhHiIlLqQ":
            most, least = int(np.iinfo(dtype).max), int(np.iinfo(dtype).min)
            self.refused(f"low is {most + 1}, but .* ends at {most}", dtype, low=most + 1)
            self.refused(f"high is {least - 1}, but", dtype, high=least - 1)
            self.refused(f"low is {2**70}, but", dtype, low=2**70)

    def test_the_last_numbers_meet_them(self):
        for dtype in "bBhHiIlLqQ":
            least, most = np.iinfo(dtype).min, np.iinfo(dtype).max
            grid = np.array([[least, 1, most]], dtype)
            self.assertEqual(obstacles(grid, low=int(most)), [False, False, True])
            self.assertEqual(obstacles(grid, high=int(least)), [True, False, False])
            self.assertEqual(obstacles(grid, low=2, high=2**70), [False, False, True])
            self.assertEqual(obstacles(grid, low=most, high=most), [False, False, True])

    def test_floats_of_other_widths(self):
        """A cell of 0.65 is an obstacle by low=0.65, whatever the widths of both."""
        for dtype in "efdg":
            grid = np.array([[0.25, 0.65, 0.75]], dtype)
            for kind in (float, np.float64, np.longdouble, np.array):
                low = kind(0.65)
                self.assertEqual(obstacles(grid, low=low), [False, True, True], (dtype, kind))
                self.assertEqual(obstacles(grid, high=low), [True, True, False], (dtype, kind))
                words = {"low": low, "high": low}
                self.assertEqual(obstacles(grid, **words), [False, True, False], (dtype, kind))

    def test_infinite_cells(self):
        for dtype in "efdg":
            most = float(np.finfo("e").max)
            grid = np.array([[-np.inf, -most, most, np.inf]], dtype)
            self.assertEqual(obstacles(grid, low=math.inf), [False, False, False, True])
            self.assertEqual(obstacles(grid, high=-math.inf), [True, False, False, False])
            self.assertEqual(obstacles(grid, low=-math.inf), [True] * 4)
            self.assertEqual(obstacles(grid, low=-1e308, high=1e308), [False, True, True, False])

    def test_what_is_no_limit(self):
        for dtype in (bool, "uint8", "float32"):
            for wrong in ("1", b"1", 1j, [1], object()):
                for call in CALLS:
                    self.assertRaises(TypeError, call, np.zeros((3, 4), dtype), low=wrong)
        for dtype in (bool, "uint8", "float32"):
            for nan in (math.nan, np.float32("nan"), np.array(math.nan)[()]):
                self.refused("a limit is NaN", dtype, low=nan)
                self.refused("a limit is NaN", dtype, low=0, high=nan)
                if dtype != bool:
                    self.refused("unknown is NaN.*nan_to_num", dtype, low=0, unknown=nan)
        self.refused("low is 3, above high, which is 2", "uint8", low=np.uint8(3), high=2)
        self.refused("low is 300, above high, which is 5", "int16", low=300, high=np.uint8(5))
        self.refused("which no float can hold", "float64", low=10**400)


class Unknown(unittest.TestCase):
    def test_an_occupancy_grid(self):
        grid = np.array([[-1, 0, 64], [65, 100, 12]], np.int8)
        free = [False, False, False, True, True, False]
        self.assertEqual(obstacles(grid, low=65), free)
        self.assertEqual(obstacles(grid, low=65, unknown=-1), [True, *free[1:]])
        self.assertEqual(obstacles(grid, low=65, high=100, unknown=np.int8(-1)), [True, *free[1:]])
        wide = grid.astype(np.float32)
        self.assertEqual(obstacles(wide, low=65, unknown=-1), [True, *free[1:]])
        self.assertEqual(obstacles(grid, low=0, unknown=-1), [True] * 6)

    def test_a_costmap(self):
        """Unknown is 255, next to the lethal costs or apart from them."""
        grid = np.array([[0, 252, 253, 254, 255]], np.uint8)
        lethal = [False, False, True, True, False]
        self.assertEqual(obstacles(grid, low=253, high=254), lethal)
        self.assertEqual(obstacles(grid, low=253, high=254, unknown=255), [*lethal[:-1], True])
        self.assertEqual(obstacles(grid, low=253, high=253, unknown=255)[2:], [True, False, True])
        self.assertEqual(obstacles(grid, high=252, unknown=255)[2:], [False, False, True])

    def test_what_it_cannot_be(self):
        for dtype, unknown, said in (
            ("int8", 255, "unknown is 255, and int8 goes from -128 to 127"),
            ("uint8", -1, "unknown is -1, and uint8 goes from 0 to 255"),
            (bool, 1, "no cell of an array of bools is unknown"),
        ):
            for call in CALLS:
                with self.assertRaisesRegex(ValueError, said):
                    call(np.zeros((3, 4), dtype), low=1, unknown=unknown)
        with self.assertRaisesRegex(ValueError, "of bools"):
            clearmap.Map(np.zeros((3, 4), bool), unknown=-1)
        with self.assertRaisesRegex(ValueError, "wants low or high"):
            clearmap.Map(np.zeros((3, 4), np.int8), unknown=-1)
        with self.assertRaises(TypeError):
            clearmap.Map(np.zeros((3, 4), np.int8), low=65, unknown=-1.0)


if __name__ == "__main__":
    unittest.main()
