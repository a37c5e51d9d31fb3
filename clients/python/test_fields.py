#!/usr/bin/env python3
"""Tests of fields: after each change they are those of new maps, and of changes that are cut off.

They need numpy and the library. ARRAYS in the environment is how much is tried, 150 where it isn't
there.
"""
import copy
import itertools
import math
import os
import pickle
import threading
import unittest
from unittest import mock

import numpy as np

import clearmap
from clearmap import fields, windows

ARRAYS = int(os.environ.get("ARRAYS", "150"))
METRICS = ("euclid2", "city", "chess")
EDGES = ("open", "wall")
SHAPES = ((1, 1), (3, 90), (70, 64), (130, 200), (300, 333))
SHARES = (0.0, 0.0005, 0.01, 0.3, 1.0)


def random_box(numbers, size, longest):
    """A rectangle on a map."""
    x0, y0 = (int(numbers.integers(side)) for side in size)
    x1, y1 = (
        min(at + int(numbers.integers(1, longest)), side) for at, side in zip((x0, y0), size)
    )
    return x0, y0, x1, y1


class Changes(unittest.TestCase):
    def check(self, field, area, words=""):
        """Whether a field is that of a map, as a new one is."""
        told, spots = area.distances(field.metric, nearest=True)
        np.testing.assert_array_equal(field.distances, told, words)
        np.testing.assert_array_equal(field.obstacles, spots, words)
        self.assertEqual(field.map, area, words)

    def test_as_new_fields(self):
        numbers = np.random.default_rng(7)
        for turn in range(max(ARRAYS // 3, 30)):
            shape, share = SHAPES[turn % len(SHAPES)], SHARES[numbers.integers(len(SHARES))]
            area = clearmap.Map(numbers.random(shape) < share, EDGES[numbers.integers(2)])
            field = clearmap.Field(area, METRICS[turn % 3], int(numbers.integers(1, 4)))
            views = field.distances, field.obstacles
            self.check(field, area)
            for step in range(10):
                name = self.change(numbers, field, area)
                self.check(field, area, f"turn {turn}, step {step}: {name}")
            np.testing.assert_array_equal(views[0], field.distances)
            np.testing.assert_array_equal(views[1], field.obstacles)

    def change(self, numbers, field, area):
        """One change of both, at random."""
        x0, y0, x1, y1 = box = random_box(numbers, area.size, 30)
        name = ("paint", "clear", "patch", "disc", "cells", "update", "update_many")[
            numbers.integers(7)
        ]
        if name in ("paint", "clear"):
            for it in (field, area):
                getattr(it, name)(*box)
        elif name == "patch":
            cells = numbers.integers(-1, 101, (y1 - y0, x1 - x0), "i1")
            field.update_patch(x0, y0, cells, low=65, unknown=-1)
            area.stamp(x0, y0, cells, low=65, unknown=-1)
        elif name == "disc":
            disc = x0, y0, 0.1 + 9 * numbers.random()
            for it in (field, area):
                (it.paint_disc if x0 % 2 else it.clear_disc)(*disc)
        elif name == "cells":
            cells = numbers.integers(x0, x1, 9), numbers.integers(y0, y1, 9)
            for it in (field, area):
                (it.paint_cells if x0 % 2 else it.clear_cells)(*cells)
        else:
            for _ in range(1 if name == "update" else 30):
                (area.paint, area.clear)[numbers.integers(2)](*random_box(numbers, area.size, 9))
            field.update(area)
        return name

    def test_windows_that_are_too_small(self):
        """What a window leaves open is found by larger ones, or cell by cell."""
        numbers = np.random.default_rng(14)
        for few, metric, edge in itertools.product((0, 2048), METRICS, EDGES):
            area = clearmap.Map(numbers.random((300, 333)) < 0.002, edge)
            with mock.patch.object(windows.Tops, "margin", lambda *_: 1):
                with mock.patch.object(fields, "FEW_CELLS", few):
                    field = clearmap.Field(area, metric)
                    for step in range(4):
                        box = random_box(numbers, area.size, 40)
                        for it in (field, area):
                            (it.paint, it.clear)[step % 2](*box)
                        self.check(field, area, f"{few} {metric} {edge} {step}")

    def test_other_maps(self):
        """Of another size, edge or row on top; and of the same cells."""
        numbers = np.random.default_rng(8)
        grid = numbers.random((60, 80)) < 0.02
        field = clearmap.Field(clearmap.Map(grid))
        for area in (
            clearmap.Map(grid), clearmap.Map(grid, "wall"), clearmap.Map(grid[:50]),
            clearmap.Map(grid & False), clearmap.Map(grid | True), clearmap.Map(grid[:, :64]),
            clearmap.Map.of_occupancy(100 * grid.ravel(), width=80, height=60, upwards=False),
        ):  # fmt: skip
            field.update(area)
            self.check(field, area)
            field.paint(3, 4, 20, 9)
            area.paint(3, 4, 20, 9)
            self.check(field, area)

    def test_a_crowd_that_goes(self):
        """Small obstacles that move through a large hall: windows, and cells asked alone."""
        numbers = np.random.default_rng(9)
        grid = np.zeros((512, 700), bool)
        grid[[0, -1]] = grid[:, [0, -1]] = True
        area = clearmap.Map(grid)
        field = clearmap.Field(area)
        places = [random_box(numbers, (640, 470), 2)[:2] for _ in range(5)]
        for _ in range(6):
            for number, (x, y) in enumerate(places):
                area.clear(x, y, x + 8, y + 8)
                places[number] = x, y = x + int(numbers.integers(2, 9)), y + 3
                area.paint(x, y, x + 8, y + 8)
            field.update(area)
            self.check(field, area)

    def test_its_own_map(self):
        """Neither changes the other, and a copy is its own."""
        area = clearmap.Map(np.eye(9, dtype=bool))
        field = clearmap.Field(area)
        area.paint(0, 8, 1, 9)
        self.assertEqual(field.at(0, 8), (32, (4, 4)))
        field.paint(8, 0, 9, 1)
        self.assertEqual(area.at(8, 0), (32, (4, 4)))
        field.map.clear(0, 0, 9, 9)
        self.assertEqual(field.at(0, 0), (0, (0, 0)))
        for other in (copy.copy(field), copy.deepcopy(field), pickle.loads(pickle.dumps(field))):
            other.clear(0, 0, 9, 9)
            self.assertIsNone(other.at(0, 0))
            self.assertEqual((field.at(0, 0), other.metric), ((0, (0, 0)), "euclid2"))


class Lookups(unittest.TestCase):
    def test_as_the_map(self):
        numbers = np.random.default_rng(10)
        for metric in METRICS:
            area = clearmap.Map(numbers.random((40, 50)) < 0.01, "wall")
            field = clearmap.Field(area, metric)
            xs, ys = numbers.integers(0, 50, 99), numbers.integers(0, 40, 99)
            for one, other in zip(field.at_many(xs, ys), area.at_many(xs, ys, metric)):
                np.testing.assert_array_equal(one, other)
            for x, y in zip(xs[:9], ys):
                self.assertEqual(field.at(x, y), area.at(x, y, metric))
        self.assertIsNone(clearmap.Field(clearmap.Map(np.zeros((3, 3), bool))).at(1, 1))

    def test_what_is_refused(self):
        field = clearmap.Field(clearmap.Map(np.eye(9, dtype=bool)))
        before = field.distances.copy()
        for cell in ((-1, 0), (9, 0), (0, 9), (-9, -9)):  # numpy's would count from the end
            self.assertRaises(clearmap.Refused, field.at, *cell)
            self.assertRaises(clearmap.Refused, field.at_many, *cell)
        for box in ((0, 0, 10, 1), (-1, 0, 1, 1), (3, 3, 3, 4)):
            self.assertRaises(clearmap.Refused, field.paint, *box)
            self.assertRaises(clearmap.Refused, field.clear, *box)
        for corner in ((8, 0), (0, 8), (-1, 0)):
            self.assertRaises(clearmap.Refused, field.update_patch, *corner, np.ones((2, 2), bool))
        self.assertRaises(ValueError, field.update_patch, 0, 0, np.zeros((2, 2)))
        for wrong in (np.eye(3), None, field):
            self.assertRaises(TypeError, field.update, wrong)
            self.assertRaises(TypeError, clearmap.Field, wrong)
        self.assertRaises(ValueError, clearmap.Field, field.map, "l2")
        self.assertRaises(ValueError, clearmap.Field, field.map, "city", 0)
        for view in (field.distances, field.obstacles):
            with self.assertRaises(ValueError):
                view[0] = 1
        np.testing.assert_array_equal(field.distances, before)


class CutOff(unittest.TestCase):
    def test_a_change_that_is_cut_off(self):
        """By an interrupt or out of memory, at each window and query: what is looked up next
        is of the map as it is."""
        for fault in (KeyboardInterrupt, MemoryError):
            for name in ("window_of", "boxes_between", "fill"):
                numbers = np.random.default_rng(11)
                area = clearmap.Map(numbers.random((200, 300)) < 0.01)
                field = clearmap.Field(area)
                area.paint(20, 30, 60, 50)
                change = {
                    "window_of": lambda: field.paint(100, 100, 140, 130),
                    "boxes_between": lambda: field.update(area),
                    "fill": lambda: field.update(clearmap.Map(area.grid(0, 100))),
                }[name]
                with mock.patch.object(fields, name, side_effect=fault):
                    self.assertRaises(fault, change)
                told, spots = field.map.distances(nearest=True)
                np.testing.assert_array_equal(field.distances, told)
                np.testing.assert_array_equal(field.obstacles, spots)
                field.clear(0, 0, 30, 30)
                np.testing.assert_array_equal(field.distances, field.map.distances())

    def test_threads_look_up(self):
        """Any threads, of a field that nobody changes."""
        numbers = np.random.default_rng(12)
        field = clearmap.Field(clearmap.Map(numbers.random((200, 300)) < 0.01))
        wanted, faults = field.distances.copy(), []

        def looks(seed):
            chance = np.random.default_rng(seed)
            for _ in range(200):
                xs, ys = chance.integers(0, 300, 50), chance.integers(0, 200, 50)
                if (field.at_many(xs, ys).distances != wanted[ys, xs]).any():
                    faults.append(seed)

        threads = [threading.Thread(target=looks, args=(seed,)) for seed in range(4)]
        for thread in threads:
            thread.start()
        for thread in threads:
            thread.join()
        self.assertEqual(faults, [])


class Tiles(unittest.TestCase):
    def test_what_a_change_reaches(self):
        """Each cell whose distance is at least that from the box is in the reached tiles."""
        numbers = np.random.default_rng(13)
        for turn in range(ARRAYS):
            shape = tuple(int(side) for side in numbers.integers(1, 300, 2))
            grid = numbers.random(shape) < numbers.choice([0.0005, 0.01, 0.1])
            number, metric = turn % 3, METRICS[turn % 3]
            distances = clearmap.distances(grid, metric)
            tops = windows.Tops(distances, number)
            box = windows.Box(*random_box(numbers, shape[::-1], 40))
            reached = tops.reached(box)
            y, x = np.indices(shape)
            dx = np.maximum(np.maximum(box.x0 - x, x - box.x1 + 1), 0)
            dy = np.maximum(np.maximum(box.y0 - y, y - box.y1 + 1), 0)
            near = windows.between(number, dx, dy) <= distances
            inside = np.zeros(shape, bool)
            inside[reached.cells()] = True
            self.assertFalse((near & ~inside).any())
            side = windows.SIDE
            ends = (min(-(-end // side) * side, most) for end, most in zip(reached[2:], shape[::-1]))
            self.assertEqual(reached[:2] + tuple(ends), (reached.x0 // side * side,
                             reached.y0 // side * side, *reached[2:]))  # fmt: skip

    def test_steps(self):
        for metric, distance, steps in ((0, 24, 4), (0, 25, 5), (1, 7, 7), (2, 7, 7), (0, 2**32 - 1, 8192)):
            self.assertEqual(windows.steps_of(metric, distance), steps)
            self.assertLessEqual(windows.between(metric, min(steps, math.isqrt(distance)), 0), distance)


if __name__ == "__main__":
    unittest.main()
