#!/usr/bin/env python3
"""Tests of the library's calls for polygons: each answer against separating axes in fractions, as
the definition has them.

They need numpy and the library. RINGS in the environment is how many random polygons are tried,
20,000 where it isn't there.
"""
import ctypes
import os
import random
import unittest
from fractions import Fraction

import numpy as np

import clearmap
from clearmap import polygons, poses
from clearmap.library import BENT, Bytes, library

RINGS = int(os.environ.get("RINGS", "20000"))
CELL = 65536
MOST = 2**30 - 1  # steps


# ---- the model


def reach(axis, points):
    """The least and the greatest place of points along an axis."""
    places = [axis[0] * x + axis[1] * y for x, y in points]
    return min(places), max(places)


def meets(ring, x, y):
    """Whether no axis, of the cell's sides or across one of the polygon, parts the insides."""
    points = [(Fraction(a, CELL), Fraction(b, CELL)) for a, b in ring]
    square = [(x, y), (x + 1, y), (x + 1, y + 1), (x, y + 1)]
    axes = [(1, 0), (0, 1)]
    axes += [(b[1] - a[1], a[0] - b[0]) for a, b in zip(points, points[1:] + points[:1])]
    for axis in axes:
        (low, high), (first, last) = reach(axis, points), reach(axis, square)
        if high <= first or last <= low:
            return False
    return True


def model_hits(grid, edge, ring):
    """Whether an obstacle meets the polygon, or with a wall a corner is off the map."""
    height, width = grid.shape
    if edge == "wall" and not all(0 <= x <= width * CELL and 0 <= y <= height * CELL for x, y in ring):
        return True
    return any(meets(ring, int(x), int(y)) for y, x in np.argwhere(grid))


# ---- cases


def draw_ring(chance, width, height):
    """A convex polygon that turns from x to y: on the map or off it, thin, huge, or on the lines
    between cells."""
    size = chance.choice([3, 40, CELL // 2, 2 * CELL, 5 * CELL, 30 * CELL, 8000 * CELL])
    middle = [chance.randint(-2 * CELL, (side + 2) * CELL) for side in (width, height)]
    whole = chance.choice([1, 1, CELL // 2, CELL])
    wide = size if chance.random() < 0.7 else chance.choice([1, 2, 90, CELL // 3])
    flat = chance.choice([(1, 0), (0, 1), (1, 1), (-3, 2), (1, -40)])
    points = []
    for _ in range(chance.choice([3, 3, 4, 5, 8, 40, 128])):
        along, across = chance.randint(-size, size), chance.randint(-wide, wide)
        if wide < size:
            x, y = along * flat[0] // 40 + across, along * flat[1] // 40 - across
        else:
            x, y = along, across
        places = (whole * ((number + at) // whole) for number, at in zip((x, y), middle))
        points.append(tuple(min(max(place, -MOST), MOST) for place in places))
    ring = polygons.hull(points)
    if len(ring) < 3:
        return draw_ring(chance, width, height)
    start = chance.randrange(len(ring))
    return ring[start:] + ring[:start]


def draw_grid(chance):
    """A map of few obstacles."""
    width, height = chance.choice([(1, 1), (7, 5), (12, 9), (70, 3), (130, 140), (9, 66)])
    grid = np.zeros((height, width), bool)
    for _ in range(chance.choice([0, 1, 2, 4, 7])):
        grid[chance.randrange(height), chance.randrange(width)] = True
    return grid


def by_bytes(grid, edge, rings):
    """The answers of the call for many polygons of the same number of corners, over bytes."""
    cells, layout = grid.astype(np.uint8), Bytes(grid.shape[1], grid.shape[0], grid.shape[1], 1, 1)
    corners, told = np.array(rings, np.int32), np.full(len(rings) + 1, 7, np.uint8)
    status = library().clearmap_bytes_hits_many(
        cells.ctypes.data, cells.size, ctypes.byref(layout), ("open", "wall").index(edge),
        corners.ctypes.data, corners.size // 2, len(rings[0]), told.ctypes.data, told.size,
    )  # fmt: skip
    assert told[-1] == 7
    return status, told[:-1].tolist()


class Rings(unittest.TestCase):
    def test_against_fractions(self):
        chance, tried, hits = random.Random(1), 0, 0
        while tried < RINGS:
            grid, edge = draw_grid(chance), chance.choice(("open", "wall"))
            held = clearmap.Map(grid, edge)._held
            for _ in range(10):
                ring = draw_ring(chance, *held.size)
                wanted, hit = model_hits(grid, edge, ring), ctypes.c_uint8(7)
                self.assertEqual(poses._status(held, ring, hit), 0, ring)
                self.assertEqual(hit.value, wanted, (np.argwhere(grid), edge, ring))
                shifted = [ring[k:] + ring[:k] for k in range(min(len(ring), 4))]
                self.assertEqual(by_bytes(grid, edge, shifted), (0, [wanted] * len(shifted)))
                tried, hits = tried + 1, hits + wanted
        self.assertGreater(min(hits, tried - hits), tried // 10)

    def test_bent(self):
        """The other way round, with a corner on a side or inside, or twice round."""
        chance = random.Random(2)
        grid = draw_grid(chance)
        held, hit = clearmap.Map(grid)._held, ctypes.c_uint8(7)
        for _ in range(200):
            ring = draw_ring(chance, *held.size)
            bent = [ring[::-1], ring[:1] + ring, ring[:2] + ring]
            if len(ring) <= 64:
                bent.append(ring + ring)
            for wrong in (wrong for wrong in bent if len(wrong) <= 128):
                self.assertEqual(poses._status(held, wrong, hit), BENT, wrong)
                self.assertEqual(by_bytes(grid, "open", [wrong]), (BENT, [7]))
        self.assertEqual(hit.value, 7)


if __name__ == "__main__":
    unittest.main()
