"""A model of clearances, which goes through all obstacles and all pairs of sides, in fractions, and
cases for it."""
import itertools
import math
import struct
from fractions import Fraction

import numpy as np

import clearmap
from footprint_model import CELL, axes_of, corners_at, draw_case, nearest

FINE = 1 << 40  # parts of a cell, too many for rounding to show
FEW = 60  # obstacles of a map that the model goes through


def from_segment(point, a, b):
    """The square of a point's distance from a segment."""
    (px, py), (ax, ay), (bx, by) = point, a, b
    dx, dy = bx - ax, by - ay
    length = dx * dx + dy * dy
    along = Fraction((px - ax) * dx + (py - ay) * dy, length) if length else Fraction(0)
    along = min(max(along, Fraction(0)), Fraction(1))
    return (ax + along * dx - px) ** 2 + (ay + along * dy - py) ** 2


def sides_of(corners):
    """The segments between all corners: those of the hull, and others inside it."""
    return list(itertools.combinations(corners, 2))


def between(corners, box):
    """The square of the distance of two convex polygons."""
    for a, b in axes_of(corners):
        (low, high), (first, last) = (
            (min(told), max(told))
            for told in ([a * x + b * y for x, y in points] for points in (corners, box))
        )
        if high < first or last < low:
            break
    else:
        return Fraction(0)
    return min(
        min(from_segment(p, *side) for p in points)
        for points, sides in ((corners, sides_of(box)), (box, sides_of(corners)))
        for side in sides
    )


def corners_of(robot, points, resolution, pose):
    """As `corners_at`, of the points that are a robot's corners: others lie on a side, or by
    rounding a step or two inside of it."""

    def steps(point):
        return tuple(nearest(Fraction(float(length) / resolution) * CELL) for length in point)

    kept = [point for point in points if steps(point) in robot._outline]
    return corners_at(kept, resolution, pose)


def true_corners(points, resolution, pose):
    """The corners of a footprint at a pose in parts of a cell, of which there are FINE."""
    x, y, theta = pose
    cosine, sine = math.cos(theta), math.sin(theta)
    cells = [(a / resolution, b / resolution) for a, b in points]
    turned = [(x + a * cosine - b * sine, y + a * sine + b * cosine) for a, b in cells]
    return [(round(a * FINE), round(b * FINE)) for a, b in turned]


def cell_box(x, y, cell):
    return [(x * cell, y * cell), ((x + 1) * cell, y * cell),
            ((x + 1) * cell, (y + 1) * cell), (x * cell, (y + 1) * cell)]  # fmt: skip


def model_square(grid, edge, corners, cell=CELL):
    """The square of the distance from the nearest obstacle in cells; None if there is none."""
    height, width = grid.shape
    found = [between(corners, cell_box(int(x), int(y), cell)) for y, x in np.argwhere(grid)]
    if edge == "wall":
        off = [number for x, y in corners
               for number in (x, width * cell - x, y, height * cell - y)]  # fmt: skip
        found.append(Fraction(max(min(off), 0)) ** 2)
    return min(found) / (cell * cell) if found else None


def is_root(found, square, less=Fraction(0)):
    """Whether a float is the greatest that isn't above the root less a number; 0 if that is below.
    """
    (bits,) = struct.unpack("<q", struct.pack("<d", found))
    (after,) = struct.unpack("<d", struct.pack("<q", bits + 1))
    is_below = (Fraction(found) + less) ** 2 <= square
    return (is_below or found == 0) and square < (Fraction(after) + less) ** 2


def moved(points, resolution, pose):
    """How far rounding moves a corner at most, in cells: not at all where all is on steps."""
    scale = Fraction(str(resolution))
    lengths = [Fraction(str(float(length))) / scale for point in points for length in point]
    steps = [length * CELL for length in (*lengths, *map(Fraction, pose[:2]))]
    is_exact = pose[2] == 0 and all(step.denominator == 1 for step in steps)
    return Fraction(0) if is_exact else Fraction(1, 16384)


def cases(chance, count):
    """Maps of few obstacles, with a footprint and poses."""
    made = (draw_case(chance, clearmap.Footprint) for _ in itertools.count())
    return itertools.islice((case for case in made if case[0].sum() <= FEW), count)


def sampled_way(way, count):
    """Poses along a way, turning the shorter way."""
    for start, end in zip(way, way[1:]):
        turn = math.remainder(end[2] - start[2], math.tau)
        for number in range(count + 1):
            part = number / count
            yield (start[0] + part * (end[0] - start[0]), start[1] + part * (end[1] - start[1]),
                   start[2] + part * turn)  # fmt: skip
