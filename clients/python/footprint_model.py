#!/usr/bin/env python3
"""A model of footprints, which asks each cell by separating axes, and cases drawn at random.

    footprint_model.py CASES [SEED]

prints CASES maps, each with a footprint and poses and the model's answers, for the test in C++:
lines `map WIDTH HEIGHT EDGE CELLS`, `footprint RESOLUTION X Y ..` and `pose X Y THETA HITS`. All
reals are in hexadecimal, so that both read the same ones.
"""
import itertools
import math
import random
import sys
from fractions import Fraction

import numpy as np

EDGES = ("open", "wall")
CELL = 65536


# ---- the model


def nearest(number):
    """The nearest integer to a fraction; the greater of two."""
    return math.floor(Fraction(number) + Fraction(1, 2))


def corners_at(points, resolution, pose):
    """The corners of a footprint at a pose, in steps, as its page says."""
    x, y, theta = pose
    turn = [nearest(Fraction(f(theta)) * 2**30) for f in (math.cos, math.sin)]
    across, down = nearest(Fraction(x) * CELL), nearest(Fraction(y) * CELL)
    found = []
    for point in points:
        a, b = (nearest(Fraction(float(length) / resolution) * CELL) for length in point)
        found.append(
            (
                across + nearest(Fraction(a * turn[0] - b * turn[1], 2**30)),
                down + nearest(Fraction(a * turn[1] + b * turn[0], 2**30)),
            )
        )
    return found


def axes_of(corners):
    """The normals of all lines through two corners, and of the cells' sides."""
    found = {(1, 0), (0, 1)}
    for (a, b), (c, d) in itertools.combinations(corners, 2):
        if (a, b) != (c, d):
            found.add((d - b, a - c))
    return found


def covered(corners, x0, y0, x1, y1):
    """Which cells of columns x0 to x1 - 1 and rows y0 to y1 - 1 meet the inside of the corners'
    hull: those that no axis parts from it."""
    columns, rows = np.arange(x0, x1)[None, :] * CELL, np.arange(y0, y1)[:, None] * CELL
    found = np.ones((y1 - y0, x1 - x0), bool)
    for a, b in axes_of(corners):
        along = [a * x + b * y for x, y in corners]
        start = a * columns + b * rows + (min(a, 0) + min(b, 0)) * CELL
        found &= (start < max(along)) & (start + (abs(a) + abs(b)) * CELL > min(along))
    return found


def box_of(corners):
    """The columns and rows that a polygon may reach."""
    xs, ys = zip(*corners)
    return min(xs) // CELL, min(ys) // CELL, max(xs) // CELL + 1, max(ys) // CELL + 1


def model_hits(grid, edge, points, resolution, pose):
    """Whether a covered cell is an obstacle, or is around the grid if the edge is a wall."""
    height, width = grid.shape
    corners = corners_at(points, resolution, pose)
    x0, y0, x1, y1 = box_of(corners)
    if edge == "open":
        x0, y0, x1, y1 = max(x0, 0), max(y0, 0), min(x1, width), min(y1, height)
        if x0 >= x1 or y0 >= y1:
            return False
    obstacles = np.full((y1 - y0, x1 - x0), edge == "wall")
    a, b, c, d = max(x0, 0), max(y0, 0), min(x1, width), min(y1, height)
    if a < c and b < d:
        obstacles[b - y0 : d - y0, a - x0 : c - x0] = grid[b:d, a:c]
    return bool((covered(corners, x0, y0, x1, y1) & obstacles).any())


# ---- cases


def draw_grid(chance, longest=40):
    """A map: blank, sparse, dense or full."""
    width, height = chance.randint(1, longest), chance.randint(1, longest)
    share = chance.choice([0, 0.003, 0.02, 0.1, 0.5, 1])
    cells = [[chance.random() < share for _ in range(width)] for _ in range(height)]
    return np.array(cells, bool)


def draw_points(chance, size):
    """A convex polygon of about this size in cells, which need not have its centre inside."""
    kind = chance.randrange(4)
    if kind == 0:  # a rectangle whose sides may lie on those of cells
        right, below = (max(round(size * chance.random() * 2) / 2, 0.5) for _ in range(2))
        points = [(-right, -below), (right, -below), (right, below), (-right, below)]
    elif kind == 1:
        points = [(chance.uniform(-size, size), chance.uniform(-size, size)) for _ in range(3)]
    else:  # on an ellipse
        angles = [chance.uniform(0, math.tau) for _ in range(chance.randint(3, 12))]
        if chance.random() < 0.3:  # corners a few steps apart
            angles += [angles[0] + number * 3 / CELL / size for number in range(1, 4)]
        angles.sort()
        wide = size * chance.choice([1, 1, 0.3, 0.05])
        points = [(size * math.cos(angle), wide * math.sin(angle)) for angle in angles]
    if chance.random() < 0.2:
        off = [chance.uniform(-2 * size, 2 * size) for _ in range(2)]
        points = [(x + off[0], y + off[1]) for x, y in points]
    return points[:: chance.choice([1, -1])]


def draw_pose(chance, width, height, size):
    """A pose on the map or near it; many on sides and middles of cells, or at right angles."""
    far = size * chance.choice([0, 0.5, 2])
    x, y = chance.uniform(-far, width + far), chance.uniform(-far, height + far)
    if chance.random() < 0.4:
        x, y = round(2 * x) / 2, round(2 * y) / 2
    if chance.random() < 0.4:
        return x, y, chance.randint(-8, 8) * math.pi / 4
    return x, y, chance.uniform(-10, 10)


def draw_case(chance, make):
    """A map, its edge, a resolution, points that `make` takes, and poses."""
    grid, edge = draw_grid(chance), chance.choice(EDGES)
    resolution = chance.choice([1.0, 0.05, 0.1, 3.7])
    while True:
        size = chance.choice([0.01, 0.2, 0.5, 1, 2.5, 6, 12, 30])
        points = [(x * resolution, y * resolution) for x, y in draw_points(chance, size)]
        try:
            make(points, resolution)
        except ValueError:  # too thin
            continue
        height, width = grid.shape
        poses = [draw_pose(chance, width, height, size) for _ in range(12)]
        return grid, edge, resolution, points, poses


def slivers():
    """Cases as `draw_case` has them, whose polygon enters a cell or misses it by less than a float
    can tell: where its side comes to a row, it is a billionth of a step from a border of cells."""
    for row, sign in itertools.product(range(2, 12), (1, -1)):
        height = 13 * CELL + 2 * row + 1
        if math.gcd(height, row) > 1:
            continue
        x = -sign * pow(height, -1, CELL) % CELL
        right = -sign * pow(row * CELL, -1, height) % height
        border = round(Fraction(x * height + right * row * CELL, height * CELL))
        corners = [(x, 0), (x + right, height), (x + right + 2 * CELL, 0)]
        points = [(a / CELL, b / CELL) for a, b in corners]
        for column in (border - 1, border - 2):
            grid = np.zeros((20, 20), bool)
            grid[row, column] = True
            yield grid, "open", 1.0, points, [(0, 0, 0)]
            yield grid[:, ::-1], "open", 1.0, [(-a, b) for a, b in points], [(20, 0, 0)]


def main():
    """Prints cases."""
    import clearmap

    chance = random.Random(int(sys.argv[2]) if len(sys.argv) > 2 else 1)
    drawn = (draw_case(chance, clearmap.Footprint) for _ in range(int(sys.argv[1])))
    for grid, edge, resolution, points, poses in itertools.chain(slivers(), drawn):
        cells = "".join("01"[int(cell)] for cell in grid.ravel())
        print("map", grid.shape[1], grid.shape[0], edge, cells)
        print("footprint", resolution.hex(), *(x.hex() for point in points for x in point))
        for pose in poses:
            told = model_hits(grid, edge, points, resolution, pose)
            print("pose", *(float(x).hex() for x in pose), int(told))


if __name__ == "__main__":
    main()
