#!/usr/bin/env python3
"""Many points of a planner at once: samples in metres that are free, the same after an obstacle has
moved, distances with slopes, and costs for a costmap."""
import pathlib
import sys

import numpy

sys.path.insert(0, str(pathlib.Path(__file__).resolve().parent.parent / "clients/python"))
import clearmap

frame = clearmap.Frame(400, 300, 0.05, 0, 0)  # 20 by 15 m
grid = numpy.zeros((300, 400), bool)
grid[[0, -1]] = grid[:, [0, -1]] = True  # walls around
grid[100:200, 180:200] = True
area = clearmap.Map(grid)

# Samples of a planner: one call for their cells, and one for a round robot of 0.3 m.
numbers = numpy.random.default_rng(7)
xs, ys = numbers.uniform(0, 20, 5000), numbers.uniform(0, 15, 5000)
columns, rows = frame.cell_many(xs, ys)
limit = clearmap.clear_distance(0.3, frame.resolution)
free = area.clear_many(columns, rows, limit)
print(f"{free.sum()} of {free.size} samples are free")

# The nearest obstacles of the free ones, and the widest place among them.
nears = area.at_many(columns[free], rows[free])
widest = nears.distances.argmax()
print(f"the widest has {frame.free_metres(nears.distances[widest]):.3f} m free in any case")

# An obstacle moves: the field computes only what that can change, and look-ups read it.
field = clearmap.Field(area)
before = field.distances.copy()
field.paint_disc(90, 150, 12)
print(f"{(field.distances != before).sum()} of {before.size} cells have another distance")
print(f"{(field.distances[rows, columns] >= limit).sum()} samples are free now")

# For an optimiser: distances in metres between the cells, and where they grow.
found = field.distance_and_gradient(frame, [4.5, 8.98], [9.0, 3.2])
for metres, (right, up) in zip(found.distances, found.gradients):
    print(f"{metres:.3f} m, growing by {right:+.2f} to the right and {up:+.2f} upwards")

# For a costmap: the lowest row first, as ROS has it.
costs = clearmap.inflate(field.map, inscribed=0.3, radius=0.55, scaling=10, resolution=0.05)[::-1]
print(f"costs: {(costs == 254).sum()} lethal, {(costs == 253).sum()} inscribed, {costs.dtype}")
