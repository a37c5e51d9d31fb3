"""What costmaps and pictures of distances are made of: the distances of one version, by rows from
the top, and a robot's radii. Needs numpy, no ROS; nothing here is proved.

A costmap has the values that ROS's costmap_2d publishes: 100 in an obstacle, 99 where the robot's
centre may not be, then less and less, 0 beyond the inflation radius, and -1 in unknown cells.
"""
import array
import math
import os
from dataclasses import dataclass
from fractions import Fraction
from typing import TYPE_CHECKING, Optional, Tuple

import numpy

import clearmap
from clearmap_grid import Grid
from clearmap import Frame, RosError
from clearmap.decimals import Number, exact
from clearmap.runs import by_program

if TYPE_CHECKING:
    from numpy.typing import NDArray

    Squares = NDArray[numpy.uint32]
    Values = NDArray[numpy.int8]
    Cells = NDArray[numpy.bool_]

OBSTACLE, INSCRIBED, UNKNOWN = 100, 99, -1
LARGEST_COST = 252  # what costmap_2d has just outside the robot's radius; it publishes 98 for it
LARGEST_RADIUS = 1000  # cells
POINT = numpy.dtype([(name, "<f4") for name in ("x", "y", "z", "intensity")])
THREADS = min(4, os.cpu_count() or 1)  # that share a version's rows


# ---- costs


@dataclass(frozen=True)
class Inflation:
    """How a costmap's values fall with the distance, in metres, by the names of costmap_2d."""

    robot_radius: Number = 0.46
    inflation_radius: Number = 0.55
    cost_scaling_factor: Number = 10.0

    def numbers(self) -> Tuple[Fraction, Fraction, Fraction]:
        """The three, in this order; what makes no sense is refused."""
        robot, inflated = exact(self.robot_radius), exact(self.inflation_radius)
        scaling = exact(self.cost_scaling_factor)
        if not 0 <= robot <= inflated or scaling < 0:
            raise RosError(
                f"robot_radius is {self.robot_radius}, inflation_radius {self.inflation_radius} and"
                f" cost_scaling_factor {self.cost_scaling_factor}: none is below 0, and the first"
                " isn't above the second"
            )
        return robot, inflated, scaling

    def values(self, resolution: Fraction) -> "Values":
        """The value of a cell for each square of its distance in cells, which is taken from centre
        to centre; the last one is for all that are farther."""
        robot, inflated, scaling = self.numbers()
        cells = math.ceil(inflated / resolution)
        if cells > LARGEST_RADIUS:
            raise RosError(f"an inflation_radius of {cells} cells, and {LARGEST_RADIUS} are most")
        metres = numpy.sqrt(numpy.arange(cells * cells + 2)) * float(resolution)
        values = falling(metres - float(robot), float(scaling))
        values[: math.floor((robot / resolution) ** 2) + 1] = INSCRIBED
        values[0], values[-1] = OBSTACLE, 0
        return values


def falling(beyond: "NDArray[numpy.float64]", scaling: float) -> "Values":
    """What costmap_2d publishes this many metres beyond the robot's radius."""
    costs = (LARGEST_COST * numpy.exp(-scaling * numpy.maximum(beyond, 0))).astype(numpy.int64)
    values: "Values" = numpy.where(costs > 0, 1 + 97 * (costs - 1) // 251, 0).astype(numpy.int8)
    return values


@dataclass(frozen=True)
class Unknown:
    """The cells that a map doesn't know, and whether they were made free."""

    cells: "Cells"
    are_free: bool = False

    def mark(self, values: "Values") -> None:
        """Sets unknown cells to -1, if they still are what they were made. A free one keeps a value
        of 99 or more, as in costmap_2d."""
        untouched = values < INSCRIBED if self.are_free else values == OBSTACLE
        values[self.cells & untouched] = UNKNOWN


def unknown_of(grid: Optional[Grid], are_free: bool = False) -> Optional[Unknown]:
    """The unknown cells of a grid that has 1 for them."""
    if grid is None:
        return None
    cells = numpy.frombuffer(grid.cells, numpy.bool_).reshape(grid.height, grid.width)
    return Unknown(cells, are_free)


def costs(squares: "Squares", values: "Values", unknown: Optional[Unknown] = None) -> "Values":
    """A costmap of distances."""
    found = values.take(squares, mode="clip")
    if unknown is not None:
        unknown.mark(found)
    return found


def occupancy(squares: "Squares", unknown: Optional[Unknown] = None) -> "Values":
    """The map itself: 100 in an obstacle, else 0."""
    return costs(squares, numpy.array([OBSTACLE, 0], numpy.int8), unknown)


def from_below(values: "Values") -> "array.array[int]":
    """The values of a message, by rows from the lowest, as ROS counts them."""
    return array.array("b", values[::-1].tobytes())


# ---- distances as points


def step_of(size: Tuple[int, int], most: int) -> int:
    """The step in columns and rows that leaves at most this many points."""
    step = 1
    while math.prod(-(-side // step) for side in size) > most:
        step += 1
    return step


def cloud(squares: "Squares", frame: Frame, most: int) -> bytes:
    """The centres of free cells in metres, each with its distance from centre to centre: x, y, z
    and intensity in four bytes each, the low one first. Of a large map each second, third .. column
    and row is taken, so that there are `most` points at most. None if there is no obstacle."""
    step = step_of(frame.size, most)
    taken = squares[::step, ::step]
    rows, columns = numpy.nonzero((taken > 0) & (taken < clearmap.NO_OBSTACLE))
    points = numpy.zeros(rows.size, POINT)
    side = float(frame.resolution)
    points["x"] = float(frame.origin_x) + (step * columns + 0.5) * side
    points["y"] = float(frame.origin_y) + (frame.height - step * rows - 0.5) * side
    points["intensity"] = numpy.sqrt(taken[rows, columns]) * side
    return points.tobytes()


# ---- distances of a version


def squares_of(pinned: clearmap.Pinned, program: str) -> "Squares":
    """The `euclid2` distances of a pinned version: by one DUMP and the library in this process, or
    without it by a run of `clearmap dist`."""
    try:
        return pinned.distances(threads=THREADS)
    except ImportError:
        return by_runs(pinned, program)


def by_runs(pinned: clearmap.Pinned, program: str) -> "Squares":
    """The same by the program. A dump doesn't say whether the edge is a wall: the server is asked
    about a cell of the border whose answer shows it."""
    image = pinned.dump()
    found = by_program(program, image, clearmap.EUCLID2, clearmap.OPEN)
    cell = telling(found)
    near = pinned.at(*cell) if cell is not None else None
    if near is not None and near.distance == 1:
        return by_program(program, image, clearmap.EUCLID2, clearmap.WALL)
    return found


def telling(squares: "Squares") -> Optional[Tuple[int, int]]:
    """A cell of the border that has another distance with a wall, which is then 1. None if there is
    no such cell; then no other cell has another distance either, as what is next to a cell of the
    border isn't farther than the frame from any cell."""
    border = numpy.zeros(squares.shape, bool)
    border[[0, -1]] = border[:, [0, -1]] = True
    rows, columns = numpy.nonzero(border & (squares > 1))
    return (int(columns[0]), int(rows[0])) if rows.size else None
