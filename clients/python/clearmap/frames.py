"""Where a map of ROS lies: metres to cells and back, plans as paths, and a robot's radius.

A map of ROS is in metres with y upwards; clearmap's cells are counted from the upper left, y
downwards. All is computed in fractions, of the decimals that numbers are written as, and what has
to be rounded is rounded to the safe side: a least distance up, and a clearance in metres down.
"""
from __future__ import annotations

import math
from dataclasses import dataclass
from fractions import Fraction
from typing import TYPE_CHECKING, Any, Iterable, Iterator, List, Sequence, Tuple, overload

from .decimals import Number, exact, float_below, root_below
from .errors import RosError
from .framed import FramedFootprint
from .library import NO_OBSTACLE
from .requests import CHESS, CITY, EUCLID2, LONGEST_PATH, Cell, Whole, whole
from .stairs import cells_many, corners, crossed, stairs
from .ways import Pose

if TYPE_CHECKING:
    from numpy.typing import ArrayLike, NDArray

    from .stairs import Places

Point = Tuple[Number, Number]


@dataclass(frozen=True, init=False)
class Frame:
    """Where a map lies: its size in cells, metres per cell, and the lower left corner in metres.

    Metres are any numbers, taken for the decimals that they are written as. **Row 0 of the cells is
    the top one**, as in an image; a message of ROS has the lowest row first, and
    `Map.of_occupancy(data, frame)` turns its rows round.
    """

    width: int
    height: int
    resolution: Fraction
    origin_x: Fraction
    origin_y: Fraction

    def __init__(
        self,
        width: Whole,
        height: Whole,
        resolution: Number,
        origin_x: Number,
        origin_y: Number,
    ) -> None:
        for name, side in (("width", width), ("height", height)):
            object.__setattr__(self, name, whole(side))
        metres = ("resolution", resolution), ("origin_x", origin_x), ("origin_y", origin_y)
        for name, number in metres:
            object.__setattr__(self, name, exact(number))
        if self.resolution <= 0:
            raise RosError(f"the resolution is {self.resolution}, which isn't above 0")
        if self.width < 1 or self.height < 1:
            raise RosError(f"a map of {self.width} by {self.height} cells has none")

    @property
    def size(self) -> Tuple[int, int]:
        """Columns and rows, as a client takes the size of the map that it expects."""
        return self.width, self.height

    def footprint(self, points: Iterable[Point]) -> FramedFootprint:
        """A robot's outline as ROS has it: points in metres around its centre, x forward and y to
        the left. Its poses and its clearances are in metres too."""
        return FramedFootprint(self, points)

    def pose_in_cells(self, x: Number, y: Number, theta: Number) -> Pose:
        """A robot's pose in metres on the map, its yaw counterclockwise, as a `Footprint` takes it:
        in cells, y downwards. A footprint of this frame wants it in metres."""
        across, down = self.place((x, y))
        return float(across), float(down), -float(exact(theta))

    def place(self, point: Point) -> Tuple[Fraction, Fraction]:
        """A point in metres on the map, in cells from the upper left corner."""
        across, up = self._upwards(point)
        return across, self.height - up

    def point(self, place: Tuple[float, float]) -> Tuple[Fraction, Fraction]:
        """A place in cells from the upper left corner, as a point in metres: `place` is the other
        way round."""
        across, up = Fraction(place[0]), self.height - Fraction(place[1])
        return self.origin_x + across * self.resolution, self.origin_y + up * self.resolution

    def _upwards(self, point: Point) -> Tuple[Fraction, Fraction]:
        """A point in cells from the lower left corner, y upwards."""
        u = (exact(point[0]) - self.origin_x) / self.resolution
        t = (exact(point[1]) - self.origin_y) / self.resolution
        if not (0 <= u < self.width and 0 <= t < self.height):
            raise RosError(f"the point ({point[0]}, {point[1]}) isn't on the map")
        return u, t

    def cell(self, point: Point) -> Cell:
        """The cell that a point in metres is in: x to the right, y downwards from the top row."""
        u, t = self._upwards(point)
        return math.floor(u), self.height - 1 - math.floor(t)

    def centre(self, cell: Tuple[Whole, Whole]) -> Tuple[float, float]:
        """The centre of a cell, in metres."""
        x, y = map(whole, cell)
        if not (0 <= x < self.width and 0 <= y < self.height):
            raise RosError(f"the cell ({x}, {y}) isn't on the map")
        return self.middle((x, y))

    def middle(self, cell: Tuple[Whole, Whole]) -> Tuple[float, float]:
        """The centre of a cell, in metres, also of one that lies around the map: an obstacle if the
        edge is a wall."""
        x, y = map(whole, cell)
        half = Fraction(1, 2)
        right = self.origin_x + (x + half) * self.resolution
        up = self.origin_y + (self.height - 1 - y + half) * self.resolution
        return float(right), float(up)

    def metres(self, square: Whole) -> float:
        """A `euclid2` distance, a square in cells, in metres from middle to middle, rounded down;
        infinite for `NO_OBSTACLE`. A point of the cell may be nearer: see `free_metres`."""
        return self._length(square, Fraction(0))

    def free_metres(self, square: Whole) -> float:
        """Never more than the distance of any point of the queried cell from any point of an
        obstacle, in metres, given its `euclid2` distance: that less sqrt 2 cells, rounded down, and
        0 below it. Infinite for `NO_OBSTACLE`."""
        return self._length(square, Fraction(math.isqrt(2 * 10**18) + 1, 10**9))

    def _length(self, square: Whole, less: Fraction) -> float:
        """The root of a `euclid2` distance, less some cells, in metres."""
        number = whole(square)  # an int: numpy's integers overflow
        if number < 0:
            raise RosError(f"a euclid2 distance is a square in cells, 0 or more, and no {number}")
        if number == NO_OBSTACLE:
            return math.inf
        return float_below(max(Fraction(0), root_below(number) - less) * self.resolution)

    def cell_many(self, xs: ArrayLike, ys: ArrayLike) -> Tuple[Places, Places]:
        """`cell` of each point of two arrays in metres, which numpy broadcasts: columns and rows,
        as `Map.at_many` takes them. RosError names the first point that isn't on the map."""
        return cells_many(self, xs, ys)

    @overload
    def staircase(self, plan: NDArray[Any]) -> Places: ...
    @overload
    def staircase(self, plan: Sequence[Point]) -> List[Cell]: ...
    def staircase(self, plan: Any) -> Any:
        """A path for clearmap along a plan of points in metres: its corners, each in the row or
        column of the one before. Of an array of the shape (points, 2) it is an array too.

        The path goes through exactly the cells that the plan's segments cross, and where one goes
        through a corner, through one of the two next to it. So each point of the plan lies in a
        cell of the path, and the middle of each such cell is less than one cell from the plan.
        """
        if hasattr(plan, "dtype"):
            return stairs(self, plan)
        ends = [self._upwards(point) for point in plan]
        if not ends:
            raise RosError("the plan has no point")
        walked = [(math.floor(ends[0][0]), math.floor(ends[0][1]))]
        for start, end in zip(ends, ends[1:]):
            walked += crossed(start, end)
        return corners([(x, self.height - 1 - up) for x, up in walked])


def pieces(path: Sequence[Cell]) -> Iterator[Sequence[Cell]]:
    """A path in pieces of at most 1000 points. Each starts at the last point of the one before, so
    that no cell between is left out."""
    yield path[:LONGEST_PATH]
    for start in range(LONGEST_PATH - 1, len(path) - 1, LONGEST_PATH - 1):
        yield path[start : start + LONGEST_PATH]


def query_lines(command: str, path: Sequence[Cell]) -> List[str]:
    """The lines of a path, as `PATH euclid2` or `CLEAROF euclid2 34` begins them: one for each
    piece of it."""
    return [" ".join([command] + [f"{x} {y}" for x, y in piece]) for piece in pieces(path)]


# ---- a robot's radius


def least_whole(holds_from: Fraction, root_two_times: Fraction) -> int:
    """The least whole number that isn't below a + b * sqrt 2, for a and b from 0 on."""
    parts = holds_from.denominator * root_two_times.denominator  # a and b are whole numbers of these
    a, square = int(holds_from * parts), 2 * int(root_two_times * parts) ** 2
    root = math.isqrt(square - 1) + 1 if square else 0  # up: what it is compared with is whole
    return -(-(a + root) // parts)


def clear_distance(
    radius: Number, resolution: Number, metric: str = EUCLID2, whole_cells: bool = True
) -> int:
    """The least `d` of CLEAROF for a round robot of this radius, both in metres.

    With `whole_cells`, which is the safe reading, the robot's centre may be anywhere in its cell
    and the obstacle anywhere in its own. Without it both are in the middle of their cells, as
    costmaps inflate, and a robot may come nearer than its radius by up to sqrt 2 cells.

    It is 1 at least, for a radius of 0 too: 0 is clear everywhere, through obstacles.
    """
    r, s = exact(radius), exact(resolution)
    if r < 0 or s <= 0:
        raise RosError("a radius is 0 or more, and a resolution above 0")
    n = r / s
    if metric == EUCLID2:  # the square of n, or of n + sqrt 2
        return least_whole(n * n + 2, 2 * n) if whole_cells else max(math.ceil(n * n), 1)
    if metric == CITY:  # the Euclidean distance may be less than the steps by sqrt 2
        return least_whole(Fraction(2), n) if whole_cells else max(least_whole(Fraction(0), n), 1)
    if metric == CHESS:
        return math.ceil(n) + 1 if whole_cells else max(math.ceil(n), 1)
    raise RosError(f"'{metric}' is no metric: euclid2, city or chess")
