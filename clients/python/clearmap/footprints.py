"""Footprints: whether a robot of any convex shape is on an obstacle, pose by pose."""
from __future__ import annotations

import math
from fractions import Fraction
from typing import TYPE_CHECKING, Any, Iterable, Optional, SupportsFloat, Tuple

from . import poses
from .decimals import exact, float_below, root_float_below
from .gaps import nearest
from .grids import EDGES, WALL
from .held import Held, Reading
from .library import numpy
from .maps import Map
from .polygons import STEPS, outline_of, placed
from .ways import Pose, TightestPose, checked, tightest_pose

if TYPE_CHECKING:
    import numpy as np
    from numpy.typing import ArrayLike, NDArray

Real = SupportsFloat  # a float, an int, or a number of numpy
WALLED = EDGES.index(WALL)
SLACK = 2.0**-13  # cells: more than rounding moves any corner, or a root is off
MOVED = Fraction(1, 16384)  # cells: as far as rounding moves a corner at most
FARTHEST = 1 << 20  # cells: how far off the map clearances are told


class Footprint:
    """A robot's outline: a convex polygon of 3 to 128 points around its centre, in order.

    The points are (x, y) in cells, or in metres if `resolution` gives metres per cell. They reach
    at most 4096 cells from the centre (0, 0), which may be outside the polygon. A pose is (x, y,
    theta): the position of the centre, in cells of the map, so that cell (3, 4) is the square from
    (3, 4) to (4, 5) and (3.5, 4.5) its centre, whatever `resolution` is; and how far the points are
    turned, in radians, from x towards y.

    A pose hits an obstacle if the inside of the polygon meets an obstacle's square: touching it
    from outside isn't a hit. Around the map, all cells are free with the edge `open`, and obstacles
    with `wall`. So each pose has an answer, on the map or off it.

    The answer is exact for the polygon whose corners lie on whole steps of 1/65536 of a cell: the
    points, the pose and the turned corners are rounded to these, and the cosine and the sine to
    2**-30. No corner moves by more than 1/16384 of a cell, and none if the turn is a multiple of a
    right angle. A clearance is less by that much, unless nothing was rounded.

    ValueError for anything but such a polygon or pose. Any threads may use one footprint.
    """

    __slots__ = ("_outline", "_outer", "_cell", "_is_exact")

    def __init__(self, points: Iterable[Iterable[Real]], resolution: Real = 1.0) -> None:
        given = [tuple(point) for point in points]
        self._outline = outline_of(given, resolution)
        self._outer = max(math.hypot(*corner) for corner in self._outline) / STEPS + SLACK
        self._cell = exact(float(resolution))
        lengths = (exact(float(length)) for point in given for length in point)
        self._is_exact = all((length / self._cell * STEPS).denominator == 1 for length in lengths)

    def hits(self, area: Map, x: Real, y: Real, theta: Real) -> bool:
        """Whether the robot is on an obstacle of a map at this pose."""
        with reading(area) as held:
            pose = _pose(x, y, theta)
            if not self._is_near(held, *pose[:2]):
                return held.edge == WALLED
            return poses.hits_at(held, self._outline, *pose)

    def is_clear(self, area: Map, x: Real, y: Real, theta: Real) -> bool:
        """Whether the robot is on no obstacle."""
        return not self.hits(area, x, y, theta)

    def hits_many(
        self, area: Map, x: ArrayLike, y: ArrayLike, theta: ArrayLike
    ) -> NDArray[np.bool_]:
        """`hits` of each pose of three arrays, which numpy broadcasts: an array of bools. All poses
        are answered for the cells as they are when the call starts. It takes 60 bytes for each
        pose, and 10 MB at most for the corners."""
        with reading(area) as held:
            arrays = poses.flat(x, y, theta)
            each = tuple(numbers.ravel() for numbers in arrays)
            near = self._is_near(held, *each[:2])
            found = numpy().full(near.size, held.edge == WALLED)
            found[near] = poses.hits_of(held, self._outline, tuple(part[near] for part in each))
            return found.reshape(arrays[0].shape)  # type: ignore[no-any-return]

    def _is_near(self, held: Held, x: Any, y: Any) -> Any:
        """Whether poses are near enough to the map to hit one of its cells: numbers, or arrays."""
        (width, height), far = held.size, self._outer + 1
        return (-far <= x) & (x <= width + far) & (-far <= y) & (y <= height + far)

    # ---- clearances

    def clearance(self, area: Map, x: Real, y: Real, theta: Real) -> float:
        """How far the robot is from the nearest obstacle at this pose, in the unit of its points:
        cells, or metres by `resolution`. Never more than that: 0 if it hits or touches one;
        infinite where the map has no obstacle, and its edge is `open`.

        It is the distance between the polygon of `hits` and the square of the nearest obstacle
        cell, or with the edge `wall` the map's border, less 1/16384 of a cell if something of the
        polygon was rounded: the greatest float that isn't above it. ValueError for a pose more than
        1048576 cells from the map's first corner.
        """
        pose = _pose(x, y, theta)
        with reading(area) as held:
            square = self._square(held, pose)
        if square is None:
            return math.inf
        return root_float_below(square * self._cell * self._cell, self._moved(pose) * self._cell)

    def clearance_along(
        self, area: Map, way: Iterable[Iterable[Real]], within: float = 0.125
    ) -> TightestPose:
        """The least clearance on the way through poses (x, y, theta), and the pose where it was
        found. From one to the next the centre goes straight, and the robot turns evenly, the
        shorter way: obstacles between two poses count.

        The clearance is never more than the least of these, and less by at most `within` and 1/8192
        of a cell; `within` is in cells, 1/512 or more. The smaller it is, the longer it takes. All
        poses are answered for the cells as they are when the call starts.
        """
        if not within >= 1 / 512:
            raise ValueError(f"within is {within}, where 1/512 of a cell or more is wanted")
        with reading(area) as held:

            def cells(pose: Pose) -> float:
                square = self._square(held, _pose(*pose))
                return math.inf if square is None else root_float_below(square, self._moved(pose))

            found, at = tightest_pose(cells, checked(way), self._outer, within)
        return TightestPose(found if found in (0, math.inf) else self._metres(found), at)

    def _metres(self, cells: float) -> float:
        """A clearance in the unit of the points, rounded down."""
        return float_below(Fraction(cells) * self._cell)

    def _moved(self, pose: Pose) -> Fraction:
        """How far rounding moves a corner at most at this pose, in cells."""
        is_whole = all((number * STEPS).is_integer() for number in pose[:2])
        return Fraction(0) if self._is_exact and is_whole and pose[2] == 0 else MOVED

    def _square(self, held: Held, pose: Pose) -> Optional[Fraction]:
        """The square of the clearance in cells; None if there is no obstacle."""
        if max(abs(pose[0]), abs(pose[1])) > FARTHEST:
            raise ValueError(f"a pose of {pose}, where at most {FARTHEST} cells off is wanted")
        found = nearest(held, placed(self._outline, *pose), STEPS)
        return None if found is None else Fraction(*found[0]) / (STEPS * STEPS)


def _pose(*pose: Real) -> Pose:
    """A pose of finite numbers."""
    numbers = tuple(map(_number, ("x", "y", "theta"), pose))
    if not all(map(math.isfinite, numbers)):
        raise ValueError(f"a pose of {numbers}, where finite numbers are wanted")
    x, y, theta = numbers
    return x, y, theta


def _number(name: str, given: Real) -> float:
    """A number of a pose."""
    try:
        return float(given)
    except TypeError:
        kind = type(given).__name__
        many = "hits_many takes arrays" if hasattr(given, "__len__") else "an int or a float"
        raise TypeError(f"{name} is of {kind}, where a number is wanted: {many}") from None


def reading(area: Map) -> Reading:
    """A look at the cells of a map as they are now."""
    if not isinstance(area, Map):
        kind = type(area).__name__
        raise TypeError(f"a map of {kind}, where a Map is wanted: clearmap.Map(grid) makes one")
    return Reading(area)
