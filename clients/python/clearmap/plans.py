"""Plans in metres, and how far they keep from a map's obstacles."""
from __future__ import annotations

import math
from fractions import Fraction
from typing import Iterable, Iterator, List, NamedTuple, Optional, Sequence, Tuple

from .decimals import Number, exact, root_float_below
from .errors import RosError
from .framed import reading_in
from .frames import Frame, Point
from .gaps import nearest
from .maps import Map
from .polygons import Corner
from .requests import Cell


class TightestSegment(NamedTuple):
    """The least clearance of a plan in metres, rounded down, the number of the segment that has it,
    from 0, and the obstacle."""

    clearance: float
    segment: int
    obstacle: Cell


def read_plan(lines: Iterable[str]) -> List[Point]:
    """The points of a text: X and Y in metres on each line. A comma separates numbers as a blank
    does, and lines that start with `#` are left out."""
    return [(x, y) for x, y in _words(lines, 2, "X and Y")]


def read_poses(lines: Iterable[str]) -> List[Tuple[Number, Number, Number]]:
    """The same of poses: X, Y and THETA on each line, in metres and radians."""
    return [(x, y, theta) for x, y, theta in _words(lines, 3, "X, Y and THETA")]


def _words(lines: Iterable[str], count: int, wanted: str) -> Iterator[List[str]]:
    """The words of each line that has some."""
    for line in lines:
        words = line.replace(",", " ").split()
        if words and not words[0].startswith("#"):
            if len(words) != count:
                raise RosError(f"'{line.strip()}' isn't {wanted}")
            yield words


def plan_clearance(
    area: Map, frame: Frame, plan: Iterable[Point], radius: Number = 0
) -> Optional[TightestSegment]:
    """How much room a round robot of this radius has along a plan, all in metres: the distance
    between the line through the plan's points and the nearest obstacle's square, or with the edge
    `wall` the map's border, less the radius; 0 if it hits. None if there is no obstacle at all.

    Row 0 of the map is the top one, as the frame has it. RosError for a map that isn't of the
    frame's size or whose row 0 is the lowest, and for a point that isn't on it. All segments are
    answered for the cells as they are when the call starts.
    """
    look = reading_in(frame, area)
    robot, points = exact(radius), [frame.place(point) for point in plan]
    if robot < 0:
        raise RosError("a radius is 0 or more")
    if not points:
        raise RosError("the plan has no point")
    told = []
    with look as held:
        for number, ends in enumerate(list(zip(points, points[1:])) or [(points[0], points[0])]):
            corners, steps = _in_steps(ends)
            found = nearest(held, corners, steps)
            if found is None:
                return None
            told.append((Fraction(*found[0]) / (steps * steps), number, found[1]))
    square, segment, cell = min(told)
    metres = root_float_below(square * frame.resolution**2, robot)
    return TightestSegment(metres, segment, cell)


def _in_steps(ends: Sequence[Tuple[Fraction, Fraction]]) -> Tuple[List[Corner], int]:
    """The ends of a segment in whole steps, and how many of these are a cell."""
    steps = 1
    for number in (number for end in ends for number in end):
        steps = steps * number.denominator // math.gcd(steps, number.denominator)
    return [(int(x * steps), int(y * steps)) for x, y in ends], steps
