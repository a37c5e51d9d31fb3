"""The clearance of a footprint on its way through poses."""
from __future__ import annotations

import math
from typing import Callable, Iterable, List, NamedTuple, SupportsFloat, Tuple

Pose = Tuple[float, float, float]
LOOSE = 2.0**-13  # cells: twice as far as rounding moves a corner
FINEST = 2.0**-10  # cells between two poses that are asked, at least


class TightestPose(NamedTuple):
    """The least clearance of a way, rounded down, and the pose at which it was found."""

    clearance: float
    pose: Pose


def tightest_pose(
    clearance: Callable[[Pose], float], poses: Iterable[Pose], outer: float, within: float
) -> TightestPose:
    """The least clearance in cells on the way through poses of a footprint that reaches `outer`
    cells from its centre: never more than it is, and less by at most `within`.

    Between two poses no clearance is below the mean of both less half of what a point moves: a
    piece that may be tighter than the tightest pose so far is halved.
    """
    asked = [(pose, clearance(pose)) for pose in poses]
    if not asked:
        raise ValueError("a way has a pose at least")
    least, at = min((found, pose) for pose, found in asked)
    below, pieces = least, list(zip(asked, asked[1:]))
    while pieces and least > 0:
        (start, first), (end, last) = pieces.pop()
        moved = _moved(start, end, outer)
        bound = (first + last - moved) / 2 - LOOSE if moved else least
        if bound >= least - within or moved < FINEST:
            below = min(below, bound)
            continue
        middle = _middle(start, end)
        found = clearance(middle)
        least, at = min((least, at), (found, middle))
        pieces += [((start, first), (middle, found)), ((middle, found), (end, last))]
    return TightestPose(max(min(below, least), 0.0), at)


def _turned(start: Pose, end: Pose) -> float:
    """The turn from one pose to another, the shorter way."""
    return math.remainder(end[2] - start[2], math.tau)


def _moved(start: Pose, end: Pose, outer: float) -> float:
    """How far any point of the footprint moves at most."""
    return math.dist(start[:2], end[:2]) + outer * abs(_turned(start, end))


def _middle(start: Pose, end: Pose) -> Pose:
    """The pose halfway."""
    x, y = ((a + b) / 2 for a, b in zip(start[:2], end[:2]))
    return x, y, start[2] + _turned(start, end) / 2


def checked(poses: Iterable[Iterable[SupportsFloat]]) -> List[Pose]:
    """Poses as tuples of three floats."""
    return [(x, y, theta) for x, y, theta in (map(float, pose) for pose in poses)]
