"""Convex polygons in integers: their corners at a pose, and the cells that they cover."""
from __future__ import annotations

import math
from typing import Iterable, Iterator, List, Sequence, SupportsFloat, Tuple

from .library import numpy

STEPS = 1 << 16  # of a cell: corners lie on whole steps
UNIT = 1 << 30  # the length of a direction
MOST_POINTS = 128
LARGEST_REACH = 4096  # cells
THINNEST = STEPS // 1024  # steps
NOWHERE = 1 << 40  # a column after all others
LOOSE = 2  # steps that a point of a straight side may lie inside of it

Corner = Tuple[int, int]


def rounded(number: float) -> int:
    """The nearest integer; the greater of two."""
    return math.floor(number + 0.5)


def cross(a: Corner, b: Corner, c: Corner) -> int:
    """Twice the area of a triangle: positive if it turns from x to y."""
    return (b[0] - a[0]) * (c[1] - a[1]) - (b[1] - a[1]) * (c[0] - a[0])


def hull(corners: Iterable[Corner]) -> List[Corner]:
    """The corners of the convex hull, turning from x to y, without those on a side."""
    ordered = sorted(set(corners), key=lambda corner: (corner[1], corner[0]))
    return _chain(ordered)[:-1] + _chain(ordered[::-1])[:-1]


def _chain(ordered: Sequence[Corner]) -> List[Corner]:
    """Half of a hull: the corners that turn one way."""
    kept: List[Corner] = []
    for corner in ordered:
        while len(kept) > 1 and cross(kept[-2], kept[-1], corner) <= 0:
            kept.pop()
        kept.append(corner)
    return kept


# ---- points as a polygon


def outline_of(
    points: Iterable[Iterable[SupportsFloat]],
    resolution: SupportsFloat,
    what: str = "a footprint",
) -> List[Corner]:
    """The corners of a polygon in steps: `points` divided by `resolution` are cells. Refusals say
    what it is."""
    cell = float(resolution)
    if not 0 < cell < math.inf:
        raise ValueError(f"a cell of {cell} m, where a size above 0 is wanted")
    corners = [_corner(f"point {k} of {what}", point, cell) for k, point in enumerate(points)]
    if not 3 <= len(corners) <= MOST_POINTS:
        raise ValueError(f"{what} has 3 to {MOST_POINTS} points, and this one {len(corners)}")
    ring = [corner for corner, last in zip(corners, corners[-1:] + corners) if corner != last]
    outline = hull(ring)
    if len(outline) < 3:
        raise ValueError(f"the points of {what} lie in one line")
    if not any(_goes_round(points, outline) for points in (ring, ring[::-1])):
        raise ValueError(f"{what} is convex, and these points, in their order, are not")
    _check_width(outline, what)
    return outline


def _corner(name: str, point: Iterable[SupportsFloat], cell: float) -> Corner:
    """A point in steps."""
    x, y = (float(length) / cell for length in point)
    if not (math.isfinite(x) and math.isfinite(y)):
        raise ValueError(f"{name} is ({x}, {y}) in cells")
    if math.hypot(x, y) > LARGEST_REACH:
        raise ValueError(
            f"{name} is {math.hypot(x, y):.0f} cells from its centre, where {LARGEST_REACH} are the "
            "most"
        )
    return rounded(x * STEPS), rounded(y * STEPS)


def _goes_round(ring: Sequence[Corner], outline: Sequence[Corner]) -> bool:
    """Whether points go around their hull once, and none is inside it by more than rounding can
    cause."""
    start, at = ring.index(outline[0]), 0
    for corner in [*ring[start + 1 :], *ring[: start + 1]]:
        a, b = (outline[number % len(outline)] for number in (at, at + 1))
        if corner == b:
            at += 1
        elif not _is_on_side(a, b, corner):
            return False
    return at == len(outline)


def _is_on_side(a: Corner, b: Corner, corner: Corner) -> bool:
    """Whether a point lies on the side from a to b."""
    dx, dy = b[0] - a[0], b[1] - a[1]
    along = (corner[0] - a[0]) * dx + (corner[1] - a[1]) * dy
    across = cross(a, b, corner)
    square = dx * dx + dy * dy
    return 0 <= along <= square and across * across <= LOOSE * LOOSE * square


def _check_width(outline: Sequence[Corner], what: str) -> None:
    """Refuses a polygon so thin that rounding its corners leaves no inside."""
    for a, b in zip(outline, [*outline[1:], outline[0]]):
        most = max(cross(a, b, corner) for corner in outline)
        if most < THINNEST * math.hypot(b[0] - a[0], b[1] - a[1]):
            raise ValueError(f"{what} is 1/{STEPS // THINNEST} of a cell wide at least")


# ---- at a pose


def direction(theta: float) -> Corner:
    """The cosine and the sine of an angle."""
    return rounded(math.cos(theta) * UNIT), rounded(math.sin(theta) * UNIT)


def turned(outline: Sequence[Corner], x: float, y: float, theta: float) -> List[Corner]:
    """The corners at a pose. Rounding may put one on a side of the others, or inside."""
    (cosine, sine), half = direction(theta), UNIT // 2
    across, down = rounded(x * STEPS), rounded(y * STEPS)
    return [
        (
            across + (a * cosine - b * sine + half) // UNIT,
            down + (a * sine + b * cosine + half) // UNIT,
        )
        for a, b in outline
    ]


def placed(outline: Sequence[Corner], x: float, y: float, theta: float) -> List[Corner]:
    """The polygon at a pose: the hull of its corners there."""
    return hull(turned(outline, x, y, theta))


def rows_of(outline: Sequence[Corner], top: int, bottom: int) -> Iterator[Tuple[int, int, int]]:
    """The cells whose squares meet the inside of a convex polygon: for each row from `top` to
    `bottom` - 1 that has some, the row, the first column and the one after the last."""
    np = numpy()
    lines = np.arange(top, max(bottom, top) + 1) * STEPS
    firsts, ends = np.full((2, lines.size - 1), NOWHERE)
    for (x, y), (end_x, end_y) in zip(outline, [*outline[1:], outline[0]]):
        if y != end_y:  # the ends of a level side are those of others
            at = np.clip(lines, min(y, end_y), max(y, end_y))
            across, cell = x * (end_y - y) + (end_x - x) * (at - y), (end_y - y) * STEPS
            own = at[:-1] < at[1:]
            for found, columns in ((firsts, across // cell), (ends, across // -cell)):
                found[own] = np.minimum(found, np.minimum(columns[:-1], columns[1:]))[own]
    rows = (firsts < NOWHERE).nonzero()[0]
    return zip((rows + top).tolist(), firsts[rows].tolist(), (-ends[rows]).tolist())
