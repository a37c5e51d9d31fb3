"""Which cells of a map a shape covers, and drawing them."""
from __future__ import annotations

import math
from typing import TYPE_CHECKING, Any, Iterable, NamedTuple, SupportsFloat, Tuple

from .asking import cells_on
from .errors import Size
from .held import Held
from .library import numpy
from .polygons import STEPS, outline_of, rounded, rows_of
from .words import SIDE, mark_band

if TYPE_CHECKING:
    from numpy.typing import ArrayLike

FARTHEST = 1 << 14  # cells: how far off the map's first corner a shape's points may be
Real = SupportsFloat


class Region(NamedTuple):
    """Cells of a map: those of a mask whose first one is (x0, y0)."""

    x0: int
    y0: int
    mask: Any

    def box(self) -> Tuple[int, int, int, int]:
        """The least rectangle with all of the mask, as x0, y0, x1, y1."""
        height, width = self.mask.shape
        return self.x0, self.y0, self.x0 + width, self.y0 + height


def region_of_cells(size: Size, xs: ArrayLike, ys: ArrayLike) -> Region:
    """Cells by their columns and rows, which are on the map."""
    np = numpy()
    cells = cells_on(size, xs, ys).reshape(-1, 2).astype(np.intp)
    if not len(cells):
        return Region(0, 0, np.zeros((0, 0), bool))
    first, last = cells.min(axis=0), cells.max(axis=0)
    mask = np.zeros((last - first + 1)[::-1], bool)
    mask[tuple((cells - first).T[::-1])] = True
    return Region(int(first[0]), int(first[1]), mask)


def region_of_disc(size: Size, x: Real, y: Real, radius: Real) -> Region:
    """The cells of a map whose squares meet the inside of a disc."""
    np = numpy()
    places = [float(number) for number in (x, y, radius)]
    if not all(abs(number) <= FARTHEST for number in places) or not places[2] > 0:
        raise ValueError(
            f"a disc around ({x}, {y}) of the radius {radius}, where at most {FARTHEST} cells off "
            "and a radius above 0 are wanted"
        )
    across, down, reach = (rounded(number * STEPS) for number in places)
    x0, x1, gaps_x = _gaps(across, reach, size[0])
    y0, _, gaps_y = _gaps(down, reach, size[1])
    return Region(x0, y0, gaps_x * gaps_x + (gaps_y * gaps_y)[:, None] < np.int64(reach * reach))


def _gaps(middle: int, reach: int, side: int) -> Tuple[int, int, Any]:
    """The columns, or rows, of a map that a disc may meet, and how far each is from its middle in
    steps."""
    first = min(max((middle - reach) // STEPS, 0), side)
    end = max(min(-(-(middle + reach) // STEPS), side), first)
    begins = numpy().arange(first, end, dtype="i8") * STEPS
    return first, end, numpy().maximum(numpy().maximum(begins - middle, middle - begins - STEPS), 0)


def region_of_polygon(size: Size, points: Iterable[Iterable[Real]]) -> Region:
    """The cells of a map whose squares meet the inside of a convex polygon."""
    np = numpy()
    given = [tuple(map(float, point)) for point in points]
    if not all(abs(number) <= FARTHEST for point in given for number in point):
        raise ValueError(f"a point of a polygon is at most {FARTHEST} cells off the map's corner")
    middle = [math.floor(sum(numbers) / len(given)) for numbers in zip(*given)]
    shifted = ([number - off for number, off in zip(point, middle)] for point in given)
    outline = outline_of(shifted, 1, "a polygon")
    corners = [(x + middle[0] * STEPS, y + middle[1] * STEPS) for x, y in outline]
    rows = [(y, max(x0, 0), min(x1, size[0])) for y, x0, x1 in rows_of(corners, 0, size[1])]
    covered = [(y, x0, x1) for y, x0, x1 in rows if x0 < x1]
    if not covered:
        return Region(0, 0, np.zeros((0, 0), bool))
    top, left, right = covered[0][0], min(x0 for _, x0, _ in covered), max(x1 for *_, x1 in covered)
    mask = np.zeros((covered[-1][0] + 1 - top, right - left), bool)
    for y, x0, x1 in covered:
        mask[y - top, x0 - left : x1 - left] = True
    return Region(left, top, mask)


# ---- drawing, on cells that nobody else has


def draw_region(held: Held, region: Region, full: bool) -> None:
    """Makes the cells of a region obstacles, or free."""
    part, mask = _words(held, region, region.mask)
    if full:
        part |= mask
    else:
        part &= ~mask
    _mark(held, region)


def put_region(held: Held, region: Region) -> None:
    """Makes the cells of a region's mask obstacles, and the others of its rectangle free."""
    part, mask = _words(held, region, region.mask)
    part &= ~_words(held, region, numpy().ones_like(region.mask))[1]
    part |= mask
    _mark(held, region)


def _words(held: Held, region: Region, mask: Any) -> Tuple[Any, Any]:
    """The words of a map that a region's rectangle is in, and a mask of it as such words."""
    np = numpy()
    x0, y0, x1, y1 = region.box()
    first, end = x0 // SIDE, -(-x1 // SIDE)
    wide = np.zeros((y1 - y0, (end - first) * SIDE), bool)
    wide[:, x0 - first * SIDE : x1 - first * SIDE] = mask
    words = np.packbits(wide, axis=1, bitorder="little").view("<u8")
    return held.memory.cells[y0:y1, first:end], words


def _mark(held: Held, region: Region) -> None:
    """Marks the tiles of a region's rows as their cells are now."""
    _, y0, _, y1 = region.box()
    for band in range(y0 // SIDE, (y1 - 1) // SIDE + 1):
        mark_band(held, band)
