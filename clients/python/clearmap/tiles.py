"""Distances up to a cap for arrays of any size, computed tile by tile by libclearmap."""
from __future__ import annotations

import math
from typing import TYPE_CHECKING, Any, Iterator, NamedTuple, Optional, Tuple

from .grids import OPEN, edge_of, flat_array, map_of, number_of
from .library import NO_OBSTACLE, numpy
from .limits import Limits
from .requests import EUCLID2, LARGEST_SIDE, Whole, whole
from .rows import fill, in_bands, shared

if TYPE_CHECKING:
    from .rows import Distances

FARTHER = NO_OBSTACLE - 1  # the value of a cell whose nearest obstacle is farther than the cap
LARGEST_REACH = 1024  # the most columns or rows that a cap may reach over


class _Asked(NamedTuple):
    """What is asked of each tile."""

    metric: int
    edge: int
    cap: int
    reach: int
    limits: Limits


def capped_distances(
    grid: object,
    cap: Whole,
    metric: str = EUCLID2,
    edge: str = OPEN,
    threads: int = 1,
    *,
    low: Optional[float] = None,
    high: Optional[float] = None,
    unknown: Optional[float] = None,
    tile: Optional[Whole] = None,
) -> Distances:
    """The distance of each cell of a grid of any size to its nearest obstacle, if it is at most
    `cap`, as an array of uint32. Every other cell is FARTHER: its nearest obstacle is farther than
    the cap, or there is none.

    Grid, metric, edge, `threads`, `low`, `high` and `unknown` are as those of `distances`, except
    that the grid may have more than 4096 rows or columns. `cap` is in the metric's unit: with
    `euclid2` it is a square, r * r for a reach of r cells. It reaches over at most 1024 rows: it is
    0 to 1024, or with `euclid2` to 1024 * 1024.

    The grid is computed in tiles, each in a window with a margin of as many cells as the cap
    reaches over. So all obstacles that matter to a tile's cells are in its window, and the results
    are exact. `tile` is a tile's longest side; without it a window is as large as the library
    takes. Nearest obstacles aren't returned.

    ValueError and TypeError for anything but a grid and a cap, and MemoryError.
    """
    array = flat_array(grid)
    reach = _reach_of(whole(cap), metric)
    asked = _Asked(number_of(metric), edge_of(edge), whole(cap), reach, Limits(low, high, unknown))
    most = LARGEST_SIDE - 2 * reach
    side = most if tile is None else whole(tile)
    if not 1 <= side <= most:
        raise ValueError(f"a tile of {side} cells, where 1 to {most} go with this cap")
    if not array.size:
        raise ValueError(f"a map has a cell or more, and this array has the shape {array.shape}")
    out = numpy().empty(array.shape, numpy().uint32)
    for y0, y1 in _spans(array.shape[0], side):
        for x0, x1 in _spans(array.shape[1], side):
            _work_tile(array, (x0, y0, x1, y1), asked, threads, out[y0:y1, x0:x1])
    return out  # type: ignore[no-any-return]


def _reach_of(cap: int, metric: str) -> int:
    """The most columns or rows between a cell and an obstacle within the cap."""
    most = LARGEST_REACH**2 if metric == EUCLID2 else LARGEST_REACH
    if not 0 <= cap <= most:
        raise ValueError(f"a cap of {cap}, where 0 to {most} are taken by this metric")
    return math.isqrt(cap) if metric == EUCLID2 else cap


def _spans(length: int, side: int) -> Iterator[Tuple[int, int]]:
    """A length cut into nearly equal parts of at most this side."""
    count = -(-length // side)
    ends = [length * part // count for part in range(count + 1)]
    return zip(ends, ends[1:])


def _work_tile(
    array: Any, tile: Tuple[int, int, int, int], asked: _Asked, threads: int, out: Any
) -> None:
    """Writes the answers of a tile's cells.

    With a wall, the sides of the window inside the grid have a frame too. It is farther than the
    cap from each cell of the tile, so it changes no result."""
    np = numpy()
    x0, y0, x1, y1 = tile
    left, top = max(x0 - asked.reach, 0), max(y0 - asked.reach, 0)
    window = array[top : y1 + asked.reach, left : x1 + asked.reach]
    memory = shared(map_of(window, asked.limits), threads)

    def work(first: int, end: int) -> None:
        found = np.empty((end - first, window.shape[1]), np.uint32)
        rows = y0 - top + first, y0 - top + end
        fill(memory, asked.metric, asked.edge, *rows, found)
        told = out[first:end]
        told[...] = found[:, x0 - left : x1 - left]
        np.copyto(told, FARTHER, where=told > asked.cap)

    in_bands(y1 - y0, threads, work)
