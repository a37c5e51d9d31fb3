"""Signed distances of all cells, and the directions away from obstacles."""
from __future__ import annotations

import math
from typing import TYPE_CHECKING, Any, Optional, Tuple

from .grids import OPEN, Memory, edge_of, map_of, number_of
from .library import NO_OBSTACLE, Bits, numpy
from .limits import Limits
from .requests import EUCLID2
from .rows import fill, in_bands, near_type

if TYPE_CHECKING:
    import numpy as np
    from numpy.typing import NDArray

    Reals = NDArray[np.float64]

PIECE = 1 << 15  # cells that are converted at once, by arrays that the processor's cache holds
NO_BANDS = 0  # as if no band were known to be blank: it is right for all words


def signed_distances(
    grid: object,
    metric: str = EUCLID2,
    edge: str = OPEN,
    resolution: float = 1.0,
    threads: int = 1,
    *,
    low: Optional[float] = None,
    high: Optional[float] = None,
    unknown: Optional[float] = None,
) -> Reals:
    """The distance of each free cell to its nearest obstacle, and the negative distance of each
    obstacle to its nearest free cell, as an array of float64: from centre to centre, so that no
    cell is between -1 and 1. `euclid2` gives Euclidean distances, the roots of `distances`; `city`
    and `chess` count steps. They are in cells, or in metres if `resolution` is metres per cell.

    Each cell is inf if there is no obstacle, and -inf if there is no free cell. With `edge="wall"`
    the frame around the grid is an obstacle for the free cells. Only cells of the grid are free
    cells, with either edge. Grid, metric, edge, `threads`, `low`, `high` and `unknown` are as those
    of `distances`, and so are the errors; a resolution that isn't above 0 is a ValueError.
    """
    return signed_of(_packed(grid, Limits(low, high, unknown)), metric, edge, resolution, threads)


def gradients(
    grid: object,
    metric: str = EUCLID2,
    edge: str = OPEN,
    inside: bool = False,
    threads: int = 1,
    *,
    low: Optional[float] = None,
    high: Optional[float] = None,
    unknown: Optional[float] = None,
) -> Reals:
    """The unit vector away from each cell's nearest obstacle, as float64 of the shape (rows,
    columns, 2): by columns and by rows. It is (0, 0) in obstacles and if there is none. Of several
    nearest obstacles it takes the one that `distances` returns.

    With `inside=True` the direction in an obstacle is that to its nearest free cell, so that
    `signed_distances` grow along each. The rest is as there.
    """
    return gradients_of(_packed(grid, Limits(low, high, unknown)), metric, edge, inside, threads)


def _packed(grid: object, limits: Limits) -> Memory:
    """A grid as a map in bits."""
    from .maps import packed  # which has calls of this module

    return packed(map_of(grid, limits))


def inverse(memory: Memory) -> Memory:
    """The map in bits whose obstacles are the free cells of another."""
    old = memory.layout
    bits = Bits(old.width, old.height, memory.cells.shape[1], NO_BANDS)
    return Memory("bits", ~memory.cells, memory.cells.size, bits)


# ---- of maps in bits


def signed_of(memory: Memory, metric: str, edge: str, resolution: float, threads: int) -> Reals:
    """What `signed_distances` returns, for a map in bits."""
    np = numpy()
    size = float(resolution)
    if not 0 < size < math.inf:
        raise ValueError(f"a cell of {size} m, where a size above 0 is wanted")
    parts = (memory, number_of(metric), edge_of(edge)), (inverse(memory), number_of(metric), 0)
    found = np.empty((memory.layout.height, memory.layout.width), np.float64)

    def real(told: Any, out: Any) -> Any:
        return np.sqrt(told, out=out) if metric == EUCLID2 else told

    def work(y0: int, y1: int) -> None:
        out = found[y0:y1]
        free, blocked = (np.empty(out.shape, np.uint32) for _ in parts)
        for part, told in zip(parts, (free, blocked)):
            fill(*part, y0, y1, told)
        for rows in _pieces(out):
            room = np.empty(out[rows].shape)
            out[rows] = real(free[rows], room)
            out[rows] -= real(blocked[rows], room)
        if free[0, 0] == NO_OBSTACLE or blocked[0, 0] == NO_OBSTACLE:
            out.fill(math.inf if free[0, 0] == NO_OBSTACLE else -math.inf)
        elif size != 1.0:
            out *= size

    in_bands(len(found), threads, work)
    return found  # type: ignore[no-any-return]


def gradients_of(memory: Memory, metric: str, edge: str, inside: bool, threads: int) -> Reals:
    """What `gradients` returns, for a map in bits."""
    np = numpy()
    asked = number_of(metric), edge_of(edge)
    height, width = memory.layout.height, memory.layout.width
    free = inverse(memory) if inside else None
    found = np.zeros((height, width, 2), np.float64)

    def work(y0: int, y1: int) -> None:
        nears = np.empty((y1 - y0, width), near_type())
        fill(memory, *asked, y0, y1, nears)
        _directions(nears, y0, 1, found[y0:y1])
        if free is not None:
            fill(free, asked[0], 0, y0, y1, nears)
            _directions(nears, y0, -1, found[y0:y1])

    in_bands(height, threads, work)
    return found  # type: ignore[no-any-return]


def _pieces(cells: Any) -> Tuple[slice, ...]:
    """Rows that are converted at once."""
    count = max(PIECE // cells.shape[1], 1)
    return tuple(slice(y, y + count) for y in range(0, len(cells), count))


def _directions(nears: Any, y0: int, sign: int, out: Any) -> None:
    """Writes the directions away from what is nearest, or with the sign -1 towards it, for the
    cells that aren't it themselves."""
    np = numpy()
    columns = np.arange(nears.shape[1])
    for rows in _pieces(nears):
        near = nears[rows]
        has = (near["dist"] != 0) & (near["dist"] != NO_OBSTACLE)
        down = np.arange(y0 + rows.start, y0 + rows.start + len(near))[:, None]
        dx, dy = sign * (columns - near["x"]), sign * (down - near["y"])
        length = np.sqrt(dx * dx + dy * dy)
        np.divide(dx, length, out=out[rows, :, 0], where=has)
        np.divide(dy, length, out=out[rows, :, 1], where=has)
