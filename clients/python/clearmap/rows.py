"""Distances of all cells of an array by libclearmap, in this process, by bands of rows."""
from __future__ import annotations

import ctypes
import functools
from typing import TYPE_CHECKING, Any, Callable, Literal, Optional, Tuple, Union, overload

from .grids import OPEN, Memory, edge_of, map_of, number_of
from .library import NO_OBSTACLE, check, library, numpy
from .limits import Limits
from .requests import EUCLID2, whole

if TYPE_CHECKING:
    import numpy as np
    from numpy.typing import NDArray

    Distances = NDArray[np.uint32]
    Obstacles = NDArray[np.int16]
    Indices = NDArray[np.int32]

INDICES: Literal["indices"] = "indices"  # how to ask for nearest obstacles as numpy's indices
Nearest = Union[bool, Literal["indices"]]


# ---- rows, shared among threads


def in_bands(height: int, threads: int, work: Callable[[int, int], None]) -> None:
    """Calls work(y0, y1) for bands of rows, each in a thread of its own."""
    count = whole(threads)
    if count < 1:
        raise ValueError(f"{count} threads, where 1 or more are wanted")
    count = min(count, height)
    if count == 1:
        return work(0, height)
    from concurrent.futures import ThreadPoolExecutor

    starts = [height * band // count for band in range(count + 1)]
    with ThreadPoolExecutor(count) as pool:
        for _ in pool.map(work, starts[:-1], starts[1:]):
            pass
    return None


def fill(memory: Memory, metric: int, edge: int, y0: int, y1: int, out: Any) -> None:
    """Writes the answers of rows y0 to y1 - 1 to a contiguous array of these rows: of distances, or
    of distances with obstacles."""
    name = "distances" if out.dtype.names is None else "nearest"
    call = getattr(library(), f"clearmap_{memory.kind}_{name}")
    check(call(*where_of(memory), metric, edge, y0, y1, out.ctypes.data, out.size))


def where_of(memory: Memory) -> Tuple[Any, ...]:
    """A map as calls of the library take it."""
    return memory.cells.ctypes.data, memory.length, ctypes.byref(memory.layout)


def shared(memory: Memory, threads: int) -> Memory:
    """A map that several threads read: one in place is packed first, so that all read the cells as
    they are at one time."""
    if memory.kind == "bits" or whole(threads) < 2:
        return memory
    from .maps import packed  # which has calls of this module

    return packed(memory)


@functools.lru_cache(maxsize=None)
def near_type() -> Any:
    """clearmap_near, as numpy has it."""
    return numpy().dtype([("dist", "u4"), ("x", "i2"), ("y", "i2")])


def distances_of(memory: Memory, metric: str, edge: str, nearest: Nearest, threads: int) -> Any:
    """What `distances` returns, for a map."""
    np = numpy()
    if nearest not in (False, True, INDICES):
        raise ValueError(f"nearest is {nearest!r:.80}, where True, False or 'indices' is wanted")
    numbers = number_of(metric), edge_of(edge)
    memory = shared(memory, threads)
    height, width = memory.layout.height, memory.layout.width
    out = np.empty((height, width), near_type() if nearest else np.uint32)
    in_bands(height, threads, lambda y0, y1: fill(memory, *numbers, y0, y1, out[y0:y1]))
    if not nearest:
        return out
    if nearest == INDICES:
        return out["dist"], _indices_of(out)
    return out["dist"], out.view(np.int16).reshape(height, width, 4)[:, :, 2:]


def _indices_of(nears: Any) -> Any:
    """Rows and columns of nearest obstacles that are all cells of the map. ValueError for others:
    numpy would count -1 and -2 from the end."""
    np = numpy()
    indices = np.empty((2, *nears.shape), np.int32)
    indices[0], indices[1] = nears["y"], nears["x"]
    if nears["dist"][0, 0] == NO_OBSTACLE:
        raise ValueError("the map has no obstacle: there is no index of one")
    height, width = nears.shape
    away = (indices < 0).any(axis=0) | (indices[0] >= height) | (indices[1] >= width)
    if away.any():
        y, x = np.argwhere(away)[0].tolist()
        raise ValueError(
            f"the nearest obstacle of column {x} and row {y} is on the frame of a wall, where no "
            "cell has an index: ask with nearest=True"
        )
    return indices


@overload
def distances(
    grid: object,
    metric: str = ...,
    edge: str = ...,
    nearest: Literal[False] = ...,
    threads: int = ...,
    *,
    low: Optional[float] = ...,
    high: Optional[float] = ...,
    unknown: Optional[float] = ...,
) -> Distances: ...
@overload
def distances(
    grid: object,
    metric: str = ...,
    edge: str = ...,
    *,
    nearest: Literal[True],
    threads: int = ...,
    low: Optional[float] = ...,
    high: Optional[float] = ...,
    unknown: Optional[float] = ...,
) -> Tuple[Distances, Obstacles]: ...
@overload
def distances(
    grid: object,
    metric: str = ...,
    edge: str = ...,
    *,
    nearest: Literal["indices"],
    threads: int = ...,
    low: Optional[float] = ...,
    high: Optional[float] = ...,
    unknown: Optional[float] = ...,
) -> Tuple[Distances, Indices]: ...
def distances(
    grid: object,
    metric: str = EUCLID2,
    edge: str = OPEN,
    nearest: Nearest = False,
    threads: int = 1,
    *,
    low: Optional[float] = None,
    high: Optional[float] = None,
    unknown: Optional[float] = None,
) -> Any:
    """The distance of each cell of a grid to its nearest obstacle, as an array of uint32: `euclid2`
    is the square of the Euclidean distance in cells, from middle to middle, `city` and `chess`
    count steps. Each cell is NO_OBSTACLE if there is no obstacle at all.

    **Before you compute with them, convert them**, as by `found.astype(numpy.int64)`: uint32 knows
    nothing below 0, so that `found - 36 > 0` is True of each but 36, and `found + 1` is 0 where it
    is NO_OBSTACLE. `found > 36` is right as it is.

    A grid is an array of 2 dimensions with 1 to 4096 rows and as many columns, of any memory order.
    Of bools, True is an obstacle. Of numbers, a cell is an obstacle if low <= cell <= high; at
    least one limit must be given. Limits that no number of the dtype meets, such as low=253 for
    int8, are a ValueError. With `unknown` each cell of that number is an obstacle too: `low=65,
    unknown=-1` for an occupancy grid, `low=253, high=254, unknown=255` for a costmap. All three are
    integers for integers; for floats they are rounded to the dtype, and a NaN is a ValueError. With
    `edge="wall"` each cell of the frame around the grid is an obstacle too.

    With `nearest=True` the result is (distances, obstacles), two views of one array. Obstacles has
    the shape (rows, columns, 2) and the dtype int16, and obstacles[y, x] is the column and the row
    of the nearest obstacle of cell (x, y). On the frame of a wall either is -1, or one after the
    last. Where there is none both are NOWHERE. Ties go to the least column, among those to the
    fewest rows away, and of two such to the upper one.

    These are no indices of numpy, which have the row first, and for which -1 and -2 count from the
    end. `nearest="indices"` gives (distances, indices) with indices as scipy's: of the shape (2,
    rows, columns) and the dtype int32, so that grid[tuple(indices)] is each cell's nearest
    obstacle. It is a ValueError if there is none, or if one is on the frame.

    `threads` share the rows, of a copy of the map in bits. Without them a grid of bool, uint8 or
    int8 whose rows lie one after another, even with gaps between them, is read in place: nobody may
    write it meanwhile. int8 limits from below 0 to 0 or more cost a copy of one byte per cell, as
    do other dtypes and orders, and `unknown` unless it is next to the limits.

    ValueError and TypeError for anything but a grid, and MemoryError.
    """
    return distances_of(map_of(grid, Limits(low, high, unknown)), metric, edge, nearest, threads)
