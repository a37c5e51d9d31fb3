"""Parts of a map that are computed by themselves, for `fields`: which cells a change can reach, and
their nearest obstacles."""
from __future__ import annotations

import ctypes
import math
from typing import Any, Dict, List, NamedTuple, Optional, Tuple

from .grids import Memory
from .held import Held
from .library import NO_OBSTACLE, Bits, check, library, numpy
from .requests import CHESS, CITY, LARGEST_SIDE, METRICS
from .rows import near_type

SIDE = 16  # columns and rows of a tile whose greatest distance is kept
WORD = 64  # columns of a word, and rows of a band that is compared at once
FEW_TILES = 36  # that aren't looked at one by one
MANY_WORDS = 16  # of a map for each that differs: with fewer all is computed anew
NEIGHBOURS = 32  # boxes that one may be joined to
NEAR = 64  # cells that are computed in vain as quickly as another box is begun
CITY_NUMBER, CHESS_NUMBER = METRICS.index(CITY), METRICS.index(CHESS)


class Box(NamedTuple):
    """Columns x0 to x1 - 1 of rows y0 to y1 - 1."""

    x0: int
    y0: int
    x1: int
    y1: int

    def area(self) -> int:
        """How many cells it has."""
        return (self.x1 - self.x0) * (self.y1 - self.y0)

    def cells(self) -> Tuple[slice, slice]:
        """Its cells in an array of the map's."""
        return slice(self.y0, self.y1), slice(self.x0, self.x1)


def between(metric: int, columns: Any, rows: Any) -> Any:
    """The distance of two cells this many columns and rows apart."""
    if metric == CITY_NUMBER:
        return columns + rows
    if metric == CHESS_NUMBER:
        return numpy().maximum(columns, rows)
    return columns * columns + rows * rows


def steps_of(metric: int, distance: int) -> int:
    """How many columns or rows a cell at this distance can be away at most."""
    steps = distance if metric in (CITY_NUMBER, CHESS_NUMBER) else math.isqrt(distance)
    return min(steps, 2 * LARGEST_SIDE)


class Tops:
    """The greatest distance in each tile of 16 by 16 cells. A change in a box farther away from a
    tile than that changes none of its answers: each of its cells has a nearer obstacle, which the
    change leaves."""

    def __init__(self, distances: Any, metric: int) -> None:
        self._metric = metric
        self._height, self._width = distances.shape
        self._tops = _tops(distances)

    def reached(self, box: Box) -> Box:
        """Whole tiles with all cells that a change in a box can reach."""
        np = numpy()
        steps = steps_of(self._metric, int(self._tops.max()))
        left, right = self._tiles(box.x0, box.x1, steps, self._width)
        top, below = self._tiles(box.y0, box.y1, steps, self._height)
        if (right - left) * (below - top) > FEW_TILES:
            columns = _gaps(left, right, box.x0, box.x1, SIDE)
            rows = _gaps(top, below, box.y0, box.y1, SIDE)
            away = between(self._metric, columns, rows[:, None])
            near = away <= self._tops[top:below, left:right]
            some_rows, some_columns = near.any(axis=1).nonzero()[0], near.any(axis=0).nonzero()[0]
            left, right = left + int(some_columns[0]), left + int(some_columns[-1]) + 1
            top, below = top + int(some_rows[0]), top + int(some_rows[-1]) + 1
        ends = min(right * SIDE, self._width), min(below * SIDE, self._height)
        return Box(left * SIDE, top * SIDE, *ends)

    def _tiles(self, begin: int, end: int, steps: int, side: int) -> Tuple[int, int]:
        """The tiles with columns or rows that are that many steps away at most."""
        return max(begin - steps, 0) // SIDE, (min(end + steps, side) + SIDE - 1) // SIDE

    def margin(self, box: Box) -> int:
        """How far around whole tiles the obstacles are that their cells have now."""
        rows, columns = box.cells()
        tiles = self._tops[
            rows.start // SIDE : -(-rows.stop // SIDE), columns.start // SIDE : -(-columns.stop // SIDE)
        ]
        return steps_of(self._metric, int(tiles.max())) + 2

    def renew(self, box: Box, distances: Any) -> None:
        """Takes the distances of whole tiles as they are now."""
        found = _tops(distances[box.cells()])
        y, x = box.y0 // SIDE, box.x0 // SIDE
        self._tops[y : y + found.shape[0], x : x + found.shape[1]] = found


def _tops(distances: Any) -> Any:
    """The greatest distance in each tile, the last ones of which may be smaller."""
    np = numpy()
    height, width = distances.shape
    rows = np.maximum.reduceat(distances, np.arange(0, height, SIDE), axis=0)
    return np.maximum.reduceat(rows, np.arange(0, width, SIDE), axis=1)


def _gaps(first: int, end: int, begin: int, stop: int, side: int) -> Any:
    """How far tiles of this side, counted in columns or rows, are from a span of them: 0 if they
    meet."""
    np = numpy()
    starts = np.arange(first * side, end * side, side)
    return np.maximum(np.maximum(begin - (side - 1) - starts, starts - (stop - 1)), 0)


def reached_by(box: Box, part: Box, metric: int, distances: Any) -> Any:
    """Which cells of a part, by their distances, a change in a box can reach."""
    columns = _gaps(part.x0, part.x1, box.x0, box.x1, 1)
    rows = _gaps(part.y0, part.y1, box.y0, box.y1, 1)
    return between(metric, columns, rows[:, None]) <= distances


# ---- windows


def window_of(held: Held, metric: int, box: Box, margin: int) -> Tuple[Any, Optional[Any]]:
    """The nearest obstacles of a box of cells, computed in a window around it as if the rest of the
    map were free; and a mask of those that may have a nearer one outside, if there are some.

    With a wall, the sides of the window inside the map have a frame too. An obstacle that is nearer
    than these sides is one of the map, or of its own frame."""
    (width, height), layout = held.size, held.memory.layout
    x0, y0 = max(box.x0 - margin, 0) // WORD * WORD, max(box.y0 - margin, 0)
    x1, y1 = min(box.x1 + margin, width), min(box.y1 + margin, height)
    start = y0 * layout.stride + x0 // WORD
    part = Bits(x1 - x0, y1 - y0, layout.stride)
    out = numpy().empty((box.y1 - box.y0, x1 - x0), near_type())
    where = held.where[0] + 8 * start, held.memory.length - start, ctypes.byref(part)
    rows = box.y0 - y0, box.y1 - y0
    check(library().clearmap_bits_nearest(
        *where, metric, held.edge, *rows, out.ctypes.data, out.size
    ))  # fmt: skip
    nears = out[:, box.x0 - x0 : box.x1 - x0]
    if x0:
        nears["x"] += x0
    if y0:
        nears["y"] += y0
    return nears, _open(nears["dist"], metric, box, Box(x0, y0, x1, y1), held.size)


def _open(distances: Any, metric: int, box: Box, window: Box, size: Tuple[int, int]) -> Any:
    """The cells of a box that aren't nearer to an obstacle than to a side of a window that lies
    inside the map; None if there are none."""
    np = numpy()
    far = 2 * LARGEST_SIDE
    left = box.x0 - window.x0 + 1 if window.x0 else far
    above = box.y0 - window.y0 + 1 if window.y0 else far
    right = window.x1 - box.x1 + 1 if window.x1 < size[0] else far
    below = window.y1 - box.y1 + 1 if window.y1 < size[1] else far
    least = min(left, above, right, below)
    if least == far or distances.max() < between(metric, least, 0):
        return None
    columns, rows = (np.arange(length) for length in (box.x1 - box.x0, box.y1 - box.y0))
    across = np.minimum(left + columns, right + columns[::-1])
    down = np.minimum(above + rows, below + rows[::-1])
    is_open = distances >= between(metric, np.minimum(across, down[:, None]), 0)
    return is_open if is_open.any() else None


# ---- what differs between two maps


def boxes_between(old: Memory, new: Memory) -> Optional[List[Box]]:
    """Boxes with all cells that differ between two maps in bits of one size: of each 64 rows of a
    word one, joined with a box nearby where one of both is hardly larger. None if many words
    differ."""
    np = numpy()
    one, other = old.cells.ravel(), new.cells.ravel()
    places = (one != other).nonzero()[0]
    if MANY_WORDS * len(places) > len(one):
        return None
    across: int = old.cells.shape[1]
    blocks: Dict[Tuple[int, int], List[int]] = {}
    for place, bits in zip(places.tolist(), (one[places] ^ other[places]).tolist()):
        row, word = divmod(place, across)
        block = blocks.setdefault((row // WORD, word), [row, row, 0])
        block[1:] = row, block[2] | bits
    found: List[Box] = []
    for (_, word), (first, last, bits) in blocks.items():
        x, lowest = word * WORD, (bits & -bits).bit_length() - 1
        _join(found, Box(x + lowest, first, x + bits.bit_length(), last + 1))
    return found


def _join(found: List[Box], box: Box) -> None:
    """Adds a box to some, or to one of the last of them."""
    for at in range(len(found) - 1, max(len(found) - NEIGHBOURS, 0) - 1, -1):
        both = _around(found[at], box)
        if both.area() <= found[at].area() + box.area() + NEAR:
            found[at] = both
            return
    found.append(box)


def _around(a: Box, b: Box) -> Box:
    """The least box that contains two others."""
    return Box(min(a.x0, b.x0), min(a.y0, b.y0), max(a.x1, b.x1), max(a.y1, b.y1))
