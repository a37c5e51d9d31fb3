"""How far a convex polygon is from the nearest obstacle's square, in whole numbers."""
from __future__ import annotations

import ctypes
from typing import Iterable, List, Optional, Sequence, Tuple

from .grids import EDGES, WALL, number_of
from .held import Held
from .library import NO_OBSTACLE, CNear, check, quick
from .polygons import Corner, cross
from .requests import EUCLID2, Cell

Ratio = Tuple[int, int]  # of two whole numbers
WALLED = EDGES.index(WALL)


def square_gap(corners: Sequence[Corner], cell: Cell, steps: int) -> Ratio:
    """The square of the distance, in steps, between a convex polygon and the square of a cell of
    this many steps; 0 if they touch. The corners turn from x to y; two are a segment, and one is a
    point."""
    left, top = cell[0] * steps, cell[1] * steps
    right, below = left + steps, top + steps
    square = [(left, top), (right, top), (right, below), (left, below)]
    sides = list(zip(corners, [*corners[1:], corners[0]]))
    outwards = [max(left - x, x - right, 0) ** 2 + max(top - y, y - below, 0) ** 2 for x, y in corners]
    if not _is_apart(corners, sides, square):
        return 0, 1
    least = min(outwards), 1
    for a, b in sides:
        dx, dy = b[0] - a[0], b[1] - a[1]
        length = dx * dx + dy * dy
        for x, y in square:
            across = cross(a, b, (x, y))
            near = across * across * least[1] < least[0] * length
            if near and 0 < (x - a[0]) * dx + (y - a[1]) * dy < length:
                least = across * across, length
    return least


def _is_apart(
    corners: Sequence[Corner], sides: Iterable[Tuple[Corner, Corner]], square: Sequence[Corner]
) -> bool:
    """Whether a line along a side of one of the two has them strictly on either side."""
    (left, top), (right, below) = square[0], square[2]
    xs, ys = zip(*corners)
    if max(xs) < left or min(xs) > right or max(ys) < top or min(ys) > below:
        return True
    return any(all(cross(a, b, corner) < 0 for corner in square) for a, b in sides)


def nearest(held: Held, corners: Sequence[Corner], steps: int) -> Optional[Tuple[Ratio, Cell]]:
    """The square of a convex polygon's distance from the nearest obstacle's square, in steps, and
    that obstacle; None if there is none."""
    search = _Search(held, corners, steps)
    if held.edge == WALLED:
        search.by_wall()
    search.by_cell()
    if search.least is not None:
        search.by_rows()
    return None if search.least is None else (search.least, search.cell)


class _Search:
    """The nearest obstacle so far. In a row, the distance of a cell from a convex polygon doesn't
    fall on either side of a cell that is nearest: so the obstacles next to that one decide."""

    def __init__(self, held: Held, corners: Sequence[Corner], steps: int) -> None:
        self._held, self._corners, self._steps = held, corners, steps
        xs, ys = zip(*corners)
        self._left, self._right = int(min(xs)), int(max(xs))
        self._low, self._high = int(min(ys)), int(max(ys))
        self.least: Optional[Ratio] = None
        self.cell: Cell = (0, 0)

    def _is_nearer(self, number: int, parts: int) -> bool:
        """Whether a square of a distance is below the least so far."""
        return self.least is None or number * self.least[1] < self.least[0] * parts

    def _take(self, gap: Ratio, cell: Cell) -> None:
        if self._is_nearer(*gap):
            self.least, self.cell = gap, cell

    def _offer(self, cell: Cell) -> None:
        """Looks at an obstacle, if its square may be nearer than the least so far."""
        steps, (x, y) = self._steps, (cell[0] * self._steps, cell[1] * self._steps)
        across = max(x - self._right, self._left - x - steps, 0)
        down = max(y - self._high, self._low - y - steps, 0)
        if self._is_nearer(across * across + down * down, 1):
            self._take(square_gap(self._corners, cell, steps), cell)

    def by_wall(self) -> None:
        """The cells around the map."""
        (width, height), steps = self._held.size, self._steps
        for x, y in self._corners:
            column, row = x // steps, y // steps
            for gap, cell in (
                (x, (-1, row)), (width * steps - x, (width, row)),
                (y, (column, -1)), (height * steps - y, (column, height)),
            ):  # fmt: skip
                self._take((max(gap, 0) ** 2, 1), cell)

    def by_cell(self) -> None:
        """The nearest obstacle of a cell in the polygon's middle, or of one at the map's edge."""
        held, near = self._held, CNear()
        middles = (self._left + self._right, self._low + self._high)
        x, y = (
            min(max(middle // (2 * self._steps), 0), side - 1)
            for middle, side in zip(middles, held.size)
        )
        where = *held.where, number_of(EUCLID2), held.edge, x, y
        check(quick().clearmap_bits_at(*where, ctypes.byref(near)))
        if near.dist != NO_OBSTACLE:
            self._offer((near.x, near.y))

    def by_rows(self) -> None:
        """All obstacles that may be nearer, by rows up and down from the polygon's first."""
        height = self._held.size[1]
        start = min(max(self._low // self._steps, 0), height - 1)
        self._sweep(range(start, height))
        self._sweep(range(start - 1, -1, -1))

    def _sweep(self, rows: Iterable[int]) -> None:
        """Rows in order of their distance from the polygon, as far as they may be nearer."""
        steps, cells = self._steps, self._held.memory.cells
        for row in rows:
            top = row * steps
            gap = max(self._low - top - steps, top - self._high, 0)
            if not self._is_nearer(gap * gap, 1):
                return
            bits = int.from_bytes(cells[row].tobytes(), "little")
            for column in _beside(bits, self._column(top), self._held.size[0]):
                self._offer((column, row))

    def _column(self, top: int) -> int:
        """A column that no other of its row is nearer than: it has a point of the polygon on the
        level of the row's first line, or on the nearest level that the polygon reaches."""
        level, corners = min(max(top, self._low), self._high), self._corners
        for (x, y), (end_x, end_y) in zip(corners, [*corners[1:], corners[0]]):
            if y == level:
                return x // self._steps
            if min(y, end_y) <= level <= max(y, end_y):
                return (x + (end_x - x) * (level - y) // (end_y - y)) // self._steps
        raise AssertionError("a level of the polygon is between two of its corners")


def _beside(bits: int, column: int, width: int) -> List[int]:
    """The last obstacle of a row up to a column, and the first from it on."""
    bits &= (1 << width) - 1
    at = min(max(column, -1), width)
    before, after = bits & ((1 << (at + 1)) - 1), bits >> max(at, 0)
    found = [before.bit_length() - 1] if before else []
    if after:
        found.append((after & -after).bit_length() - 1 + max(at, 0))
    return found
