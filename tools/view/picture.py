"""A picture of distances, in levels of detail, which the page gets in pieces of raw numbers.

A number is 0 for an obstacle, 1 for an obstacle that the yaml's image doesn't know, and else the
distance plus 1; NO_OBSTACLE if the map has none. A level has half the columns and rows of the one
below it, and of four cells the least number, so that a wall of one cell is still seen from far.
"""
import zlib
from typing import TYPE_CHECKING, Iterable, List, Optional, Sequence, Tuple

import numpy

from clearmap import NO_OBSTACLE
from clearmap.copies import read_dump

if TYPE_CHECKING:
    from numpy.typing import NDArray
    from paths import Walk

    Numbers = NDArray[numpy.uint32]
    Cells = NDArray[numpy.bool_]

SIDE = 512  # numbers of a piece's side
OBSTACLE, UNKNOWN = 0, 1
FAR = 2**31 - 1  # what a piece has for NO_OBSTACLE


def coded(distances: "Numbers", unknown: "Optional[Cells]") -> "Numbers":
    """Distances as the numbers of a picture, in the same memory."""
    if distances[0, 0] != NO_OBSTACLE:
        distances += distances != 0
    if unknown is not None:
        distances[unknown & (distances == OBSTACLE)] = UNKNOWN
    return distances


def halved(numbers: "Numbers") -> "Numbers":
    """The next level."""
    height, width = numbers.shape
    if height % 2 or width % 2:
        more = (0, height % 2), (0, width % 2)
        numbers = numpy.pad(numbers, more, constant_values=NO_OBSTACLE)
    rows = numpy.minimum(numbers[::2], numbers[1::2])
    return numpy.minimum(rows[:, ::2], rows[:, 1::2])


class Picture:
    """The levels of one version by one metric. `most` is the farthest cell's distance, None if the
    map has no obstacle. `has_unknown` says whether a cell is an obstacle that the yaml's image
    doesn't know. `distances` are used up."""

    def __init__(self, distances: "Numbers", unknown: "Optional[Cells]" = None) -> None:
        self.height, self.width = distances.shape
        most = int(distances.max())
        self.most = None if most == NO_OBSTACLE else most
        self.levels = [coded(distances, unknown)]
        self.has_unknown = unknown is not None and bool((self.levels[0] == UNKNOWN)[unknown].any())
        while max(self.levels[-1].shape) > SIDE:
            self.levels.append(halved(self.levels[-1]))

    def distance(self, cells: "Walk") -> "Numbers":
        """The distances of cells."""
        columns, rows = cells.T
        found = self.levels[0][rows, columns]
        return numpy.where(found == NO_OBSTACLE, found, found - (found > 0))

    def piece(self, level: int, column: int, row: int) -> bytes:
        """A piece of a level: its numbers by rows, four bytes each, the low one first, deflated. An
        IndexError if there is none."""
        if min(level, column, row) < 0:
            raise IndexError("a piece is counted from 0")
        across = slice(SIDE * column, SIDE * (column + 1))
        numbers = self.levels[level][SIDE * row : SIDE * (row + 1), across]
        if numbers.size == 0:
            raise IndexError("the level has no such piece")
        return zlib.compress(numpy.minimum(numbers, FAR).astype("<i4").tobytes(), 1)


# ---- images as a server dumps them


def bits_of(image: bytes) -> "Cells":
    """The cells of a plain PBM image, as a server dumps it, by rows: which are obstacles."""
    cells: "Cells" = read_dump(image).cells == ord("1")
    return cells


def differing(before: "Cells", drawn: Iterable[Tuple[Sequence[int], bool]], after: "Cells") -> int:
    """In how many cells a map differs from the one before it with these rectangles drawn in turn,
    each of obstacles or of free cells."""
    cells = before.copy()
    for (x0, y0, x1, y1), obstacle in drawn:
        cells[y0:y1, x0:x1] = obstacle
    return int((cells != after).sum())


def image_before_last(bits: "Cells", drawn: Sequence[Tuple[Sequence[int], bool]]) -> bytes:
    """A raw PBM image of the last rectangle's cells as the others before it leave them."""
    cells = bits.copy()
    for (x0, y0, x1, y1), paints in drawn[:-1]:
        cells[y0:y1, x0:x1] = paints
    x0, y0, x1, y1 = drawn[-1][0]
    rows = numpy.packbits(cells[y0:y1, x0:x1], axis=1)
    return b"P4\n%d %d\n" % (x1 - x0, y1 - y0) + rows.tobytes()


def telling_cell(bits: "Cells") -> Optional[Tuple[int, int]]:
    """A cell on the border of a map all of whose neighbours are free: its nearest obstacle is one
    step away by `chess` exactly if the edge is a wall. None if there is no such cell; then no cell
    of the border is farther than that from an obstacle anyway."""
    height, width = bits.shape
    sides = (
        (bits[:2].any(axis=0), lambda at: (at, 0)),
        (bits[-2:].any(axis=0), lambda at: (at, height - 1)),
        (bits[:, :2].any(axis=1), lambda at: (0, at)),
        (bits[:, -2:].any(axis=1), lambda at: (width - 1, at)),
    )
    for line, cell in sides:
        near = numpy.pad(line, 1)
        free = numpy.flatnonzero(~(near[:-2] | near[1:-1] | near[2:]))
        if free.size:
            return cell(int(free[0]))
    return None


def tight_runs(cells: "Walk", distances: "Numbers", needed: int) -> "List[Walk]":
    """The parts of a path, as runs of neighbouring cells, whose distance is less than needed."""
    near = numpy.pad(distances < needed, 1)
    starts = numpy.flatnonzero(near[1:] & ~near[:-1])
    ends = numpy.flatnonzero(~near[1:] & near[:-1])
    return [cells[start:end] for start, end in zip(starts, ends)]
