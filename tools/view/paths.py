"""A path through clicked cells, in whole numbers: from each cell's middle straight to the next
one's, through the cells that `Frame.staircase` has."""
from typing import TYPE_CHECKING, List, Sequence

import numpy

from bodies import Cell

if TYPE_CHECKING:
    from numpy.typing import NDArray

    Walk = NDArray[numpy.int64]  # by cells, each a column and a row


def entered(start: Cell, end: Cell) -> "Walk":
    """The cells that a straight line enters after the one that it starts in. Where it goes through
    a corner, it goes to the left or right first."""
    wide, high = abs(end[0] - start[0]), abs(end[1] - start[1])
    # When it crosses the sides of columns and of rows: its whole length takes 2 * wide * high.
    across = (2 * numpy.arange(wide) + 1) * high
    down = (2 * numpy.arange(high) + 1) * wide
    turns = numpy.argsort(numpy.concatenate((across, down)), kind="stable") < wide
    columns = start[0] + numpy.sign(end[0] - start[0]) * numpy.cumsum(turns)
    rows = start[1] + numpy.sign(end[1] - start[1]) * numpy.cumsum(~turns)
    return numpy.stack((columns, rows), axis=1)


def walk(points: Sequence[Cell]) -> "Walk":
    """All cells of a path, each next to the one before."""
    pairs = zip(points, points[1:])
    return numpy.concatenate([numpy.array(points[:1]), *(entered(*pair) for pair in pairs)])


def corners(cells: "Walk") -> List[Cell]:
    """The ends of a walk, and the cells where it turns."""
    steps = numpy.diff(cells, axis=0)
    kept = numpy.ones(len(cells), bool)
    kept[1:-1] = (steps[1:] != steps[:-1]).any(axis=1)
    return [(x, y) for x, y in cells[kept].tolist()]
