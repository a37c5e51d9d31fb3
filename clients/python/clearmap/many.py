"""Many cells at once, by arrays of numpy: what is taken as their columns and rows, and their
answers."""
from __future__ import annotations

from array import array
from typing import TYPE_CHECKING, Any, List, NamedTuple, Sequence, Tuple, Union

from .errors import BadPath, Size
from .library import numpy
from .requests import LONGEST_PATH, Cell, Points, whole

if TYPE_CHECKING:
    import numpy as np
    from numpy.typing import NDArray

    Distances = NDArray[np.uint32]
    Places = NDArray[np.int16]
    Indices = Tuple[NDArray[np.int16], NDArray[np.int16]]

Shape = Tuple[int, ...]
Way = Union[List[Cell], Any]  # or an array of integers of the shape (points, 2)


class Nears(NamedTuple):
    """The nearest obstacles of many cells, as three arrays of one shape: distances, uint32, and the
    obstacles' columns and rows, int16. Without an obstacle they are NO_OBSTACLE, NOWHERE, NOWHERE;
    on the frame of a wall a column or a row is -1, or one after the last.

    **Before you compute with the distances, convert them**, as those of `distances`."""

    distances: Distances
    columns: Places
    rows: Places

    def indices(self, shape: Shape) -> Indices:
        """Rows and columns as indices of an array of this shape, as `grid[nears.indices(
        grid.shape)]`. ValueError if an obstacle isn't one of its cells: numpy would count -1 and -2
        from the end."""
        height, width = shape
        np, (distances, x, y) = numpy(), self
        away = (x < 0) | (x >= width) | (y < 0) | (y >= height)
        if away.any():
            first = tuple(int(at) for at in np.argwhere(away)[0])
            raise ValueError(
                f"the nearest obstacle {tuple(first)} is column {x[first]} and row {y[first]}, "
                f"where an array of {height} by {width} has no cell"
            )
        return y, x


# ---- columns and rows


def refuse_mask(name: str, given: object) -> None:
    """TypeError for a masked array, whose mask would be left out."""
    if isinstance(given, numpy().ma.MaskedArray):
        what = "give the numbers that count, as by compressed()"
        raise TypeError(f"{name} is a masked array: {what}")


def numbers_of(name: str, given: object) -> Any:
    """An array of whole numbers. TypeError for anything else: no number is rounded, and none of a
    mask taken."""
    np = numpy()
    numbers = given if type(given) is np.ndarray else np.asarray(given)
    kind = numbers.dtype.kind
    refuse_mask(name, given)
    if kind in "iu":
        return numbers
    if not numbers.size and kind == "f":  # as of an empty list
        return numbers.astype(np.intp)
    if kind != "O":
        raise TypeError(f"{name} has the dtype {numbers.dtype}, where whole numbers are wanted")
    wholes = [whole(number) for number in numbers.ravel().tolist()]
    fitting = [number if 0 <= number < 1 << 62 else -1 for number in wholes]
    return np.array(fitting, np.int64).reshape(numbers.shape)


def are_below(numbers: Any, end: int) -> bool:
    """Whether each of some integers is from 0 on, and below an end."""
    if not numbers.size:
        return True
    dtype = numbers.dtype
    if dtype.kind == "i":  # a negative one is as great as its bits: over all others
        end = min(end, 1 << (8 * dtype.itemsize - 1))
        numbers = numbers.view(dtype.str.replace("i", "u"))
    return int(numpy().maximum.reduce(numbers, axis=None)) < end


def cells_of(xs: object, ys: object) -> Any:
    """Columns and rows, which numpy broadcasts, as an array of cells: uint16, of the shape of both
    and 2. None if one has more bits, or is below 0: no map has such a cell."""
    np = numpy()
    columns, rows = numbers_of("xs", xs), numbers_of("ys", ys)
    same = columns.shape == rows.shape
    shape = columns.shape if same else np.broadcast(columns, rows).shape
    if int(np.bitwise_or.reduce(columns, axis=None)) >> 16 and shape.count(0) == 0:
        return None
    if int(np.bitwise_or.reduce(rows, axis=None)) >> 16 and shape.count(0) == 0:
        return None
    cells = np.empty((*shape, 2), np.uint16)
    cells[..., 0], cells[..., 1] = columns, rows
    return cells


def first_off(xs: object, ys: object, size: Size) -> Shape:
    """The index of the first of many cells that isn't on a map of this size."""
    np = numpy()
    columns, rows = numbers_of("xs", xs), numbers_of("ys", ys)
    away = (columns < 0) | (columns >= size[0]) | (rows < 0) | (rows >= size[1])
    return tuple(np.argwhere(away)[0].tolist())


def cell_at(xs: object, ys: object, index: Shape) -> Cell:
    """One of many cells, as it was given."""
    np = numpy()
    columns, rows = np.broadcast_arrays(np.asarray(xs), np.asarray(ys))
    return whole(columns[index]), whole(rows[index])


def named(index: Shape) -> str:
    """One of many cells in a refusal."""
    if not index:
        return "the cell"
    return f"cell {index[0] if len(index) == 1 else index}"


# ---- paths


def way_of(points: Points) -> Way:
    """The points of a path: an array of integers of the shape (points, 2) as it is, and others as a
    list. One of too many is refused before they are read."""
    np = numpy()
    if isinstance(points, np.ndarray) and not isinstance(points, np.ma.MaskedArray):
        if points.dtype.kind in "iu" and points.ndim == 2 and points.shape[1] == 2:
            _check_length(points)
            return points
    cells: Sequence[Any] = list(points)
    _check_length(cells)
    return [(whole(x), whole(y)) for x, y in cells]


def _check_length(points: Sequence[Any]) -> None:
    """Refuses a path of too many points."""
    if len(points) > LONGEST_PATH:
        raise BadPath(8, "BadPath", (), f"a path of {len(points)} points")


def packed_way(way: Way, size: Size) -> Any:
    """The points of a path as a buffer of uint16; None if it has none, or not all are on the map.
    """
    width, height = size
    if not len(way):
        return None
    if isinstance(way, list):
        if all(0 <= x < width and 0 <= y < height for x, y in way):
            return array("H", [number for cell in way for number in cell])
        return None
    if are_below(way[:, 0], width) and are_below(way[:, 1], height):
        return numpy().ascontiguousarray(way, "u2")
    return None


def address_of(numbers: Any) -> int:
    """Where the memory of an array begins, of Python's or of numpy's."""
    if isinstance(numbers, array):
        return numbers.buffer_info()[0]
    return int(numbers.__array_interface__["data"][0])
