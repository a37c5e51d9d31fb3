"""Arrays of numpy as maps that libclearmap reads, in place if their memory allows it."""
from typing import Any, NamedTuple, Optional, Tuple, Union

from .library import Bits, Bytes, numpy
from .limits import Bounds, Limits, of_bools, of_floats, of_integers
from .requests import LARGEST_SIDE, METRICS, metric_of

OPEN, WALL = "open", "wall"
EDGES = (OPEN, WALL)
NUMBERS = {metric: number for number, metric in enumerate(METRICS)}


class Memory(NamedTuple):
    """A map as the library reads it. `cells` is the array that owns the memory, held while a call
    runs."""

    kind: str  # bytes or bits
    cells: Any
    length: int
    layout: Union[Bytes, Bits]


def edge_of(edge: str) -> int:
    """An edge's number."""
    if edge not in EDGES:
        raise ValueError(f"'{edge}' is no edge: open or wall")
    return EDGES.index(edge)


def number_of(metric: str) -> int:
    """A metric's number."""
    number = NUMBERS.get(metric) if isinstance(metric, str) else None
    return METRICS.index(metric_of(metric)) if number is None else number


# ---- arrays as maps


def flat_array(grid: object) -> Any:
    """An array of bools or numbers, of two dimensions."""
    np = numpy()
    if isinstance(grid, np.ma.MaskedArray):
        raise TypeError("a masked array is no map: fill it first, as by grid.filled(1)")
    array = np.asarray(grid)
    if array.dtype.kind not in "biufc":
        raise TypeError(f"an array of dtype {array.dtype} is no map: bools or numbers are wanted")
    if array.ndim != 2:
        raise ValueError(f"a map has 2 dimensions, and this array has {array.ndim}")
    return array


def _array(grid: object) -> Any:
    """An array of two dimensions, whose sides are those of a map."""
    array = flat_array(grid)
    height, width = array.shape
    if not (1 <= height <= LARGEST_SIDE and 1 <= width <= LARGEST_SIDE):
        sides = f"1 to {LARGEST_SIDE} rows and 1 to {LARGEST_SIDE} columns"
        raise ValueError(f"a map has {sides}, and this array has {height} by {width}")
    return array


def byte_map(array: Any, low: int, high: int) -> Memory:
    """A map of an array of one byte per cell: in place if its rows lie from the left, one after
    another, without overlapping."""
    np = numpy()
    height, width = array.shape
    array = array.view(np.uint8)
    row, column = array.strides
    if height == 1:
        row = width
    in_place = (width == 1 or column == 1) and width <= row < 1 << 32
    if not in_place:
        array, row = np.ascontiguousarray(array), width
    length = row * (height - 1) + width
    return Memory("bytes", array, length, Bytes(width, height, row, low, high))


def _byte_range(array: Any, low: int, high: int) -> Optional[Tuple[int, int]]:
    """The limits low to high as limits of an array's bytes, if it has one byte per cell, and the
    cells in between are one range of bytes."""
    kind, size = array.dtype.kind, array.dtype.itemsize
    if size != 1:
        return None
    if kind == "u":
        return low, high
    if kind == "i" and (low >= 0 or high < 0):
        return low & 255, high & 255
    return None


def _between(array: Any, bounds: Bounds) -> Memory:
    """A map of the numbers from the least to the most, and of the unknown one."""
    number = array.dtype.type
    obstacles = numpy().ones(array.shape, bool)
    if bounds.least is not None:
        obstacles &= array >= number(bounds.least)
    if bounds.most is not None:
        obstacles &= array <= number(bounds.most)
    if bounds.unknown is not None:
        obstacles |= array == number(bounds.unknown)
    return byte_map(obstacles, 1, 255)


def _of_numbers(array: Any, limits: Limits) -> Memory:
    """A map of an array of numbers by limits."""
    kind = array.dtype.kind
    if kind == "c":
        raise TypeError("complex numbers have no order: low and high say nothing of them")
    if kind == "b":
        free, full = of_bools(limits)
        return byte_map(array, 0 if free else 1, 255 if full else 0)
    if kind == "f":
        bounds = of_floats(array.dtype, limits)
        if numpy().isnan(array).any():
            raise ValueError(
                "a cell is NaN, which is neither an obstacle nor free: fill it first with a number "
                "of obstacles, as by numpy.nan_to_num(grid, nan=low)"
            )
        return _between(array, bounds)
    bounds = of_integers(array.dtype, limits)
    found = _byte_range(array, bounds.least, bounds.most)
    if found is None or bounds.unknown is not None:
        return _between(array, bounds)
    return byte_map(array, *found)


def map_of(grid: object, limits: Limits) -> Memory:
    """A map of an array: of bools, where True is an obstacle, or of numbers with limits."""
    array = _array(grid)
    if limits.low is not None or limits.high is not None:
        return _of_numbers(array, limits)
    if array.dtype.kind != "b":
        raise ValueError(
            f"an array of {array.dtype} wants low or high: a cell is an obstacle where "
            "low <= cell <= high"
        )
    return byte_map(array, 1, 255) if limits.unknown is None else _of_numbers(array, limits)


def zeros_of(grid: object) -> Memory:
    """A map of an array whose zeros are the obstacles."""
    array = _array(grid)
    if array.dtype.itemsize == 1:
        return byte_map(array, 0, 0)
    if array.dtype.kind in "fc" and numpy().isnan(array).any():
        raise ValueError(
            "a cell is NaN, neither a zero nor another number: fill it first, as by "
            "numpy.nan_to_num, which makes it a zero"
        )
    return byte_map(array == 0, 1, 255)
