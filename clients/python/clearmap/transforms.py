"""scipy's distance transforms of an array of two dimensions, by libclearmap."""
from __future__ import annotations

import ctypes
import math
from typing import Any, Callable, Iterator, NamedTuple, Optional, Sequence, Tuple, Union

from .grids import OPEN, Memory, edge_of, number_of, zeros_of
from .library import NO_OBSTACLE, CNear, check, library, numpy
from .outputs import Outputs
from .requests import CHESS, CITY, EUCLID2
from .rows import fill, in_bands, near_type, shared

CHAMFERS = {"chessboard": CHESS, "taxicab": CITY, "cityblock": CITY, "manhattan": CITY}
NO_ZERO = "the input has no zero: there is no distance to one"
PIECE = 1 << 15  # cells that are converted at once, by arrays that the processor's cache holds


def distance_transform_edt(
    input: object,
    sampling: Union[None, float, Sequence[float]] = None,
    return_distances: bool = True,
    return_indices: bool = False,
    distances: Any = None,
    indices: Any = None,
    *,
    dtype: Any = None,
    threads: int = 1,
) -> Any:
    """scipy.ndimage.distance_transform_edt of an array of 2 dimensions: the Euclidean distance of
    each nonzero cell to the nearest zero, from middle to middle, as float64, and with
    `return_indices` the row and the column of that zero, as int32 of the shape (2, rows, columns).
    Both if both are asked for.

    As in scipy, results are written to the arrays `distances` and `indices` where these are given,
    and aren't returned then: None is, if nothing else is left. Arrays of another shape or dtype
    are a RuntimeError; a refused call writes nothing, unless there was no memory for it.
    `dtype=numpy.float32` is for distances as OpenCV has them: those of float64, rounded.

    Differences from scipy's: if several zeros are nearest, it may return another one. An array
    without a zero is a ValueError, where scipy returns the distance to a cell that isn't there. So
    is a NaN, which scipy takes for a nonzero cell. `sampling` is one size above 0, or two equal
    ones: two different sizes are a ValueError. A distance is the root times the size, which differs
    from scipy's in the last digits. A masked array is a TypeError, and sides over 4096 are a
    ValueError. `threads` share the rows.
    """
    np, size = numpy(), _size_of(sampling)

    def roots(squares: Any, out: Any) -> None:
        lengths = squares.astype("f8")
        if size == 1.0:
            np.sqrt(lengths, out=out)
        else:
            np.sqrt(lengths, out=lengths)
            np.multiply(lengths, size, out=out)

    wanted = _Wanted(return_distances, return_indices)
    outputs = Outputs(distances, indices, _float_of(dtype))
    return _transformed(input, EUCLID2, wanted, threads, outputs, roots)


def distance_transform_cdt(
    input: object,
    metric: str = "chessboard",
    return_distances: bool = True,
    return_indices: bool = False,
    distances: Any = None,
    indices: Any = None,
    *,
    threads: int = 1,
) -> Any:
    """scipy.ndimage.distance_transform_cdt of an array of 2 dimensions: the steps of each nonzero
    cell to the nearest zero, as int32. `metric` is chessboard, or taxicab by any of scipy's names;
    a metric of one's own is a ValueError. Otherwise as `distance_transform_edt`; scipy returns -1
    for an array without a zero, which is a ValueError here.
    """
    name = CHAMFERS.get(metric) if isinstance(metric, str) else None
    if name is None:
        raise ValueError(f"{metric!r:.80} is no metric here: chessboard or taxicab")

    def copied(steps: Any, out: Any) -> None:
        out[...] = steps

    wanted = _Wanted(return_distances, return_indices)
    outputs = Outputs(distances, indices, numpy().dtype(numpy().int32))
    return _transformed(input, name, wanted, threads, outputs, copied)


def _size_of(sampling: Union[None, float, Sequence[float]]) -> float:
    """The one size of a cell."""
    np = numpy()
    given = np.asarray(1.0 if sampling is None else sampling)
    if given.dtype.kind not in "iuf":
        raise TypeError(f"sampling is {sampling!r:.80}, where a number or two are wanted")
    sizes = given.astype(np.float64)
    if sizes.shape not in ((), (2,)):
        raise ValueError(f"sampling is one size or two, and not {sampling!r:.80}")
    for one in sizes.flat:
        if not 0 < one < math.inf:
            raise ValueError(f"sampling is {one}, where a size above 0 is wanted")
    size = float(sizes.flat[0])
    if (sizes != size).any():
        raise ValueError(
            f"sampling by two sizes, as {sampling!r:.80}, isn't there: resample the input to square "
            "cells, or ask scipy.ndimage"
        )
    return size


def _float_of(dtype: Any) -> Any:
    """The dtype of Euclidean distances."""
    np = numpy()
    wanted = np.dtype(np.float64 if dtype is None else dtype)
    if wanted not in (np.dtype(np.float64), np.dtype(np.float32)):
        raise ValueError(f"distances of {wanted} aren't there: float64 or float32")
    return wanted


class _Wanted(NamedTuple):
    """Which answers are asked for."""

    distances: bool
    indices: bool


def _transformed(
    grid: object,
    metric: str,
    wanted: _Wanted,
    threads: int,
    outputs: Outputs,
    convert: Callable[[Any, Any], None],
) -> Any:
    """Distances, indices or both, each band of rows by a thread of its own."""
    if not any(wanted):
        raise ValueError("at least one of return_distances and return_indices must be True")
    outputs.check_asked(*wanted)
    memory = shared(outputs.apart(zeros_of(grid)), threads)
    shape = memory.layout.height, memory.layout.width
    found, indices = outputs.arrays(*wanted, shape)
    if outputs.are_given():
        _check_zero(memory)

    def work(y0: int, y1: int) -> None:
        own = None if found is None else found[y0:y1]
        out = _room((y1 - y0, shape[1]), own, wanted.indices)
        fill(memory, number_of(metric), edge_of(OPEN), y0, y1, out)
        _check_any(out)
        words = out.view(numpy().int32).reshape(*out.shape, -1)
        for part in _pieces(words):
            if indices is not None:
                _split(words[part, :, 1], indices[:, y0:y1][:, part])
            if own is not None:
                convert(words[part, :, 0], own[part])

    in_bands(shape[0], threads, work)
    return outputs.left(found, indices)


def _room(shape: Tuple[int, int], found: Any, indices: bool) -> Any:
    """Memory for the library's answers for some rows. If a cell's answer takes as many bytes as its
    final distance, it is the memory of the result: each piece of rows is copied before it is
    overwritten."""
    np = numpy()
    if not indices:
        return np.empty(shape, np.uint32)
    if found is not None and found.itemsize == near_type().itemsize and _is_whole(found):
        return found.view(near_type())
    return np.empty(shape, near_type())


def _is_whole(found: Any) -> bool:
    """Whether rows lie without gaps and where the library's answers can lie, as in an array of this
    call's own."""
    flags = found.flags
    return bool(flags.c_contiguous and flags.aligned)


def _check_zero(memory: Memory) -> None:
    """Whether there is a zero, before a caller's arrays are written."""
    near = CNear()
    kind, cells, length, layout = memory
    call = getattr(library(), f"clearmap_{kind}_at")
    where = cells.ctypes.data, length, ctypes.byref(layout)
    check(call(*where, number_of(CHESS), edge_of(OPEN), 0, 0, ctypes.byref(near)))
    if near.dist == NO_OBSTACLE:
        raise ValueError(NO_ZERO)


def _check_any(out: Any) -> None:
    """Whether there is a zero: if there is one, each cell has a distance."""
    first = out[0, 0] if out.dtype.names is None else out["dist"][0, 0]
    if first == NO_OBSTACLE:
        raise ValueError(NO_ZERO)


def _pieces(words: Any) -> Iterator[slice]:
    """Rows that are converted at once."""
    count = max(PIECE // words.shape[1], 1)
    return (slice(y, y + count) for y in range(0, len(words), count))


def _split(places: Any, indices: Any) -> None:
    """Writes rows and columns of nearest zeros. The column is the lower half of a word, the row the
    upper: splitting whole words takes half the time of two fields."""
    np = numpy()
    words = places.copy()
    np.right_shift(words, 16, out=indices[0])
    np.bitwise_and(words, 0xFFFF, out=indices[1])
