"""Which numbers of a grid are obstacles, by the limits that a caller gives."""
from __future__ import annotations

import math
from typing import Any, NamedTuple, Optional, Tuple

from .library import numpy
from .requests import whole


class Limits(NamedTuple):
    """What a caller gives: an obstacle is a cell from low to high, and one that is `unknown`. None
    is what isn't given."""

    low: Optional[float] = None
    high: Optional[float] = None
    unknown: Optional[float] = None


class Bounds(NamedTuple):
    """The same in numbers of a grid's dtype: from `least` to `most`, and `unknown`. None is no
    limit, or no other number than those between."""

    least: Any
    most: Any
    unknown: Any = None


def real(limit: object) -> Any:
    """A limit as a scalar of numpy. Only numbers are taken: float() would read texts too."""
    given = numpy().asarray(limit)
    if given.ndim or given.dtype.kind not in "biufO":
        raise TypeError(f"a limit is {limit!r:.80}, where a number is wanted")
    if given.dtype.kind != "O":
        return given[()]
    try:
        return numpy().float64(limit)
    except OverflowError:
        raise ValueError(f"a limit is {limit!r:.80}, which no float can hold") from None


def _ends(dtype: Any) -> Tuple[Any, Any]:
    """The least and the greatest number of a dtype; of floats, the finite ones."""
    if dtype.kind == "b":
        return 0, 1
    np = numpy()
    if dtype.kind == "f":
        return np.finfo(dtype).min, np.finfo(dtype).max
    return int(np.iinfo(dtype).min), int(np.iinfo(dtype).max)


def _number(dtype: Any, limit: object) -> Any:
    """A limit for a dtype: an integer for integers."""
    if isinstance(limit, (float, numpy().floating)) and limit != limit:
        raise ValueError("a limit is NaN")
    return whole(limit) if dtype.kind in "iu" else real(limit)


def _span(dtype: Any, limits: Limits) -> Tuple[Any, Any]:
    """The limits of a dtype, None where there is none; ValueError if no number meets them."""
    low, high = (None if limit is None else _number(dtype, limit) for limit in limits[:2])
    if low is not None and high is not None and low > high:
        raise ValueError(f"low is {low}, above high, which is {high}")
    least, most = _ends(dtype)
    endless = (math.inf, -math.inf) if dtype.kind == "f" else ()
    if low is not None and low > most and low not in endless:
        raise ValueError(f"low is {low}, but {dtype} ends at {most}: no cell could be an obstacle")
    if high is not None and high < least and high not in endless:
        raise ValueError(
            f"high is {high}, but {dtype} begins at {least}: no cell could be an obstacle"
        )
    return low, high


def _unknown(dtype: Any, unknown: float) -> Any:
    """The number of unknown cells, as one of the dtype."""
    if unknown != unknown:
        raise ValueError(
            "unknown is NaN, which is neither an obstacle nor free: fill such cells first with a "
            "number of obstacles, as by numpy.nan_to_num(grid, nan=low), and leave unknown out"
        )
    number = _number(dtype, unknown)
    least, most = _ends(dtype)
    if not least <= number <= most and not (dtype.kind == "f" and abs(number) == math.inf):
        raise ValueError(f"unknown is {number}, and {dtype} goes from {least} to {most}")
    return dtype.type(number)


# ---- by kinds of numbers


def of_bools(limits: Limits) -> Tuple[bool, bool]:
    """Whether False and True are obstacles."""
    dtype = numpy().dtype(bool)
    if limits.unknown is not None:
        raise ValueError("unknown is given, but no cell of an array of bools is unknown")
    low, high = _span(dtype, limits)
    free, full = (
        (low is None or low <= number) and (high is None or number <= high) for number in (0, 1)
    )
    if not free and not full:
        raise ValueError(f"no bool, 0 or 1, is from {low} to {high}: no cell could be an obstacle")
    return bool(free), bool(full)


def of_integers(dtype: Any, limits: Limits) -> Bounds:
    """Limits as integers of a dtype. An unknown number next to them widens them."""
    low, high = _span(dtype, limits)
    least, most = _ends(dtype)
    least = least if low is None else max(low, least)
    most = most if high is None else min(high, most)
    if limits.unknown is None:
        return Bounds(least, most)
    unknown = int(_unknown(dtype, limits.unknown))
    if least - 1 <= unknown <= most + 1:
        return Bounds(min(least, unknown), max(most, unknown))
    return Bounds(least, most, unknown)


def of_floats(dtype: Any, limits: Limits) -> Bounds:
    """Limits as floats of a dtype, rounded to it, so that a cell of the number that was given meets
    them by the rules of each numpy. One beyond all finite numbers lets infinite ones out."""
    low, high = _span(dtype, limits)
    least, most = _ends(dtype)
    first = None if low is None or low == -math.inf else dtype.type(max(low, least))
    last = None if high is None or high == math.inf else dtype.type(min(high, most))
    return Bounds(first, last, None if limits.unknown is None else _unknown(dtype, limits.unknown))
