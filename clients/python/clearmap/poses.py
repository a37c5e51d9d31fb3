"""Poses of a footprint as the library takes them: one, and many at once by arrays of numpy."""
from __future__ import annotations

import ctypes
import math
from array import array
from typing import Any, List, Sequence, Tuple

from .held import Held
from .library import BENT, check, library, numpy, quick
from .many import refuse_mask
from .polygons import STEPS, UNIT, Corner, hull, turned

PIECE = 1 << 13  # poses of a call
UNIT_BITS = UNIT.bit_length() - 1
UNSURE = 2.0**-10  # parts of a direction: more than cosines of numpy are off
Each = Tuple[Any, ...]  # x, y and theta of all poses


def hits_at(held: Held, outline: Sequence[Corner], x: float, y: float, theta: float) -> bool:
    """Whether a polygon hits at a pose. The call refuses a ring that isn't convex: where rounding
    has put a corner on a side or inside, their hull is asked."""
    corners, hit = turned(outline, x, y, theta), ctypes.c_uint8()
    status = _status(held, corners, hit)
    check(_status(held, hull(corners), hit) if status == BENT else status)
    return hit.value != 0


def _status(held: Held, corners: Sequence[Corner], hit: ctypes.c_uint8) -> int:
    """The call for one polygon."""
    ring = array("i", [number for corner in corners for number in corner])
    where = *held.where, held.edge, ring.buffer_info()[0], len(corners)
    return int(quick().clearmap_bits_hits(*where, ctypes.byref(hit)))


# ---- many poses


def flat(x: object, y: object, theta: object) -> List[Any]:
    """Three arrays of finite numbers of one shape."""
    return reals(("x", x), ("y", y), ("theta", theta))


def reals(*named: Tuple[str, object]) -> List[Any]:
    """Arrays of finite numbers, by their names, of one shape."""
    np = numpy()
    arrays = []
    for name, given in named:
        refuse_mask(name, given)
        numbers = np.asarray(given)
        if numbers.dtype.kind not in "biuf":
            raise TypeError(f"{name} has the dtype {numbers.dtype}, where numbers are wanted")
        arrays.append(numbers.astype(np.float64))
        if not np.isfinite(arrays[-1]).all():
            first = np.argwhere(~np.isfinite(arrays[-1]))[0].tolist()
            raise ValueError(f"{name}{first or ''} isn't finite")
    return list(np.broadcast_arrays(*arrays))


def hits_of(held: Held, outline: Sequence[Corner], each: Each) -> Any:
    """`hits_at` of many poses."""
    np = numpy()
    found = np.zeros(each[0].size, np.uint8)
    for start in range(0, found.size, PIECE):
        part = tuple(numbers[start : start + PIECE] for numbers in each)
        _ask(held, outline, part, _turned(outline, part), found[start : start + PIECE])
    return found != 0


def _ask(held: Held, outline: Sequence[Corner], each: Each, corners: Any, out: Any) -> None:
    """Writes the answers of some poses by a call for all. If that refuses one, either half is asked
    by itself."""
    where = *held.where, held.edge, corners.ctypes.data, out.size * len(outline), len(outline)
    status = library().clearmap_bits_hits_many(*where, out.ctypes.data, out.size)
    if status != BENT:
        check(status)
    elif out.size == 1:
        x, y, theta = (float(numbers[0]) for numbers in each)
        out[0] = hits_at(held, outline, x, y, theta)
    else:
        middle = out.size // 2
        for half in (slice(middle), slice(middle, None)):
            part = tuple(numbers[half] for numbers in each)
            _ask(held, outline, part, corners[half], out[half])


def _turned(outline: Sequence[Corner], each: Each) -> Any:
    """`polygons.turned` of many poses: an array of int32, by poses, corners, and x and y."""
    np = numpy()
    x, y, theta = each
    cosine, sine = _parts(theta, np.cos, math.cos), _parts(theta, np.sin, math.sin)
    # Steps of 2**-30, and a half to round with: numpy shifts many times as fast as it divides.
    across, down = (
        (np.floor(numbers * STEPS + 0.5).astype(np.int64) << UNIT_BITS) + UNIT // 2
        for numbers in (x, y)
    )
    corners = np.empty((theta.size, len(outline), 2), np.int32)
    for number, (a, b) in enumerate(outline):
        corners[:, number, 0] = (across + a * cosine - b * sine) >> UNIT_BITS
        corners[:, number, 1] = (down + a * sine + b * cosine) >> UNIT_BITS
    return corners


def _parts(theta: Any, many: Any, one: Any) -> Any:
    """Cosines, or sines, as `polygons.direction` has them: by numpy, whose last digit may differ,
    and where that may decide by `math`."""
    np = numpy()
    parts = many(theta) * UNIT + 0.5
    found = np.floor(parts).astype(np.int64)
    for number in (abs(parts - np.rint(parts)) < UNSURE).nonzero()[0]:
        found[number] = math.floor(one(theta[number]) * UNIT + 0.5)
    return found
