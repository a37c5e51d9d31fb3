"""Maps in bits, with the marks of their blank tiles after the rows."""
from __future__ import annotations

import ctypes
from typing import TYPE_CHECKING, Any, Sequence

from .grids import Memory
from .library import Bits, check, library, numpy, quick

if TYPE_CHECKING:
    from .held import Held

SIDE = 64  # columns and rows of a tile


def rows_for(width: int, height: int) -> Any:
    """Words for the rows of a map of this size, with room for the marks after them."""
    np = numpy()
    across, bands = (width + SIDE - 1) // SIDE, (height + SIDE - 1) // SIDE
    words = np.empty(across * height + bands, np.uint64)
    return words[: across * height].reshape(height, across)


def copied(rows: Any, width: int) -> Any:
    """A copy of rows that `rows_for` made for a map of this width, with the marks after them."""
    words = rows_for(width, len(rows))
    words.base[...] = rows.base
    return words


def marks_of(rows: Any) -> Any:
    """The marks after the rows that `rows_for` made: one word per 64 rows."""
    return rows.base[rows.size :]


def marked(rows: Any, width: int) -> Memory:
    """A map in rows that `rows_for` made, once its blank tiles are marked."""
    words = rows.base
    bits = Bits(width, len(rows), rows.shape[1])
    check(library().clearmap_mark(words.ctypes.data, words.size, ctypes.byref(bits), rows.size))
    return Memory("bits", rows, words.size, bits)


def draw(held: Held, corners: Sequence[int], full: bool) -> None:
    """Makes the cells of a rectangle obstacles, or free, and maintains the marks: of cleared rows
    anew by bands of tiles, from their cells alone. Bits past the last column stay 0."""
    x0, y0, x1, y1 = corners
    call = quick().clearmap_paint if full else quick().clearmap_clear
    check(call(*held.where, x0, y0, x1, y1))
    bands = range(y0 // SIDE, (y1 - 1) // SIDE + 1)
    if not full:
        for band in bands:
            mark_band(held, band)
    elif held.size[0] % SIDE:
        ends = held.memory.cells[bands.start * SIDE : bands.stop * SIDE, -1]
        ends &= numpy().uint64((1 << held.size[0] % SIDE) - 1)


def mark_band(held: Held, band: int) -> None:
    """Marks the blank tiles of 64 rows, as their cells are now."""
    bits, (_, cells, length, _) = held.memory.layout, held.memory
    first = band * SIDE
    start, left = first * bits.stride, min(SIDE, bits.height - first)
    part = Bits(bits.width, left, bits.stride)
    address, at = held.where[0] + 8 * start, bits.tiles + band - start
    check(quick().clearmap_mark(address, length - start, ctypes.byref(part), at))
    bits.blank_bands = bits.blank_bands & ~(1 << band) | (part.blank_bands & 1) << band
