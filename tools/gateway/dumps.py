"""The text of a DUMP, made from a map of this process: the bytes that a server writes."""
from typing import TYPE_CHECKING, Iterator

import numpy as np
from clearmap import Map

if TYPE_CHECKING:
    from numpy.typing import NDArray

ACROSS = 70  # digits of a line at most
PIECE = 65_536  # bytes that are made at once


def size_of(area: Map) -> int:
    """How many bytes the text has."""
    return len(_head(area)) + area.height * _row_bytes(area.width)


def pieces_of(area: Map) -> Iterator[bytes]:
    """The text, a piece at a time."""
    yield _head(area)
    rows = max(PIECE // _row_bytes(area.width), 1)
    for y in range(0, area.height, rows):
        yield _lines(area.grid(y, min(y + rows, area.height)))


def _head(area: Map) -> bytes:
    """What stands before the digits."""
    return b"P1\n%d %d\n" % area.size


def _row_bytes(width: int) -> int:
    """The bytes of a row, with the ends of its lines."""
    return width + -(-width // ACROSS)


def _lines(rows: "NDArray[np.bool_]") -> bytes:
    """Rows as text: each in lines of 70 digits, of which the last has what is left."""
    height, width = rows.shape
    text = np.full((height, _row_bytes(width)), ord("\n"), np.uint8)
    for x in range(0, width, ACROSS):
        part = rows[:, x : x + ACROSS]
        start = x + x // ACROSS
        text[:, start : start + part.shape[1]] = part + np.uint8(ord("0"))
    return text.tobytes()
