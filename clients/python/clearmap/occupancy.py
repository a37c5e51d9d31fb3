"""An occupancy grid, as ROS's message has its cells, as a map."""
from __future__ import annotations

from typing import TYPE_CHECKING, Any, Optional, Tuple

from .grids import Memory, byte_map
from .library import numpy
from .requests import LARGEST_SIDE, Whole, chosen, whole

if TYPE_CHECKING:
    from .frames import Frame

UNKNOWN, MOST = -1, 100  # of the message: other cells are from 0 to the most
ROWS = (
    "give the map's Frame, or its width, its height and upwards: True turns the rows of ROS round, "
    "so that row 0 is the top one as in a Frame; False leaves the lowest as row 0"
)


def lying(
    frame: Optional[Frame], width: Optional[Whole], height: Optional[Whole], upwards: Optional[bool]
) -> Tuple[int, int, bool]:
    """The columns and rows of a message, and whether its rows are turned round. No order of rows is
    taken for granted."""
    if frame is not None:
        from .frames import Frame  # which has maps itself

        if not isinstance(frame, Frame) or not (width is height is upwards is None):
            raise TypeError(ROWS)
        return frame.width, frame.height, True
    if width is None or height is None or upwards is None:
        raise TypeError(ROWS)
    return whole(width), whole(height), chosen("upwards", upwards)


def occupancy_map(
    data: object, width: int, height: int, occupied: Whole, unknown_is_free: bool, upwards: bool
) -> Memory:
    """The cells of a message as a map in bytes: obstacles are those from `occupied` on, and unless
    they are said to be free the unknown ones. With `upwards` the message's last row is the first.
    """
    least = whole(occupied)
    if not (1 <= width <= LARGEST_SIDE and 1 <= height <= LARGEST_SIDE):
        sides = f"1 to {LARGEST_SIDE} columns and rows"
        raise ValueError(f"a map has {sides}, and this one has {width} by {height}")
    if not 1 <= least <= MOST:
        raise ValueError(f"occupied is {least}, where 1 to {MOST} is wanted")
    is_free = chosen("unknown_is_free", unknown_is_free)
    cells = _cells(data, width, height)
    most = MOST if is_free else UNKNOWN & 255  # a byte, as the library reads cells
    rows = cells.astype(numpy().int8, copy=False).reshape(height, width)
    return byte_map(rows[::-1] if upwards else rows, least, most)


def _cells(data: object, width: int, height: int) -> Any:
    """The cells as an array of integers that a message may have."""
    cells = numpy().asarray(data)
    if cells.size and cells.dtype.kind not in "iu":
        raise TypeError(f"cells of {cells.dtype} are no occupancy grid: whole numbers are wanted")
    if cells.shape != (width * height,):
        shape = " by ".join(map(str, cells.shape)) or "no"
        raise ValueError(f"{width} by {height} cells are wanted in one row, and these are {shape}")
    if int(cells.min()) < UNKNOWN or int(cells.max()) > MOST:
        every = enumerate(cells.tolist())
        at, wrong = next((at, cell) for at, cell in every if not UNKNOWN <= cell <= MOST)
        raise ValueError(f"data[{at}] is {wrong}, where {UNKNOWN} to {MOST} is wanted")
    return cells
