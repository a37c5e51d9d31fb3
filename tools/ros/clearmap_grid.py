"""Grids as ROS sends them, for clearmap: thresholds, what changed from one to the next, and metres.
Only the standard library, and no ROS. Nothing here is proved.

A grid of `nav_msgs/OccupancyGrid` counts its cells from the lower left, y upwards: 0 to 100 is how
likely a cell is occupied, and -1 is unknown. Here it becomes one byte per cell, by rows from the
top, as clearmap counts them: 1 is an obstacle.
"""
import array
import math
import struct
from dataclasses import dataclass, replace
from fractions import Fraction
from typing import Optional, Sequence, Tuple

from clearmap import Frame, RosError, RosMap, read_map
from clearmap.decimals import Number, exact
from clearmap.requests import LARGEST_SIDE, chosen
from clearmap.ros_maps import UNKNOWN

DIGITS = bytes.maketrans(b"\0\1", b"01")
BITS = bytes.maketrans(b"01", b"\0\1")
IS_UNKNOWN = bytes(value == UNKNOWN for value in range(256))  # of a message's -1
NO_TURN = 1e-6  # the largest part of a quaternion, its w apart, that is taken for no turn


def flag(name: str, value: object) -> bool:
    """A parameter that is true or false; the text 'false' would count as true."""
    try:
        return chosen(name, value)
    except TypeError:
        raise RosError(f"'{value}' is no {name}: true or false") from None


def decimal_of(single: float) -> Fraction:
    """The shortest decimal that a number of 32 bits may stand for: a message's 0.05000000074505806
    is 1/20."""
    for digits in range(1, 10):
        word = f"{single:.{digits}g}"
        if struct.pack("f", float(word)) == struct.pack("f", single):
            return Fraction(word)
    return exact(single)


@dataclass(frozen=True)
class Reading:
    """Which values are obstacles: those above `occupied_thresh`, and if unknown cells aren't free,
    all but those below `free_thresh`. So 50 is one as for `read_map`, where `Map.of_occupancy` has
    it free, unless its `occupied` is 20."""

    occupied_thresh: Number = "0.65"
    free_thresh: Number = "0.196"
    unknown_is_free: bool = False

    def table(self) -> bytes:
        """What each byte of a message becomes. A value that is neither -1 nor 0 to 100 is an
        obstacle."""
        flag("unknown_is_free", self.unknown_is_free)
        occupied, free = exact(self.occupied_thresh), exact(self.free_thresh)
        if not 0 <= free <= occupied <= 1:
            raise RosError("the thresholds aren't 0 <= free_thresh <= occupied_thresh <= 1")

        def blocked(value: int) -> bool:
            if value == 255:
                return not self.unknown_is_free
            share = Fraction(value, 100)
            return share > occupied or (not self.unknown_is_free and share >= free)

        return bytes(blocked(value) for value in range(256))


def cells_of(values: Sequence[int], width: int, height: int, table: bytes) -> bytes:
    """The cells of a message's values, by rows from the top."""
    if len(values) != width * height:
        raise RosError(f"the message has {len(values)} values, where {width} by {height} cells are told")
    cells = bytes_of(values).translate(table)
    return b"".join(cells[row * width : (row + 1) * width] for row in reversed(range(height)))


def bytes_of(values: Sequence[int]) -> bytes:
    """A message's values, a byte each."""
    if isinstance(values, (bytes, bytearray)):
        return bytes(values)
    return array.array("b", values).tobytes()


def read_cells(
    values: Sequence[int], width: int, height: int, table: bytes
) -> Tuple[bytes, bytes]:
    """The cells of a message's values, and which of them are unknown, by rows from the top."""
    data = bytes_of(values)
    return cells_of(data, width, height, table), cells_of(data, width, height, IS_UNKNOWN)


@dataclass(frozen=True)
class Area:
    """Columns x0 up to x1 - 1 of rows y0 up to y1 - 1."""

    x0: int
    y0: int
    x1: int
    y1: int


@dataclass(frozen=True)
class Grid:
    """The cells of a map, one byte each, by rows from the top; 1 is an obstacle."""

    width: int
    height: int
    cells: bytes

    @property
    def size(self) -> Tuple[int, int]:
        """Columns and rows."""
        return self.width, self.height

    def changed(self, newer: "Grid") -> Optional[Area]:
        """The least rectangle that contains each cell that differs from another grid of the same
        size; None if there is none."""
        width = self.width
        pairs = [(self.row(y, 0, width), newer.row(y, 0, width)) for y in range(self.height)]
        rows = [y for y, (old, new) in enumerate(pairs) if old != new]
        if not rows:
            return None
        columns = 0
        for y in rows:
            old, new = pairs[y]
            columns |= int.from_bytes(old, "little") ^ int.from_bytes(new, "little")
        first = ((columns & -columns).bit_length() - 1) // 8
        last = (columns.bit_length() - 1) // 8
        return Area(first, rows[0], last + 1, rows[-1] + 1)

    def is_within(self, other: "Grid") -> bool:
        """Whether each obstacle is one of another grid, which has the same size."""
        if self is other or self.size != other.size:
            return self is other
        mine, others = number_of(self), number_of(other)
        return mine & others == mine

    def with_others(self, before: "Grid", served: "Grid") -> "Grid":
        """The grid, and of a served one each obstacle that isn't of the grid before: what others
        painted. All three have one size."""
        both = number_of(self) | number_of(served) & ~number_of(before)
        return Grid(*self.size, both.to_bytes(len(self.cells), "big"))

    def row(self, y: int, x0: int, x1: int) -> bytes:
        """Columns x0 up to x1 - 1 of a row."""
        return self.cells[y * self.width + x0 : y * self.width + x1]

    def pbm(self, area: Optional[Area] = None) -> bytes:
        """An area, or the whole, as a raw PBM image."""
        area = area or Area(0, 0, self.width, self.height)
        width = area.x1 - area.x0
        packed = bytearray()
        for y in range(area.y0, area.y1):
            digits = self.row(y, area.x0, area.x1).translate(DIGITS).ljust((width + 7) // 8 * 8, b"0")
            packed += int(digits, 2).to_bytes(len(digits) // 8, "big")
        return b"P4\n%d %d\n" % (width, area.y1 - area.y0) + bytes(packed)

    def updated(self, left: int, low: int, width: int, height: int, cells: bytes) -> "Grid":
        """The grid with an update's cells in it, whose lower left one is at column `left` and at
        row `low`, counted upwards from the lowest."""
        if not (0 <= left and 0 <= low and left + width <= self.width and low + height <= self.height):
            raise RosError(f"the update of {width} by {height} cells at {left}, {low} isn't wholly on the map of {self.width} by {self.height}")
        changed = bytearray(self.cells)
        top = self.height - low - height
        for row in range(height):
            start = (top + row) * self.width + left
            changed[start : start + width] = cells[row * width : (row + 1) * width]
        return Grid(self.width, self.height, bytes(changed))


def number_of(grid: Grid) -> int:
    """All cells as one number, a byte each."""
    return int.from_bytes(grid.cells, "big")


@dataclass(frozen=True)
class Place:
    """Where a map lies, in which frame, and which of its cells are unknown: those that have 1. None
    if all are known."""

    frame: Frame
    frame_id: str = ""
    unknown: Optional[Grid] = None

    def updated(self, area: Tuple[int, int, int, int], unknown: bytes) -> "Place":
        """The same with what an update of an area doesn't know."""
        if self.unknown is None and not any(unknown):
            return self
        size = self.frame.size
        before = self.unknown or Grid(*size, bytes(math.prod(size)))
        return replace(self, unknown=before.updated(*area, unknown))


def grid_of_dump(image: bytes) -> Grid:
    """The grid of a plain PBM image as `DUMP` answers it."""
    _, size, digits = image.split(b"\n", 2)
    width, height = map(int, size.split())
    return Grid(width, height, digits.translate(BITS, b" \n"))


def grids_of_map(known: RosMap, unknown_is_free: bool = False) -> Tuple[Grid, Grid]:
    """The cells of a yaml's map, and those that it doesn't know: which are free or not as it is
    asked."""
    safe, free = (known.cells(is_free) for is_free in (False, True))
    differing = int.from_bytes(safe, "big") ^ int.from_bytes(free, "big")
    unknown, size = differing.to_bytes(len(safe), "big"), known.frame.size
    return Grid(*size, free if unknown_is_free else safe), Grid(*size, unknown)


def read_place(yaml: str, frame_id: str, unknown_is_free: bool) -> Tuple[Grid, Place]:
    """The map that a yaml names, and where it lies."""
    known = read_map(yaml)
    grid, unknown = grids_of_map(known, unknown_is_free)
    return grid, Place(known.frame, frame_id, unknown)


def frame_of(width: int, height: int, resolution: float, origin: Tuple[float, float], turn: Tuple[float, float, float]) -> Frame:
    """Where a message's map lies: metres per cell, the lower left corner, and the x, y and z of its
    quaternion, which must be 0."""
    if not (1 <= width <= LARGEST_SIDE and 1 <= height <= LARGEST_SIDE):
        raise RosError(f"the map has {width} by {height} cells, and clearmap has 1 to {LARGEST_SIDE} a side")
    if not 0 < resolution < math.inf:
        raise RosError(f"the map's resolution is {resolution}, which isn't above 0")
    if not all(abs(part) <= NO_TURN for part in turn):
        raise RosError("the map's origin is turned, and a map that is turned isn't supported")
    return Frame(width, height, decimal_of(resolution), exact(origin[0]), exact(origin[1]))
