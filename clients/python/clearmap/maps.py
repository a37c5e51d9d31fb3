"""A map in bits, which answers what a pin of a server answers, in this process."""
from __future__ import annotations

import copy
import ctypes
import functools
import math
from typing import (
    TYPE_CHECKING,
    Any,
    Callable,
    Dict,
    Iterable,
    List,
    Literal,
    Optional,
    Tuple,
    Type,
    TypeVar,
    overload,
)

from . import carried, requests
from .asking import FAR, FEW_CELLS, clear_many, near_many, outside, refused
from .drawing import Drawing
from .errors import BadArguments, BadPath, Crooked, Refused, Size
from .grids import EDGES, OPEN, Memory, edge_of, map_of, number_of
from .held import Held, Reading, change
from .images import pbm_map
from .library import CROOKED, NO_OBSTACLE, Bits, CFound, CNear, check, library, numpy, quick
from .limits import Limits
from .many import Nears, Way, address_of, packed_way, way_of
from .occupancy import lying, occupancy_map
from .requests import (
    END, EUCLID2, LARGEST_SIDE, Near, Points, Request, Tightest, Whole, whole,
)  # fmt: skip
from .rows import distances_of
from .shapes import Region, draw_region, put_region
from .signed import NO_BANDS, gradients_of, signed_of
from .turns import Turn
from .words import draw, marked, rows_for

if TYPE_CHECKING:
    import numpy as np
    from numpy.typing import ArrayLike, NDArray

    from .frames import Frame
    from .rows import Distances, Indices, Nearest, Obstacles
    from .signed import Reals
    from .slopes import Slopes

M = TypeVar("M", bound="Map")


def packed(memory: Memory) -> Memory:
    """A map in bytes as one in bits, in memory of its own."""
    _, cells, length, layout = memory
    rows = rows_for(layout.width, layout.height)
    source = cells.ctypes.data, length, ctypes.byref(layout)
    check(library().clearmap_pack(*source, rows.ctypes.data, rows.size, ctypes.byref(Bits())))
    return marked(rows, layout.width)


def unpacked(memory: Memory, y0: int, y1: int) -> Any:
    """The cells of rows y0 to y1 - 1 of a map in bits, as bools."""
    cells, width = memory.cells[y0:y1], memory.layout.width
    out = numpy().empty((y1 - y0, width), numpy().uint8)
    bits = Bits(width, y1 - y0, cells.shape[1], NO_BANDS)
    where = cells.ctypes.data, cells.size, ctypes.byref(bits)
    check(library().clearmap_unpack(*where, 0, 1, out.ctypes.data, out.size))
    return out.view(bool)


@functools.lru_cache(maxsize=None)
def _call(name: str, is_quick: bool) -> Any:
    """A query over bits, which keeps the interpreter's lock if it is quick."""
    return getattr(quick() if is_quick else library(), f"clearmap_bits_{name}")


class Map(Drawing):
    """A map of this process: the cells of a grid, as `distances` takes it, in an eighth of a byte
    per cell. The grid isn't used afterwards. Queries return what those of a `Pinned` return, and
    raise what they raise.

    Cells and obstacles are (column, row), where numpy's indices have the row first: cell (x, y) is
    grid[y, x]. On the frame of a wall either is -1, or one after the last. Row 0 is the top one, as
    in an image and as a `Frame` has it: cells of ROS, with the lowest row first, become such a map
    by `Map.of_occupancy(data, frame)`.

    Any threads may query, paint and clear one map at any time: a query answers for the cells as
    they are when it starts. `paint` and `clear` change the map's bits in place, unless a call that
    lasts still reads them, or a copy of the map shares them: then they copy them first. They wait
    for each other, and a call that lasts waits for them; a signal's handler may call neither. A
    child that is forked meanwhile has the cells from before or after the change, and its own turn.

    A map can be copied and pickled, with what a subclass keeps besides, and two are equal if their
    sizes, edges and obstacles are, and both have the same row on top. It has no hash, since it may
    change.
    """

    _is_upside_down = False

    def __init__(
        self,
        grid: object,
        edge: str = OPEN,
        *,
        low: Optional[float] = None,
        high: Optional[float] = None,
        unknown: Optional[float] = None,
    ) -> None:
        self._begin(packed(map_of(grid, Limits(low, high, unknown))), edge)

    def _begin(self, memory: Memory, edge: str, is_shared: bool = False) -> None:
        """Holds a map in bits that nobody else writes any more."""
        self._edge, self._turn = edge_of(edge), Turn()
        self._held = Held(memory, self._edge, is_shared)
        self._size = self._held.size

    @classmethod
    def _of(cls: Type[M], memory: Memory, edge: str, is_shared: bool = False) -> M:
        """A map of cells that are already packed. If they are shared, it changes a copy of them."""
        made = cls.__new__(cls)
        made._begin(memory, edge, is_shared)
        return made

    def _lent(self) -> Memory:
        """The cells as they are now, for others to keep: this map changes them no more."""
        with Reading(self) as held:
            held.is_shared = True
            return held.memory

    @classmethod
    def of_pbm(cls: Type[M], image: object, edge: str = OPEN) -> M:
        """A map of a PBM image, plain or raw, in bytes or a buffer of them: black is an obstacle.
        ValueError with the first fault by its name in docs/use/FORMATS.md, as "BadImage Truncated".
        """
        return cls._of(packed(pbm_map(image)), edge)

    @overload
    @classmethod
    def of_occupancy(
        cls: Type[M],
        data: object,
        frame: Frame,
        *,
        edge: str = ...,
        occupied: Whole = ...,
        unknown_is_free: bool = ...,
    ) -> M: ...
    @overload
    @classmethod
    def of_occupancy(
        cls: Type[M],
        data: object,
        *,
        width: Whole,
        height: Whole,
        upwards: bool,
        edge: str = ...,
        occupied: Whole = ...,
        unknown_is_free: bool = ...,
    ) -> M: ...
    @classmethod
    def of_occupancy(
        cls: Type[M],
        data: object,
        frame: Optional[Frame] = None,
        *,
        width: Optional[Whole] = None,
        height: Optional[Whole] = None,
        upwards: Optional[bool] = None,
        edge: str = OPEN,
        occupied: Whole = 65,
        unknown_is_free: bool = False,
    ) -> M:
        """A map of an occupancy grid as ROS's message has it: `data` is a list, tuple or array of
        the cells, row after row with the lowest first, each -1 or 0 to 100. Cells from `occupied`
        on are obstacles: 50 is free, and an obstacle with `occupied=20`, as for `read_map` and the
        nodes of ROS. So are unknown ones, -1, unless they are said to be free.

        `frame` is where the map lies, with its size: row 0 of the map is the top one, as the
        frame's. Without a frame say the size, and whether the rows are turned round in the same
        way: `upwards=True`. With `upwards=False` rows stay as they lie: row 0 of the map is the
        first of the message, the lowest in the world, and no call takes such a map with a frame.

        ValueError for another number of cells, and for a cell that no message has.
        """
        width, height, is_turned = lying(frame, width, height, upwards)
        cells = occupancy_map(data, width, height, occupied, unknown_is_free, is_turned)
        made = cls._of(packed(cells), edge)
        if not is_turned:
            made._is_upside_down = True
        return made

    @property
    def is_upside_down(self) -> bool:
        """Whether row 0 is the lowest, as of `of_occupancy` with `upwards=False`."""
        return self._is_upside_down

    def copy(self) -> Map:
        """A map of the same cells and edge, which may be painted and cleared."""
        made = Map._of(self._lent(), self.edge, True)
        made._is_upside_down = self._is_upside_down
        return made

    def __copy__(self: M) -> M:
        made = type(self)._of(self._lent(), self.edge, True)
        vars(made).update(carried.others(self))
        return made

    def __deepcopy__(self: M, memo: Dict[int, Any]) -> M:
        made = memo[id(self)] = type(self)._of(self._lent(), self.edge, True)
        vars(made).update(copy.deepcopy(carried.others(self), memo))
        return made

    def __reduce__(self) -> Tuple[Any, ...]:
        """A map is pickled with the cells as they are now."""
        others = carried.others(self)
        return (carried.rebuilt, carried.parts(self), *([others] if others else []))

    def __eq__(self, other: object) -> bool:
        """Whether sizes, edges and obstacles are the same, and the row on top."""
        if not isinstance(other, Map):
            return NotImplemented
        return carried.are_same(self, other)

    __hash__ = None  # type: ignore[assignment]  # what may be painted has none

    @property
    def size(self) -> Size:
        """Columns and rows."""
        return self._size

    @property
    def width(self) -> int:
        """Columns."""
        return self._size[0]

    @property
    def height(self) -> int:
        """Rows."""
        return self._size[1]

    @property
    def edge(self) -> str:
        """OPEN or WALL."""
        return EDGES[self._edge]

    # ---- queries

    def _asked(self, name: str, cells: int, metric: str, *rest: Any) -> int:
        """The status of a call about the cells as they are now, which looks at this many of them:
        for a few it keeps the interpreter's lock."""
        numbers = number_of(metric), self._edge
        if cells <= FEW_CELLS:
            held = self._held  # not freed before the call is done
            return int(_call(name, True)(*held.where, *numbers, *rest))
        with Reading(self) as held:
            return int(_call(name, False)(*held.where, *numbers, *rest))

    def at(self, x: Whole, y: Whole, metric: str = EUCLID2) -> Optional[Near]:
        """As `Pinned.at`."""
        near = self._near(whole(x), whole(y), metric)
        return None if near.dist == NO_OBSTACLE else Near(near.dist, (near.x, near.y))

    def _near(self, x: int, y: int, metric: str) -> CNear:
        """The nearest obstacle as the library returns it."""
        width, height = self._size
        if not (0 <= x < width and 0 <= y < height):
            raise outside((x, y), requests.at(x, y, metric), self._size)
        near = CNear()
        check(self._asked("at", 1, metric, x, y, ctypes.byref(near)))
        return near

    def gradient(
        self, x: Whole, y: Whole, metric: str = EUCLID2
    ) -> Optional[Tuple[float, float]]:
        """The unit vector away from the nearest obstacle of a cell, by columns and by rows; None in
        an obstacle, and if the map has none. Refused as `at` is."""
        near = self.at(x, y, metric)
        if near is None or near.distance == 0:
            return None
        # Not numpy's own small integers, which would wrap around.
        dx, dy = whole(x) - near.obstacle[0], whole(y) - near.obstacle[1]
        length = math.sqrt(dx * dx + dy * dy)
        return dx / length, dy / length

    def rect(
        self, x0: Whole, y0: Whole, x1: Whole, y1: Whole, metric: str = EUCLID2
    ) -> Optional[Tightest]:
        """As `Pinned.rect`."""
        number_of(metric)
        left, top, right, bottom = self._corners(f"RECT {metric}", x0, y0, x1, y1)
        found, cells = CFound(), (right - left) * (bottom - top)
        where = left, top, right, bottom, ctypes.byref(found)
        check(self._asked("rect", cells, metric, *where))
        return _tightest(found)

    def path(self, points: Points, metric: str = EUCLID2) -> Optional[Tightest]:
        """As `Pinned.path`."""
        return self._along(None, points, metric)

    def clear_of(
        self, distance: Whole, points: Points, metric: str = EUCLID2
    ) -> Optional[Tightest]:
        """As `Pinned.clear_of`."""
        return self._along(whole(distance), points, metric)

    def is_clear(self, distance: Whole, points: Points, metric: str = EUCLID2) -> bool:
        """As `Pinned.is_clear`."""
        return self.clear_of(distance, points, metric) is None

    def _along(
        self, distance: Optional[int], points: Points, metric: str
    ) -> Optional[Tightest]:
        """PATH without a distance, otherwise CLEAROF."""
        way = way_of(points)
        numbers = packed_way(way, self._size)
        if numbers is None or not (distance is None or 0 <= distance < END):
            raise self._bad_path(distance, way, metric)
        found, count = CFound(), len(way)
        name, limit = ("path", ()) if distance is None else ("clear_of", (distance,))
        where = address_of(numbers), count, *limit, ctypes.byref(found)
        status = self._asked(name, count * max(self._size), metric, *where)
        if status == CROOKED:
            raise self._bad_path(distance, way, metric)
        check(status)
        return _tightest(found)

    # ---- many cells

    def at_many(self, xs: ArrayLike, ys: ArrayLike, metric: str = EUCLID2) -> Nears:
        """`at` of each cell of two arrays of whole numbers, columns and rows, which numpy
        broadcasts: arrays of their shape. All are answered for the cells as they are when the call
        starts. If one isn't on the map, OutOfRange names the first of them, and none is answered.
        TypeError for what isn't whole, as floats, and for a masked array."""
        return near_many(self, xs, ys, metric)

    def clear_many(
        self, xs: ArrayLike, ys: ArrayLike, distance: Whole, metric: str = EUCLID2
    ) -> NDArray[np.bool_]:
        """Whether no obstacle is nearer than a distance to each of many cells, as of `at_many`: an
        array of bools. It is faster than `at_many` if the distance is small. With euclid2 the
        distance is a square, as `clear_of` takes it and `clear_distance` gives it; 0 is clear
        everywhere."""
        return clear_many(self, xs, ys, whole(distance), metric)

    def distance_and_gradient(self, frame: Frame, xs: ArrayLike, ys: ArrayLike) -> Slopes:
        """The Euclidean distance from obstacles at points in metres on a frame's map, how it grows,
        and what is free, as of `Slopes`: arrays of the shape that numpy broadcasts `xs` and `ys`
        to.

        The distance is a surface over the middles of the cells, at each of which it is that of the
        cell, from middle to middle. Between the four middles around a point it is bilinear. Let
        the point be a part f of a cell to the right of the left ones, and a part g below the upper
        ones. The distance is then

            (1 - g) * ((1 - f) * upper left + f * upper right)
                + g * ((1 - f) * lower left + f * lower right)

        Off the map, the nearest middle on it stands for a middle; with the edge `wall` the middles
        of the frame are 0, as obstacles. So it is 0 at the middle of an obstacle, and nowhere below
        0.

        The gradient is that of this surface, to the right and upwards, in metres a metre: on a line
        through middles that of the square to the right of it, or below. The distance isn't a safe
        bound: it is less or more than that of the point itself to the nearest obstacle's middle, by
        at most 0.71 of a cell. `free` is one: never more than the distance of any point of the cell
        from any point of an obstacle, as of `Frame.free_metres`. Without an obstacle both are
        infinite, and the gradient is 0.

        RosError for a map that isn't of the frame's size or whose row 0 is the lowest, and for the
        first point that isn't on it. All points are answered for the cells as they are when the
        call starts.
        """
        from .slopes import slopes_of_map  # which has maps itself

        return slopes_of_map(self, frame, xs, ys)

    # ---- what a server refuses

    def _corners(self, name: str, *corners: Whole) -> Tuple[int, ...]:
        """The corners x0, y0, x1, y1 of a rectangle that has a cell and is on the map."""
        numbers = tuple(map(whole, corners))
        x0, y0, x1, y1 = numbers
        if not (0 <= x0 < x1 <= LARGEST_SIDE and 0 <= y0 < y1 <= LARGEST_SIDE):
            raise BadArguments(12, "BadArguments", (), requests.draw(name, *numbers).line)
        if not (x1 <= self.width and y1 <= self.height):
            raise outside(numbers, requests.draw(name, *numbers), self._size)
        return numbers

    def _bad_path(self, distance: Optional[int], way: Way, metric: str) -> Refused:
        """The refusal of a path."""
        cells = way if isinstance(way, list) else [(x, y) for x, y in way.tolist()]
        request: Request[Any] = requests.path(cells, metric)
        if distance is not None:
            request = requests.clear_of(distance, cells, metric)
        numbers = [number for cell in cells for number in cell] + [distance or 0]
        if not cells and 0 <= numbers[0] < END:
            return BadPath(8, "BadPath", (), request.line)
        if packed_way(way, self._size) is None:
            return outside(numbers, request, self._size)
        if not 0 <= numbers[-1] < END:
            return refused(BadArguments, request, FAR)
        pairs = enumerate(zip(cells, cells[1:]), 1)
        index = next(k for k, (a, b) in pairs if a[0] != b[0] and a[1] != b[1])
        return Crooked(9, "Crooked", (index,), request.line)

    # ---- all cells

    @overload
    def distances(
        self, metric: str = ..., nearest: Literal[False] = ..., threads: int = ...
    ) -> Distances: ...
    @overload
    def distances(
        self, metric: str = ..., *, nearest: Literal[True], threads: int = ...
    ) -> Tuple[Distances, Obstacles]: ...
    @overload
    def distances(
        self, metric: str = ..., *, nearest: Literal["indices"], threads: int = ...
    ) -> Tuple[Distances, Indices]: ...
    def distances(self, metric: str = EUCLID2, nearest: Nearest = False, threads: int = 1) -> Any:
        """As the package's `distances`, of this map and its edge."""
        with Reading(self) as held:
            return distances_of(held.memory, metric, self.edge, nearest, threads)

    def signed_distances(
        self, metric: str = EUCLID2, resolution: float = 1.0, threads: int = 1
    ) -> Reals:
        """As the package's `signed_distances`, of this map and its edge."""
        with Reading(self) as held:
            return signed_of(held.memory, metric, self.edge, resolution, threads)

    def gradients(self, metric: str = EUCLID2, inside: bool = False, threads: int = 1) -> Reals:
        """As the package's `gradients`, of this map and its edge."""
        with Reading(self) as held:
            return gradients_of(held.memory, metric, self.edge, inside, threads)

    def grid(self, y0: Whole = 0, y1: Optional[Whole] = None) -> NDArray[np.bool_]:
        """The cells as an array of bools by rows, True for an obstacle: of rows y0 to y1 - 1, which
        are on the map, else OutOfRange; without y1 up to the last."""
        last = self.height if y1 is None else y1
        _, first, _, end = self._corners("the rows of", 0, y0, self.width, last)
        with Reading(self) as held:
            return unpacked(held.memory, first, end)  # type: ignore[no-any-return]

    # ---- changes

    def paint(self, x0: Whole, y0: Whole, x1: Whole, y1: Whole) -> None:
        """Makes columns x0 to x1 - 1 of rows y0 to y1 - 1 obstacles, at once. Refused as
        `Client.paint` is for its rectangle."""
        self._draw("PAINT", x0, y0, x1, y1)

    def clear(self, x0: Whole, y0: Whole, x1: Whole, y1: Whole) -> None:
        """Makes them free; refused as `paint` is."""
        self._draw("CLEAR", x0, y0, x1, y1)

    def _draw(self, name: str, *corners: Whole) -> None:
        """Draws the cells of a rectangle."""
        numbers = self._corners(name, *corners)
        self._change(lambda held: draw(held, numbers, name == "PAINT"))

    def _draw_region(self, region: Region, full: bool) -> None:
        self._change(lambda held: draw_region(held, region, full), in_place=False)

    def _put_region(self, region: Region) -> None:
        self._change(lambda held: put_region(held, region), in_place=False)

    def _change(self, work: Callable[[Held], None], in_place: bool = True) -> None:
        """Does work on the map's cells, in place where that is one call."""
        change(self, work, in_place)


def _tightest(found: CFound) -> Optional[Tightest]:
    """What was found, if anything."""
    near = found.near
    if near.dist == NO_OBSTACLE:
        return None
    return Tightest(near.dist, (found.x, found.y), (near.x, near.y))
