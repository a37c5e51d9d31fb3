"""All distances of a map as a table that follows its changes."""
from __future__ import annotations

from typing import TYPE_CHECKING, Any, List, NamedTuple, Optional, Tuple, Type

from .asking import answers_of, cells_on, outside
from .drawing import Drawing
from .errors import Size
from .grids import number_of
from .held import Held, Reading
from .library import NO_OBSTACLE, numpy
from .many import Nears
from .maps import Map
from .requests import EUCLID2, METRICS, Near, Whole, at, whole
from .rows import fill, in_bands, near_type
from .shapes import Region
from .slopes import Slopes, slopes_of_field
from .windows import Box, Tops, boxes_between, reached_by, window_of

if TYPE_CHECKING:
    import numpy as np
    from numpy.typing import ArrayLike, NDArray

    from .frames import Frame
    from .rows import Distances, Obstacles

FEW_CELLS = 1024  # that are asked one by one
BOX_CELLS = 1 << 15  # of a new field, which take as long as it takes to begin one box


class Field(Drawing):
    """The nearest obstacle of each cell of a map by one metric: 8 bytes per cell, which look-ups of
    numpy read.

    A field has the cells of a map as they were when it was made, and its own from then on: `paint`,
    `clear` and what draws shapes change them, and `update` takes those of another map. Only cells
    that this can change are computed anew, or all of them after many changes; then each cell has
    the answer of a new field. The first change reads the whole table once more.

    `distances` and `obstacles` are views that show each change. Any threads may look up cells at
    the same time; while a thread changes the field, no other may use it. A call that is cut off, as
    by an interrupt, leaves a field that is made anew at its next use.
    """

    def __init__(self, area: Map, metric: str = EUCLID2, threads: int = 1) -> None:
        if not isinstance(area, Map):
            raise TypeError(f"a field of {type(area).__name__}, where a Map is wanted")
        self._metric, self._threads = number_of(metric), whole(threads)
        self._map, self._table = area.copy(), numpy().empty((0, 0), near_type())
        self._fill()

    def __reduce__(self) -> Tuple[Type[Field], Tuple[Map, str, int]]:
        return type(self), (self.map, self.metric, self._threads)

    def _fill(self) -> None:
        """Computes all cells, in a new table if the map has another size."""
        self._tops: Optional[Tops] = None
        self._is_whole = False
        if self._table.shape != (self._map.height, self._map.width):
            self._table = numpy().empty((self._map.height, self._map.width), near_type())
        with Reading(self._map) as held:
            asked = held.memory, self._metric, held.edge
            table = self._table
            in_bands(len(table), self._threads, lambda y0, y1: fill(*asked, y0, y1, table[y0:y1]))
        self._is_whole = True

    def _ready(self) -> Any:
        """The table, made anew if a change was cut off."""
        if not self._is_whole:
            self._fill()
        return self._table

    # ---- what it is of

    @property
    def map(self) -> Map:
        """The map that the field answers for, as a copy."""
        return self._map.copy()

    @property
    def size(self) -> Size:
        """Columns and rows."""
        return self._map.size

    @property
    def metric(self) -> str:
        """The name of its metric."""
        return METRICS[self._metric]

    # ---- look-ups

    @property
    def distances(self) -> Distances:
        """The distance of each cell, as `Map.distances` returns it: a view that can't be written,
        and shows each change."""
        view = self._ready()["dist"]
        view.flags.writeable = False
        return view  # type: ignore[no-any-return]

    @property
    def obstacles(self) -> Obstacles:
        """Column and row of the nearest obstacle of each cell, as `Map.distances` returns them with
        `nearest=True`: such a view."""
        table = self._ready()
        view = table.view("i2").reshape(*table.shape, 4)[:, :, 2:]
        view.flags.writeable = False
        return view  # type: ignore[no-any-return]

    def at(self, x: Whole, y: Whole) -> Optional[Near]:
        """As `Map.at`, by the field's metric."""
        column, row = whole(x), whole(y)
        width, height = self.size
        if not (0 <= column < width and 0 <= row < height):
            raise outside((column, row), at(column, row, self.metric), self.size)
        distance, *obstacle = self._ready()[row, column].item()
        return None if distance == NO_OBSTACLE else Near(distance, (obstacle[0], obstacle[1]))

    def at_many(self, xs: ArrayLike, ys: ArrayLike) -> Nears:
        """As `Map.at_many`, by the field's metric."""
        cells = cells_on(self.size, xs, ys, self.metric)
        nears = self._ready()[cells[..., 1], cells[..., 0]]
        return Nears(nears["dist"], nears["x"], nears["y"])

    def distance_and_gradient(self, frame: Frame, xs: ArrayLike, ys: ArrayLike) -> Slopes:
        """As `Map.distance_and_gradient`, by look-ups. ValueError if the field's metric isn't
        `euclid2`."""
        if self.metric != EUCLID2:
            raise ValueError(f"a slope is of a field by euclid2, and this one is by {self.metric}")
        self._ready()
        return slopes_of_field(self, self._map, frame, xs, ys)

    # ---- changes

    def paint(self, x0: Whole, y0: Whole, x1: Whole, y1: Whole) -> None:
        """As `Map.paint`, of the field's own map."""
        box = self._map._corners("PAINT", x0, y0, x1, y1)
        self._change(lambda: self._map.paint(*box), [Box(*box)])

    def clear(self, x0: Whole, y0: Whole, x1: Whole, y1: Whole) -> None:
        """As `Map.clear`, of the field's own map."""
        box = self._map._corners("CLEAR", x0, y0, x1, y1)
        self._change(lambda: self._map.clear(*box), [Box(*box)])

    def update_patch(
        self,
        x: Whole,
        y: Whole,
        cells: object,
        *,
        low: Optional[float] = None,
        high: Optional[float] = None,
        unknown: Optional[float] = None,
    ) -> None:
        """`stamp`: sets the cells from (x, y) on to those of a grid, as `Map` takes it. Of ROS's
        map_msgs/OccupancyGridUpdate, whose lowest row is the first, on a map that is so high:
        `field.update_patch(u.x, height - u.y - u.height, numpy.reshape(u.data, (u.height,
        u.width))[::-1], low=65, unknown=-1)`, if it has a cell."""
        self.stamp(x, y, cells, low=low, high=high, unknown=unknown)

    def update(self, area: Map) -> None:
        """Makes this the field of another map, whose cells it compares with its own: it computes
        anew what differs, and all of a map of another edge, or with many changes. For a map of
        another size it makes a new table: views from before are of the old one."""
        if not isinstance(area, Map):
            raise TypeError(f"a field of {type(area).__name__}, where a Map is wanted")
        new = area.copy()
        old, self._map = self._map, new
        was_whole, self._is_whole = self._is_whole, False
        if not was_whole or (old.size, old.edge) != (new.size, new.edge):
            return self._fill()
        boxes = boxes_between(old._held.memory, new._held.memory)
        if boxes is None:
            return self._fill()
        self._rework(boxes)
        self._is_whole = True
        return None

    def _draw_region(self, region: Region, full: bool) -> None:
        self._change(lambda: self._map._draw_region(region, full), [Box(*region.box())])

    def _put_region(self, region: Region) -> None:
        self._change(lambda: self._map._put_region(region), [Box(*region.box())])

    def _change(self, work: Any, boxes: List[Box]) -> None:
        """Changes the map in some boxes, and the table with it."""
        was_whole, self._is_whole = self._is_whole, False
        work()
        if was_whole:
            self._rework(boxes)
            self._is_whole = True

    # ---- the cells that a change can reach

    def _rework(self, boxes: List[Box]) -> None:
        """Computes anew what changes in some boxes can change, or all if that is most."""
        if self._tops is None:
            self._tops = Tops(self._table["dist"], self._metric)
        reached = [self._tops.reached(box) for box in boxes]
        if sum(2 * part.area() + BOX_CELLS for part in reached) > self._table.size:
            return self._fill()
        with Reading(self._map) as held:
            for box, part in zip(boxes, reached):
                self._renew(held, box, part)
                self._tops.renew(part, self._table["dist"])
        return None

    def _renew(self, held: Held, box: Box, part: Box) -> None:
        """Computes the cells of a part anew that a change in a box can reach: a few one by one, and
        many by larger and larger windows, and what these leave open one by one."""
        np = numpy()
        table, margin = self._table[part.cells()], 0
        near = reached_by(box, part, self._metric, table["dist"])
        while np.count_nonzero(near) > FEW_CELLS:
            margin = 3 * margin or self._margin(part)
            nears, is_open = window_of(held, self._metric, part, margin)
            table[...] = nears
            if is_open is None:
                return
            near = is_open
        rows, columns = near.nonzero()
        cells = np.empty((len(rows), 2), "u2")
        cells[:, 0], cells[:, 1] = columns + part.x0, rows + part.y0
        table[rows, columns] = answers_of(held, cells, self._metric)

    def _margin(self, part: Box) -> int:
        """How far around a part the obstacles are that its cells have now."""
        assert self._tops is not None
        return self._tops.margin(part)
