"""Distances in metres between the middles of cells, and the slope of the same surface."""
from __future__ import annotations

from typing import TYPE_CHECKING, Any, Callable, NamedTuple, Tuple

from .asking import nears_of
from .errors import RosError
from .framed import reading_in
from .grids import EDGES, WALL, number_of
from .held import Held
from .library import NO_OBSTACLE, numpy
from .maps import Map
from .poses import reals
from .requests import EUCLID2
from .rows import distances_of

if TYPE_CHECKING:
    import numpy as np
    from numpy.typing import ArrayLike, NDArray

    from .fields import Field
    from .frames import Frame

    Reals = NDArray[np.float64]

ROOT_TWO, DOWN = 1.4142135623730952, 1 - 1e-15  # rounded up, and less than any rounding leaves
LONE_CELLS = 64  # of a map, whose distances take as much work as one query
Squares = Callable[[Any, Any], Any]  # of the distances of cells by their columns and rows


class Slopes(NamedTuple):
    """Of many points, in metres: the distance at each, how it grows to the right and upwards, and
    what is free around it in any case."""

    distances: Reals
    gradients: Reals
    free: Reals


def slopes_of_map(area: Map, frame: Frame, xs: ArrayLike, ys: ArrayLike) -> Slopes:
    """`Map.distance_and_gradient`."""
    with reading_in(frame, area) as held:
        places = places_of(frame, xs, ys)
        return slopes(frame, places, held.edge, _squares(held, places[0].size))


def slopes_of_field(field: Field, area: Map, frame: Frame, xs: ArrayLike, ys: ArrayLike) -> Slopes:
    """`Field.distance_and_gradient`."""
    with reading_in(frame, area) as held:
        found = field.distances
        places = places_of(frame, xs, ys)
        return slopes(frame, places, held.edge, lambda columns, rows: found[rows, columns])


def _squares(held: Held, points: int) -> Squares:
    """How the distances of cells are found: one by one, or for many points by those of all."""
    if 4 * LONE_CELLS * points >= held.size[0] * held.size[1]:
        found = distances_of(held.memory, EUCLID2, EDGES[held.edge], False, 1)
        return lambda columns, rows: found[rows, columns]

    def asked(columns: Any, rows: Any) -> Any:
        cells = numpy().stack((columns, rows), axis=-1).astype("u2")
        return nears_of(held, cells, number_of(EUCLID2)).distances

    return asked


def places_of(frame: Frame, xs: ArrayLike, ys: ArrayLike) -> Tuple[Any, Any]:
    """Points in metres on a frame's map, in cells from the upper left, y downwards."""
    np = numpy()
    right, above = reals(("xs", xs), ("ys", ys))
    scale = float(frame.resolution)
    across, up = (right - float(frame.origin_x)) / scale, (above - float(frame.origin_y)) / scale
    is_off = ~((0 <= across) & (across < frame.width) & (0 <= up) & (up < frame.height))
    if is_off.any():
        first = tuple(np.argwhere(is_off)[0].tolist())
        raise RosError(f"the point ({right[first]}, {above[first]}) isn't on the map")
    return across, frame.height - up


def slopes(frame: Frame, places: Tuple[Any, Any], edge: int, squares: Squares) -> Slopes:
    """The surface at places on the map, by the distances of the four middles around each."""
    np = numpy()
    (left, part_x), (top, part_y) = (_between(place) for place in places)
    shape = part_x.shape
    columns = np.stack((left, left + 1, left, left + 1))
    rows = np.stack((top, top, top + 1, top + 1))
    width, height = frame.size
    found = squares(np.clip(columns, 0, width - 1), np.clip(rows, 0, height - 1))
    if found.size and found.flat[0] == NO_OBSTACLE:
        endless = np.full(shape, np.inf)
        return Slopes(endless, np.zeros((*shape, 2)), endless.copy())
    cells = np.sqrt(found, dtype="f8")
    if edge == EDGES.index(WALL):
        cells[(columns < 0) | (columns >= width) | (rows < 0) | (rows >= height)] = 0
    own = _own(places, left, top)
    room = np.take_along_axis(np.sqrt(found, dtype="f8"), own[None], 0)[0]
    scale = float(frame.resolution)
    free = np.maximum((room * DOWN - ROOT_TWO) * scale * DOWN, 0)
    upper, lower = cells[0] + part_x * (cells[1] - cells[0]), cells[2] + part_x * (cells[3] - cells[2])
    across = (1 - part_y) * (cells[1] - cells[0]) + part_y * (cells[3] - cells[2])
    return Slopes(
        scale * ((1 - part_y) * upper + part_y * lower), np.stack((across, upper - lower), -1), free
    )


def _between(place: Any) -> Tuple[Any, Any]:
    """The last middle up to a coordinate in cells, and how far it is from there to the next."""
    np = numpy()
    from_middle = place - 0.5
    before = np.floor(from_middle)
    return before.astype(np.intp), from_middle - before


def _own(places: Tuple[Any, Any], left: Any, top: Any) -> Any:
    """Which of the four middles is that of the point's own cell."""
    np = numpy()
    column, row = np.floor(places[0]), np.ceil(places[1]) - 1  # as Frame.cell has it
    return (column > left) + 2 * (row > top).astype(np.intp)
