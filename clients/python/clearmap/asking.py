"""Questions about many cells of a map, and the refusals of what is asked."""
from __future__ import annotations

import ctypes
from typing import TYPE_CHECKING, Any, Iterable, Type

from . import requests
from .errors import BadArguments, OutOfRange, Refused, Size, extent
from .grids import edge_of, number_of
from .held import Held, Reading
from .library import OUTSIDE, check, library, numpy
from .many import Nears, address_of, cell_at, cells_of, first_off, named
from .requests import END, EUCLID2, Request
from .rows import near_type

if TYPE_CHECKING:
    import numpy as np
    from numpy.typing import ArrayLike, NDArray

    from .maps import Map

FEW_CELLS = 1 << 16  # that a call looks at, at most, while it keeps the interpreter's lock
FAR = f"a distance is 0 to {END - 1}"


def near_many(area: Map, xs: ArrayLike, ys: ArrayLike, metric: str) -> Nears:
    """`Map.at_many`."""
    number, cells = number_of(metric), cells_of(xs, ys)
    if cells is not None:
        nears = numpy().empty(cells.shape[:-1], near_type())
        call = library().clearmap_bits_at_many
        with Reading(area) as held:
            status = _asked(call, held, cells, number, address_of(nears))
        if status != OUTSIDE:
            check(status)
            return Nears(nears["dist"], nears["x"], nears["y"])
    raise _off_map(area.size, xs, ys, metric)


def nears_of(held: Held, cells: Any, metric: int) -> Nears:
    """The nearest obstacles of cells that are on the map, as `cells_of` gives them."""
    nears = answers_of(held, cells, metric)
    return Nears(nears["dist"], nears["x"], nears["y"])


def answers_of(held: Held, cells: Any, metric: int) -> Any:
    """The same as one array of answers of the library."""
    nears = numpy().empty(cells.shape[:-1], near_type())
    check(_asked(library().clearmap_bits_at_many, held, cells, metric, address_of(nears)))
    return nears


def clear_many(
    area: Map, xs: ArrayLike, ys: ArrayLike, distance: int, metric: str
) -> NDArray[np.bool_]:
    """`Map.clear_many`."""
    number, cells = number_of(metric), cells_of(xs, ys)
    if not 0 <= distance < END:
        raise refused(BadArguments, requests.clear_of(distance, [], metric), FAR)
    if cells is not None:
        clear = numpy().empty(cells.shape[:-1], bool)
        call = library().clearmap_bits_clear_many
        with Reading(area) as held:
            status = _asked(call, held, cells, number, distance, address_of(clear))
        if status != OUTSIDE:
            check(status)
            return clear  # type: ignore[no-any-return]
    raise _off_map(area.size, xs, ys, metric)


def _asked(call: Any, held: Held, cells: Any, metric: int, *rest: int) -> int:
    """The status of a call about many cells, whose last argument is the memory of its answers."""
    count, wrong = cells.size // 2, ctypes.c_size_t()
    where = address_of(cells), count, *rest, count, ctypes.byref(wrong)
    return int(call(*held.where, metric, held.edge, *where))


def cells_on(size: Size, xs: ArrayLike, ys: ArrayLike, metric: str = EUCLID2) -> Any:
    """Cells of a map of this size as `cells_of` gives them; a refusal names the first that isn't on
    it."""
    cells = cells_of(xs, ys)
    if cells is None or not (cells < size).all():
        raise _off_map(size, xs, ys, metric)
    return cells


def _off_map(size: Size, xs: ArrayLike, ys: ArrayLike, metric: str) -> Refused:
    """The refusal of many cells, of which one at least isn't on the map: it names the first."""
    wrong = first_off(xs, ys, size)
    cell = cell_at(xs, ys, wrong)
    refusal = outside(cell, requests.at(*cell, metric), size)
    refusal.cure = f"{named(wrong)} is {cell}, and {refusal.cure}"
    return refusal


# ---- refusals


def outside(numbers: Iterable[int], request: Request[Any], size: Size) -> Refused:
    """The refusal of a request whose numbers don't fit a line, or whose cells aren't all on the map
    of this size."""
    fits = all(0 <= number < END for number in numbers)
    return refused(OutOfRange if fits else BadArguments, request, extent(size))


def refused(kind: Type[Refused], request: Request[Any], cure: str) -> Refused:
    """A refusal, and what would have been taken."""
    number = 1 if kind is OutOfRange else 12
    refusal = kind(number, kind.__name__, (), request.line)
    refusal.cure = cure
    return refusal
