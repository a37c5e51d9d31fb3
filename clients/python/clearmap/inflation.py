"""Costs around obstacles as costmap_2d inflates them, by libclearmap in this process."""
from __future__ import annotations

import functools
import math
from typing import TYPE_CHECKING, Any, Optional, SupportsFloat, Union

from .grids import OPEN, Memory, edge_of, map_of, number_of
from .held import Reading
from .library import check, library, numpy
from .limits import Limits
from .maps import Map
from .requests import EUCLID2, LARGEST_SIDE
from .rows import in_bands, shared, where_of

if TYPE_CHECKING:
    import numpy as np
    from numpy.typing import NDArray

LETHAL, INSCRIBED = 254, 253  # costs in an obstacle, and up to the inscribed radius
FARTHEST = 2 * (LARGEST_SIDE + 1) ** 2  # squares of all distances are below it
NEAR_WHOLE = 1e-6  # where numpy's exp may be rounded to another byte than that of C


def inflate(
    grid: Union[Map, object],
    *,
    inscribed: SupportsFloat,
    radius: SupportsFloat,
    scaling: SupportsFloat,
    resolution: SupportsFloat,
    edge: Optional[str] = None,
    threads: int = 1,
    low: Optional[float] = None,
    high: Optional[float] = None,
    unknown: Optional[float] = None,
) -> NDArray[np.uint8]:
    """The cost of each cell of a grid or a Map by the rule of costmap_2d, as an array of uint8.

    It is 254 in an obstacle, and 253 up to the inscribed radius. From there on it is
    252 * exp(-scaling * (distance - inscribed)), rounded down. Beyond the inflation `radius` it is
    0. The distance is exact, from the middle of the cell to that of its nearest obstacle.
    The radii are in metres, and `resolution` is metres a cell. As in costmap_2d, the inflation
    radius is taken in whole cells, rounded up.

    All is computed as costmap_2d computes it, in floats of 64 bits. So three cells of 0.05 are
    above an inscribed radius of 0.15. Its own costs are of an obstacle that may not be the nearest.

    A grid, `edge`, `threads`, `low`, `high` and `unknown` are as those of `distances`; a Map has
    its obstacles and its edge, and takes none but `threads`: else TypeError. ValueError for a
    radius or a factor below 0 or not finite, a resolution that isn't above 0, and an inflation
    radius below the inscribed one, which costmap_2d warns of.
    """
    numbers = (float(number) for number in (inscribed, radius, scaling, resolution))
    costs = cost_table(*numbers)
    limits = Limits(low, high, unknown)
    if not isinstance(grid, Map):
        return costs_of(map_of(grid, limits), edge_of(OPEN if edge is None else edge), costs, threads)
    if edge is not None or limits != Limits():
        raise TypeError("a Map has its edge and its obstacles: give neither edge nor limits")
    with Reading(grid) as held:
        return costs_of(held.memory, held.edge, costs, threads)


def costs_of(memory: Memory, edge: int, costs: Any, threads: int) -> NDArray[np.uint8]:
    """The entries of a table of costs for the squares of all cells' distances."""
    memory = shared(memory, threads)
    height, width = memory.layout.height, memory.layout.width
    out = numpy().empty((height, width), "u1")
    call = getattr(library(), f"clearmap_{memory.kind}_costs")
    asked = *where_of(memory), number_of(EUCLID2), edge, costs.ctypes.data, costs.size

    def work(y0: int, y1: int) -> None:
        rows = out[y0:y1]
        check(call(*asked, y0, y1, rows.ctypes.data, rows.size))

    in_bands(height, threads, work)
    return out  # type: ignore[no-any-return]


@functools.lru_cache(maxsize=8)
def cost_table(inscribed: float, radius: float, scaling: float, resolution: float) -> Any:
    """The costs of the squares 0, 1, 2, .. of distances in cells, up to the last that isn't 0, and
    a 0 for all others."""
    np = numpy()
    _check(inscribed, radius, scaling, resolution)
    reach = math.ceil(min(radius / resolution, LARGEST_SIDE * 2.0))
    metres = np.sqrt(np.arange(min(reach * reach, FARTHEST) + 1, dtype="f8")) * resolution
    powers = -scaling * np.maximum(metres - inscribed, 0)
    costs = 252 * np.exp(powers)
    unsure = (abs(costs - np.rint(costs)) < NEAR_WHOLE) & (costs > 0.5) & (powers != 0)
    costs[unsure] = [252 * math.exp(power) for power in powers[unsure].tolist()]
    costs[metres <= inscribed] = INSCRIBED
    costs[0] = LETHAL
    costs = costs.astype("u1")
    last = int(np.flatnonzero(costs)[-1])
    table = np.append(costs[: last + 1], np.uint8(0))
    table.setflags(write=False)
    return table


def _check(inscribed: float, radius: float, scaling: float, resolution: float) -> None:
    """Refuses what is no inflation."""
    for name, number in (("inscribed", inscribed), ("radius", radius), ("scaling", scaling)):
        if not 0 <= number < math.inf:
            raise ValueError(f"{name} is {number}, where 0 or more is wanted, and finite")
    if not 0 < resolution < math.inf:
        raise ValueError(f"a cell of {resolution} m, where a size above 0 is wanted")
    if radius < inscribed:
        raise ValueError(f"radius is {radius} m, below inscribed, which is {inscribed} m")
