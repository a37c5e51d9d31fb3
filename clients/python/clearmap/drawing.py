"""The calls that draw shapes, of what has a map's cells."""
from __future__ import annotations

from typing import TYPE_CHECKING, Iterable, Optional

from .asking import outside
from .errors import Size
from .grids import map_of
from .limits import Limits
from .requests import Request, Whole, whole
from .shapes import Real, Region, region_of_cells, region_of_disc, region_of_polygon

if TYPE_CHECKING:
    from numpy.typing import ArrayLike


class Drawing:
    """Shapes that become obstacles, or free: of each the cells on the map, at once."""

    @property
    def size(self) -> Size:
        """Columns and rows."""
        raise NotImplementedError

    def _draw_region(self, region: Region, full: bool) -> None:
        """Draws the cells of a region, which has some."""
        raise NotImplementedError

    def _put_region(self, region: Region) -> None:
        """Sets the cells of a region's rectangle to its mask."""
        raise NotImplementedError

    def paint_cells(self, xs: ArrayLike, ys: ArrayLike) -> None:
        """Makes the cells of two arrays obstacles, columns and rows, which numpy broadcasts. One
        that isn't on the map is refused as by `at_many`; then none is drawn."""
        self._draw_shape(region_of_cells(self.size, xs, ys), True)

    def clear_cells(self, xs: ArrayLike, ys: ArrayLike) -> None:
        """Makes them free; refused as `paint_cells` is."""
        self._draw_shape(region_of_cells(self.size, xs, ys), False)

    def paint_disc(self, x: Real, y: Real, radius: Real) -> None:
        """Makes each cell an obstacle whose square meets the inside of the disc around (x, y), in
        cells, so that cell (3, 4) is the square from (3, 4) to (4, 5): its centre and its radius
        are rounded to 1/65536 of a cell, and touching isn't meeting. ValueError for a radius that
        isn't above 0, and for a disc over 16384 cells off."""
        self._draw_shape(region_of_disc(self.size, x, y, radius), True)

    def clear_disc(self, x: Real, y: Real, radius: Real) -> None:
        """Makes them free; refused as `paint_disc` is."""
        self._draw_shape(region_of_disc(self.size, x, y, radius), False)

    def paint_polygon(self, points: Iterable[Iterable[Real]]) -> None:
        """Makes each cell an obstacle whose square meets the inside of the convex polygon with
        these corners, in cells, rounded to 1/65536 of a cell: touching isn't meeting. ValueError
        for points that no `Footprint` around their middle can have, and for one over 16384 cells
        off."""
        self._draw_shape(region_of_polygon(self.size, points), True)

    def clear_polygon(self, points: Iterable[Iterable[Real]]) -> None:
        """Makes them free; refused as `paint_polygon` is."""
        self._draw_shape(region_of_polygon(self.size, points), False)

    def _draw_shape(self, region: Region, full: bool) -> None:
        if region.mask.any():
            self._draw_region(region, full)

    def stamp(
        self,
        x: Whole,
        y: Whole,
        grid: object,
        *,
        low: Optional[float] = None,
        high: Optional[float] = None,
        unknown: Optional[float] = None,
    ) -> None:
        """Sets the cells from (x, y) on to those of a grid, as `Map` takes it, at once. It lies on
        the map as a whole, else OutOfRange."""
        region = region_of_grid(self.size, whole(x), whole(y), grid, Limits(low, high, unknown))
        self._put_region(region)


def region_of_grid(size: Size, x: int, y: int, grid: object, limits: Limits) -> Region:
    """A grid at a place on a map of this size."""
    from .maps import packed, unpacked  # which has calls of this module

    memory = packed(map_of(grid, limits))
    height, width = memory.layout.height, memory.layout.width
    corners = x, y, x + width, y + height
    if not (x >= 0 and y >= 0 and corners[2] <= size[0] and corners[3] <= size[1]):
        line = f"a grid of {width} by {height} from ({x}, {y}) on"
        raise outside(corners, Request(line, lambda *_: None), size)
    return Region(x, y, unpacked(memory, 0, height))
