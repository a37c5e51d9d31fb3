"""Footprints in metres, on the map of a frame."""
from __future__ import annotations

from typing import TYPE_CHECKING, Any, Iterable, List, Tuple

from . import poses
from .decimals import Number, exact
from .errors import RosError
from .footprints import Footprint, reading
from .held import Reading
from .library import numpy
from .maps import Map
from .ways import Pose, TightestPose

if TYPE_CHECKING:
    import numpy as np
    from numpy.typing import ArrayLike, NDArray

    from .frames import Frame

UPSIDE_DOWN = (
    "row 0 of the map is the lowest one, and that of its frame the top one: "
    "Map.of_occupancy(data, frame) makes a map whose rows are the frame's"
)


def reading_in(frame: Frame, area: Map) -> Reading:
    """A look at the cells of a frame's map as they are now. RosError for a map that isn't of its
    size, and for one whose row 0 is the lowest."""
    look = reading(area)
    if area.size != frame.size:
        raise RosError(f"the map has {area.size} cells, and its frame {frame.size}")
    if area.is_upside_down:
        raise RosError(UPSIDE_DOWN)
    return look


def _in_cells(frame: Frame, x: ArrayLike, y: ArrayLike, theta: ArrayLike) -> List[Any]:
    """Arrays of poses in metres on the map, in cells, y downwards."""
    np = numpy()
    right, above, turn = poses.flat(x, y, theta)
    scale = float(frame.resolution)
    across, up = (right - float(frame.origin_x)) / scale, (above - float(frame.origin_y)) / scale
    is_off = ~((0 <= across) & (across < frame.width) & (0 <= up) & (up < frame.height))
    if is_off.any():
        first = tuple(np.argwhere(is_off)[0])
        raise RosError(f"the point ({right[first]}, {above[first]}) isn't on the map")
    return [across, frame.height - up, -turn]


class FramedFootprint:
    """A robot's outline on the map of a frame, as ROS has it: `Frame.footprint` makes it. Points,
    poses and clearances are in metres. A pose is (x, y, theta) with y upwards, and theta turns
    counterclockwise, from x towards y.

    What hits is as for a `Footprint`, which `in_cells` is: the same outline for poses in cells, as
    `Frame.pose_in_cells` has them.

    RosError for a map that isn't of the frame's size or whose row 0 is the lowest, for a pose off
    the map, and for what is no number. Any threads may use one footprint.
    """

    __slots__ = ("in_cells", "_frame")

    def __init__(self, frame: Frame, points: Iterable[Tuple[Number, Number]]) -> None:
        self._frame = frame
        self.in_cells = Footprint(
            ((float(exact(x)), -float(exact(y))) for x, y in points), float(frame.resolution)
        )

    def hits(self, area: Map, x: Number, y: Number, theta: Number) -> bool:
        """Whether the robot is on an obstacle of the map at this pose."""
        reading_in(self._frame, area)
        return self.in_cells.hits(area, *self._frame.pose_in_cells(x, y, theta))

    def is_clear(self, area: Map, x: Number, y: Number, theta: Number) -> bool:
        """Whether the robot is on no obstacle."""
        return not self.hits(area, x, y, theta)

    def hits_many(
        self, area: Map, x: ArrayLike, y: ArrayLike, theta: ArrayLike
    ) -> NDArray[np.bool_]:
        """`hits` of each pose of three arrays, which numpy broadcasts, as `Footprint.hits_many`.
        Metres are floats here, whereas `hits` takes them for the decimals that they are written as.
        """
        reading_in(self._frame, area)
        return self.in_cells.hits_many(area, *_in_cells(self._frame, x, y, theta))

    def clearance(self, area: Map, x: Number, y: Number, theta: Number) -> float:
        """How far the robot is from the nearest obstacle at this pose, in metres, and never more
        than that: 0 if it hits or touches one, infinite where there is none."""
        reading_in(self._frame, area)
        return self.in_cells.clearance(area, *self._frame.pose_in_cells(x, y, theta))

    def clearance_along(
        self, area: Map, way: Iterable[Iterable[Number]], within: float = 0.125
    ) -> TightestPose:
        """The least clearance on the way through poses, and the pose where it was found, as
        `Footprint.clearance_along` has it; `within` is in cells."""
        reading_in(self._frame, area)
        cells: List[Pose] = [self._frame.pose_in_cells(*pose) for pose in way]
        found, (across, down, turn) = self.in_cells.clearance_along(area, cells, within)
        x, y = self._frame.point((across, down))
        return TightestPose(found, (float(x), float(y), 0.0 - turn))
