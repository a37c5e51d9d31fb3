"""Messages of a served version, for a node of ROS 1 or of ROS 2, whose classes differ only in how a
time is made. No ROS is imported, and nothing here is proved.

All messages of a version have one stamp. A map tells in `info.map_load_time` which version it is
of, as whole seconds: `header.seq` is counted by rospy, and ROS 2 has none.
"""
from dataclasses import dataclass
from typing import TYPE_CHECKING, Any, Callable, Tuple

import numpy

import clearmap_costmap as costmaps
from clearmap_grid import Place
from clearmap_follow import Shown
from clearmap import RosError

if TYPE_CHECKING:
    from clearmap_costmap import Values

Layer = Tuple[str, str]
LAYERS: Tuple[Layer, ...] = (
    ("map", "grid"),
    ("costmap", "grid"),
    ("distance", "cloud"),
    ("version", "number"),
)
SECONDS = 2**31  # that ROS 2 can count
KINDS_OF_FIELDS = {"<f4": 7, "<f8": 8, "<u4": 6}  # FLOAT32, FLOAT64 and UINT32 of PointField


@dataclass(frozen=True)
class Kinds:
    """The classes of OccupancyGrid, PointCloud2, PointField and UInt64, and what makes a time of
    whole seconds."""

    grid: Callable[[], Any]
    cloud: Callable[[], Any]
    field: Callable[..., Any]
    number: Callable[..., Any]
    seconds: Callable[[int], Any]


@dataclass(frozen=True)
class Painter:
    """Makes the messages of versions."""

    kinds: Kinds
    inflation: costmaps.Inflation
    unknown_is_free: bool = False
    points: int = 250_000

    def __post_init__(self) -> None:
        """Refuses numbers that make no sense."""
        self.inflation.numbers()
        if type(self.points) is not int or self.points < 1:
            raise RosError(f"'{self.points}' is no distance_points: a whole number from 1 on")

    def layers(self, shown: Shown, stamp: Any) -> Tuple[Any, ...]:
        """One message for each of LAYERS; the last one is the version's number."""
        place, squares = shown.place, shown.found
        unknown = costmaps.unknown_of(place.unknown, self.unknown_is_free)
        values = self.inflation.values(place.frame.resolution)
        grids = costmaps.occupancy(squares, unknown), costmaps.costs(squares, values, unknown)
        cloud = costmaps.cloud(squares, place.frame, self.points)
        return (
            *(self.grid(cells, place, shown.version, stamp) for cells in grids),
            cloud_of(self.kinds, cloud, costmaps.POINT, place.frame_id, stamp),
            self.kinds.number(data=shown.version),
        )

    def grid(self, cells: "Values", place: Place, version: int, stamp: Any) -> Any:
        """A map of values by rows from the top."""
        message, frame = self.kinds.grid(), place.frame
        message.header.stamp, message.header.frame_id = stamp, place.frame_id
        info = message.info
        info.map_load_time = self.kinds.seconds(version % SECONDS)
        info.resolution = float(frame.resolution)
        info.width, info.height = frame.size
        info.origin.position.x = float(frame.origin_x)
        info.origin.position.y = float(frame.origin_y)
        info.origin.orientation.w = 1.0
        message.data = costmaps.from_below(cells)
        return message


def cloud_of(
    kinds: Kinds, points: bytes, form: "numpy.dtype[Any]", frame_id: str, stamp: Any
) -> Any:
    """Points in a row, whose numbers lie as a type of numpy has them."""
    message = kinds.cloud()
    message.header.stamp, message.header.frame_id = stamp, frame_id
    parts = (form.fields or {}).items()
    message.fields = [
        kinds.field(name=name, offset=part[1], datatype=KINDS_OF_FIELDS[part[0].str], count=1)
        for name, part in parts
    ]
    message.height, message.width = 1, len(points) // form.itemsize
    message.point_step, message.row_step = form.itemsize, len(points)
    message.data, message.is_dense, message.is_bigendian = points, True, False
    return message
