"""A client of `clearmap serve`, a reader of what `clearmap dist` writes, and distances in process.

Python 3.8 or later, with only the standard library; what works in process needs numpy and
libclearmap, and says so at its first use. The server and the library are proved; this package is
not. It is tested against the built server, and against servers that answer wrongly, late or not at
all.

    import clearmap

    with clearmap.Client(7400) as painter:
        painter.paint(10, 10, 20, 12)               # columns 10 to 19 of rows 10 and 11
        painter.publish(collect=True)               # and frees older versions that nobody pins

    with clearmap.Client(7400, size=(40, 20)) as planner, planner.pin() as pinned:
        near = pinned.at(3, 4)                      # None if the map has no obstacle
        tight = pinned.path([(0, 0), (30, 0), (30, 9)])
        free = pinned.is_clear(34, [(0, 0), (30, 0)])

Columns x and rows y count from 0 at the upper left, and are integers: an int, or an integer of
numpy. A distance is in cells: `euclid2` is the square of the Euclidean one, `city` and `chess`
count steps. With `size` a client refuses a server of a map of another size. The server listens on
the loopback interface of its machine only.

In process, over an array of numpy:

    squares = clearmap.distances(grid, low=65)      # uint32; an obstacle is a cell of 65 and more
    area = clearmap.Map(grid, low=65, unknown=-1)   # or one of -1; row 0 is the top one
    near = area.at(3, 4)                            # answers as a pin's

Over a map of ROS, in metres:

    frame = clearmap.Frame(640, 480, 0.05, -8, -5.5)        # cells, metres a cell, and the origin
    area = clearmap.Map.of_occupancy(message.data, frame)   # rows as ROS has them: the lowest first
    room = frame.free_metres(area.at(*frame.cell((-5.97, 1.98))).distance)  # never more than that

    house = clearmap.read_map("house.yaml")         # the yaml, and the image that it names
    area, frame = house.map(), house.frame          # unknown cells are obstacles
    limit = clearmap.clear_distance("0.22", frame.resolution)
    free = area.is_clear(limit, [frame.cell((-5.97, 1.98))])
    robot = frame.footprint([(0.3, 0.2), (-0.3, 0.2), (-0.3, -0.2), (0.3, -0.2)])
    near = robot.clearance(area, -5.97, 1.98, 0.5)  # metres, and the yaw; 0 if it hits
    room = clearmap.plan_clearance(area, frame, [(-5.97, 1.98), (-1.87, 1.83)], radius=0.22)

From other machines, through Redis, where `clearmap-publish` puts each version:

    with clearmap.Follower("redis://store:6379", "yard") as follower:
        version = follower.wait(timeout=10)         # whole, and never older than the one before
        near = version.map.at(3, 4)

A client is one connection, which serves the calls of several threads one after another. A call that
is cut off, by an interrupt or by any exception, closes it: no answer belongs to another question.
"""
from .client import Client
from .errors import (
    AlreadyPinned,
    BadArguments,
    BadImage,
    BadPath,
    BadVersion,
    BlocksFull,
    ClearmapError,
    ConnectionLost,
    Crooked,
    LogFull,
    NoMemory,
    NotPinned,
    NoVersion,
    OutOfRange,
    PlacesUsed,
    Refused,
    RosError,
    TimedOut,
    VersionsFull,
    WrongAnswer,
    WrongMap,
)
from .fields import Field
from .followed import FixedMap, Version
from .follower import Follower
from .footprints import Footprint
from .framed import FramedFootprint
from .frames import Frame, clear_distance
from .grids import OPEN, WALL
from .inflation import inflate
from .library import NO_OBSTACLE, NOWHERE
from .many import Nears
from .maps import Map
from .pinned import Pinned
from .plans import TightestSegment, plan_clearance, read_plan, read_poses
from .requests import (
    CHESS,
    CITY,
    EUCLID2,
    Change,
    Collected,
    Near,
    Published,
    Queries,
    Tightest,
)
from .ros_maps import RosMap, read_map
from .rows import distances
from .signed import gradients, signed_distances
from .slopes import Slopes
from .tables import Entry, read_distances
from .tiles import FARTHER, capped_distances
from .transforms import distance_transform_cdt, distance_transform_edt
from .ways import TightestPose

__version__ = "0.4.0"
__all__ = [
    "Client",
    "Pinned",
    "Queries",
    "Near",
    "Nears",
    "Tightest",
    "Change",
    "Published",
    "Collected",
    "Entry",
    "read_distances",
    "Map",
    "Field",
    "Follower",
    "Version",
    "FixedMap",
    "Footprint",
    "FramedFootprint",
    "TightestPose",
    "RosMap",
    "read_map",
    "Frame",
    "clear_distance",
    "read_plan",
    "read_poses",
    "plan_clearance",
    "TightestSegment",
    "distances",
    "capped_distances",
    "signed_distances",
    "gradients",
    "Slopes",
    "inflate",
    "distance_transform_edt",
    "distance_transform_cdt",
    "NO_OBSTACLE",
    "NOWHERE",
    "FARTHER",
    "OPEN",
    "WALL",
    "ClearmapError",
    "ConnectionLost",
    "TimedOut",
    "WrongAnswer",
    "WrongMap",
    "RosError",
    "NoVersion",
    "BadVersion",
    "Refused",
    "OutOfRange",
    "BlocksFull",
    "VersionsFull",
    "LogFull",
    "NoMemory",
    "NotPinned",
    "AlreadyPinned",
    "BadPath",
    "Crooked",
    "BadArguments",
    "BadImage",
    "PlacesUsed",
    "EUCLID2",
    "CITY",
    "CHESS",
    "__version__",
]
