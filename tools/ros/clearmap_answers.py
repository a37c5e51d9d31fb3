"""What is said of plans: an answer as a message that tells which plan, version and map it is of,
and warnings that don't repeat. No ROS is imported, and nothing here is proved.

The message is a `sensor_msgs/PointCloud2` of one point, since this is a type of ROS 1 and of ROS 2
with a header and with numbers: no package has to be built for it, the stamp of the plan pairs it
with the plan, and nothing is parsed.
"""
import math
import re
import time
from typing import Any, Callable, Dict, Optional

import numpy

from clearmap_feed import Clearance
from clearmap_messages import Kinds, cloud_of

SECOND = 10**9  # of a stamp
AGAIN = 10.0  # seconds after which the same is said again
NUMBER = re.compile(r"-?\d[\d.e+-]*")
ANSWER = numpy.dtype(
    [
        ("x", "<f4"),
        ("y", "<f4"),
        ("z", "<f4"),
        ("plan_seq", "<u4"),
        ("metres", "<f8"),
        ("free_metres", "<f8"),
        ("obstacle_x", "<f8"),
        ("obstacle_y", "<f8"),
        ("version", "<u4"),
        ("map_secs", "<u4"),
        ("map_nsecs", "<u4"),
        ("port", "<u4"),
    ]
)

PLACES = ("x", "y", "metres", "free_metres", "obstacle_x", "obstacle_y")  # NaN where there is none


def answer_of(
    kinds: Kinds, plan: Any, found: Optional[Clearance], port: int, map_stamp: int = 0
) -> Any:
    """The answer to a plan, with its header's stamp and frame: that of a plan that isn't taken has
    NaN for metres."""
    point = numpy.zeros(1, ANSWER)
    for name in PLACES:
        point[name] = math.nan
    point["plan_seq"] = getattr(plan.header, "seq", 0)
    if found is not None:
        point["metres"], point["free_metres"] = found.metres, found.free_metres
        point["version"], point["port"] = found.version, port
        point["map_secs"], point["map_nsecs"] = divmod(map_stamp, SECOND)
    if found is not None and found.cell is not None and found.obstacle is not None:
        point["x"], point["y"] = found.cell
        point["obstacle_x"], point["obstacle_y"] = found.obstacle
    header = plan.header
    message = cloud_of(kinds, point.tobytes(), ANSWER, header.frame_id, header.stamp)
    message.is_dense = found is not None and found.cell is not None
    return message


class Quiet:
    """Passes sentences on, but one that differs in nothing but numbers only after some seconds."""

    def __init__(
        self, say: Callable[[str], object], clock: Callable[[], float] = time.monotonic
    ) -> None:
        self._say, self._clock = say, clock
        self._said: Dict[str, float] = {}

    def say(self, sentence: str) -> None:
        """Passes a sentence on, unless it was passed on a short time ago."""
        kind, now = NUMBER.sub("", sentence), self._clock()
        if now - self._said.get(kind, -math.inf) >= AGAIN:
            self._said[kind] = now
            self._say(sentence)

    def forget(self) -> None:
        """Takes what comes next for new, as after a success."""
        self._said.clear()
