"""A robot's outline as the command line has it, in cells."""
from typing import List, Optional, Sequence, Tuple

import clearmap
import clearmap_ros as ros

Outline = Sequence[Tuple[str, str]]


def corners(outline: Outline, frame: Optional[clearmap.Frame]) -> List[Tuple[float, float]]:
    """The corners around the robot's centre in cells, y downwards."""
    points = [(ros.exact(x), ros.exact(y)) for x, y in outline]
    if frame is None:
        return [(float(x), float(y)) for x, y in points]
    return [(float(x / frame.resolution), float(-y / frame.resolution)) for x, y in points]


def shape(outline: Outline, frame: Optional[clearmap.Frame]) -> clearmap.Footprint:
    """The footprint for poses in cells; its clearances are in the page's unit. RosError for an
    outline that is none."""
    try:
        if frame is not None:
            return frame.footprint(outline).in_cells
        return clearmap.Footprint((float(x), float(y)) for x, y in outline)
    except ValueError as fault:
        raise ros.RosError(f"the footprint: {fault}") from None
