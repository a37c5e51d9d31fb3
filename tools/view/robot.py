"""A robot that is set down on the map: its outline, whether it hits, and its exact room."""
import math
from typing import Callable, Dict, NamedTuple, Optional, Tuple

from aiohttp import web

import clearmap
import clearmap_ros as ros
import exact
from bodies import BadRequest, Cell, cell_of_query
from following import Answers, Following
from outlines import shape

WITHOUT = "whether it hits isn't known without libclearmap"


class Stand(NamedTuple):
    """Whether a robot hits where it stands, and its room in the page's unit: infinite without an
    obstacle."""

    hits: bool
    free: float


def standing(
    footprint: clearmap.Footprint, pose: Tuple[float, float, float]
) -> Callable[[clearmap.Map], Stand]:
    """The question about a footprint."""

    def question(area: clearmap.Map) -> Stand:
        return Stand(footprint.hits(area, *pose), footprint.clearance(area, *pose))

    return question


def as_disc(
    frame: Optional[clearmap.Frame], cell: Cell, radius: str
) -> Callable[[clearmap.Map], Stand]:
    """The question about a disc around a cell's middle."""
    free = exact.free_along(frame, [cell], radius)

    def question(area: clearmap.Map) -> Stand:
        found = free(area)
        return Stand(found == 0, math.inf if found is None else found)

    return question


def theta_of(request: web.Request) -> float:
    """How far a robot is turned, in radians."""
    try:
        theta = float(request.query.get("theta", "0"))
    except ValueError:
        theta = math.nan
    if not -10 <= theta <= 10:
        raise BadRequest("a robot is turned by radians, -10 to 10")
    return theta


class Robot:
    """The handler of questions about where a robot stands."""

    def __init__(self, following: Following) -> None:
        self.following = following

    async def at(self, request: web.Request) -> web.Response:
        """Whether a robot hits in a cell's middle, turned by radians from x to y, y downwards."""
        cell, theta = cell_of_query(request), theta_of(request)
        shown = self.following.newest()
        if cell[0] >= shown.width or cell[1] >= shown.height:
            raise BadRequest("the robot isn't on the map")
        frame, unit = self.following.frame_of(shown), request.query.get("unit")
        if unit not in (None, "m" if frame else "cells"):
            raise BadRequest(f"the radius is told in {unit}, and the map isn't")
        ask = self.question(cell, theta, request.query.get("radius", ""))

        def question(version: Answers) -> Optional[Stand]:
            return ask(version) if isinstance(version, clearmap.Map) else None

        version, found = await self.following.asked(question)
        return web.json_response({"version": version, **self.told(cell, theta, found)})

    def question(self, cell: Cell, theta: float, radius: str) -> Callable[[clearmap.Map], Stand]:
        """What is asked of a version: of the footprint, or else of a disc."""
        frame = self.following.frame_of(self.following.newest())
        outline = self.following.outline(frame)
        if outline:
            return standing(shape(outline, frame), (cell[0] + 0.5, cell[1] + 0.5, theta))
        try:
            is_one = 0 <= ros.exact(radius) <= 10_000
        except ros.RosError:
            is_one = False
        if not is_one:
            raise BadRequest("A robot without a footprint wants a radius, as 0.22.")
        return as_disc(frame, cell, radius)

    def told(self, cell: Cell, theta: float, found: Optional[Stand]) -> Dict[str, object]:
        """What the page shows of it."""
        frame = self.following.frame_of(self.following.newest())
        said = "robot at cell {}, {}".format(*cell)
        if frame is not None:
            said += " ({:.3f} m, {:.3f} m)".format(*frame.centre(cell))
        if self.following.outline(frame):
            degrees = math.degrees(theta if frame is None else -theta)
            said += f", turned by {round(degrees) % 360}°"
        if found is None:
            return {"hits": None, "length": "", "said": f"{said}: {WITHOUT}"}
        length = room_said(found, exact.unit_of(frame))
        return {"hits": found.hits, "length": length, "said": f"{said}: {length}"}


def room_said(found: Stand, unit: exact.Unit) -> str:
    """Where a robot stands, in words."""
    if found.hits:
        return "it hits"
    if found.free == math.inf:
        return "the map has no obstacle"
    return exact.length_said(found.free, unit) + " free"
