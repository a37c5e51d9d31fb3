"""What the page asks of a version: a cell, a path, and how much room a robot needs."""
import asyncio
import json
import math
from fractions import Fraction
from typing import TYPE_CHECKING, Callable, Dict, List, NamedTuple, Optional, Sequence

from aiohttp import web

import clearmap
import clearmap_ros as ros
import exact
import paths
import picture
from bodies import BadRequest, Cell, body_of, cell_of_query, metric_of, points_of
from following import Answers, Following
from wording import counted

if TYPE_CHECKING:
    from paths import Walk

MOST_RADIUS = 10_000  # cells
UNKNOWN = "unknown, counted as an obstacle"


class Way(NamedTuple):
    """What a version answers about a path: its tightest cell, the first without room by the safe
    rule, and the exact room."""

    tight: Optional[clearmap.Tightest]
    near: Optional[clearmap.Tightest]
    free: Optional[float] = None


Free = Callable[[clearmap.Map], Optional[float]]


def way(
    corners: Sequence[Cell], metric: str, needed: Optional[int], free: Free
) -> Callable[[Answers], Way]:
    """The question about a path, of any length. A version of this process is asked for the exact
    room too, where the metric is straight."""

    def question(version: Answers) -> Way:
        pieces = list(ros.pieces(corners))
        found = [version.path(piece, metric) for piece in pieces]
        tight = min((it for it in found if it), key=lambda it: it.distance, default=None)
        if needed is None:
            return Way(tight, None)
        nears = (version.clear_of(needed, piece, metric) for piece in pieces)
        near = next((it for it in nears if it), None)
        is_exact = isinstance(version, clearmap.Map) and metric == clearmap.EUCLID2
        return Way(tight, near, free(version) if is_exact else None)  # type: ignore[arg-type]

    return question


def tight_parts(made: picture.Picture, cells: "Walk", needed: int) -> List[List[Cell]]:
    """The parts of a path without room by the safe rule, each by its corners."""
    runs = picture.tight_runs(cells, made.distance(cells), needed)
    return [paths.corners(run) for run in runs]


def root_above(number: int) -> Fraction:
    """The square root of a whole number, rounded up to a billionth."""
    below = ros.root_below(number)
    return below if below * below == number else below + Fraction(1, 10**9)


def cells_below(distance: int, metric: str) -> Fraction:
    """A distance in cells or steps, rounded down."""
    return ros.root_below(distance) if metric == "euclid2" else Fraction(distance)


def cells_above(distance: int, metric: str) -> Fraction:
    """The same, rounded up."""
    return root_above(distance) if metric == "euclid2" else Fraction(distance)


def label(length: str) -> str:
    """A length as it stands on the map."""
    return "unknown" if length == UNKNOWN else length


class Asking:
    """The handlers of questions. One path is worked out at a time, off the event loop: several, of
    many cells each, would leave no thread for anything else."""

    def __init__(self, following: Following) -> None:
        self.following = following
        self.walking = asyncio.Lock()

    # ---- words

    def length(self, distance: int, metric: str, cell: Cell) -> str:
        """A cell's distance in cells or steps, and in metres if they are known; metres are rounded
        down."""
        if distance == 0:
            return UNKNOWN if self.is_unknown(cell) else "in an obstacle"
        frame = self.following.frame_of(self.following.newest())
        is_straight = metric == "euclid2"
        words = f"{math.sqrt(distance):.2f} cells" if is_straight else counted(distance, "step")
        if frame is None:
            return words
        unit = exact.unit_of(frame)
        return f"{words}, {unit.told(unit.below(cells_below(distance, metric)))} {unit.name}"

    def needed_length(self, needed: int, metric: str) -> str:
        """How far CLEAROF wants a cell to be, rounded up."""
        frame = self.following.frame_of(self.following.newest())
        unit = exact.unit_of(frame, metric)
        length = f"{unit.told(unit.above(cells_above(needed, metric)))} {unit.name}"
        if frame is None and metric != "euclid2":
            length = counted(needed, "step")
        return f"{length} needed, middle to middle"

    def share(self, distance: int, needed: int, metric: str) -> str:
        """A distance of the needed one: rounded down, and that up, unless it is enough."""
        unit = exact.unit_of(self.following.frame_of(self.following.newest()), metric)
        there = unit.below(cells_below(distance, metric))
        wanted = unit.above(cells_above(needed, metric))
        if distance >= needed:
            wanted = min(wanted, there)
        return f"{unit.told(there)} of {unit.told(wanted)} {unit.name}"

    def is_unknown(self, cell: Cell) -> bool:
        """Whether the yaml's image has a cell, and doesn't know it."""
        known, frame = self.following.wanted.map, self.following.frame_of(self.following.newest())
        if known is None or frame is None:
            return False
        has_it = 0 <= cell[0] < frame.width and 0 <= cell[1] < frame.height
        return has_it and bool(known.unknown[cell[1], cell[0]])

    def place(self, cell: Cell) -> str:
        """A cell, and its centre in metres if they are known."""
        frame = self.following.frame_of(self.following.newest())
        metres = " ({:.3f} m, {:.3f} m)".format(*frame.centre(cell)) if frame else ""
        return f"cell {cell[0]}, {cell[1]}{metres}"

    # ---- a cell

    async def at(self, request: web.Request) -> web.Response:
        """The nearest obstacle of a cell."""
        metric = metric_of(request.query.get("metric"))
        cell = cell_of_query(request)
        version, near = await self.following.asked(lambda it: it.at(*cell, metric))
        told: Dict[str, object] = {"version": version}
        if near is None:
            told["said"] = f"{self.place(cell)}: the map has no obstacle"
        else:
            told.update(distance=near.distance, obstacle=near.obstacle)
            length = self.length(near.distance, metric, cell)
            told["length"] = label(length)
            whose = " from the obstacle at {}, {}".format(*near.obstacle) if near.distance else ""
            told["said"] = f"{self.place(cell)}: {length}{whose}"
        return web.json_response(told)

    # ---- a path

    async def path(self, request: web.Request) -> web.Response:
        """The tightest cell along points that were clicked, and where a robot may not fit."""
        body = await body_of(request)
        metric, points = metric_of(body.get("metric")), points_of(body)
        radius = body.get("radius")
        needed = self.needed(radius, metric, body.get("unit"))
        frame = self.following.frame_of(self.following.newest())
        async with self.walking:
            free = exact.free_along(frame, points, str(radius))
            told = await self.walked(points, metric, needed, free)
            text = await asyncio.to_thread(json.dumps, told)
        return web.Response(text=text, content_type="application/json")

    async def walked(
        self, points: Sequence[Cell], metric: str, needed: Optional[int], free: Free
    ) -> Dict[str, object]:
        """What is told of a path."""
        shown = self.following.newest()
        if not all(0 <= x < shown.width and 0 <= y < shown.height for x, y in points):
            raise BadRequest("a point isn't on the map")
        cells = await asyncio.to_thread(paths.walk, points)
        corners = await asyncio.to_thread(paths.corners, cells)
        version, found = await self.following.asked(way(corners, metric, needed, free))
        told = {"version": version, "corners": corners, **self.answer(found, needed, metric)}
        told["long"] = self.long(points)
        if found.near is not None and version == shown.version:
            made = await self.following.picture_of(shown, metric)
            told["tight"] = await asyncio.to_thread(tight_parts, made, cells, needed or 0)
        return told

    def long(self, points: Sequence[Cell]) -> str:
        """How long the straight lines between the points are, in metres if they are known."""
        frame = self.following.frame_of(self.following.newest())
        cells = sum(math.dist(*pair) for pair in zip(points, points[1:]))
        length = f"{cells * float(frame.resolution):.2f} m" if frame else f"{cells:.2f} cells"
        return f"{counted(len(points), 'point')}, {length} long"

    def answer(self, found: Way, needed: Optional[int], metric: str) -> Dict[str, object]:
        """What the page shows of a path's answers."""
        tight, near, free = found
        if tight is None:
            return {"clear": True, "said": "the map has no obstacle"}
        length = self.length(tight.distance, metric, tight.cell)
        if needed is not None and tight.distance:
            length = self.share(tight.distance, needed, metric)
        told: Dict[str, object] = {"tightest": tight.cell, "obstacle": tight.obstacle}
        told.update(distance=tight.distance, length=label(length))
        said = f"tightest at {self.place(tight.cell)}: {length}"
        if needed is not None:
            told["clear"] = near is None
            said += "; the robot has room" if near is None else "; may not fit (safe rule)"
            unit = exact.unit_of(self.following.frame_of(self.following.newest()))
            said += "" if free is None else f"; {exact.free_said(free, unit)}"
        return {**told, "said": said}

    # ---- a robot's radius

    async def room(self, request: web.Request) -> web.Response:
        """How far a cell has to be from obstacles for a robot, as CLEAROF takes it."""
        metric = metric_of(request.query.get("metric"))
        radius = request.query.get("radius", "")
        frame = self.following.frame_of(self.following.newest())
        needed = self.needed(radius, metric, request.query.get("unit"))
        if needed is None:
            return web.json_response({"needed": None, "cells": None, "said": ""})
        cells = float(radius) / float(frame.resolution if frame else 1)
        said = self.needed_length(needed, metric)
        return web.json_response({"needed": needed, "cells": cells, "said": said})

    def needed(self, radius: object, metric: str, unit: object) -> Optional[int]:
        """The d of CLEAROF for a robot's radius, in metres if they are known, otherwise in cells;
        against whole cells, which is the safe one. A radius in the wrong unit is refused."""
        if radius in (None, ""):
            return None
        frame = self.following.frame_of(self.following.newest())
        if unit not in (None, "m" if frame else "cells"):
            raise BadRequest(f"the radius is told in {unit}, and the map isn't")
        resolution = frame.resolution if frame else Fraction(1)
        try:
            cells = float(str(radius)) / float(resolution)
        except ValueError:
            cells = -1.0
        if not cells >= 0:
            word = str(radius)[:40]
            raise BadRequest(f"a radius is a number from 0 on, as 0.22, and '{word}' is none")
        if cells > MOST_RADIUS:
            raise BadRequest("the radius is larger than any map")
        try:
            return ros.clear_distance(str(radius), resolution, metric)
        except ros.RosError as fault:
            raise BadRequest(str(fault)) from None
