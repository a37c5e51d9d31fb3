"""Reads what requests of the page carry, and refuses what can't be answered."""
from typing import Dict, List, Optional, Sequence, Tuple

from aiohttp import web

import clearmap_ros as ros

Cell = Tuple[int, int]
MOST_POINTS = 200  # that are clicked
LONGEST_NAME = 40


class BadRequest(Exception):
    """A request that can't be answered; its text says why."""

    def __init__(self, text: str, status: int = 400) -> None:
        super().__init__(text)
        self.status = status


async def body_of(request: web.Request) -> Dict[str, object]:
    """The request's JSON object."""
    try:
        body = await request.json()
    except (ValueError, RecursionError):  # no JSON, or with numbers or lists that have no end
        body = None
    if not isinstance(body, dict):
        raise BadRequest("the request is no JSON object")
    return body


def metric_of(word: object) -> str:
    """A metric's name."""
    if word not in ros.METRICS:
        raise BadRequest("no such metric")
    return str(word)


def cell_of(words: Sequence[object]) -> Cell:
    """Two whole numbers."""
    if len(words) != 2 or any(type(word) is not int for word in words):
        raise BadRequest("a cell is two whole numbers")
    x, y = words
    return int(x), int(y)  # type: ignore[call-overload]


def cell_of_query(request: web.Request) -> Cell:
    """The cell that the request's address names."""
    words = [request.query.get(name, "") for name in ("x", "y")]
    if not all(word.isascii() and word.isdigit() and len(word) < 6 for word in words):
        raise BadRequest("a cell is two whole numbers")
    return int(words[0]), int(words[1])


def points_of(body: Dict[str, object]) -> List[Cell]:
    """The points of a path."""
    points = body.get("points")
    if not isinstance(points, list) or not 1 <= len(points) <= MOST_POINTS:
        raise BadRequest(f"a path has 1 to {MOST_POINTS} points")
    return [cell_of(point) if isinstance(point, list) else cell_of(()) for point in points]


def page_of(body: Dict[str, object]) -> str:
    """The name that the page gave itself when it was loaded."""
    name = body.get("page", "")
    if not isinstance(name, str) or len(name) > LONGEST_NAME:
        raise BadRequest(f"a page's name is a text of at most {LONGEST_NAME} characters")
    return name


def place_of(body: Dict[str, object]) -> Optional[int]:
    """The place of the rectangle to undo; None is the last one's."""
    place = body.get("place")
    if place is not None and type(place) is not int:
        raise BadRequest("a place of the log is a whole number")
    return place


def rectangle_of(rect: object) -> Sequence[int]:
    """The four sides of a rectangle."""
    sides = rect if isinstance(rect, list) else []
    if len(sides) != 4 or any(type(side) is not int for side in sides):
        raise BadRequest("a rectangle is four whole numbers")
    return sides
