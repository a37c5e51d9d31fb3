"""Copies of the pinned version, as a map of this process."""
import re
from typing import Any, Callable, Dict, Iterator, Optional, Tuple, Union

from .errors import ClearmapError, Refused, WrongAnswer
from .grids import OPEN, WALL, Memory, byte_map
from .library import numpy
from .maps import Map, packed
from .requests import LARGEST_SIDE, METRICS, Cell, Request, at

UNTOLD = "the served cells don't tell the server's edge: name it, as edge='open'"
Ask = Callable[[Request[Any]], Any]


def read_dump(text: bytes) -> Memory:
    """The image in a DUMP, as a map in bytes. Anything else is a WrongAnswer. Only numpy reads the
    digits, so that other threads go on meanwhile."""
    np = numpy()
    head = re.match(rb"P1\n(\d{1,4}) (\d{1,4})\n", text)
    if not head:
        raise WrongAnswer(f"a dump starts with {text[:20]!r}")
    width, height = map(int, head.groups())
    if not (1 <= width <= LARGEST_SIDE and 1 <= height <= LARGEST_SIDE):
        raise WrongAnswer(f"a dump of {width} by {height} cells")
    digits = np.frombuffer(text, np.uint8)[head.end() :]
    digits = digits[digits != ord("\n")]
    if digits.size != width * height or ((digits ^ ord("0")) > 1).any():
        raise WrongAnswer(f"a dump of {width} by {height} cells has other digits")
    return byte_map(digits.reshape(height, width), ord("1"), ord("1"))


def copied(
    text: bytes, edge: Optional[str], ask: Ask, untold: Optional[str] = None
) -> Union[Map, ClearmapError]:
    """The dumped version as a map. If no edge is named, asks the server for a cell whose answer
    shows it. If there is no such cell, it is `untold`, or an error if that is None.

    If no cell of the border shows it, no cell of the map does, until some are cleared: a nearest
    obstacle that isn't of the frame is then nearer than the frame."""
    if edge is not None:
        return Map._of(packed(read_dump(text)), edge)
    maps = maps_of(text)
    asked = telling(maps)
    if asked is None:
        return ClearmapError(UNTOLD) if untold is None else maps[untold]
    (x, y), metric = asked
    answer = ask(at(x, y, metric))
    if isinstance(answer, Refused):
        return answer
    for told in maps.values():
        if told.at(x, y, metric) == answer:
            return told
    raise WrongAnswer(f"the server answers {answer} for ({x}, {y}) of the map that it dumps")


def maps_of(text: bytes) -> Dict[str, Map]:
    """The dumped version as a map with each edge, over the same cells."""
    memory = packed(read_dump(text))
    return {edge: Map._of(memory, edge) for edge in (OPEN, WALL)}


def telling(maps: Dict[str, Map]) -> Optional[Tuple[Cell, str]]:
    """A cell of the border and a metric by which the maps answer differently."""
    for x, y in _free_border(maps[OPEN]):
        for metric in METRICS:
            if maps[OPEN].at(x, y, metric) != maps[WALL].at(x, y, metric):
                return (x, y), metric
    return None


def _free_border(area: Map) -> Iterator[Cell]:
    """The free cells of the first and last columns and rows. An obstacle is its own nearest one
    with either edge."""
    width, height = area.size
    free = ~area.grid()
    for x in (0, width - 1):
        yield from ((x, int(y)) for y in free[:, x].nonzero()[0])
    for y in (0, height - 1):
        yield from ((int(x), y) for x in free[y].nonzero()[0])
