"""What a client's query line asks, and the reply of a map of this process: a server's own words."""
import re
from typing import Callable, List, NamedTuple, Optional, Sequence, Tuple

from clearmap import NO_OBSTACLE, Map, Refused, Tightest, requests
from clearmap.requests import LARGEST_SIDE

METRICS = {name.encode(): name for name in requests.METRICS}
LARGEST = 4_294_967_295  # of a number in a line
NUMBER = re.compile(rb"[0-9]{1,10}")
NONE = b"NONE\n"
SHORT = 4096  # cells of a rectangle or a path that are looked at at once


class Answer(NamedTuple):
    """What answers a query of a map: it raises `Refused` for what the map refuses. A long one is
    worked by a thread, so that others needn't wait for it."""

    of: Callable[[Map], bytes]
    is_long: bool = False


def numbers_of(words: Sequence[bytes]) -> Optional[List[int]]:
    """Words as numbers; None if one is none."""
    if not all(map(NUMBER.fullmatch, words)):
        return None
    numbers = list(map(int, words))
    return numbers if max(numbers, default=0) <= LARGEST else None


def refusal(fault: Refused) -> bytes:
    """The reply of what is refused."""
    return " ".join(map(str, ("ERR", fault.number, fault.name, *fault.details))).encode() + b"\n"


def at_reply(area: Map, metric: bytes, x: bytes, y: bytes) -> bytes:
    """The reply to AT of these words. The map refuses a number too large for a line, too."""
    try:
        near = area._near(int(x), int(y), METRICS[metric])
    except Refused as fault:
        return refusal(fault)
    return NONE if near.dist == NO_OBSTACLE else b"OK %d %d %d\n" % (near.dist, near.x, near.y)


def tightest_text(found: Optional[Tightest], none: bytes = NONE) -> bytes:
    """The reply to RECT, PATH and CLEAROF."""
    if found is None:
        return none
    distance, (x, y), (a, b) = found
    return b"OK %d %d %d %d %d\n" % (distance, x, y, a, b)


def is_long_path(points: List[Tuple[int, int]]) -> bool:
    """Whether a path has many cells."""
    steps = (abs(x - a) + abs(y - b) for (x, y), (a, b) in zip(points, points[1:]))
    return sum(steps) >= SHORT


# ---- each kind of query; None if its arguments have another form


def at(words: Sequence[bytes]) -> Optional[Answer]:
    """AT."""
    numbers = numbers_of(words[1:])
    if numbers is None or len(numbers) != 2:
        return None
    return Answer(lambda area: at_reply(area, *words))


def rect(words: Sequence[bytes]) -> Optional[Answer]:
    """RECT."""
    numbers = numbers_of(words[1:])
    if numbers is None or len(numbers) != 4:
        return None
    (x0, y0, x1, y1), metric = numbers, METRICS[words[0]]
    if not (x0 < x1 <= LARGEST_SIDE and y0 < y1 <= LARGEST_SIDE):
        return None
    is_long = (x1 - x0) * (y1 - y0) > SHORT
    return Answer(lambda area: tightest_text(area.rect(x0, y0, x1, y1, metric)), is_long)


def path(words: Sequence[bytes]) -> Optional[Answer]:
    """PATH."""
    numbers = numbers_of(words[1:])
    if numbers is None or len(numbers) % 2:
        return None
    points, metric = list(zip(numbers[::2], numbers[1::2])), METRICS[words[0]]
    return Answer(lambda area: tightest_text(area.path(points, metric)), is_long_path(points))


def clear_of(words: Sequence[bytes]) -> Optional[Answer]:
    """CLEAROF."""
    numbers = numbers_of(words[1:])
    if numbers is None or len(numbers) % 2 == 0:
        return None
    points, metric = list(zip(numbers[1::2], numbers[2::2])), METRICS[words[0]]
    limit = numbers[0]
    return Answer(
        lambda area: tightest_text(area.clear_of(limit, points, metric), b"OK CLEAR\n"),
        is_long_path(points),
    )


KINDS = {b"AT": at, b"RECT": rect, b"PATH": path, b"CLEAROF": clear_of}


def asked_of(verb: bytes, words: Sequence[bytes]) -> Optional[Answer]:
    """What answers a query; None if its arguments have another form."""
    if not words or words[0] not in METRICS:
        return None
    return KINDS[verb](words)


def answered(asked: Answer, area: Map) -> bytes:
    """The reply of a map to a query."""
    try:
        return asked.of(area)
    except Refused as fault:
        return refusal(fault)
