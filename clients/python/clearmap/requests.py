"""Request lines, what may stand in them, and how their replies are read. Nothing is sent here."""
import operator
import re
from typing import (
    Callable,
    Generic,
    Iterable,
    List,
    NamedTuple,
    Optional,
    SupportsIndex,
    Tuple,
    TypeVar,
)

from .errors import BadPath, OutOfRange, WrongAnswer

EUCLID2, CITY, CHESS = "euclid2", "city", "chess"
METRICS = (EUCLID2, CITY, CHESS)
Cell = Tuple[int, int]
Whole = SupportsIndex  # what `whole` takes: an int, or an integer of numpy
Points = Iterable[Tuple[Whole, Whole]]  # cells, as calls take them
T = TypeVar("T")
T_co = TypeVar("T_co", covariant=True)

LONGEST_LINE = 16_384  # bytes of a request line, without its line feed
LONGEST_PATH = 1000  # points
LARGEST_SIDE = 4096  # cells
END = 1 << 32  # numbers of a line are below it
LARGEST_DUMP = 17_100_000  # bytes; the text of the largest map is below it


class Near(NamedTuple):
    """A distance, and the obstacle it is to.

    On a map with a wall the obstacle may be on the frame: at -1, or one cell after the last.
    """

    distance: int
    obstacle: Cell


class Tightest(NamedTuple):
    """The cell that was found, its distance, and the obstacle it is to, which may be on the frame
    of a map with a wall."""

    distance: int
    cell: Cell
    obstacle: Cell


class Change(NamedTuple):
    """An accepted paint, clear or stamp: its place in the log, and how many cells changed."""

    place: int
    changed: int


class Published(int):
    """An accepted publish: the number of its version, which it is, and its place in the log. The
    place is that of the last change and 1 more if nobody gave a command in between. `floor` is the
    least version that is kept, where a collect followed."""

    place: int
    floor: Optional[int]

    def __new__(cls, place: int, version: int, floor: Optional[int] = None) -> "Published":
        made = super().__new__(cls, version)
        made.place, made.floor = place, floor
        return made

    @property
    def version(self) -> int:
        """The number, as an int alone."""
        return int(self)

    def __getnewargs__(self) -> Tuple[int, int, Optional[int]]:  # type: ignore[override]
        return self.place, self.version, self.floor

    def __repr__(self) -> str:
        kept = "" if self.floor is None else f", floor={self.floor}"
        return f"Published(place={self.place}, version={self.version}{kept})"

    def __str__(self) -> str:
        return str(self.version)


class Collected(NamedTuple):
    """An accepted collect: its place, the least version that is kept, and how many blocks came
    back."""

    place: int
    floor: int
    freed: int


class Request(Generic[T_co]):
    """A line, the bytes that it counts, and how its reply is read."""

    __slots__ = ("line", "read", "data")

    def __init__(self, line: str, read: Callable[[str, str], T_co], data: bytes = b"") -> None:
        self.line, self.read, self.data = line, read, data

    def sent(self) -> bytes:
        """What is sent."""
        return self.line.encode("ascii") + b"\n" + self.data


def whole(number: object) -> int:
    """An integer: an int, or what stands for one exactly, as numpy's integers do."""
    try:
        return int(operator.index(number))  # type: ignore[arg-type]
    except TypeError:
        kind = type(number).__name__
        raise TypeError(f"{number!r:.80} is a {kind}, where a whole number is wanted") from None


def chosen(name: str, value: object) -> bool:
    """A bool, or a number that equals one. A text would count as True, 'false' too."""
    if getattr(value, "shape", ()) != () or value not in (True, False):
        raise TypeError(f"{name} is {value!r:.80}, where a bool is wanted")
    return bool(value)


def bytes_of(image: object) -> bytes:
    """The bytes of any buffer, by rows if it has several dimensions."""
    try:
        return memoryview(image).tobytes()  # type: ignore[arg-type]
    except TypeError:
        kind = type(image).__name__
        raise TypeError(f"a {kind} is no image: bytes, or a buffer of them, is wanted") from None


def checked(line: str) -> str:
    """A line that the server reads as one line: a longer one would end the connection."""
    if len(line) > LONGEST_LINE:
        raise ValueError(f"a line of {len(line)} bytes, where {LONGEST_LINE} are the most")
    return line


def metric_of(metric: str) -> str:
    """A metric's name."""
    if metric not in METRICS:
        raise ValueError(f"'{metric}' is no metric: euclid2, city or chess")
    return METRICS[METRICS.index(metric)]


# ---- replies


def _numbers(count: int, signed: int = 0) -> Callable[[str, str], Tuple[int, ...]]:
    """A reader of `OK` and this many numbers, the last of which may have a sign: the coordinates of
    an obstacle."""
    form = re.compile("OK" + r" (\d{1,10})" * (count - signed) + r" (-?\d{1,10})" * signed)

    def read(reply: str, line: str) -> Tuple[int, ...]:
        match = form.fullmatch(reply)
        if not match:
            raise wrong(reply, line)
        return tuple(map(int, match.groups()))

    return read


def wrong(reply: str, line: str) -> WrongAnswer:
    """The error for a reply that can't belong to a line."""
    return WrongAnswer(f"'{reply}' answers '{line[:80]}'")


_one, _two, _three = _numbers(1), _numbers(2), _numbers(3)
_obstacle_of, _cell_and_obstacle = _numbers(3, signed=2), _numbers(5, signed=2)


def read_one(reply: str, line: str) -> int:
    """The only number of a reply."""
    return _one(reply, line)[0]


def _read_near(reply: str, line: str) -> Optional[Near]:
    """The answer of AT."""
    if reply == "NONE":
        return None
    distance, x, y = _obstacle_of(reply, line)
    return Near(distance, (x, y))


def _read_tightest(reply: str, line: str) -> Optional[Tightest]:
    """The answer of RECT and PATH."""
    if reply == "NONE":
        return None
    distance, x, y, ox, oy = _cell_and_obstacle(reply, line)
    return Tightest(distance, (x, y), (ox, oy))


def _read_clear(reply: str, line: str) -> Optional[Tightest]:
    """The answer of CLEAROF, which is never NONE."""
    if reply == "NONE":
        raise wrong(reply, line)
    return None if reply == "OK CLEAR" else _read_tightest(reply, line)


def _read_change(reply: str, line: str) -> Change:
    """The answer of PAINT, CLEAR and STAMP."""
    return Change(*_two(reply, line))


def _read_published(reply: str, line: str) -> Published:
    """The answer of PUBLISH."""
    return Published(*_two(reply, line))


def _read_collected(reply: str, line: str) -> Collected:
    """The answer of COLLECT."""
    return Collected(*_three(reply, line))


# ---- requests

PIN = Request("PIN", read_one)
UNPIN = Request("UNPIN", read_one)
DUMP = Request("DUMP", read_one)
PUBLISH = Request("PUBLISH", _read_published)
REVERT = Request("REVERT", read_one)
COLLECT = Request("COLLECT", _read_collected)
CHECKPOINT = Request("CHECKPOINT", read_one)


def _line(name: str, *numbers: object) -> str:
    """A command and its numbers."""
    return checked(" ".join([name, *(str(whole(number)) for number in numbers)]))


def draw(name: str, x0: Whole, y0: Whole, x1: Whole, y1: Whole) -> Request[Change]:
    """PAINT or CLEAR."""
    return Request(_line(name, x0, y0, x1, y1), _read_change)


def stamp(x: Whole, y: Whole, image: object) -> Request[Change]:
    """STAMP, with the bytes that it counts. What would be refused before them is refused here."""
    column, row, data = whole(x), whole(y), bytes_of(image)
    if len(data) > LARGEST_DUMP:
        raise ValueError(f"an image of {len(data)} bytes, where {LARGEST_DUMP} are the most")
    if not (0 <= column < 10**10 and 0 <= row < 10**10):  # else its bytes would be read as lines
        raise ValueError(f"({column}, {row}) is no cell")
    line = _line("STAMP", column, row, len(data))
    if max(column, row) >= LARGEST_SIDE:
        raise OutOfRange(1, "OutOfRange", (), line)
    return Request(line, _read_change, data)


def at(x: Whole, y: Whole, metric: str = EUCLID2) -> Request[Optional[Near]]:
    """AT."""
    return Request(_line(f"AT {metric_of(metric)}", x, y), _read_near)


def rect(
    x0: Whole, y0: Whole, x1: Whole, y1: Whole, metric: str = EUCLID2
) -> Request[Optional[Tightest]]:
    """RECT."""
    return Request(_line(f"RECT {metric_of(metric)}", x0, y0, x1, y1), _read_tightest)


def _coordinates(points: Points) -> List[Whole]:
    """The coordinates of a path. A path that is too long for a line is refused as the server
    refuses it."""
    cells = list(points)
    if len(cells) > LONGEST_PATH:
        raise BadPath(8, "BadPath", (), f"a path of {len(cells)} points")
    return [number for x, y in cells for number in (x, y)]


def path(points: Points, metric: str = EUCLID2) -> Request[Optional[Tightest]]:
    """PATH."""
    return Request(_line(f"PATH {metric_of(metric)}", *_coordinates(points)), _read_tightest)


def clear_of(
    distance: Whole, points: Points, metric: str = EUCLID2
) -> Request[Optional[Tightest]]:
    """CLEAROF."""
    numbers = _coordinates(points)
    return Request(_line(f"CLEAROF {metric_of(metric)}", distance, *numbers), _read_clear)


class Queries:
    """Queries for `Pinned.ask`, which sends them together: each method adds one, and their answers
    come back in this order."""

    def __init__(self) -> None:
        self._requests: List[Request[object]] = []

    def at(self, x: Whole, y: Whole, metric: str = EUCLID2) -> "Queries":
        """As `Pinned.at`."""
        return self._add(at(x, y, metric))

    def rect(
        self, x0: Whole, y0: Whole, x1: Whole, y1: Whole, metric: str = EUCLID2
    ) -> "Queries":
        """As `Pinned.rect`."""
        return self._add(rect(x0, y0, x1, y1, metric))

    def path(self, points: Points, metric: str = EUCLID2) -> "Queries":
        """As `Pinned.path`."""
        return self._add(path(points, metric))

    def clear_of(self, distance: Whole, points: Points, metric: str = EUCLID2) -> "Queries":
        """As `Pinned.clear_of`."""
        return self._add(clear_of(distance, points, metric))

    def _add(self, request: Request[object]) -> "Queries":
        self._requests.append(request)
        return self
