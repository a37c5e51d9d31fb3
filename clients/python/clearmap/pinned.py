"""A pin: the queries of planners, on one version that stays as it is."""
import math
from typing import (
    TYPE_CHECKING,
    Any,
    Callable,
    List,
    Literal,
    NoReturn,
    Optional,
    Sequence,
    Tuple,
    Union,
    overload,
)

from . import requests
from .batches import BATCH, Batch
from .connection import Connection
from .copies import copied
from .errors import ClearmapError, ConnectionLost, OutOfRange, Refused, WrongAnswer, raised
from .grids import OPEN, edge_of
from .library import library, numpy
from .maps import Map
from .requests import (
    EUCLID2,
    LARGEST_DUMP,
    LARGEST_SIDE,
    LONGEST_PATH,
    Near,
    Points,
    Queries,
    Request,
    T,
    Tightest,
    Whole,
    whole,
)

if TYPE_CHECKING:
    from numpy.typing import ArrayLike

    from .client import Client
    from .many import Nears
    from .rows import Distances, Indices, Nearest, Obstacles


class Pinned:
    """A pin of one version, which stays as it is whatever is published. `with client.pin() as
    pinned:` unpins at the end.

    Several threads may use one pin, as they may use one client; `unpin` and `renew` affect all of
    them. A pin belongs to its connection, and is lost with it: a client that reconnects pins again.
    Errors are those of a `Client`; a pin that was left raises ClearmapError.
    """

    def __init__(
        self, client: "Client", version: int, connection: Optional[Connection] = None
    ) -> None:
        self._client, self._connection = client, connection or client._connection
        self.version, self._is_left = version, False

    def __enter__(self) -> "Pinned":
        return self

    def __exit__(self, kind: object, *_: object) -> None:
        if self._is_left or not self._connection.is_open():
            return
        try:
            self.unpin()
        except ClearmapError:
            if kind is None:  # else what was raised first goes on
                raise

    def __reduce__(self) -> NoReturn:
        raise TypeError("a Pinned belongs to its connection, which can't be copied or pickled")

    def _exchange(self, work: Callable[[Connection], Union[T, ClearmapError]]) -> T:
        """Does what is asked of this pin, only on its own connection."""

        def held(connection: Connection) -> Union[T, ClearmapError]:
            return ClearmapError("the pin was left") if self._is_left else work(connection)

        if not self._connection.is_open() and self._connection.is_of_this_process():
            raise ConnectionLost("the connection is closed, and its pin lost: pin again")
        return raised(self._client._exchange(held, self._connection))

    def _ask(self, request: Request[T]) -> T:
        """One request and its reply."""
        return self._exchange(lambda connection: connection.ask(request))

    def unpin(self) -> None:
        """Unpins. Later calls are refused here, and not sent."""

        def work(connection: Connection) -> Union[int, Refused]:
            self._is_left = True
            return connection.ask(requests.UNPIN)

        self._exchange(work)

    def renew(self) -> int:
        """Moves the pin to the newest version, and returns its number. Nothing else reports a
        publish. If the server refuses the new pin, the old one is gone."""

        def work(connection: Connection) -> Union[int, Refused]:
            self._is_left = True
            left = connection.ask(requests.UNPIN)
            if isinstance(left, Refused):
                return left
            version = connection.ask(requests.PIN)
            if not isinstance(version, Refused):
                self.version, self._is_left = version, False
            return version

        return self._exchange(work)

    def at(self, x: Whole, y: Whole, metric: str = EUCLID2) -> Optional[Near]:
        """The nearest obstacle of a cell. None if the map has none; OutOfRange for a cell that
        isn't on it. The distance is in cells, with euclid2 a square."""
        return self._ask(requests.at(x, y, metric))

    def rect(
        self, x0: Whole, y0: Whole, x1: Whole, y1: Whole, metric: str = EUCLID2
    ) -> Optional[Tightest]:
        """The first cell, in row-major order, with the least distance in columns x0 to x1 - 1 of
        rows y0 to y1 - 1. None if the map has no obstacle."""
        return self._ask(requests.rect(x0, y0, x1, y1, metric))

    def path(self, points: Points, metric: str = EUCLID2) -> Optional[Tightest]:
        """The first cell along a path with the least distance. A path has 1 to 1000 points, else
        BadPath, each in the row or column of the one before, else Crooked. None as in `rect`.
        """
        return self._ask(requests.path(points, metric))

    def clear_of(
        self, distance: Whole, points: Points, metric: str = EUCLID2
    ) -> Optional[Tightest]:
        """None if each cell of the path has at least this distance, otherwise the first that
        hasn't: `is_clear` says whether the path is clear. With euclid2 the distance is a square.
        With 0 every path is clear, even one through obstacles."""
        return self._ask(requests.clear_of(distance, points, metric))

    def is_clear(self, distance: Whole, points: Points, metric: str = EUCLID2) -> bool:
        """Whether each cell of the path has at least this distance, as `clear_of` has it."""
        return self.clear_of(distance, points, metric) is None

    def clearance(self, points: Sequence[Tuple[Whole, Whole]]) -> float:
        """The Euclidean distance of a path's tightest cell to its nearest obstacle, in cells from
        centre to centre; infinite if the map has none.

        The path may have any number of points: one of over 1000 is asked in pieces, which share
        their ends.
        """
        queries = Queries()
        for start in range(0, max(len(points) - 1, 1), LONGEST_PATH - 1):
            queries.path(points[start : start + LONGEST_PATH])
        least = math.inf
        for answer in self.ask(queries):
            if isinstance(answer, Refused):
                raise answer
            if isinstance(answer, Tightest):
                least = min(least, math.sqrt(answer.distance))
        return least

    def at_many(self, xs: "ArrayLike", ys: "ArrayLike", metric: str = EUCLID2) -> "Nears":
        """`at` of each cell of two arrays of whole numbers, columns and rows, which numpy
        broadcasts: arrays of their shape, all by this version. Sends 64 cells per write. If one is
        refused, the error names the first of them, and none is answered. It needs numpy, else
        ImportError; TypeError for what isn't whole, as floats, and for a masked array."""
        batch = Batch(xs, ys, metric)
        try:
            self._exchange(batch.work)
        except Refused as refusal:
            batch.name(refusal)
            raise
        return batch.nears()

    def clearances(self, cells: Points) -> List[float]:
        """For each cell its Euclidean distance to the nearest obstacle, in cells: 0 for an obstacle
        and for a cell that isn't on the map, infinite if the map has none. Sends 64 cells per
        write."""
        queries = Queries()
        for x, y in cells:
            x, y = whole(x), whole(y)
            if not (0 <= x < LARGEST_SIDE and 0 <= y < LARGEST_SIDE):
                x = y = LARGEST_SIDE  # a cell that no map has, and that a line can name
            queries.at(x, y)
        found: List[float] = []
        for answer in self.ask(queries):
            if isinstance(answer, OutOfRange):
                found.append(0.0)
            elif isinstance(answer, Refused):
                raise answer
            else:
                found.append(math.sqrt(answer.distance) if isinstance(answer, Near) else math.inf)
        return found

    def dump(self) -> bytes:
        """The version as a plain PBM image."""
        return self._exchange(_dumped)

    def map(self, edge: Optional[str] = None, *, untold: Optional[str] = None) -> Map:
        """The version as a map of this process, which outlives the pin, by one DUMP. It needs numpy
        and libclearmap, else ImportError.

        A dump doesn't say the edge. If none is named, asks the server about a cell of the border
        whose answer shows it. ClearmapError if no cell does, for example because the whole border
        is obstacles: then name the edge, or name by `untold` the one for maps that don't show it,
        whose answers don't depend on it. A named edge is taken as it is.
        """
        return self._copied(edge, untold)

    @overload
    def distances(
        self,
        metric: str = ...,
        nearest: Literal[False] = ...,
        threads: int = ...,
        *,
        edge: Optional[str] = ...,
    ) -> "Distances": ...
    @overload
    def distances(
        self,
        metric: str = ...,
        *,
        nearest: Literal[True],
        threads: int = ...,
        edge: Optional[str] = ...,
    ) -> "Tuple[Distances, Obstacles]": ...
    @overload
    def distances(
        self,
        metric: str = ...,
        *,
        nearest: Literal["indices"],
        threads: int = ...,
        edge: Optional[str] = ...,
    ) -> "Tuple[Distances, Indices]": ...
    def distances(
        self,
        metric: str = EUCLID2,
        nearest: "Nearest" = False,
        threads: int = 1,
        *,
        edge: Optional[str] = None,
    ) -> Any:
        """The package's `distances`, of this version, by one DUMP; as `map`, but without need for
        an edge that no cell shows, since that changes no distance and no nearest obstacle."""
        copy = self._copied(edge, OPEN)
        return copy.distances(metric, nearest, threads)  # type: ignore[call-overload]

    def _copied(self, edge: Optional[str], untold: Optional[str] = None) -> Map:
        """The version as a map, copied in one exchange."""
        library(), numpy()
        for named in (edge, untold):
            if named is not None:
                edge_of(named)

        def work(connection: Connection) -> Union[Map, ClearmapError]:
            text = _dumped(connection)
            return text if isinstance(text, Refused) else copied(
                text, edge, connection.ask, untold
            )

        return self._exchange(work)

    def ask(self, queries: Queries) -> List[object]:
        """The answers to many queries, sent without waiting in between. A refused query has its
        `Refused` in its place, which isn't raised."""
        asked = tuple(queries._requests)

        def work(connection: Connection) -> List[object]:
            answers: List[object] = []
            for start in range(0, len(asked), BATCH):
                answers += connection.ask_all(asked[start : start + BATCH])
            return answers

        return self._exchange(work)


def _dumped(connection: Connection) -> Union[bytes, Refused]:
    """The bytes of a DUMP."""
    count = connection.ask(requests.DUMP)
    if isinstance(count, Refused):
        return count
    if count > LARGEST_DUMP:
        raise WrongAnswer(f"a map of {count} bytes")
    return connection.counted(count)
