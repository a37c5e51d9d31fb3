"""One map on a server as a robot's topics have it: what changed is put and published, and plans are
asked about. No ROS is wanted, and nothing here is proved.

The server is one that runs, by its port, or one that is started with the first map. A server that
went away is asked for again at the next call. After a connection that was lost, or a map that could
not be put, a plan has no answer before the server has each obstacle of what the topics said last.
"""
import math
import threading
from dataclasses import dataclass
from typing import TYPE_CHECKING, Callable, Generic, List, Optional, Sequence, Tuple, TypeVar

import clearmap
import clearmap_grid as grids
from clearmap_draft import Draft
from clearmap_grid import Place
from clearmap_server import start_server
from clearmap import Frame, RosError
from clearmap.frames import Point, pieces

if TYPE_CHECKING:
    from clearmap_server import Process

T = TypeVar("T")
PATIENCE = 10.0  # seconds for a reply


def port_of(port: object) -> int:
    """A parameter that is a server's port; 0 to start a server."""
    if type(port) is not int or not 0 <= port <= 65535:
        raise RosError(f"'{port}' is no port: 1 to 65535, or 0 for a server of the node's own")
    return port


def edge_of(edge: object) -> str:
    """A parameter that is what the border of a map is, on a server of the node's own."""
    if edge not in (clearmap.OPEN, clearmap.WALL):
        raise RosError(f"'{edge}' is no edge: open or wall")
    return str(edge)


def sentence_of(fault: Exception) -> str:
    """Why something failed: what an error of clearmap's says, and of others their kind too."""
    kind = "" if isinstance(fault, clearmap.ClearmapError) else type(fault).__name__ + " "
    return f"{kind}{fault}"


@dataclass(frozen=True)
class Clearance:
    """What a plan's tightest cell is, in metres: from centre to centre, free in any case, and where
    the two centres are."""

    version: int
    metres: float
    free_metres: float
    cell: Optional[Tuple[float, float]] = None
    obstacle: Optional[Tuple[float, float]] = None


@dataclass(frozen=True)
class Newest(Generic[T]):
    """What was found of a version, and where its map lies. Only versions of one connection can be
    compared, since another server counts from 0 again."""

    connection: int
    version: int
    place: Place
    found: T


class Feed:
    """A map's way to a server. Its calls may come from any thread, and wait for one another."""

    def __init__(self, port: int = 0, program: str = "clearmap", checkpoints: bool = False, edge: str = "open") -> None:
        self.port, self._given, self.program, self._edge = port, port != 0, program, edge
        self._checkpoints = checkpoints or not self._given
        self._lock = threading.Lock()
        self._server: Optional["Process"] = None
        self._draft: Optional[Draft] = None  # over the connection that there is
        self._said: Optional[Tuple[grids.Grid, Place]] = None  # what the topics said last
        self._is_refused = False  # whether it isn't known what they said
        self._kept: Optional[grids.Grid] = None  # what a server of one's own is started with
        self._connections, self._is_closed = 0, False
        self.place: Optional[Place] = None

    @property
    def frame(self) -> Optional[Frame]:
        """Where the last map lies; None before there is one."""
        return self.place.frame if self.place is not None else None

    def close(self) -> None:
        """Ends the connection, and a server that was started here: at once, also while it is being
        asked."""
        self._is_closed, server = True, self._server
        if server is not None:
            server.kill()
        with self._lock:
            self._end_server()

    def keep(self, grid: grids.Grid, place: Place) -> None:
        """Takes a map that isn't put: a given server has it, with what painters did, and a server
        of the node's own is started with it, and restarted if it ended."""
        with self._lock:
            self._kept, self.place = grid, place

    def put(self, grid: grids.Grid, place: Place) -> str:
        """Puts a map, and says what was done. If that fails, the next call tries it again."""
        with self._lock:
            self._said, self._is_refused = (grid, place), False
            return self._tried(self._put)

    def update(
        self, left: int, low: int, size: Tuple[int, int], cells: bytes, unknown: bytes
    ) -> str:
        """Puts an update of the last map, and which of its cells are unknown; its lower left cell
        is at column `left` and row `low`, counted upwards. If that fails, the next call tries it
        again, but an update that isn't wholly on the map is as one that can't be read."""
        with self._lock:
            if self._is_refused:
                raise RosError("what came before it wasn't taken; the next map is")
            if self._said is None:
                raise RosError("an update came before its map")
            (grid, place), area = self._said, (left, low, *size)
            try:
                self._said = grid.updated(*area, cells), place.updated(area, unknown)
            except RosError:
                self._is_refused = True
                raise
            return self._tried(self._put)

    def refuse(self) -> None:
        """Takes note of a map or an update that can't be read, or of an order that can't be told.
        What the topics say isn't known up to the next map, and no plan is answered."""
        with self._lock:
            self._is_refused = True

    def newest(
        self, known: Optional[Newest[T]], find: Callable[[clearmap.Pinned], T]
    ) -> Optional[Newest[T]]:
        """What is found of the newest version, unless that is known and its map lies as before;
        then, or if no map has come yet, None. While the last map isn't put it isn't known where the
        newest version lies, which is refused."""
        with self._lock:
            if self._said is not None and self._said[1] is not self.place:
                raise RosError("the last map isn't put, so it isn't known where the served one lies")
            return self._tried(lambda: self._newer(known, self.place, find))

    def clearance(self, plan: Sequence[Point], frame_id: Optional[str] = None) -> Clearance:
        """How far a plan in metres keeps from the obstacles of the newest version; infinite if it
        has none. Where the plan's frame is given, it has to be the map's, if that has a name."""
        with self._lock:
            if self._is_refused:
                sentence = "the last map or update wasn't taken, and it isn't known what it said"
                raise RosError(sentence)
            if self._said is None and self.place is None:
                raise RosError("no map has come yet")
            version, frame, found = self._tried(lambda: self._ask(plan, frame_id))
        tightest = min(found, key=lambda it: it.distance, default=None)
        if tightest is None:
            return Clearance(version, math.inf, math.inf)
        places = (frame.centre(tightest.cell), frame.middle(tightest.obstacle))
        return Clearance(version, frame.metres(tightest.distance), frame.free_metres(tightest.distance), *places)

    # the server

    def _tried(self, call: Callable[[], T]) -> T:
        """The result of a call. If the server has gone since the last one, repeats the call once
        with a fresh connection."""
        fresh = self._draft is None
        try:
            return call()
        except (clearmap.ConnectionLost, clearmap.WrongAnswer):
            self._lose()
            if fresh:
                raise
        try:
            return call()
        except (clearmap.ConnectionLost, clearmap.WrongAnswer):
            self._lose()
            raise

    def _lose(self) -> None:
        if self._draft is not None:
            self._draft.client.close()
        self._draft = None

    def _end_server(self) -> None:
        """Leaves the server, and ends one of one's own."""
        self._lose()
        if self._server is not None:
            self._server.kill()
            self._server.wait()
            self._server = None

    def _connected(self, size: Tuple[int, int], grid: Optional[grids.Grid] = None) -> Draft:
        """The draft of a server whose map has this size, connected. A server of one's own that has
        ended, or wasn't started yet, is started with this map, or with the one that is kept."""
        if self._is_closed:
            raise clearmap.ConnectionLost("the node has left the server")
        settled = None
        if not self._given and (self._server is None or self._server.poll() is not None):
            self._lose()
            self._start(grid or self._kept)
            settled = 0  # the first command's place is 1
        if self._draft is None:
            client = clearmap.Client(
                self.port, timeout=PATIENCE, checkpoints=self._checkpoints, size=size
            )
            self._connections += 1
            self._draft = Draft(client, settled)
        elif self._draft.client.size != size:
            raise clearmap.WrongMap(size, self._draft.client.size)
        return self._draft

    def _start(self, grid: Optional[grids.Grid]) -> None:
        if grid is None:
            raise clearmap.ConnectionLost("the server has ended; the next map starts another")
        self._server, self.port = start_server(self.program, self._edge, grid.pbm())

    def _fitting(self, grid: grids.Grid) -> Draft:
        """The draft of a server whose map has a grid's size. One of one's own is started with the
        grid, if it has ended or has a map of another size."""
        try:
            return self._connected(grid.size, grid)
        except clearmap.WrongMap as other:
            if self._given:
                sizes = "the map has %d by %d cells, and that of the server %d by %d"
                said = sizes % (*grid.size, *other.served)
                raise RosError(f"{said}: it isn't put") from None
        self._end_server()
        return self._connected(grid.size, grid)

    def _put(self) -> str:
        """Puts what the topics said last, if need be on a new server of one's own."""
        assert self._said is not None
        grid, place = self._said
        said = self._fitting(grid).put(grid)
        self.place = place
        return said

    def _cover(self) -> None:
        """Makes sure that the server has each obstacle of what the topics said last: where one is
        missing, as on a server that was restarted, that is put."""
        assert self._said is not None
        grid, place = self._said
        draft = self._connected(grid.size)
        if not draft.has(grid):
            draft.put(grid)
        self.place = place

    def _newer(
        self,
        known: Optional[Newest[T]],
        place: Optional[Place],
        find: Callable[[clearmap.Pinned], T],
    ) -> Optional[Newest[T]]:
        if place is None:
            return None
        with self._connected(place.frame.size).client.pin() as pinned:
            found: Optional[T] = None
            if known is not None and known.connection == self._connections:
                if known.version == pinned.version:
                    if known.place == place:
                        return None
                    found = known.found
            if found is None:
                found = find(pinned)
            return Newest(self._connections, pinned.version, place, found)

    def _ask(
        self, plan: Sequence[Point], frame_id: Optional[str]
    ) -> Tuple[int, Frame, List[clearmap.Tightest]]:
        if self._said is not None:
            self._cover()
        assert self.place is not None
        frame, named = self.place.frame, self.place.frame_id
        if frame_id is not None and named and frame_id != named:
            raise RosError(f"it is in the frame '{frame_id}', and the map in '{named}'")
        queries = clearmap.Queries()
        for piece in pieces(frame.staircase(plan)):
            queries.path(piece)
        with self._connected(frame.size).client.pin() as pinned:
            answers = pinned.ask(queries)
        for answer in answers:
            if isinstance(answer, clearmap.Refused):
                raise answer
        tightest = [answer for answer in answers if isinstance(answer, clearmap.Tightest)]
        return pinned.version, frame, tightest
