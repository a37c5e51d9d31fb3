"""A client of one server: its commands, for painters and for planners."""
import weakref
from typing import Callable, Optional, Union

from . import requests
from .connection import Connection, Limits
from .errors import AlreadyPinned, BadImage, ConnectionLost, LogFull, Refused, Size, raised
from .faults import place_of
from .pinned import Pinned
from .requests import Change, Collected, Published, Request, T, Whole
from .session import Session

DRAFT_LOST = (
    "the connection was lost after changes that aren't published, and another server doesn't have "
    "them: paint again, and publish"
)


class Client(Session):
    """A connection to a server on this machine. `timeout` is in seconds, above 0, for each wait for
    bytes; None waits forever. `call_timeout` is for a whole call, from its turn to its last byte,
    with the connection that it makes; None sets no end.

    **The draft is everybody's.** `publish` publishes what all painters have changed by then, and
    `revert` drops it. So paint an obstacle's new place before you clear its old one, or send one
    stamp of both: a painter that ends in between leaves it in two places, and not in none.

    **Threads.** Calls of several threads, also of pins, run one after another: each waits for the
    whole of the one before, and gets its own answer. A forked process is refused, and makes a
    client of its own; a client can't be copied or pickled.

    **Interrupts.** If a call is cut off (`KeyboardInterrupt`, an alarm, any exception), or a
    signal's handler calls the client in the middle of a call, the connection is closed: no answer
    can belong to an earlier question. What was sent by then may have been accepted.

    **Errors.** Any call raises `ConnectionLost`, or `TimedOut`, if no reply comes, `WrongAnswer` if
    what comes isn't a reply, and the `Refused` of what the server refuses. What can't be sent
    raises TypeError or ValueError, and nothing is sent.

    With `size`, as columns and rows, a map of another size raises `WrongMap` when the connection is
    made. That takes a pin for the time.

    With `reconnect` a call that finds the connection closed reconnects first, to a map of the same
    size: `size`, or that of the first connection, which asks for it. A call whose own reply was
    lost raises, and is never sent twice. A pin is lost with its connection, and a draft with its
    server: where changes were accepted over an earlier connection that aren't published, the first
    `publish` over a new one raises `ConnectionLost`, and publishes nothing, whatever other calls
    and threads were told before. Then make all the changes again, and publish. After a `revert`
    there is nothing to lose. Nothing reconnects after `close`, or `abort`.

    With `checkpoints` a command that is answered LogFull is sent once more after a checkpoint.
    **That drops the entries of the log, those of other painters too**: it changes no bitmap and no
    version. If others have filled the log again by then, LogFull is raised as without the flag.
    """

    def __init__(
        self,
        port: int,
        host: str = "127.0.0.1",
        timeout: Optional[float] = 10.0,
        checkpoints: bool = False,
        *,
        size: Optional[Size] = None,
        reconnect: bool = False,
        call_timeout: Optional[float] = None,
    ) -> None:
        self._checkpoints = checkpoints
        self._painted: Optional[Connection] = None  # that of the first change not yet published
        self._pin: Callable[[], Optional[Pinned]] = lambda: None  # the last one, if it is alive
        super().__init__(port, host, Limits(timeout, call_timeout).checked(), size, reconnect)

    def __enter__(self) -> "Client":
        return self

    # ---- painters

    def paint(self, x0: Whole, y0: Whole, x1: Whole, y1: Whole) -> Change:
        """Makes columns x0 to x1 - 1 of rows y0 to y1 - 1 of the draft obstacles.

        They are at least 1 cell, else BadArguments, and are on the map, else OutOfRange. LogFull
        and BlocksFull can refuse any change.
        """
        return self._change(requests.draw("PAINT", x0, y0, x1, y1))

    def clear(self, x0: Whole, y0: Whole, x1: Whole, y1: Whole) -> Change:
        """Makes them free; refused as `paint` is."""
        return self._change(requests.draw("CLEAR", x0, y0, x1, y1))

    def stamp(self, x: Whole, y: Whole, image: object) -> Change:
        """Sets the cells from (x, y) on to the values of a PBM image, plain or raw; black is an
        obstacle. The image is anything with the buffer protocol, as `bytes`, by its bytes: at most
        17,100,000. BadImage if they aren't an image; else refused as `paint` is."""
        return self._change(requests.stamp(x, y, image))

    def publish(self, collect: bool = False) -> Published:
        """Appends the draft as the next version, and returns its number, which has its `place` in
        the log too. VersionsFull if all slots for versions are in use: with `collect` those that no
        pin holds are freed after each publish, and `floor` is the least version that is kept; None
        if that was refused. ConnectionLost, once, if changes may be lost with an earlier
        connection, as the class says."""
        collects = requests.chosen("collect", collect)

        def work(connection: Connection) -> Union[Published, Refused, Connection]:
            if self._painted not in (None, connection):
                return connection
            answer = self._answer(connection, requests.PUBLISH)
            if isinstance(answer, Published):
                self._painted = None
                kept = self._answer(connection, requests.COLLECT) if collects else None
                answer.floor = kept.floor if isinstance(kept, Collected) else None
            return answer

        answer = self._exchange(work)
        if not isinstance(answer, Connection):
            return raised(answer)
        try:
            raise ConnectionLost(DRAFT_LOST)
        except ConnectionLost:  # an interrupt before here leaves this to be told
            self._painted = answer
            raise

    def revert(self) -> int:
        """Makes the draft the newest version again, and returns the place in the log."""

        def work(connection: Connection) -> Union[int, Refused]:
            answer = self._answer(connection, requests.REVERT)
            if not isinstance(answer, Refused):
                self._painted = None
            return answer

        return raised(self._exchange(work))

    def collect(self) -> Collected:
        """Frees what no kept version uses: the newest is kept, and each that a pin holds."""
        return raised(self._exchange(lambda it: self._answer(it, requests.COLLECT)))

    def checkpoint(self) -> int:
        """Drops the entries of the log that the server keeps, so that a full log goes on, and
        returns its own place. Places go on counting; no bitmap and no version changes."""
        return raised(self._exchange(lambda it: it.ask(requests.CHECKPOINT)))

    def _change(self, request: Request[Change]) -> Change:
        """A paint, a clear or a stamp."""

        def work(connection: Connection) -> Union[Change, Refused]:
            answer = self._answer(connection, request)
            if isinstance(answer, Change):
                self._painted = self._painted or connection
            elif isinstance(answer, BadImage):
                answer.cure = place_of(answer.fault, request.data)
            return answer

        return raised(self._exchange(work))

    def _answer(self, connection: Connection, request: Request[T]) -> Union[T, Refused]:
        """The answer to a command; if the log is full and `checkpoints` is set, to a checkpoint and
        the command again."""
        answer = connection.ask(request)
        if not self._checkpoints or not isinstance(answer, LogFull):
            return answer
        cleared = connection.ask(requests.CHECKPOINT)
        if isinstance(cleared, Refused):
            return cleared
        return connection.ask(request)

    # ---- planners

    def pin(self) -> Pinned:
        """Pins the newest version: a context manager that answers queries, and unpins at its end.
        One at a time on a connection: a second one is AlreadyPinned. A pin that nobody has any more
        is unpinned for it."""

        def work(connection: Connection) -> Union[Pinned, Refused]:
            version = connection.ask(requests.PIN)
            if isinstance(version, AlreadyPinned) and self._pin() is None:
                left = connection.ask(requests.UNPIN)
                if isinstance(left, Refused):
                    return left
                version = connection.ask(requests.PIN)
            if isinstance(version, Refused):
                return version
            pinned = Pinned(self, version, connection)
            self._pin = weakref.ref(pinned)
            return pinned

        return raised(self._exchange(work))
