"""A running server as `clearmap-view` sees it: one connection, whose pin follows the newest
version, and which is left if nothing is asked. Its calls may come from any thread."""
import contextlib
import threading
import time
from typing import Callable, Iterator, Optional, Tuple, TypeVar

import clearmap

T = TypeVar("T")
PATIENCE = 5.0  # seconds for a reply, after which pages are told that there is none
TURN = 4.0  # seconds for the reply of the request before, less than that
LATE = 60.0  # seconds for a reply, after which it isn't taken any more
AFTER_A_QUESTION = 5.0  # seconds for which the connection stays
AFTER_A_CHANGE = 60.0

WORDS = {
    1: "that isn't wholly on the map",
    2: "it needs {} new blocks, and {} are free: collect, or revert",
    3: "as many versions are kept as may be: collect, once old pins are left",
    4: "the log is full: a checkpoint drops its entries, and then it goes on",
    5: "the server has no memory for it",
    9: "point {} isn't in the row or the column of the one before",
    12: "a rectangle has one cell at least, and lies on the map",
    17: "the places of the log are used up: start another server from the newest version",
}


def in_words(refusal: clearmap.Refused) -> str:
    """A refusal as a sentence, with its number and name."""
    why = WORDS.get(refusal.number, "the server refuses it").format(*refusal.details)
    return f"Refused: {why} (ERR {refusal.number} {refusal.name})."


class Busy(clearmap.ClearmapError):
    """An earlier request has no reply yet, so nothing was sent."""


class Watched:
    """The connection and its pin. Whatever fails drops both, and the next call connects again. A
    call waits long for its reply, so that one which comes late is known; others don't wait for it.

    `lost` is called if the server may have ended, with whether nobody listens at its port.
    """

    def __init__(
        self, port: int, lost: Callable[[bool], None], clock: Callable[[], float] = time.monotonic
    ) -> None:
        self._port, self._lost, self._clock = port, lost, clock
        self._lock, self._staying = threading.Lock(), threading.Lock()
        self._client: Optional[clearmap.Client] = None
        self._pinned: Optional[clearmap.Pinned] = None
        self._connections = 0
        self._until = 0.0
        self._is_over = False

    @contextlib.contextmanager
    def _connected(self) -> Iterator[clearmap.Client]:
        if not self._lock.acquire(timeout=TURN):
            raise Busy("an earlier request has no reply yet, so nothing was sent")
        try:
            if self._is_over:
                raise clearmap.ConnectionLost("clearmap-view ends")
            if self._client is None:
                self._client = clearmap.Client(self._port, timeout=LATE)
                self._connections += 1
            yield self._client
        except (clearmap.ConnectionLost, clearmap.WrongAnswer) as fault:
            self._client = self._pinned = None
            if not isinstance(fault, clearmap.TimedOut):
                self._lost(isinstance(fault.__cause__, ConnectionRefusedError))
            raise
        finally:
            self._lock.release()

    # ---- how long the connection stays: these wait for no reply of the server

    def stay(self, seconds: float) -> None:
        """Keeps the connection for so long from now."""
        with self._staying:
            self._until = max(self._until, self._clock() + seconds)

    @property
    def stays(self) -> bool:
        """Whether something was asked or changed lately."""
        with self._staying:
            return self._clock() < self._until

    @property
    def is_pinned(self) -> bool:
        """Whether a version is pinned."""
        return self._pinned is not None

    def rest(self) -> None:
        """Ends the connection, so that neither a worker of the server nor a version is held."""
        with self._lock:
            if self._client is not None:
                self._client.close()
            self._client = self._pinned = None

    def end(self) -> None:
        """Ends the connection for good, whatever waits for a reply on it or for its turn."""
        self._is_over, client = True, self._client
        if client is not None and self._lock.locked():
            client.abort()
        self.rest()

    # ---- what is asked

    def renew(self, saw: Callable[[int], None]) -> Tuple[int, int]:
        """Pins the newest version: which connection it is, counted from 1, and the version.

        `saw` is called with the version before another call goes on.
        """
        with self._connected() as client:
            if self._pinned is not None:
                self._pinned.unpin()
            self._pinned = None
            self._pinned = client.pin()
            saw(self._pinned.version)
            return self._connections, self._pinned.version

    def _pin(self) -> clearmap.Pinned:
        if self._pinned is None:
            raise clearmap.ConnectionLost("no version is pinned")
        return self._pinned

    def dump(self) -> bytes:
        """The pinned version as a plain PBM image."""
        with self._connected():
            return self._pin().dump()

    def ask(self, question: Callable[[clearmap.Pinned], T]) -> Tuple[int, T]:
        """The pinned version, and what it answers. A refused query is raised."""
        with self._connected():
            pinned = self._pin()
            return pinned.version, question(pinned)

    def change(self, call: Callable[[clearmap.Client], T]) -> T:
        """What a command answers."""
        self.stay(AFTER_A_CHANGE)
        with self._connected() as client:
            return call(client)
