"""A gateway's connections to the server: each is lent for one exchange, or to hold a version."""
import asyncio
import re
from collections import deque
from typing import Callable, Deque, List, Optional, Tuple, cast

from clearmap.requests import LARGEST_DUMP

GONE = "the server went away"
LONGEST_REPLY = 128  # bytes of a reply line, with its line feed
REPLY = re.compile(rb"(?:OK(?: -?\d{1,10})+|NONE|ERR (?!1[34] )\d{1,2} [A-Za-z]+(?: \w+)*)\n")


class ServerLost(Exception):
    """The server went away, or isn't in step: nobody knows what it says next."""


class Link(asyncio.Protocol):
    """One connection to the server, with one exchange at a time. If there is a patience, the server
    is lost where nothing comes for so long while a reply is awaited."""

    def __init__(self, lose: Callable[[str], None]) -> None:
        self.patience: Optional[float] = None
        self._lose = lose
        self._late: Optional[asyncio.TimerHandle] = None
        self._buffer = bytearray()
        self._busy = False
        self._wanted: Optional[int] = None  # bytes; None: a line
        self._waits: "Optional[asyncio.Future[bytes]]" = None
        self._transport: asyncio.Transport

    # ---- what asyncio calls

    def connection_made(self, transport: asyncio.BaseTransport) -> None:
        self._transport = cast(asyncio.Transport, transport)

    def data_received(self, data: bytes) -> None:
        self._buffer += data
        if not self._busy:
            self._lose("the server sent what nobody asked for")
        elif self._waits is not None:
            self._await_more()
            self._settle()

    def connection_lost(self, fault: Optional[Exception]) -> None:
        self._lose(GONE)

    # ---- exchanges

    async def ask(self, sent: bytes, body: bytes = b"") -> bytes:
        """Sends a line, with the bytes that it counts, and returns its reply line."""
        self._begin(sent)
        self._transport.write(body)
        reply = await self._line()
        self._end()
        return reply

    async def dump(self) -> Tuple[bytes, bytes]:
        """The reply line of a DUMP and its image; none if it was refused."""
        self._begin(b"DUMP\n")
        reply, text = await self._line(), b""
        if reply.startswith(b"OK "):
            count = int(reply.split()[1])
            if count > LARGEST_DUMP:
                raise self.fail(f"the server dumps {count} bytes")
            text = await self._take(count)
        self._end()
        return reply, text

    def fail(self, why: str) -> ServerLost:
        """Gives the server up; the error for who asked."""
        self._lose(why)
        return ServerLost(why)

    def close(self) -> None:
        """Ends the connection. Who waits for a reply gets ServerLost."""
        self._stop_waiting()
        self._transport.abort()
        if self._waits is not None and not self._waits.done():
            self._waits.set_exception(ServerLost(GONE))

    def _begin(self, sent: bytes) -> None:
        if self._transport.is_closing():
            raise self.fail(GONE)
        if self._busy:
            raise self.fail("a connection to the server is out of step")
        self._busy = True
        self._transport.write(sent)

    def _end(self) -> None:
        self._busy = False
        if self._buffer:
            raise self.fail("the server sent more than was asked for")

    async def _line(self) -> bytes:
        """The next reply line."""
        line = await self._take(None)
        if not REPLY.fullmatch(line):
            raise self.fail(f"the server answers {line[:80]!r}")
        return line

    async def _take(self, count: Optional[int]) -> bytes:
        """The next `count` bytes, or a line."""
        waits: "asyncio.Future[bytes]" = asyncio.get_running_loop().create_future()
        self._wanted, self._waits = count, waits
        self._await_more()
        self._settle()
        return await waits

    def _await_more(self) -> None:
        """From now on the server has so long to send something."""
        self._stop_waiting()
        if self.patience is not None:
            why = f"the server hasn't answered for {self.patience:g} s"
            loop = asyncio.get_running_loop()
            self._late = loop.call_later(self.patience, self._lose, why)

    def _stop_waiting(self) -> None:
        if self._late is not None:
            self._late.cancel()

    def _settle(self) -> None:
        """Gives what is waited for, once it is whole."""
        count = self._wanted
        if count is None:
            count = self._buffer.find(b"\n", 0, LONGEST_REPLY) + 1
            if not count and len(self._buffer) >= LONGEST_REPLY:
                self._lose("the server's reply has no end")
        if (not count and self._wanted is None) or len(self._buffer) < count:
            return
        data = bytes(self._buffer[:count])
        del self._buffer[:count]
        self._stop_waiting()
        waits, self._waits = self._waits, None
        if waits is not None and not waits.done():
            waits.set_result(data)


class Server:
    """The connections to one run of a server. They are made before any is used, and none later: if
    all answer then, one server has them all, and its versions have one meaning. If one is lost, or
    stays without a reply for longer than the patience, all are closed."""

    def __init__(self, patience: float) -> None:
        self._patience = patience
        self.lost: "asyncio.Future[str]" = asyncio.get_running_loop().create_future()
        self.links: List[Link] = []
        self._free: Deque[Link] = deque()
        self._waiting: "Deque[asyncio.Future[Link]]" = deque()

    async def open(self, port: int, count: int) -> None:
        """Makes the connections. ServerLost if there is no server, or it ends."""
        loop = asyncio.get_running_loop()
        for _ in range(count):
            try:
                _, link = await loop.create_connection(lambda: Link(self.lose), "127.0.0.1", port)
            except OSError as fault:
                raise ServerLost(f"no server listens on port {port}") from fault
            self.links.append(link)
        for link in self.links:
            if await link.ask(b"UNPIN\n") != b"ERR 6 NotPinned\n":
                raise link.fail("what listens there is no clearmap server")
            link.patience = self._patience
            self._free.append(link)

    @property
    def free(self) -> int:
        """How many connections nobody has: while they are made, those that a worker answered."""
        return len(self._free)

    def lose(self, why: str) -> None:
        """Closes all connections, for this reason. Whoever waits for one gets ServerLost."""
        if self.lost.done():
            return
        self.lost.set_result(why)
        for link in self.links:
            link.close()
        for turn in self._waiting:
            if not turn.done():
                turn.set_exception(ServerLost(why))

    async def take(self) -> Link:
        """A connection that nobody else has, until it is returned."""
        if self.lost.done():
            raise ServerLost(self.lost.result())
        if self._free:
            return self._free.popleft()
        turn: "asyncio.Future[Link]" = asyncio.get_running_loop().create_future()
        self._waiting.append(turn)
        return await turn

    def give(self, link: Link) -> None:
        """Returns a connection, in step and without a pin."""
        if self._waiting and not self.lost.done():
            self._waiting.popleft().set_result(link)
        else:
            self._free.append(link)

    async def ask(self, sent: bytes, body: bytes = b"") -> bytes:
        """The reply to a change, on a connection that is lent for it."""
        link = await self.take()
        reply = await link.ask(sent, body)
        self.give(link)
        return reply
