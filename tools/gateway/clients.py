"""A client of the gateway: its lines are done one after another, each when the one before is done.
"""
import asyncio
from typing import Dict, List, Optional

import dumps
from clearmap import Map
from lines import AT, NOT_PINNED, PINNED, Line, next_cells, next_line
from limits import ROOM, Room
from links import Server, ServerLost
from queries import answered, at_reply
from streams import INPUT, Gone, Stream
from versions import Held, Said, Versions
from watch import Watchers

TURN = 64  # lines of a client that are done before others have their turn


class Desk:
    """What all clients of one run of a server share."""

    def __init__(self, server: Server, patience: float) -> None:
        self.server, self.patience = server, patience
        self.versions = Versions(server, patience)
        self.watchers = Watchers(self.versions)
        self.room = Room(ROOM)
        self.clients: Dict["Client", None] = {}  # whose connections have been taken, and not ended


class Client(Stream):
    """One client. `_task` does a line that takes time; until it is done no other line is looked at.
    """

    def __init__(self, desk: Desk) -> None:
        super().__init__(desk.patience)
        self._desk = desk
        self._held: Optional[Held] = None
        self._task: "Optional[asyncio.Task[None]]" = None
        self._news: Optional[int] = None

    def connection_lost(self, fault: Optional[Exception]) -> None:
        self._desk.watchers.remove(self)
        self._desk.clients.pop(self, None)
        super().connection_lost(fault)

    def lose(self) -> None:
        """Ends the connection, as its server has ended."""
        self._give_up()
        self._advance()

    def tell(self, version: int) -> None:
        """A version that is newer than what this client was told."""
        self._news = version
        if self._task is None and not self._is_over:
            self._tell_news()

    def _tell_news(self) -> None:
        """Tells news, which come between two replies, if the client takes what it is sent."""
        if self._news is not None and not self._is_full:
            self._write(b"VERSION %d\n" % self._news)
            self._news = None

    # ---- lines

    def buffer_updated(self, count: int) -> None:
        """Answers one query of a cell, on a map that is there, at once if nothing else is to be
        done: a planner's usual line."""
        area = None if self._held is None else self._held.map
        if area is not None and self._is_at_rest():
            cell = AT.fullmatch(INPUT, 0, count)
            if cell is not None:
                return self._write(at_reply(area, *cell.groups()))
        super().buffer_updated(count)

    def _is_at_rest(self) -> bool:
        """Whether all that has come is done, and more is awaited."""
        waits = self._pending or self._task or self._news is not None
        return not (waits or self._is_full or self._is_over or self._is_last)

    def _advance(self) -> None:
        """Does what can be done now."""
        if self._task is not None:
            self._wake_task()
        else:
            self._do_lines()
        self._regulate()

    def _do_lines(self) -> None:
        """Does some lines, up to one that takes time. Their replies go out together."""
        said = self._said_of_queries()
        while self._task is None and not self._is_full and not self._is_over:
            line = next_line(self._pending)
            if line is None:
                break
            reply = self._reply_now(line)
            if reply is None:
                self._task = self._loop.create_task(self._do(line))
                break
            said.append(reply)
            if len(said) >= TURN:
                self._loop.call_soon(self._advance)
                break
        else:
            line = None
        self._write(b"".join(said))
        if self._task is None and line is None:
            self._come_to_rest()

    def _said_of_queries(self) -> List[bytes]:
        """The replies to the queries of cells that come next, of a map that is there."""
        area = None if self._held is None else self._held.map
        if area is None or self._is_full or self._is_over:
            return []
        return [at_reply(area, *cell) for cell in next_cells(self._pending, TURN)]

    def _reply_now(self, line: Line) -> Optional[bytes]:
        """The reply to a line that needs nobody else; None if it does."""
        if line.reply:
            self._is_over = line.ends
            return line.reply
        if self._held is None:
            if line.asked is not None or line.verb in (b"UNPIN", b"DUMP"):
                return NOT_PINNED
            return None
        if line.asked is not None and self._held.map is not None and not line.asked.is_long:
            return answered(line.asked, self._held.map)
        return PINNED if line.verb == b"PIN" else None

    def _come_to_rest(self) -> None:
        """Tells news between two replies; ends the connection after the last one, once the pin is
        left."""
        over = self._is_over or (self._is_last and not self._is_full)
        if over and self._held is not None:
            self._task = self._loop.create_task(self._do(Line(b"UNPIN"), silently=True))
        elif over:
            self._end()
        else:
            self._tell_news()

    # ---- lines that take time

    async def _do(self, line: Line, silently: bool = False) -> None:
        """Does a line, and those after it. If the server is lost, so is the client: nobody knows
        what it would have answered."""
        try:
            reply = await self._reply(line)
            if not silently:
                self._write(reply)
        except Said as said:
            self._write(said.reply)
        except Gone:
            self._is_over = True
            self._transport.abort()
        except ServerLost:
            self._give_up()
        except Exception as fault:
            self._desk.server.lose(f"a fault of the gateway's own: {fault!r}")
            self._give_up()
        self._task = None
        self._advance()

    def _give_up(self) -> None:
        """The server is lost, and the pin with it."""
        self._held, self._is_over = None, True

    async def _reply(self, line: Line) -> bytes:
        """The reply to a line; b"" if it was written by now."""
        if line.asked is not None:
            return await asyncio.to_thread(answered, line.asked, await self._map())
        if line.sent:
            return await (self._stamp(line) if line.verb == b"STAMP" else self._change(line.sent))
        return await {
            b"PIN": self._pin,
            b"UNPIN": self._unpin,
            b"DUMP": self._dump,
            b"QUIT": self._quit,
            b"WATCH": self._watch,
        }[line.verb]()

    async def _change(self, sent: bytes) -> bytes:
        """A change, on a connection lent for it."""
        reply = await self._desk.server.ask(sent)
        if sent == b"PUBLISH\n" and reply.startswith(b"OK "):
            self._desk.versions.saw(int(reply.split()[2]))
            self._desk.watchers.tell(int(reply.split()[2]))
        return reply

    async def _pin(self) -> bytes:
        """PIN."""
        try:
            self._held = await self._desk.versions.pin()
        except asyncio.TimeoutError:
            raise Gone from None
        return b"OK %d\n" % self._held.version

    async def _unpin(self) -> bytes:
        """UNPIN. The server unpins before the client hears, so that no collect sees the pin later.
        """
        held, self._held = self._held, None
        assert held is not None
        await self._desk.versions.leave(held)
        return b"OK %d\n" % held.version

    async def _quit(self) -> bytes:
        """QUIT: the pin is left before the reply."""
        if self._held is not None:
            await self._unpin()
        self._is_over = True
        return b"BYE\n"

    async def _watch(self) -> bytes:
        """WATCH, which is the gateway's own line."""
        version = await self._desk.versions.newest_now()
        self._desk.watchers.add(self, version)
        return b"OK %d\n" % version

    async def _map(self) -> Map:
        """The map of the pinned version."""
        assert self._held is not None
        return await self._desk.versions.map_of(self._held)

    async def _dump(self) -> bytes:
        """DUMP: its text goes out as fast as the client takes it."""
        area = await self._map()
        self._write(b"OK %d\n" % dumps.size_of(area))
        for piece in dumps.pieces_of(area):
            self._write(piece)
            await asyncio.sleep(0)  # others have their turn
            await self._room_to_write()
            if self._is_over:
                break
        return b""

    async def _stamp(self, line: Line) -> bytes:
        """STAMP: its bytes are all here before a connection is lent for it."""
        share = self._desk.room.share(self._wake_task)
        try:
            body = await self._counted(line.counted, share)
            return await self._desk.server.ask(line.sent, body)
        finally:
            share.leave()
