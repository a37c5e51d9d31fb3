"""The versions that clients have pinned: each is held once on the server, and copied once."""
import asyncio
from collections import OrderedDict
from typing import Dict, Optional, Tuple

from clearmap import Map
from clearmap.copies import maps_of, telling
from clearmap.grids import OPEN
from limits import MAPS
from links import Link, Server
from queries import at_reply


class Said(Exception):
    """What the server refused, in its own words, which are the client's reply."""

    def __init__(self, reply: bytes) -> None:
        super().__init__(reply)
        self.reply = reply


class Held:
    """A version that some clients have pinned. Its connection has the pin on the server."""

    def __init__(self, version: int, link: Link, area: Optional[Map]) -> None:
        self.version, self.link, self.map = version, link, area
        self.users = 1
        self.lock = asyncio.Lock()


class Versions:
    """The versions of one run of a server."""

    def __init__(self, server: Server, patience: float) -> None:
        self.newest = 0  # that the server has told
        self._patience = patience
        self._server = server
        self._held: Dict[int, Held] = {}
        self._holding = 0  # connections that have a pin of a client
        self._left = asyncio.Event()  # set, and another one made, when a version is left
        self._kept: "OrderedDict[int, Map]" = OrderedDict()
        self._edge: Optional[str] = None  # the server's, once an answer has told it
        self._copying = asyncio.Lock()

    def saw(self, version: int) -> None:
        """The server has told of this version."""
        self.newest = max(self.newest, version)

    # ---- pins

    async def pin(self) -> Held:
        """Holds the currently newest version for one more client. The server is asked after the
        client's line has come, so no earlier answer to anybody is newer. If as many other versions
        are held as may be, this waits until one is left, no longer than the patience: then it
        raises TimeoutError. Said if the server refuses it."""
        while True:
            left = self._left
            held = await self._tried()
            if held is not None:
                return held
            await asyncio.wait_for(left.wait(), self._patience)

    async def newest_now(self) -> int:
        """The number of the newest version, which isn't held."""
        link = await self._server.take()
        version = await self._pinned_on(link)
        await self._unpin(link)
        return version

    async def leave(self, held: Held) -> None:
        """Leaves it for one client; the last one unpins it on the server."""
        held.users -= 1
        if held.users:
            return
        del self._held[held.version]
        await self._unpin(held.link)
        self._holding -= 1
        self.wake()

    def wake(self) -> None:
        """Lets those who wait for a connection look again."""
        self._left.set()
        self._left = asyncio.Event()

    async def _tried(self) -> Optional[Held]:
        """Pins on a connection, which is returned if somebody holds that version already. None if
        no connection is left to hold it: the last one is for changes."""
        link = await self._server.take()
        version = await self._pinned_on(link)
        held = self._held.get(version)
        if held is None and self._holding < len(self._server.links) - 1:
            self._holding += 1
            held = self._held[version] = Held(version, link, self._kept.get(version))
            return held
        if held is not None:
            held.users += 1
        await self._unpin(link)
        return held

    async def _pinned_on(self, link: Link) -> int:
        """The version that is pinned on this connection now. It isn't older than what the server
        had reported before."""
        least = self.newest
        reply = await link.ask(b"PIN\n")
        if not reply.startswith(b"OK "):
            self._server.give(link)
            raise Said(reply)
        version = int(reply[3:])
        if version < least:
            raise link.fail(f"the server pins version {version}, after it told {least}")
        self.saw(version)
        return version

    async def _unpin(self, link: Link) -> None:
        """Unpins, and returns the connection."""
        reply = await link.ask(b"UNPIN\n")
        if not reply.startswith(b"OK "):
            raise link.fail(f"the server answers {reply!r} to UNPIN")
        self._server.give(link)

    # ---- copies

    async def map_of(self, held: Held) -> Map:
        """The map of a held version, by one DUMP. Said if that is refused."""
        async with held.lock:
            if held.map is None:
                held.map = self._kept[held.version] = await self._copied(held)
                while len(self._kept) > MAPS:
                    self._kept.popitem(last=False)
        return held.map

    async def _copied(self, held: Held) -> Map:
        """A copy. One is made at a time: a map's text takes eight times its bits, and more."""
        async with self._copying:
            reply, text = await held.link.dump()
            if not reply.startswith(b"OK "):
                raise Said(reply)
            maps = await asyncio.to_thread(maps_of, text)
            if self._edge is None:
                self._edge = await self._told_edge(held, maps)
            return maps[self._edge or OPEN]

    async def _told_edge(self, held: Held, maps: Dict[str, Map]) -> Optional[str]:
        """The server's edge, which its answer for a cell shows; None if no cell of this version
        shows it, and then no reply depends on it."""
        asked: Optional[Tuple[Tuple[int, int], str]] = await asyncio.to_thread(telling, maps)
        if asked is None:
            return None
        (x, y), metric = asked
        line = f"AT {metric} {x} {y}\n".encode()
        reply, words = await held.link.ask(line), line.split()[1:]
        for edge, area in maps.items():
            if at_reply(area, *words) == reply:
                return edge
        raise held.link.fail(f"the server answers {reply!r} for a cell of the map that it dumps")
