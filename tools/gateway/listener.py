"""The gateway's own port: each connection is a client, up to a limit."""
import asyncio
import os
import socket
from typing import Callable, Dict, Optional, Set

from clients import Client, Desk

WAITING = 1024  # connections that wait to be taken
AT_ONCE = 64  # of them that are taken before clients have their turn
PAUSE = 1.0  # seconds until a connection is taken again, where the system had nothing left for one
QUIET = 60.0  # seconds until it is told again why connections aren't taken


class PortTaken(Exception):
    """The gateway's port can't be had."""


class Listener:
    """Takes connections until it is closed. A client counts from then on, not once it is connected:
    of many that come at once no more are taken than may be. Those beyond are closed at once."""

    def __init__(self, port: int, desk: Desk, most: int, say: Callable[[str], None]) -> None:
        self._desk, self._most, self._say = desk, most, say
        self._loop = asyncio.get_running_loop()
        self._connecting: "Set[asyncio.Task[None]]" = set()
        self._paused: Optional[asyncio.TimerHandle] = None
        self._told: Dict[str, float] = {}  # why connections weren't taken, and when it was said
        try:
            self._socket = socket.create_server(("127.0.0.1", port), backlog=WAITING)
        except OSError as fault:
            why = os.strerror(fault.errno)
            raise PortTaken(f"port {port} can't be had: {why}") from fault
        self._socket.setblocking(False)
        self.port: int = self._socket.getsockname()[1]
        self._resume()

    async def close(self) -> None:
        """Takes no more. Those that were taken are connected then."""
        self._loop.remove_reader(self._socket)
        if self._paused is not None:
            self._paused.cancel()
        self._socket.close()
        if self._connecting:
            await asyncio.wait(self._connecting)

    def _resume(self) -> None:
        self._loop.add_reader(self._socket, self._take_some)

    def _take_some(self) -> None:
        """Takes some of those that wait."""
        for _ in range(AT_ONCE):
            try:
                stream = self._socket.accept()[0]
            except (BlockingIOError, ConnectionAbortedError):
                break
            except OSError as fault:
                self._pause(fault)
                break
            self._take(stream)

    def _take(self, stream: socket.socket) -> None:
        """One connection."""
        if len(self._desk.clients) >= self._most:
            stream.close()
            self._tell(f"{self._most} clients are connected, and more may not be: others are closed")
            return
        client = Client(self._desk)
        self._desk.clients[client] = None
        task = self._loop.create_task(self._connect(client, stream))
        self._connecting.add(task)
        task.add_done_callback(self._connecting.discard)

    async def _connect(self, client: Client, stream: socket.socket) -> None:
        try:
            stream.setsockopt(socket.IPPROTO_TCP, socket.TCP_NODELAY, 1)  # asyncio's loop doesn't
            await self._loop.connect_accepted_socket(lambda: client, stream)
        except OSError:  # it has gone
            self._desk.clients.pop(client, None)
            stream.close()

    def _pause(self, fault: OSError) -> None:
        """The system has no descriptor or no memory for a connection."""
        self._loop.remove_reader(self._socket)
        self._paused = self._loop.call_later(PAUSE, self._resume)
        self._tell(f"no connection can be taken: {fault.strerror}")

    def _tell(self, why: str) -> None:
        """Says it, unless it was said a short while ago."""
        now = self._loop.time()
        if now >= self._told.get(why, -QUIET) + QUIET:
            self._say(why)
            self._told[why] = now
