#!/usr/bin/env python3
"""A gateway to a running `clearmap serve`: any number of clients over a few connections to it.

    clearmap-gateway --port 7400 [--listen 7401] [--links 4]

Needs numpy and libclearmap. It listens only on loopback. Nothing here is proved.
"""
import argparse
import asyncio
import contextlib
import importlib
import pathlib
import resource
import signal
import sys
from typing import TYPE_CHECKING, Callable, Set

HERE = pathlib.Path(__file__).resolve().parent
TOP = HERE.parent.parent
PACKAGES = (TOP / "clients/python", HERE.parent / "python")
sys.path[:0] = [str(HERE), *(str(folder) for folder in PACKAGES if folder.is_dir())]

if TYPE_CHECKING:
    from links import Server

AGAIN = 1.0  # seconds between two looks for a server
EARLY = 3.0  # seconds after which it is said that workers of the server are awaited
OTHERS = 64  # descriptors for all but clients
NOTES = """\
A client speaks to it as to the server, and is answered as the server would answer it. A change \
goes to the server. A version that clients have pinned is held there once for all of them, and \
copied once; its queries are answered by the gateway.

One line more is the gateway's own: WATCH. It is answered OK and the newest version's number. \
After that a line VERSION and a number comes between two replies whenever there is a newer \
version. Numbers that were jumped came too.

Where the server goes away, all clients are closed, and nobody can connect until there is a \
server again.

Example:
  clearmap-gateway --port 7400 --listen 7401 --links 12"""


def number(least: int, most: int) -> Callable[[str], int]:
    """A reader of a number of these limits."""

    def read(word: str) -> int:
        if not word.isdecimal() or not least <= int(word) <= most:
            raise argparse.ArgumentTypeError(f"'{word}' isn't {least} to {most}")
        return int(word)

    return read


def parser() -> argparse.ArgumentParser:
    """The command line."""
    words = argparse.ArgumentParser(
        prog="clearmap-gateway",
        description="Lets any number of clients share a few connections to a running server.",
    )
    add = words.add_argument
    add("--port", type=number(1, 65535), required=True, help="the port of clearmap serve")
    add("--listen", metavar="PORT", type=number(0, 65535), default=0,
        help="the gateway's own port on loopback (default 0: the system picks one)")  # fmt: skip
    add("--links", type=number(2, 16), default=4,
        help="connections to the server, each of which takes one of its workers (2 to 16, default "
        "4); one fewer is how many versions can be pinned at once")  # fmt: skip
    add("--clients", type=number(1, 100_000), default=2000,
        help="clients at once, beyond which a connection is closed (1 to 100000, default "
        "2000)")  # fmt: skip
    add("--patience", metavar="SECONDS", type=number(1, 86400), default=60,
        help="how long the server may take to answer, a stamp's bytes to come, a pin to wait and 64 "
        "KiB of replies to be taken (1 to 86400, default 60)")  # fmt: skip
    return words


class Untold(Exception):
    """Nobody can learn the gateway's port."""


def say(text: object) -> None:
    """One line on standard error. A log that takes nothing, as on a full disk, ends nothing."""
    with contextlib.suppress(OSError):
        print(f"clearmap-gateway: {text}", file=sys.stderr, flush=True)


def announce(port: int) -> None:
    """Says where it listens, in the one line on standard output."""
    try:
        print(f"LISTENING {port}", flush=True)
    except OSError as fault:
        raise Untold(f"the standard output can't be written: {fault.strerror}") from fault


class Gateway:
    """Serves clients on a port, for one run of the server after another."""

    def __init__(self, options: argparse.Namespace) -> None:
        self._options = options
        self._port: int = options.listen
        self._is_first = True
        self._said: Set[str] = set()  # why there is no server again

    async def run(self) -> None:
        """Runs until it is cancelled. Raises if there is no server at first."""
        from links import Server, ServerLost
        from listener import PortTaken

        while True:
            server = Server(self._options.patience)
            try:
                await self._open(server)
                await self._serve(server)
            except (ServerLost, PortTaken) as fault:
                if self._is_first:
                    raise
                self._tell(str(fault))
            finally:
                server.lose("the gateway ends")
            await asyncio.sleep(AGAIN)

    def _tell(self, why: str) -> None:
        """Says what keeps it from serving, each reason once until it serves again."""
        if why not in self._said:
            say(why)
        self._said.add(why)

    async def _open(self, server: "Server") -> None:
        """Connects to the server, whose workers answer within the patience. That they are awaited
        is said long before its end."""
        from links import ServerLost

        links, patience = self._options.links, self._options.patience
        why = f"it hangs, or has fewer than {links} that are free"

        def tell() -> None:
            self._tell(f"{server.free} of {links} connections have a worker of the server: {why}")

        early = asyncio.get_running_loop().call_later(EARLY, tell)
        try:
            await asyncio.wait_for(server.open(self._options.port, links), patience)
        except asyncio.TimeoutError:
            late = f"no worker of the server has answered within {patience} s: {why}"
            raise ServerLost(late) from None
        finally:
            early.cancel()

    async def _serve(self, server: "Server") -> None:
        """Serves clients as long as the server is there."""
        from clients import Desk
        from listener import Listener

        desk = Desk(server, self._options.patience)
        listener = Listener(self._port, desk, self._options.clients, say)
        self._port = listener.port
        if self._is_first:
            announce(self._port)
        else:
            say("there is a server again")
        self._is_first = False
        self._said.clear()
        try:
            why = await asyncio.shield(server.lost)
            say(f"{why}: all clients are closed")
        finally:
            server.lose("the gateway ends")
            desk.versions.wake()
            await listener.close()
            for client in list(desk.clients):
                client.lose()


async def serve(options: argparse.Namespace) -> None:
    """Runs until a signal ends it. If it ends otherwise, what it ended by is raised."""
    loop, ended = asyncio.get_running_loop(), asyncio.Event()
    for ending in (signal.SIGINT, signal.SIGTERM):
        loop.add_signal_handler(ending, ended.set)
    serving, waiting = loop.create_task(Gateway(options).run()), loop.create_task(ended.wait())
    await asyncio.wait((serving, waiting), return_when=asyncio.FIRST_COMPLETED)
    waiting.cancel()
    while not serving.done():
        serving.cancel()  # again, where a wait that was over just then has swallowed it
        await asyncio.wait((serving,), timeout=0.1)
    if not (ended.is_set() and serving.cancelled()):
        serving.result()


def as_many_as_descriptors(clients: int) -> int:
    """Lets the process have as many descriptors as clients; how many clients the system allows."""
    soft, hard = resource.getrlimit(resource.RLIMIT_NOFILE)
    wanted = clients + OTHERS
    most = wanted if hard == resource.RLIM_INFINITY else min(wanted, hard)
    resource.setrlimit(resource.RLIMIT_NOFILE, (max(soft, most), hard))
    if most < wanted:
        say(f"{most - OTHERS} clients at once, as the system allows {hard} descriptors")
    return most - OTHERS


def use_fast_loop() -> None:
    """Uses the loop of uvloop if that is installed: replies come sooner."""
    with contextlib.suppress(ImportError):
        importlib.import_module("uvloop").install()


def main() -> int:
    """Status 1 if the server isn't there, a port can't be had, or something isn't installed."""
    options = parser().parse_args()
    try:
        from clearmap.library import library, numpy
        from links import ServerLost
        from listener import PortTaken

        library(), numpy()
    except ImportError as missing:
        say(str(missing))
        return 1
    options.clients = as_many_as_descriptors(options.clients)
    use_fast_loop()
    try:
        asyncio.run(serve(options))
    except (ServerLost, PortTaken, Untold) as fault:
        say(fault)
        return 1
    return 0


if __name__ == "__main__":
    sys.exit(main())
