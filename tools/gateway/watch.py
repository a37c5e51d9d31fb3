"""Clients that are notified of each new version."""
import asyncio
from typing import Dict, Optional, Protocol

from links import ServerLost
from versions import Said, Versions

EVERY = 0.05  # seconds between two looks at the server, which notifies nobody of a publish


class Told(Protocol):
    """Who watches."""

    def tell(self, version: int) -> None:
        """A newer version has come."""


class Watchers:
    """Those who watch, with the number that each was notified of last. The server is asked while
    there is one."""

    def __init__(self, versions: Versions) -> None:
        self._versions = versions
        self._told: Dict[Told, int] = {}
        self._task: "Optional[asyncio.Task[None]]" = None

    def add(self, watcher: Told, version: int) -> None:
        """From now on it is notified of what is newer than this."""
        self._told[watcher] = version
        if self._task is None:
            self._task = asyncio.get_running_loop().create_task(self._look())

    def remove(self, watcher: Told) -> None:
        """It is no longer notified."""
        self._told.pop(watcher, None)

    def tell(self, version: int) -> None:
        """Tells it to those who don't know it. Numbers in between came too."""
        for watcher, told in list(self._told.items()):
            if told < version:
                self._told[watcher] = version
                watcher.tell(version)

    async def _look(self) -> None:
        """Asks for the newest version again and again."""
        try:
            while self._told:
                await asyncio.sleep(EVERY)
                self.tell(await self._newest())
        except ServerLost:
            pass
        finally:
            self._task = None

    async def _newest(self) -> int:
        """The newest version; 0, which is no news, if the server has no memory for a pin."""
        try:
            return await self._versions.newest_now()
        except Said:
            return 0
