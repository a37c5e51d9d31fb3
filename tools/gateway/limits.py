"""What a gateway takes and keeps at most."""
from typing import Callable, Dict

from clearmap.requests import LARGEST_DUMP

LARGEST_STAMP = LARGEST_DUMP  # bytes of a stamp's image, as of a server's
READ = 16_384  # bytes that are read at once
UNREAD = 32_768  # bytes of a client that wait to be done, after which no more are read
UNTAKEN = 65_536  # bytes of replies that a client hasn't taken, after which its lines wait
READ_AWAY = 32 << 20  # bytes that are read away at the end of a connection, as by a server
LAST_READ = 0.1  # seconds that each of these reads may take
ROOM = LARGEST_STAMP  # bytes of all clients' stamps that are held at once, but for the oldest one
MAPS = 4  # maps that are kept of versions which nobody holds any more


class Room:
    """Room for the bytes of stamps, which is taken as they come. The oldest stamp that isn't done
    has room of its own, so that one of them can always go on."""

    def __init__(self, size: int) -> None:
        self._size = size
        self._shares: "Dict[Share, None]" = {}  # by age
        self._held = 0

    def share(self, wake: Callable[[], None]) -> "Share":
        """What a stamp takes of it, nothing at first; `wake` is called when there may be more."""
        share = Share(self, wake)
        self._shares[share] = None
        return share

    def left_for(self, share: "Share") -> int:
        """How many bytes more this share may take now."""
        oldest = next(iter(self._shares))
        if share is oldest:
            return LARGEST_STAMP - share.held
        return self._size - (self._held - oldest.held)

    def take(self, share: "Share", count: int) -> None:
        """Takes `count` bytes, no more than are left for it."""
        share.held += count
        self._held += count

    def leave(self, share: "Share") -> None:
        """Returns all that a share has taken."""
        del self._shares[share]
        self._held -= share.held
        for other in list(self._shares):
            other.wake()


class Share:
    """What one stamp takes of the room."""

    def __init__(self, room: Room, wake: Callable[[], None]) -> None:
        self._room, self.wake, self.held = room, wake, 0

    def left(self) -> int:
        """How many bytes more it may take now."""
        return self._room.left_for(self)

    def take(self, count: int) -> None:
        """Takes `count` bytes."""
        self._room.take(self, count)

    def leave(self) -> None:
        """Returns them."""
        self._room.leave(self)
