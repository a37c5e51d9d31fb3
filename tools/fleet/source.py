"""The server whose versions are published: one connection, and a run of it after another."""
from contextlib import contextmanager
from dataclasses import dataclass
from secrets import token_hex
from typing import Iterator, NamedTuple, Optional, Tuple

from clearmap import OPEN, Client, ClearmapError, Map, Pinned, Refused, clock
from clearmap.errors import Size

PATIENCE = 10.0  # seconds for each reply, and each piece of a dump


class Seen(NamedTuple):
    """A version: its number, of one connection. A server that ends closes its connections, so that
    numbers of one connection are those of one served map."""

    run: str
    number: int


@dataclass(frozen=True)
class Copy:
    """A version with its map."""

    seen: Seen
    area: Map


class Source:
    """Looks at a server, or at a gateway to it. A look or a copy raises a ClearmapError, and the
    next one reconnects if the connection was lost. With a size another map is refused."""

    def __init__(self, port: int, size: Optional[Size] = None) -> None:
        self._port, self._size = port, size
        self._client: Optional[Client] = None
        self._run = ""

    def look(self) -> Tuple[Seen, float]:
        """The newest version, which isn't held, and when it was, by `clock.now`: before the server
        was asked, as nobody knows how long it took to answer."""
        begun = clock.now()
        with self._pinned() as pinned:
            return Seen(self._run, pinned.version), begun

    def copy(self) -> Copy:
        """The newest version, copied. If its cells don't show the edge, no answer of its map
        depends on it, and it is reported as open."""
        with self._pinned() as pinned:
            return Copy(Seen(self._run, pinned.version), pinned.map(untold=OPEN))

    def close(self) -> None:
        """Ends the connection."""
        client, self._client = self._client, None
        if client is not None:
            client.close()

    @contextmanager
    def _pinned(self) -> Iterator[Pinned]:
        """A pin, on the connection that stands or on a new one, which is another run."""
        try:
            if self._client is None:
                self._client = Client(self._port, timeout=PATIENCE, size=self._size)
                self._run = token_hex(8)
            with self._client.pin() as pinned:
                yield pinned
        except Refused:
            raise
        except ClearmapError:
            self.close()
            raise
