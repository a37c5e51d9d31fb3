"""What a follower reads from Redis: which version is the newest, and what it lacks of it."""
import math
import socket
from contextlib import suppress
from typing import Any, Dict, List, NamedTuple, Optional
from urllib.parse import urlsplit

from . import clock
from .capped import capped
from .errors import BadVersion, ClearmapError, Size, WrongMap
from .followed import Version, missing, put_together, stock_of
from .library import redis
from .records import MOVED, Keys, Record, Tile, order_of, read_record, read_tile

AHEAD = 1.0  # seconds by which a replica's clock may be late
BATCH = 64  # tiles that are asked for at once
LONGEST_REPLY = 2**20  # bytes, more than twice those of `BATCH` tiles
LOOKS = 5  # at the newest version, until none comes during one
MICRO = 1_000_000


class State(NamedTuple):
    """The newest version's order, 0 if there is none; when its publisher last found it to be the
    server's newest, by `clock.now`, -inf if unknown, and as it stands in Redis, 0 if unknown; the
    publisher's place, "" if unknown: its host and server's port, and its machine; and whether it
    took the name over."""

    newest: int
    seen: float
    told: int
    place: str
    has_moved: bool


def place_of(url: str) -> str:
    """The address of a Redis, without the passwords of its URL."""
    parts = urlsplit(url)
    where = parts.hostname or parts.path
    return f"{where}:{parts.port}" if parts.port else where


def connected(url: str, timeout: float) -> Any:
    """A client of Redis, which connects at its first use."""
    settings = {"socket_timeout": timeout}
    if not url.startswith("unix:"):
        settings.update(socket_connect_timeout=timeout, socket_keepalive=True)
    return redis().Redis.from_url(url, **settings)


class News:
    """News of new versions, on a connection of its own."""

    def __init__(self, client: Any, channel: str) -> None:
        self._listener = client.pubsub(ignore_subscribe_messages=True)
        try:
            self._listener.subscribe(channel)
        except BaseException:
            self.close()
            raise

    def wait(self, seconds: float) -> bool:
        """Whether news come within this time. Drops whatever else came by then."""
        told = bool(self._listener.get_message(timeout=seconds))
        while told and self._listener.get_message():
            pass
        return told

    def wake(self) -> None:
        """Ends a wait of another thread."""
        stream = getattr(self._listener.connection, "_sock", None)
        with suppress(OSError, AttributeError):
            stream.shutdown(socket.SHUT_RDWR)  # type: ignore[union-attr]

    def close(self) -> None:
        """Ends the connection."""
        self._listener.close()


class Fetcher:
    """Reads the versions of a name. Keeps tiles fetched for a version that couldn't be taken for
    the next try."""

    def __init__(self, client: Any, name: str, size: Optional[Size]) -> None:
        self._client, self._keys, self._size = capped(client, LONGEST_REPLY), Keys(name), size
        self._fetched: Dict[bytes, bytes] = {}

    def news(self) -> News:
        """A connection for news of new versions."""
        return News(self._client, self._keys.news)

    def state(self) -> State:
        """The newest version's state. What is told of another one, which came meanwhile, isn't
        taken for this one's: then Redis is asked again."""
        keys = self._keys
        for _ in range(LOOKS):
            asked, begun = self._client.pipeline(transaction=False), clock.now()
            asked.get(keys.newest).get(keys.seen).get(keys.publisher).get(keys.newest).time()
            newest, seen, publisher, again, now = _answered(asked)
            if newest == again:
                order, told = order_of(newest, keys.newest), order_of(seen, keys.seen)
                place, moved, _ = (publisher or b"").decode("utf-8", "replace").partition(MOVED)
                seen_at = _when(told, now, begun) if told else -math.inf
                return State(order, seen_at, told, place, bool(moved))
        raise ClearmapError("versions come faster than Redis tells of them")

    def version(self, order: int, before: Optional[Version]) -> Version:
        """The version of this order. BadVersion if it isn't whole, and WrongMap if its map doesn't
        have the expected size."""
        asked, begun = self._client.pipeline(transaction=False), clock.now()
        asked.hget(self._keys.versions, order).time()
        data, now = _answered(asked)
        record = read_record(data)
        if record.order != order:
            raise BadVersion(f"its record is that of version {record.order}")
        if self._size is not None and record.size != self._size:
            raise WrongMap(self._size, record.size)
        self._fetch(record, before)
        published = _when(record.published, now, begun)
        made = put_together(record, before, self._fetched, published)
        self._fetched = {}
        return made

    def close(self) -> None:
        """Ends the connections."""
        self._client.connection_pool.disconnect()

    def _fetch(self, record: Record, before: Optional[Version]) -> None:
        """Fetches and checks what neither the version before nor an earlier try has."""
        self._fetched = {key: self._fetched[key] for key in record.tiles if key in self._fetched}
        stock: Dict[bytes, object] = {**stock_of(before), **self._fetched}
        lacking = missing(record, stock)
        wanted = list(lacking)
        for start in range(0, len(wanted), BATCH):
            self._take(wanted[start : start + BATCH], lacking)

    def _take(self, wanted: List[bytes], places: Dict[bytes, Tile]) -> None:
        """Fetches and checks these tiles."""
        values = self._client.hmget(self._keys.tiles, wanted)
        if not isinstance(values, list) or len(values) != len(wanted):
            raise ClearmapError(f"Redis was asked for {len(wanted)} tiles and sends another number")
        for key, value in zip(wanted, values):
            self._fetched[key] = read_tile(value, key, places[key])


def _answered(asked: Any) -> List[Any]:
    """The answers to what a pipeline asks, the time last. The client of Redis takes the form of a
    time for granted."""
    try:
        answers: List[Any] = asked.execute()
    except (IndexError, TypeError, ValueError) as fault:
        raise ClearmapError(f"Redis tells its time in another form: {fault}") from fault
    return answers


def _when(told: int, now: Any, begun: float) -> float:
    """Converts a time of Redis to `clock.now`; Redis answered at its time `now` a question
    asked here at `begun`. A slow answer makes the result too early, never too late. Nobody knows
    when a time was that isn't yet: Redis' clock was set back."""
    seconds, micros = now
    since = int(seconds) + (int(micros) - told) / MICRO
    return -math.inf if since < -AHEAD else begun - max(0.0, since)
