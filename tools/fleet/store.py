"""The versions of one name in Redis, and the lease of the one who may publish them."""
import os
import socket
from secrets import token_hex
from typing import Any, Dict, Iterable, List, NamedTuple, Optional, Set, Tuple

import scripts
from clearmap import BadVersion, ClearmapError, clock
from clearmap.records import (
    MOVED, Keys, Record, compressed_tiles, order_of, read_record, told_apart,
)  # fmt: skip
from places import Here
from source import Copy

LEASE = 10.0  # seconds that a publisher's lease lasts after its last sign
BATCH = 64  # tiles that are written or dropped at once
MICRO = 1_000_000


class LeaseLost(Exception):
    """The lease has ended, or is another publisher's."""


class Elsewhere(Exception):
    """Another place has published under this name."""


class Stored(NamedTuple):
    """The contents of Redis: the greatest order, the tiles that are there, those that each version
    names, by its order, and the time, in microseconds."""

    newest: int
    tiles: Set[bytes]
    versions: Dict[int, Set[bytes]]
    now: int

    def named(self, but: Iterable[int] = ()) -> Set[bytes]:
        """The tiles of all versions but these."""
        left = [tiles for order, tiles in self.versions.items() if order not in set(but)]
        return set().union(*left)


class Store:
    """Writes versions: first the tiles that aren't there, then by one script the record and what
    names it the newest. After that the tiles go that no kept version names. What Redis refuses is
    raised, and can be tried again at any time."""

    def __init__(self, redis: Any, name: str, keep: int, here: Here, takes_over: bool) -> None:
        self._redis, self._keys, self._keep = redis, Keys(name), keep
        self._here, self._takes_over = here, takes_over
        self._publisher = here.place + MOVED * takes_over  # as followers read it
        self._token = f"{socket.gethostname()}:{os.getpid()}:{token_hex(8)}"
        self._clock: Optional[Tuple[int, float]] = None  # a time of Redis, and of `clock.now`
        self._last = 0  # the order of what was published last from here
        self._count = 0  # tiles that stood in Redis after it
        self._is_sure = False  # whether the tiles in Redis are as they were written

    # ---- the lease

    def take(self) -> Optional[Tuple[str, float]]:
        """Takes the lease. If it is another's, returns whose, and for how many more seconds.
        Elsewhere if another place has published last, and this one doesn't take over."""
        keys, (place, boot, started) = self._keys, self._here
        host, _, machine = place.partition(" ")
        words = [int(1000 * LEASE), host, machine, boot, int(MICRO * (clock.now() - started))]
        names = [keys.lease, keys.publisher, keys.boot, keys.seen]
        first, *rest = self._run(scripts.TAKE, names, [*words, int(self._takes_over)])
        told = first.decode("utf-8", "replace")
        if not rest:
            if told.endswith(MOVED):
                self._publisher = place + MOVED
            self.doubt()
            return None
        if isinstance(rest[0], bytes):
            last = rest[0].decode("utf-8", "replace").partition(MOVED)[0]
            raise Elsewhere(*told_apart(last, place))
        if rest[0] < 0:
            raise ClearmapError(f"the key {self._keys.lease} holds something else: it never ends")
        return told.rpartition(":")[0], rest[0] / 1000

    def keep(self, looked: Optional[float] = None) -> bool:
        """Keeps the lease; LeaseLost if it isn't one's own any more. With a time of `clock.now`
        followers learn that what was published last was the server's newest then. False if Redis
        shows another version, or not all of it, as one that has lost its last writes does."""
        keys = self._keys
        names = [keys.lease, keys.seen, keys.newest, keys.versions, keys.tiles, keys.publisher]
        order, time = ("", 0) if looked is None else (self._last, self._time_of(looked))
        words = [int(1000 * LEASE), order, self._count, time, self._publisher]
        told, now = self._run(scripts.KEEP, names, words)
        self._clock = int(now), clock.now()
        if told == 0:
            raise LeaseLost
        return bool(told == 1)

    def leave(self) -> None:
        """Gives the lease up, so that the next publisher needn't wait."""
        self._run(scripts.LEAVE, [self._keys.lease], [])

    def doubt(self) -> None:
        """From now on it is unknown what Redis holds, and what its clock says: the next version
        writes all its tiles."""
        self._is_sure, self._clock = False, None

    def _time_of(self, moment: float) -> int:
        """Redis' time at a moment of `clock.now`, or somewhat earlier: by its answer before, which
        it gave before that came here."""
        if self._clock is None:
            seconds, micros = self._redis.time()
            self._clock = MICRO * int(seconds) + int(micros), clock.now()
        told, came = self._clock
        return max(0, told + int(MICRO * (moment - came)))

    def _run(self, script: str, keys: List[str], words: List[object]) -> Any:
        """Runs a script, with the token as its first argument."""
        return self._redis.eval(script, len(keys), *keys, self._token, *words)

    # ---- versions

    def publish(self, copy: Copy, looked: float) -> Record:
        """Shows a version to followers, as newer than each before it, and as the server's newest at
        that time of `clock.now`."""
        stored = self._stored()
        hashes, values = compressed_tiles(copy.area)
        record = self._recorded(copy, tuple(hashes), stored, looked)
        self._drop(stored.tiles - stored.named() - set(hashes))
        lacking = [key for key in values if not self._is_sure or key not in stored.tiles]
        self._write({key: values[key] for key in lacking})
        count = max(0, len(stored.versions) + 1 - self._keep)
        dropped = sorted(stored.versions)[:count]
        self._commit(record, dropped)
        left = stored.named(dropped) | set(hashes)
        self._drop((stored.tiles & stored.named()) - left)
        self._count = len(left)
        return record

    def _stored(self) -> Stored:
        """The contents of Redis, which nobody writes without the lease. A damaged record names no
        tiles."""
        keys = self._keys
        asked = self._redis.pipeline(transaction=False)  # which is answered without memory too
        asked.get(keys.newest).hkeys(keys.tiles).hgetall(keys.versions).time()
        newest, tiles, records, (seconds, micros) = asked.execute()
        now = MICRO * int(seconds) + int(micros)
        self._clock = now, clock.now()
        versions = {order_of(order, keys.versions): _tiles_of(it) for order, it in records.items()}
        last = max([order_of(newest, keys.newest), *versions])
        return Stored(last, set(tiles), versions, now)

    def _recorded(
        self, copy: Copy, tiles: Tuple[bytes, ...], stored: Stored, looked: float
    ) -> Record:
        """The record of a version. Its order is the time, or more: a Redis that has lost what it
        held goes on above what followers have seen."""
        order = max(stored.now, stored.newest + 1, self._last + 1)
        run, number = copy.seen
        time = min(self._time_of(looked), stored.now)
        return Record(order, run, number, time, copy.area.size, copy.area.edge, tiles)

    def _write(self, values: Dict[bytes, bytes]) -> None:
        """Writes tiles, and keeps the lease between them."""
        names = list(values)
        for start in range(0, len(names), BATCH):
            part = {key: values[key] for key in names[start : start + BATCH]}
            self._redis.hset(self._keys.tiles, mapping=part)
            self.keep()

    def _commit(self, record: Record, dropped: List[int]) -> None:
        """Makes a version the newest, and drops older ones."""
        keys = self._keys
        named = [keys.lease, keys.newest, keys.versions, keys.tiles, keys.seen, keys.publisher]
        words = [record.order, record.written(), record.published, self._publisher, keys.news]
        words += dropped
        told = self._run(scripts.COMMIT, named, words)
        if told == b"lease":
            raise LeaseLost
        if told != b"done":
            raise ClearmapError("Redis has lost or changed what was just written")
        self._last, self._is_sure = record.order, True

    def _drop(self, tiles: Set[bytes]) -> None:
        """Drops tiles that no kept version names."""
        names = list(tiles)
        for start in range(0, len(names), BATCH):
            words: List[object] = list(names[start : start + BATCH])
            if not self._run(scripts.DROP, [self._keys.lease, self._keys.tiles], words):
                raise LeaseLost


def _tiles_of(record: bytes) -> Set[bytes]:
    """The tiles that a record names."""
    try:
        return set(read_record(record).tiles)
    except BadVersion:
        return set()
