"""Brings Redis up to date with a server, and goes on if one of them is lost."""
import argparse
import threading
import time
from contextlib import suppress
from typing import Any, Callable, NamedTuple, Optional, Tuple

from clearmap import ClearmapError
from clearmap.library import redis
from places import here_of
from source import Copy, Seen, Source
from store import LEASE, Elsewhere, LeaseLost, Store

AGAIN = 1.0  # seconds until what went wrong is tried again, and between two signs of life
SAME = 10.0  # seconds within which another reason is taken as a part of what was told


class Trouble:
    """Prints one line when something goes wrong, and one when all is well again. If it goes wrong
    in another way at once, as when something ends, that counts as the same trouble."""

    def __init__(self, say: Callable[[object], None], well: str) -> None:
        self._say, self._well, self._said, self._at = say, well, "", 0.0

    def tell(self, why: object) -> None:
        """Something is wrong, for this reason."""
        line = str(why) or type(why).__name__
        is_new = not self._said or line != self._said and time.monotonic() > self._at + SAME
        if is_new:
            self._say(line)
            self._said, self._at = line, time.monotonic()

    def end(self) -> None:
        """All is well."""
        if self._said:
            self._say(self._well)
        self._said = ""


class Taken(Exception):
    """Another publisher of the name is live, or one from elsewhere was last."""


class Look(NamedTuple):
    """The server's newest version, and when it was, by `clock.now`."""

    seen: Seen
    at: float


class Publisher:
    """Publishes the versions of a server under a name until it is ended."""

    def __init__(
        self, options: argparse.Namespace, redis: Any, say: Callable[[object], None]
    ) -> None:
        self._options = options
        self._source = Source(options.port, options.size)
        here = here_of(options.port, options.place)
        self._store = Store(redis, options.name, options.keep, here, options.take_over)
        self._server = Trouble(say, "there is a server again")
        self._redis = Trouble(say, "Redis takes versions again")
        self._lease = Trouble(say, "the lease has ended")
        self._is_ended = self._has_lease = self._has_shown = False
        self._copy: Optional[Copy] = None
        self._shown: Optional[Seen] = None
        self._kept_at = 0.0

    def end(self, *_: object) -> None:
        """Ends it after the current step. A signal's handler may call it."""
        self._is_ended = True

    def run(self) -> None:
        """Goes on until it is ended. Taken if another one is live."""
        threading.Thread(target=self._beat, daemon=True).start()
        try:
            while not self._is_ended:
                is_well = self._step()
                self._rest(self._options.interval if is_well else AGAIN)
        finally:
            self._source.close()
            self._leave()

    def _rest(self, seconds: float) -> None:
        """Waits this long, or until it is ended."""
        until = time.monotonic() + seconds
        while not self._is_ended and (left := until - time.monotonic()) > 0:
            time.sleep(min(left, 0.1))

    def _beat(self) -> None:
        """Keeps the lease while a copy takes its time. The next step finds what goes wrong."""
        while not self._is_ended:
            time.sleep(AGAIN)
            with suppress(LeaseLost, redis().RedisError, OSError):
                if self._has_lease:
                    self._store.keep()

    def _look(self) -> Optional[Look]:
        """The server's newest version, with a copy of it if it isn't shown yet; None if the server
        isn't there."""
        try:
            seen, at = self._source.look()
            if seen != self._shown and (self._copy is None or self._copy.seen != seen):
                self._copy = self._source.copy()
                seen = self._copy.seen
        except (ClearmapError, MemoryError) as fault:
            self._server.tell(fault)
            return None
        self._server.end()
        return Look(seen, at)

    def _step(self) -> bool:
        """Brings Redis up to date, by a look at the server once the lease is there: the wait for it
        may be long. Whether all is well."""
        look = None
        try:
            if self._has_lease or self._take_lease():
                look = self._look()
                self._show(look)
                self._redis.end()
        except LeaseLost:
            self._has_lease = False
        except (redis().RedisError, ClearmapError, OSError, MemoryError) as fault:
            self._store.doubt()
            self._redis.tell(f"Redis: {fault}")
            return False
        return look is not None

    def _show(self, look: Optional[Look]) -> None:
        """Publishes what isn't shown yet, or gives a sign of life once a second, and at the first
        look after a publish, which took its time."""
        if look is not None and look.seen != self._shown and self._copy is not None:
            self._store.publish(self._copy, look.at)
            self._shown, self._kept_at = self._copy.seen, 0.0
            if not self._has_shown:
                self._has_shown = True
                with suppress(OSError):  # that it can't be written is no fault of Redis
                    print(f"PUBLISHING {self._options.name}", flush=True)
        elif time.monotonic() >= self._kept_at + AGAIN:
            at = look.at if look is not None and look.seen == self._shown else None
            if not self._store.keep(at):
                self._shown = None
                self._store.doubt()
            self._kept_at = time.monotonic()

    def _take_lease(self) -> bool:
        """Takes the lease, once that of a publisher that is gone has ended."""
        begun, least = time.monotonic(), LEASE
        while not self._is_ended:
            held = self._taken()
            if held is None:
                self._lease.end()
                self._has_lease, self._shown, self._kept_at = True, None, 0.0
                return True
            holder, left = held
            if left > least:
                raise Taken(f"another publisher of '{self._options.name}' is live: {holder}")
            if time.monotonic() > begun + 2 * AGAIN:  # a live one would have kept it
                self._lease.tell(f"the lease of '{self._options.name}' is {holder}'s: it ends soon")
            least = left
            self._rest(0.2)
        return False

    def _taken(self) -> Optional[Tuple[str, float]]:
        """Tries to take the lease, as the store does."""
        try:
            return self._store.take()
        except Elsewhere as fault:
            last, mine = fault.args
            told, cure = f"from {last:.80}, and this is {mine}", "take another name"
            if last == mine:
                told, cure = f"from a twin of this machine, {mine} too", "give each a --place"
            said = f"'{self._options.name}' was published last {told}: {cure}, or --take-over"
            raise Taken(said) from fault

    def _leave(self) -> None:
        """Gives the lease up, if Redis is there."""
        with suppress(redis().RedisError, OSError):
            if self._has_lease:
                self._store.leave()
