"""Follows the versions of a served map through Redis: the newest whole one, in this process."""
import math
import os
import random
import threading
from typing import NoReturn, Optional

from . import clock
from .errors import BadVersion, ClearmapError, NoVersion, Size, WrongMap
from .fetching import Fetcher, News, State, connected, place_of
from .followed import LOST, Signs, Version
from .library import library, numpy, redis
from .records import told_apart
from .size import size_of

LOOK = 1.0  # seconds without news after which Redis is asked
PAUSES = 0.1, 2.0  # seconds before Redis is tried again, at first and at most
TRIES = 3  # looks one after another while newer versions take the place of the one that is read
UNSEEN = "nobody tells that its version is the newest: the server or clearmap-publish is lost"
UNTOLD = "nobody has told yet that its version is the newest"


class Follower:
    """The newest version of the map that `clearmap-publish` puts into Redis under a name.

        with clearmap.Follower("redis://store:6379", "yard") as follower:
            version = follower.wait(timeout=10)
            near = version.map.at(3, 4)

    A thread of its own fetches what each version lacks. `version` is always whole, and never older
    than one before it. What isn't whole, or doesn't match its hashes, isn't taken, and `error` says
    so. Without Redis the version stays: its `age` and `stale` grow. With `size` a map of another
    size isn't taken, and with `host` none but those that this host publishes: "depot", or
    "depot:7400" with its server's port, or the word of `clearmap-publish --place`.

    Ask a version, not the follower, for answers that belong together. Any thread may use all of
    this, and a signal's handler `version`, `stale` and `error`. A forked process makes a follower
    of its own. It needs numpy, libclearmap and redis, else ImportError.
    """

    def __init__(
        self,
        url: str,
        name: str,
        *,
        size: Optional[Size] = None,
        host: Optional[str] = None,
        timeout: float = 5.0,
    ) -> None:
        library(), numpy(), redis()
        if not timeout > 0:
            raise ValueError(f"a time-out of {timeout} s, where more than 0 is wanted")
        if host == "":
            raise ValueError("the host has no name: leave it out where any may publish")
        self._what = f"'{name}' at {place_of(url)}"
        self._fetcher = Fetcher(
            connected(url, float(timeout)), name, None if size is None else size_of(size)
        )
        self._host, self._place = host, ""  # of the version's publisher
        self._signs = Signs()
        self._version: Optional[Version] = None
        self._error: Optional[str] = None
        self._news: Optional[News] = None
        self._changed, self._ended = threading.Condition(), threading.Event()
        self._process = os.getpid()
        self._thread = threading.Thread(target=self._run, name=f"follower {name}", daemon=True)
        self._thread.start()

    def __enter__(self) -> "Follower":
        return self

    def __exit__(self, *_: object) -> None:
        self.close()

    def __reduce__(self) -> NoReturn:
        raise TypeError("a Follower is a thread, which can't be copied or pickled")

    # ---- what is known

    @property
    def version(self) -> Version:
        """The newest whole version. NoVersion if none has come yet."""
        self._check_process()
        if self._version is None:
            raise NoVersion(self._none())
        return self._version

    @property
    def error(self) -> Optional[str]:
        """What currently keeps it from the newest version, or from knowing that it has it; None if
        nothing does."""
        why = self._why()
        return None if why is None else f"{self._what}: {why}"

    @property
    def stale(self) -> float:
        """That of `version`: seconds since it was last known to be the server's newest. While all
        is well it stays below three. It is infinite without a version, and until the publisher has
        given a sign since the follower was made: within some two seconds, if it lives."""
        version = self._version
        return math.inf if version is None else version.stale

    def wait(
        self, newer_than: Optional[Version] = None, timeout: Optional[float] = None
    ) -> Version:
        """The newest version, once there is one, or one that is newer than this. NoVersion if none
        comes within the time-out, or the follower is closed."""
        self._check_process()
        most = None if timeout is None else float(timeout)  # few bits hold no time of a clock
        with self._changed:
            self._changed.wait_for(lambda: self._is_newer(newer_than) or self._is_over(), most)
            if not self._is_newer(newer_than):
                raise NoVersion(self._none(newer_than))
            return self.version

    def close(self) -> None:
        """Ends the thread and its connections. The version stays. It may be called again."""
        self._ended.set()
        if self._process != os.getpid():
            return
        news = self._news
        if news is not None:
            news.wake()
        with self._changed:
            self._changed.notify_all()
        if threading.current_thread() is not self._thread:
            self._thread.join()

    def _is_newer(self, than: Optional[Version]) -> bool:
        """Whether there is a version, and a newer one than this."""
        mine = self._version
        return mine is not None and (than is None or mine.order > than.order)

    def _is_over(self) -> bool:
        return self._ended.is_set()

    def _none(self, newer_than: Optional[Version] = None) -> str:
        """What to say if there is no version."""
        newer = "" if newer_than is None else f" newer than {newer_than.number}"
        why = "the follower is closed" if self._is_over() else self._why()
        return f"there is no version{newer} of {self._what} yet" + (f": {why}" if why else "")

    def _why(self) -> Optional[str]:
        """What is wrong, if anything is."""
        stale = self.stale
        if self._error is not None or self._version is None or stale <= LOST:
            return self._error
        return UNSEEN if stale < math.inf else UNTOLD

    def _check_process(self) -> None:
        if self._process != os.getpid():
            raise ClearmapError("a forked process makes a follower of its own")

    # ---- the thread

    def _run(self) -> None:
        """Follows until the end. Reports what goes wrong with Redis, its link or its data, and
        tries again."""
        pause, longest = PAUSES
        while not self._is_over():
            begun = clock.now()
            try:
                self._follow()
            except Exception as fault:
                if not self._is_over():
                    self._error = str(fault) or type(fault).__name__
                self._fetcher.close()  # connections that may be out of step
            pause = PAUSES[0] if clock.now() - begun > longest else min(2 * pause, longest)
            self._ended.wait(pause * random.uniform(0.5, 1))
        self._fetcher.close()

    def _follow(self) -> None:
        """Looks at each piece of news, and now and then without any, over one connection for news.
        """
        news = self._news = self._fetcher.news()
        try:
            is_told = True
            while not self._is_over():
                if self._look() and not is_told:
                    return  # a version came that no news told of: a connection that may be lost
                is_told = news.wait(LOOK)
        finally:
            self._news = None
            news.close()

    def _look(self) -> bool:
        """Takes the newest version, if it is newer. Whether it did."""
        refused = -1
        for _ in range(TRIES):
            state = self._fetcher.state()
            self._signs.watch(state.told)
            newest = state.newest
            if newest == refused or not self._wants(newest) or self._is_from_elsewhere(state):
                self._signs.confirm(self._version, state.newest, state.seen)
                return False
            try:
                self._take(state)
                return True
            except (BadVersion, WrongMap) as fault:  # it may be that a newer one took its place
                self._error = f"the newest version isn't taken: {fault}"
                refused = newest
        return False

    def _wants(self, newest: int) -> bool:
        """Whether a version of this order is newer than the current one. An error if it is older.
        """
        mine = 0 if self._version is None else self._version.order
        if newest == 0:
            self._error = "Redis has no version"
        elif newest < mine:
            self._error = "Redis has an older version than the one here"
        elif newest == mine:
            self._error = None
        return newest > mine

    def _is_from_elsewhere(self, state: State) -> bool:
        """Whether another host than the expected one has published the newest version; or another
        place than that of the version here, which didn't take the name over. With an expected host
        its server's port may be another one, but its machine may not."""
        place, mine, wanted = state.place, self._place, self._host
        host, _, machine = place.partition(" ")
        own, _, own_machine = mine.partition(" ")
        if wanted is not None and wanted not in (host, host.rpartition(":")[0]):
            why = f"and {wanted} is expected"
        elif not mine or state.has_moved:
            return False
        elif (wanted or host == own) and (machine == own_machine or "" in (machine, own_machine)):
            return False
        else:
            host, own = told_apart(place, mine)
            why = f"and that here from {own:.80}"
        told = f"is from {host:.80}" if host else "doesn't tell its publisher"
        self._error = f"the newest version isn't taken: it {told}, {why}"
        return True

    def _take(self, state: State) -> None:
        """Fetches the newest version, and shows it to all."""
        version = self._fetcher.version(state.newest, self._version)
        self._signs.confirm(version, state.newest, state.seen)
        with self._changed:
            self._version, self._place, self._error = version, state.place, None
            self._changed.notify_all()
