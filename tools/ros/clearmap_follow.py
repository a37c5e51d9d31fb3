"""Follows the newest version of a server for what shows it, in a thread of its own. No ROS is
wanted, and nothing here is proved."""
import functools
import threading
from typing import TYPE_CHECKING, Callable, Optional

import clearmap
from clearmap_costmap import squares_of
from clearmap_feed import Feed, Newest, sentence_of
from clearmap import RosError

if TYPE_CHECKING:
    from clearmap_costmap import Squares

MOST_LOOKS = 50.0  # a second
Shown = Newest["Squares"]


def pause_of(frequency: object) -> float:
    """The seconds from one look to the next."""
    if not isinstance(frequency, (int, float)) or isinstance(frequency, bool):
        raise RosError(f"'{frequency}' is no publish_frequency: a number is wanted")
    if not 0 < frequency <= MOST_LOOKS:
        most = f"above 0, and {MOST_LOOKS:g} at most"
        raise RosError(f"'{frequency}' is no publish_frequency: {most}")
    return 1 / frequency


class Follower:
    """Looks for a newer version again and again, and shows each that it finds once: the newest is
    found, and others between two looks aren't. A lost server is reported in one line, and what was
    shown stays; it is looked for again, as is one whose map has another size."""

    def __init__(
        self,
        feed: Feed,
        pause: float,
        show: Callable[[Shown], None],
        warn: Callable[[str], None],
    ) -> None:
        self._feed, self._pause, self._show, self._warn = feed, pause, show, warn
        self._squares = functools.partial(squares_of, program=feed.program)
        self._shown: Optional[Shown] = None
        self._told = ""  # the kind of the fault that was told
        self._is_ended = False
        self._wanted = threading.Event()
        self._thread = threading.Thread(target=self._follow, name="clearmap follows", daemon=True)

    def start(self) -> None:
        """Begins to look."""
        self._thread.start()

    def wake(self) -> None:
        """Looks at once, as after a change of one's own."""
        self._wanted.set()

    def stop(self) -> None:
        """Ends the looks; a look in progress may finish."""
        self._is_ended = True
        self._wanted.set()

    def _follow(self) -> None:
        while not self._is_ended:
            self.look()
            self._wanted.wait(self._pause)
            self._wanted.clear()

    def look(self) -> None:
        """Looks once, and shows what is new. Whatever prevents it may be gone at the next look."""
        try:
            found = self._feed.newest(self._shown, self._squares)
            if found is not None and not self._is_ended:
                self._show(found)
                self._shown = found
        except Exception as fault:
            if not self._is_ended:
                self._tell(fault)
        else:
            self._told = ""

    def _tell(self, fault: Exception) -> None:
        """Says once what keeps a newer version from being shown."""
        kind = "lost" if isinstance(fault, clearmap.ConnectionLost) else type(fault).__name__
        if kind == self._told:
            return
        self._told = kind
        stays = "there is no costmap yet"
        if self._shown is not None:
            stays = f"the costmap stays at version {self._shown.version}"
        self._warn(f"{stays}: {sentence_of(fault)}; it is tried again")
