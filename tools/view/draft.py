"""What the page's server knows of the draft. No request shows the draft itself: this is what was
changed from here, and what the places of the log tell. Each accepted command of any client takes a
place, so one that isn't the next after our own is a sign of others."""
import threading
import time
from typing import Dict, List, NamedTuple, Optional, Sequence, Tuple

from wording import counted

HIDDEN = "The draft may hold changes of others, which this page can't show"
OTHERS = " Changes of others may be in the draft, which no request shows."


class Drawn(NamedTuple):
    """A rectangle that was painted or cleared from here, its place in the log, and the name of the
    page that drew it."""

    command: str
    rect: Tuple[int, ...]
    place: int
    page: str


def sent_of(drawn: Sequence[Drawn]) -> List[Dict[str, object]]:
    """Rectangles as a page is sent them."""
    return [{"command": it.command, "rect": it.rect, "place": it.place} for it in drawn]


class Draft:
    """The changes from here that weren't published from here. Its calls may come from any thread.

    `alone` says that the draft was the newest version once, and that each place since then, up to
    `last`, is our own. What others do after `last` is known by the next place at the earliest.
    Rectangles are lost if their server ended, and may be if the connection to it did.
    """

    def __init__(self) -> None:
        self._lock = threading.Lock()
        self._version: Optional[int] = None
        self._lost: List[Drawn] = []
        self._is_gone, self._has_ended = False, False  # the server of `lost`; the last one
        self._before = 0  # the last place before the connection was lost
        self._another, self._replaced = "", 0
        self._late = ""  # what is told of a reply that came late, or hasn't come
        self._forget()

    def _forget(self) -> None:
        self._drawn: List[Drawn] = []
        self._last, self._others, self._unanswered = 0, 0, ""
        self._alone, self._overtaken, self._left = False, False, False
        self._sent: Dict[int, List[Drawn]] = {}
        self._found = ""

    def _lose(self, is_gone: bool) -> None:
        """What was drawn may be lost, or is."""
        if self._drawn:
            self._lost, self._is_gone = self._lost + self._drawn, False
        self._is_gone = self._is_gone or is_gone
        self._before = max(self._before, self._last)
        self._forget()

    def _replace(self) -> None:
        """It is another server."""
        self._lose(True)
        self._before, self._version, self._replaced = 0, None, self._replaced + 1
        since = time.strftime("%H:%M:%S")
        self._another = f"Another server since {since}: versions count from 0 again."

    def _check(self, counts_again: bool) -> None:
        """Notices another server: its places or versions count again, or the last one ended."""
        if counts_again or (self._has_ended and self._version is not None):
            self._replace()
        self._has_ended = False

    def _take(self, place: int) -> None:
        """Takes a place of our own."""
        self._check(place <= max(self._last, self._before))
        if self._last:
            self._others += place - self._last - 1
        self._alone = place == self._last + 1 and (self._alone or self._last == 0)
        self._last = place

    def _begin(self) -> None:
        """The draft is the newest version."""
        self._drawn, self._alone, self._overtaken, self._left = [], True, False, False
        self._others, self._unanswered = 0, ""

    # ---- what was done, and what happened

    def drew(self, command: str, rect: Sequence[int], place: int, page: str = "") -> None:
        """A paint or a clear of a page was accepted."""
        with self._lock:
            self._take(place)
            self._drawn.append(Drawn(command, tuple(rect), place, page))

    def undid(self, place: int) -> None:
        """The cells of the last rectangle became what they were before it."""
        with self._lock:
            drawn = self._drawn
            self._take(place)
            if self._drawn is drawn:
                drawn.pop()

    def passed(self, place: int) -> None:
        """A command was accepted that leaves the draft as it is."""
        with self._lock:
            self._take(place)

    def reverted(self, place: int) -> None:
        """A revert was accepted: the draft is the newest version."""
        with self._lock:
            self._take(place)
            self._begin()

    def published(self, version: int, place: int) -> int:
        """A publish was accepted: the draft is that version. How many commands of others are known
        to have come since the last place of our own."""
        with self._lock:
            is_seen = self._version is not None and version <= self._version
            self._check(is_seen or place <= max(self._last, self._before))
            between = place - self._last - 1 if self._last else 0
            self._version, self._last, self._before = version, place, 0
            self._sent, self._found = {version: self._drawn}, ""
            self._begin()
        return between

    def unanswered(self, command: str) -> None:
        """A command's reply was lost, or too late: whether it was accepted isn't known."""
        with self._lock:
            self._alone, self._unanswered = False, command

    def tell_late(self, said: str) -> None:
        """A reply came late, or hasn't come yet: this is told of it."""
        with self._lock:
            self._late = said

    def found(self, version: int, cells: int) -> None:
        """This many cells of a version that was published from here were changed by others."""
        with self._lock:
            if cells and version in self._sent:
                count = counted(cells, "cell")
                self._found = f" Version {version} was published with {count} that others changed."

    def saw(self, version: int) -> None:
        """A version is the newest. One that others published may have our changes in it."""
        with self._lock:
            self._check(self._version is not None and version < self._version)
            if self._version is not None and version > self._version:
                self._alone, self._overtaken = False, bool(self._drawn)
            self._version = version

    def left(self) -> None:
        """The connection was left: who changed the draft since then isn't known, nor whether it is
        the same server's."""
        with self._lock:
            self._alone, self._left = False, bool(self._drawn)

    def lost(self, has_ended: bool = False) -> None:
        """The connection was lost; `has_ended` says that nobody listens at the port any more."""
        with self._lock:
            self._has_ended = self._has_ended or has_ended
            self._lose(has_ended)

    def drew_again(self, lost: Drawn, place: int, page: str) -> None:
        """A page drew a lost rectangle again, which was accepted."""
        with self._lock:
            self._take(place)
            self._drawn.append(Drawn(lost.command, lost.rect, place, page))
            self._lost = [it for it in self._lost if it is not lost]

    def forget_lost(self) -> None:
        """The lost rectangles aren't shown any more."""
        with self._lock:
            self._lost = []

    # ---- what is known

    def sent(self, version: int) -> Optional[List[Tuple[Sequence[int], bool]]]:
        """The rectangles from here of the version that was published from here last."""
        with self._lock:
            drawn = self._sent.get(version)
        return None if drawn is None else [(it.rect, it.command == "paint") for it in drawn]

    @property
    def to_undo(self) -> List[Tuple[Sequence[int], bool]]:
        """The rectangles up to the last one, which can be undone; none if another client has
        published since, as it may be in that version."""
        with self._lock:
            drawn = [] if self._overtaken else self._drawn
        return [(it.rect, it.command == "paint") for it in drawn]

    @property
    def last(self) -> Optional[Drawn]:
        """The last rectangle from here that wasn't published from here."""
        with self._lock:
            return self._drawn[-1] if self._drawn else None

    @property
    def are_lost(self) -> List[Drawn]:
        """The rectangles that are lost, or may be, in the order in which they were drawn."""
        with self._lock:
            return list(self._lost)

    @property
    def version(self) -> Optional[int]:
        """The newest version that was seen or published."""
        with self._lock:
            return self._version

    @property
    def replaced(self) -> int:
        """How often another server was noticed."""
        with self._lock:
            return self._replaced

    @property
    def count(self) -> int:
        """How many rectangles from here weren't published from here."""
        with self._lock:
            return len(self._drawn)

    @property
    def asks(self) -> bool:
        """Whether a publish may publish what this page doesn't show."""
        with self._lock:
            return not self._alone

    @property
    def hidden(self) -> str:
        """What the draft may hold, and how many commands of others are known to have come."""
        with self._lock:
            return HIDDEN + (f": {self._said_of_others()} came meanwhile" if self._others else "")

    def state(self) -> Dict[str, object]:
        """What each page is sent."""
        with self._lock:
            return {
                "drawn": sent_of(self._drawn),
                "lost": sent_of(self._lost),
                "undo": bool(self._drawn) and not self._overtaken,
                "another": self._another,
                "said": self._said(),
            }

    def _said(self) -> str:
        """What is known of the draft, in words."""
        words = [self._said_of_lost()] if self._lost else []
        if self._drawn:
            words.append(self._said_of_drawn())
        elif not self._lost:
            words.append("Nothing changed from here.")
        if self._unanswered:
            unknown = "whether it was accepted isn't known."
            words.append(f"The server didn't answer the {self._unanswered}: {unknown}")
        if self._late:
            words.append(self._late)
        if self._others:
            words.append(f"{self._said_of_others()} came meanwhile.")
        return " ".join(words) + self._found + OTHERS

    def _said_of_others(self) -> str:
        ours = f", or the {self._unanswered} without an answer," if self._unanswered else ""
        return f"{counted(self._others, 'command')} of others{ours}"

    def _said_of_lost(self) -> str:
        count = len(self._lost)
        said = counted(count, "rectangle") + " from here"
        if self._is_gone:
            return f"{said} {'was' if count == 1 else 'were'} lost with the server."
        return f"The connection was lost: whether the server still has {said} isn't known."

    def _said_of_drawn(self) -> str:
        first, last = self._drawn[0].place, self._drawn[-1].place
        said = f"1 rectangle from here isn't published yet (place {first} of the log)."
        if len(self._drawn) > 1:
            said = f"{len(self._drawn)} rectangles from here aren't published yet"
            said += f" (places {first} to {last} of the log)."
        if self._overtaken and self._unanswered != "publish":
            said += " Another client has published since: they may be in its version."
        if self._left:
            said += " The server wasn't watched all the time since: if it ended, they are lost."
        return said
