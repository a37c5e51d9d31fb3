"""Maps, their updates and plans in one queue, and maps and updates in the order in which they were
published. These come over two connections, a map often later than an update that was published
after it: their stamps tell. No ROS is wanted, and nothing here is proved."""
import collections
import threading
import time
from dataclasses import dataclass
from typing import Any, Callable, Deque, List, NamedTuple, Optional, Tuple

from clearmap_grid import Grid, Place
from clearmap import RosError

KEPT = 10.0  # seconds that an update is kept for a map that was published before it
SECOND = 10**9  # of a stamp, which is in nanoseconds; 0 is none
MAP, UPDATE, LOST = "map", "update", "lost"
MOST_UPDATES = 1000  # that wait
MOST_PLANS = 100  # that wait
Said = Tuple[str, Any]


class Waiting:
    """What topics said, for the thread that takes it: maps and updates as they came, but of maps
    the last one alone, and plans. Where too many updates wait, LOST stands for them."""

    def __init__(self) -> None:
        self._came = threading.Condition()
        self._said: List[Said] = []
        self._plans: Deque[Any] = collections.deque(maxlen=MOST_PLANS)

    def put_map(self, message: Any) -> None:
        """A map, which replaces one that waits."""
        with self._came:
            self._said = [it for it in self._said if it[0] != MAP] + [(MAP, message)]
            self._came.notify()

    def put_update(self, message: Any) -> None:
        """An update."""
        with self._came:
            if len(self._said) < MOST_UPDATES:
                self._said.append((UPDATE, message))
            else:
                self._said = [it for it in self._said if it[0] == MAP] + [(LOST, None)]
            self._came.notify()

    def put_plan(self, message: Any) -> None:
        """A plan. Of too many that wait the oldest are left out."""
        with self._came:
            self._plans.append(message)
            self._came.notify()

    def taken(self) -> Tuple[List[Said], List[Any]]:
        """Maps and updates, and the plans that came with them, once there are any."""
        with self._came:
            self._came.wait_for(lambda: self._said or self._plans)
            said, plans = self._said, list(self._plans)
            self._said = []
            self._plans.clear()
            return said, plans


@dataclass(frozen=True)
class Update:
    """An update of a map: its stamp, its lower left cell counted upwards, its size, its cells, and
    which of them are unknown."""

    stamp: int
    corner: Tuple[int, int]
    size: Tuple[int, int]
    cells: bytes
    unknown: bytes

    def applied(self, grid: Grid, place: Place) -> Tuple[Grid, Place]:
        """A map with the update in it."""
        area = *self.corner, *self.size
        return grid.updated(*area, self.cells), place.updated(area, self.unknown)


class Kept(NamedTuple):
    """An update, and when it came."""

    update: Update
    came: float


class Order:
    """Tells which updates are newer than a map. One thread uses it."""

    def __init__(self, clock: Callable[[], float] = time.monotonic) -> None:
        self._clock = clock
        self._kept: List[Kept] = []
        self._forgotten = 0  # the newest stamp of updates that aren't kept any more
        self._map = 0  # the last map's stamp
        self.newest = 0  # the newest stamp since the last map, its own among them

    def is_in_map(self, update: Update) -> bool:
        """Whether an update was published before the last map, which then has it. Keeps it
        otherwise, for a map that comes later. One that is stamped far before the last map is
        refused: a clock was set back, or there are two."""
        before = self._map - update.stamp if self._map and update.stamp else 0
        if before > KEPT * SECOND:
            raise RosError(f"its stamp is {before / SECOND:.1f} s before the last map's")
        if before > 0:
            return True
        self._forget()
        self._kept.append(Kept(update, self._clock()))
        self.newest = max(self.newest, update.stamp)
        return False

    def _forget(self) -> None:
        """Keeps what came in the last seconds."""
        since = self._clock() - KEPT
        while self._kept and self._kept[0].came < since:
            self._forgotten = max(self._forgotten, self._kept.pop(0).update.stamp)

    def with_newer(self, stamp: int, grid: Grid, place: Place) -> Tuple[Grid, Place, str]:
        """A map that has come, with each update in it that is newer. Where it can't be told whether
        one is, a sentence says so, which is empty otherwise."""
        self._forget()
        doubt = ""
        if stamp and stamp < self._forgotten:
            doubt = "its stamp is before that of an update which isn't kept any more"
        came, self._kept, self._forgotten = self._kept, [], 0
        self._map = self.newest = stamp
        for kept in came:
            newer = kept.update.stamp - stamp if stamp and kept.update.stamp else 0
            changed = _changed(kept.update, grid, place) if newer >= 0 else (grid, place)
            if newer > 0 and changed is not None:
                grid, place = changed
                self._kept.append(kept)
                self.newest = max(self.newest, kept.update.stamp)
            elif newer > 0:
                doubt = "an update that is newer isn't wholly on it"
            elif changed not in (None, (grid, place)):
                doubt = "its stamp doesn't tell whether it is newer than an update"
        return grid, place, doubt


def _changed(update: Update, grid: Grid, place: Place) -> Optional[Tuple[Grid, Place]]:
    """A map with an update in it; None of one that isn't wholly on it, and so is of another map."""
    try:
        return update.applied(grid, place)
    except RosError:
        return None
