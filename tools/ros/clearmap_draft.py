"""A server's draft over one connection: what is put is stamped and published, and believed to be
there only if nobody else can have taken it back. No ROS is wanted, and nothing here is proved."""
import contextlib
from typing import Callable, Optional, Tuple, TypeVar

import clearmap
from clearmap_grid import Area, Grid, grid_of_dump
from clearmap import RosError

T = TypeVar("T")
TRIES = 10  # of a publish, where others change the draft meanwhile


class Draft:
    """The draft of the server that a client is connected to, whose commands are all given here.
    `settled` is the place in the log at which the draft was the newest version, where that is
    known."""

    def __init__(self, client: clearmap.Client, settled: Optional[int] = None) -> None:
        self.client, self._settled = client, settled
        self._served: Optional[Grid] = None  # what the newest version is known to have

    def has(self, grid: Grid) -> bool:
        """Whether the server has each obstacle of a grid: as is known, or else by a dump."""
        if self._served is not None and grid.is_within(self._served):
            return True
        self._served = self._dumped()
        return grid.is_within(self._served)

    def put(self, grid: Grid) -> str:
        """Puts a grid, and says what was done. Others' obstacles stay where it doesn't differ from
        the grid before."""
        before = self._served if self._served is not None else self._dumped()
        said = self._change(before, grid)
        self._served = grid
        return said

    def _dumped(self) -> Grid:
        """The newest version's grid, as the server dumps it."""
        with self.client.pin() as pinned:
            return grid_of_dump(pinned.dump())

    def _change(self, before: Grid, grid: Grid) -> str:
        """Stamps and publishes what differs from the grid before. Where others gave commands
        meanwhile, which may have taken a part of it back, goes by what the server then dumps."""
        area, wanted, said = before.changed(grid), grid, "nothing changed"
        if area is None and self._settled is None:
            self._clean()
        for _ in range(TRIES):
            if area is None:
                return said
            said, is_alone = self._publish(area, wanted)
            if is_alone:
                return said
            served = self._dumped()
            wanted = grid.with_others(before, served)
            area = served.changed(wanted)
        if area is not None:
            raise RosError("others take back what is put, again and again")
        return said

    def _publish(self, area: Area, grid: Grid) -> Tuple[str, bool]:
        """Stamps and publishes an area; the whole map where the draft may have another one, as at
        first, or after a publish that was refused or had no reply. Says what was done, and whether
        nobody else can have changed what is published since it was known."""
        settled = self._settled
        stamped = Area(0, 0, *grid.size) if settled is None else area
        corner, image = (stamped.x0, stamped.y0), grid.pbm(stamped)
        self._served, self._settled = None, None
        change = self._with_room(lambda: self.client.stamp(*corner, image))
        version = self._with_room(self.client.publish)
        self._settled = version.place
        is_alone = version.place == change.place + 1 and settled in (None, change.place - 1)
        columns = f"columns {area.x0} to {area.x1 - 1}"
        rows = f"rows {area.y0} to {area.y1 - 1}"
        return f"version {version}: {change.changed} cells of {columns}, {rows}", is_alone

    def _clean(self) -> None:
        """Makes the draft the newest version. Where that is refused, as over a full log, the next
        change is stamped whole."""
        with contextlib.suppress(clearmap.Refused):
            self._settled = self.client.revert()

    def _with_room(self, call: Callable[[], T]) -> T:
        """The result of a command; if slots or blocks are full, repeats it once after a collect."""
        try:
            return call()
        except (clearmap.VersionsFull, clearmap.BlocksFull):
            self.client.collect()
        return call()
