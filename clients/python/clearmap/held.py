"""The cells of a map at one time, who reads them, and whether they may be changed in place."""
from __future__ import annotations

import sys
import threading
from typing import TYPE_CHECKING, Any, Callable, List

from .errors import Size
from .grids import Memory
from .library import Bits
from .rows import where_of
from .words import copied

if TYPE_CHECKING:
    from .maps import Map

NOBODY = 0  # no thread has this number
# Without the interpreter's lock calls of `quick` may overlap: then each change copies.
HAS_LOCK: bool = getattr(sys, "_is_gil_enabled", lambda: True)()


class Held:
    """The cells of a map at one time, the number of its edge, and how a call takes them.

    One call of `quick` reads or changes them whole, since the interpreter's lock is held. What
    reads them longer is among the `readers` meanwhile: then a change makes a copy, as it does if
    other maps or pickles share them. `painter` is the thread that changes them, or NOBODY.
    """

    __slots__ = ("memory", "edge", "size", "where", "readers", "is_shared", "painter")

    def __init__(self, memory: Memory, edge: int, is_shared: bool = False) -> None:
        self.memory, self.edge, self.is_shared = memory, edge, is_shared
        self.size: Size = int(memory.layout.width), int(memory.layout.height)
        self.where = where_of(memory)
        self.readers: List[None] = []
        self.painter = NOBODY

    def is_free(self) -> bool:
        """Whether nobody else has these cells: asked by their painter."""
        return HAS_LOCK and not self.readers and not self.is_shared

    def copy(self) -> Held:
        """The same cells in memory of their own, with the room for marks after the rows."""
        _, cells, _, old = self.memory
        rows = copied(cells, old.width)
        bits = Bits(old.width, old.height, old.stride, old.blank_bands, old.tiles)
        return Held(Memory("bits", rows, rows.base.size, bits), self.edge)


class Reading:
    """`with Reading(area) as held:` the cells of a map as they are then, which nobody changes until
    its end.

    It waits for a change that another thread has begun, and for none of its own thread, whose
    signal handler reads: that change goes on when the handler is done."""

    __slots__ = ("_area", "_held")

    def __init__(self, area: Map) -> None:
        self._area = area

    def __enter__(self) -> Held:
        held = self._area._held
        held.readers.append(None)  # before the look at the painter, who looks in the other order
        if held.painter not in (NOBODY, threading.get_ident()):
            held.readers.pop()
            with self._area._turn.lock():
                held = self._area._held
                held.readers.append(None)
        self._held = held
        return held

    def __exit__(self, *_: Any) -> None:
        self._held.readers.pop()


def change(area: Map, work: Callable[[Held], None], in_place: bool = True) -> None:
    """Does work on cells that are the map's afterwards: on its own, where they may be changed in
    place, and else on a copy. Painters take turns."""
    with area._turn.lock():
        old = area._held
        old.painter = threading.get_ident()
        try:
            new = old if in_place and old.is_free() else old.copy()
            work(new)
            area._held = new
        finally:
            old.painter = NOBODY
