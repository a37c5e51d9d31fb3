"""A followed version: its map, which nobody changes, and how it is assembled from tiles."""
import math
from dataclasses import dataclass, field
from typing import Any, Callable, Dict, NoReturn, Optional, Sequence

from . import clock
from .errors import BadVersion
from .held import Held
from .library import numpy
from .maps import Map
from .records import Record, Tile, cells_of, tiles_of, words_of
from .words import copied, marked, rows_for

LOST = 3.0  # seconds after which a version that nobody has confirmed is told by `error`
FIXED = "the map of a version isn't changed: paint on a copy, as version.map.copy()"


class FixedMap(Map):
    """A map that can't be changed: what paints, clears or stamps raises TypeError. Queries are
    those of a `Map`."""

    def _change(self, work: Callable[[Held], None], in_place: bool = True) -> NoReturn:
        raise TypeError(FIXED)


@dataclass
class Known:
    """When a version was last known to be the server's newest, by `clock.now`; -inf if that isn't
    known."""

    at: float = -math.inf


@dataclass(frozen=True, eq=False)
class Version:
    """A published version, whole, which stays as it is: ask its `map`. Any threads may share it.

    `number` is the server's own, and counts within one `run`: the publisher's connection to one
    served map. `order` grows from version to version of a name whatever is restarted. `hash` names
    the version and its map: it is the same for all who follow it.

    Its ages are by this machine's clock, so it can't be pickled for another one: its `map` can.
    """

    map: FixedMap
    number: int
    run: str
    order: int
    hash: str
    _published: float = field(repr=False)  # by clock.now
    _record: Record = field(repr=False)
    _known: Known = field(repr=False)

    def __reduce__(self) -> NoReturn:
        ages = "a Version's ages are this machine's"
        raise TypeError(f"{ages}, so it can't be copied or pickled; its map can")

    @property
    def age(self) -> float:
        """Seconds since the publisher found it on the server, by Redis' clock up to when it came,
        and then by this machine's. It is too small where that clock was set back in between, and
        infinite as long as that shows."""
        return max(0.0, clock.now() - self._published)

    @property
    def stale(self) -> float:
        """Seconds since it was last known to be the server's newest; infinite if the follower
        hasn't learnt that it was."""
        return max(0.0, clock.now() - self._known.at)


class Signs:
    """The publisher's signs that the newest version was the server's, as they come into Redis."""

    def __init__(self) -> None:
        self._told = 0  # the last one, as it stands there
        self._latest = self._looked = -math.inf  # what it is of at the latest, and the last look

    def watch(self, told: int) -> None:
        """What stands there now. How old a sign is, Redis' clock tells, which may have been set
        back since: so one that came since a look isn't taken to be much newer than that look, and
        the first one tells nothing."""
        if told != self._told:
            self._told, self._latest = told, self._looked + LOST
        self._looked = clock.now()

    def confirm(self, version: Optional[Version], newest: int, seen: float) -> None:
        """A version, if it is the newest, was the server's when the last sign was given, which
        Redis' clock tells to be then."""
        if version is not None and version.order == newest:
            version._known.at = max(version._known.at, min(seen, self._latest))


def stock_of(version: Optional[Version]) -> Dict[bytes, Tile]:
    """The position of each tile of a version, by its hash."""
    if version is None:
        return {}
    return dict(zip(version._record.tiles, tiles_of(version.map.size)))


def missing(record: Record, stock: Dict[bytes, Any]) -> Dict[bytes, Tile]:
    """The tiles of a record that aren't in stock, each once, with one of its positions."""
    places = zip(record.tiles, tiles_of(record.size))
    return {wanted: tile for wanted, tile in places if wanted not in stock}


def put_together(
    record: Record, before: Optional[Version], fetched: Dict[bytes, bytes], published: float
) -> Version:
    """A version assembled from fetched tiles and from those of the version before."""
    words = _words(record, before, fetched)
    width, height = record.size
    if width % 64 and (words[:, -1] >> numpy().uint64(width % 64)).any():
        raise BadVersion("a tile has cells beyond the map's right side")
    area = FixedMap._of(marked(words, width), record.edge)
    told = record.number, record.run, record.order, record.hash
    return Version(area, *told, published, record, Known())


def _words(record: Record, before: Optional[Version], fetched: Dict[bytes, bytes]) -> Any:
    """The words of a record's map, by rows."""
    words = rows_for(*record.size)
    stock: Dict[bytes, Tile] = {}
    same: Sequence[Optional[bytes]] = [None] * len(record.tiles)
    if before is not None:
        stock, old = stock_of(before), before.map._held.memory.cells
        if before.map.size == record.size:
            words, same = copied(old, record.size[0]), before._record.tiles
    for wanted, had, tile in zip(record.tiles, same, tiles_of(record.size)):
        if wanted != had:
            cells = fetched[wanted] if wanted in fetched else cells_of(old, stock[wanted])
            if len(cells) != tile.length:
                raise BadVersion(f"its tile {wanted.hex()[:16]} isn't of {tile.length} bytes")
            words[tile.y0 : tile.y1, tile.first : tile.end] = words_of(cells, tile)
    return words
