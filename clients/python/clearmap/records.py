"""A published version in Redis: its keys, its record, its tiles (docs/use/FORMATS.md)."""
import hashlib
import re
import zlib
from dataclasses import dataclass
from typing import Any, Dict, List, NamedTuple, Tuple

from .errors import BadVersion, ClearmapError, Size
from .held import Reading
from .library import numpy
from .maps import Map
from .size import size_of

TILE_WORDS, TILE_ROWS = 4, 192  # of 64 columns each; together 256 columns by 192 rows
HASH = 32  # bytes of a SHA-256
LEVEL = 1  # of zlib: the fastest
MOVED = " moved"  # after a publisher that took the name over
LARGEST_ORDER = 2**53  # below which Redis' scripts compare numbers exactly
HEAD = re.compile(
    rb"clearmap-version 1 (\d{1,16}) ([0-9a-f]{16}) (\d{1,10}) (\d{1,16}) "
    rb"(\d{1,4}) (\d{1,4}) (open|wall)\n"
)
NAME = re.compile(r"[A-Za-z0-9_.-]{1,64}")


class Keys:
    """The keys of a map's name, and the channel of its news. The braces keep the keys of a name on
    one machine of a cluster."""

    def __init__(self, name: str) -> None:
        if not NAME.fullmatch(name):
            raise ValueError(f"'{name}' is no name: 1 to 64 letters, digits, '_', '.' and '-'")
        stem = f"clearmap:{{{name}}}:"
        self.newest, self.versions, self.tiles = (
            stem + key for key in ("newest", "versions", "tiles")
        )
        self.lease, self.seen, self.news = (stem + key for key in ("lease", "seen", "news"))
        self.publisher, self.boot = stem + "publisher", stem + "boot"


class Tile(NamedTuple):
    """Rows y0 to y1 - 1 of the words first to end - 1 of a map in bits."""

    y0: int
    y1: int
    first: int
    end: int

    @property
    def length(self) -> int:
        """Bytes of its cells."""
        return 8 * (self.y1 - self.y0) * (self.end - self.first)


def told_apart(one: str, other: str) -> Tuple[str, str]:
    """Two places of publishers as they are told: with their machines only if nothing else differs.
    """
    short = one.split(" ")[0], other.split(" ")[0]
    return short if short[0] != short[1] else (one, other)


def tiles_of(size: Size) -> List[Tile]:
    """The tiles of a map of this size, by rows of tiles from the top, each from the left."""
    width, height = size
    words = (width + 63) // 64
    return [
        Tile(y, min(y + TILE_ROWS, height), first, min(first + TILE_WORDS, words))
        for y in range(0, height, TILE_ROWS)
        for first in range(0, words, TILE_WORDS)
    ]


def cells_of(words: Any, tile: Tile) -> bytes:
    """The bytes of a tile: its rows of words, each with its least byte first."""
    part = words[tile.y0 : tile.y1, tile.first : tile.end]
    return bytes(part.astype("<u8", copy=False).tobytes())


def words_of(cells: bytes, tile: Tile) -> Any:
    """The words of a tile's bytes, by rows."""
    rows = tile.y1 - tile.y0
    return numpy().frombuffer(cells, "<u8").reshape(rows, tile.end - tile.first)


def hash_of(data: bytes) -> bytes:
    """The SHA-256 of some bytes."""
    return hashlib.sha256(data).digest()


def compressed_tiles(area: Map) -> Tuple[List[bytes], Dict[bytes, bytes]]:
    """The hashes of a map's tiles in order, and what is stored of each."""
    with Reading(area) as held:
        cells = [cells_of(held.memory.cells, tile) for tile in tiles_of(area.size)]
    hashes = [hash_of(part) for part in cells]
    return hashes, {key: zlib.compress(part, LEVEL) for key, part in zip(hashes, cells)}


def read_tile(value: object, wanted: bytes, tile: Tile) -> bytes:
    """The bytes of a stored tile; BadVersion if it doesn't have the wanted hash."""
    name = wanted.hex()[:16]
    if not isinstance(value, bytes):
        raise BadVersion(f"its tile {name} isn't there")
    reader = zlib.decompressobj()
    try:
        cells = reader.decompress(value, tile.length + 1)
    except zlib.error as fault:
        raise BadVersion(f"its tile {name} can't be unpacked: {fault}") from fault
    if len(cells) != tile.length or not reader.eof or reader.unused_data:
        raise BadVersion(f"its tile {name} isn't of {tile.length} bytes")
    if hash_of(cells) != wanted:
        raise BadVersion(f"its tile {name} has another hash")
    return cells


@dataclass(frozen=True)
class Record:
    """What is known of a published version. `order` grows with each version of a name, whoever
    publishes it; `number` is the server's, of one `run`. `published` is when the publisher looked
    at the server, by Redis' clock, in microseconds since 1970."""

    order: int
    run: str
    number: int
    published: int
    size: Size
    edge: str
    tiles: Tuple[bytes, ...]

    def written(self) -> bytes:
        """Its bytes; the last are the hash of those before them."""
        numbers = f"{self.order} {self.run} {self.number} {self.published}"
        width, height = self.size
        head = f"clearmap-version 1 {numbers} {width} {height} {self.edge}\n".encode()
        data = head + b"".join(self.tiles)
        return data + hash_of(data)

    @property
    def hash(self) -> str:
        """The record's own hash, in hexadecimal digits."""
        return self.written()[-HASH:].hex()


def read_record(data: object) -> Record:
    """The record in these bytes; BadVersion if they aren't one."""
    if not isinstance(data, bytes):
        raise BadVersion("its record isn't there")
    head = HEAD.match(data)
    if head is None:
        raise BadVersion(f"its record starts with {data[:40]!r}")
    order, run, number, published, width, height, edge = head.groups()
    try:
        size = size_of((int(width), int(height)))
    except ValueError as fault:
        raise BadVersion(str(fault)) from fault
    count = len(tiles_of(size))
    if len(data) != head.end() + HASH * (count + 1):
        raise BadVersion(f"its record has {len(data)} bytes")
    if hash_of(data[:-HASH]) != data[-HASH:]:
        raise BadVersion("its record has another hash")
    starts = range(head.end(), len(data) - HASH, HASH)
    tiles = tuple(data[start : start + HASH] for start in starts)
    told = int(order), run.decode(), int(number), int(published)
    return Record(*told, size, edge.decode(), tiles)


def order_of(data: object, key: str) -> int:
    """The order that a key holds, 0 if there is no such key. ClearmapError for anything else."""
    if data is None:
        return 0
    is_order = isinstance(data, bytes) and re.fullmatch(rb"\d{1,16}", data)
    if not isinstance(data, bytes) or not is_order or int(data) >= LARGEST_ORDER:
        raise ClearmapError(f"the key {key} holds something else: {data!r:.60}")
    return int(data)
