"""What copies, pickles and compares maps: their bits, without what lies past the last column, and
what their objects keep besides."""
from __future__ import annotations

from typing import TYPE_CHECKING, Any, Dict, Tuple, Type

from .grids import Memory, byte_map
from .held import Reading
from .library import Bits, numpy

if TYPE_CHECKING:
    from .errors import Size
    from .maps import Map

ALL = 2**64 - 1  # bits of a word
BEGUN = ("_edge", "_turn", "_held", "_size")  # what a new map of the same cells has of its own


def rebuilt(kind: Type[Map], words: Any, size: Size, edge: str) -> Map:
    """A map of pickled words, in memory of its own. What the library keeps besides isn't pickled:
    another version may have it otherwise."""
    from .maps import packed, unpacked  # which has calls of this module

    np, (width, height) = numpy(), size
    if words.dtype != np.uint64 or words.shape != (height, (width + 63) // 64):
        raise ValueError(f"words of the shape {words.shape} are no map of {width} by {height}")
    cells = np.ascontiguousarray(words)
    held = Memory("bits", cells, cells.size, Bits(width, height, cells.shape[1], 0))
    return kind._of(packed(byte_map(unpacked(held, 0, height), 1, 255)), edge)


def parts(area: Map) -> Tuple[Any, ...]:
    """What `rebuilt` takes, of the cells as they are now."""
    return type(area), area._lent().cells, area.size, area.edge


def others(area: Map) -> Dict[str, Any]:
    """The other attributes of a map, as those of a subclass."""
    return {name: value for name, value in vars(area).items() if name not in BEGUN}


def are_same(one: Map, other: Map) -> bool:
    """Whether sizes, edges and obstacles are the same, and the row on top."""
    np = numpy()
    if (one.size, one.edge, one.is_upside_down) != (other.size, other.edge, other.is_upside_down):
        return False
    last = ALL >> -one.width % 64  # the columns of the last word
    with Reading(one) as held, Reading(other) as held_too:
        cells, others = held.memory.cells, held_too.memory.cells
        ends = (cells[:, -1] ^ others[:, -1]) & np.uint64(last)
        return bool(np.array_equal(cells[:, :-1], others[:, :-1]) and not ends.any())
