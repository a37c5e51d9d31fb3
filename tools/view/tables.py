"""The distances of a whole version: by libclearmap in this process, or else by `clearmap dist`."""
from typing import TYPE_CHECKING, Optional

import clearmap
from clearmap.runs import TableError, by_program, workers

if TYPE_CHECKING:
    from picture import Numbers


def by_library(area: clearmap.Map, metric: str) -> "Numbers":
    """The distances of a map of this process."""
    try:
        return area.distances(metric, threads=workers())
    except MemoryError:
        raise TableError("this process has no memory for a picture") from None


def table_of(
    program: Optional[str], area: Optional[clearmap.Map], image: bytes, metric: str, edge: str
) -> "Numbers":
    """The distances of a version: in this process if its map is here."""
    if area is not None:
        return by_library(area, metric)
    if program is None:
        raise TableError("there is neither libclearmap nor the program clearmap")
    return by_program(program, image, metric, edge)
