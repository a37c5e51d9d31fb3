"""One version as the page's server keeps it, and how old what is known of a server is."""
import time
from typing import TYPE_CHECKING, Dict, NamedTuple

import clearmap
import picture

if TYPE_CHECKING:
    import asyncio

CLOCK = getattr(time, "CLOCK_BOOTTIME", time.CLOCK_MONOTONIC)  # goes on while the machine sleeps


def clock() -> float:
    """The seconds by which ages are told."""
    return time.clock_gettime(CLOCK)


class Copy(NamedTuple):
    """A version as a server dumps it, its cells, and what its border is."""

    version: int
    image: bytes
    bits: "picture.Cells"
    edge: str


class Shown:
    """One version on the page, with its pictures by metric: each is made when a page first wants
    it. `area` is the version as a map of this process, if the library is there."""

    def __init__(self, serial: int, copy: Copy, here: bool) -> None:
        self.serial, self.copy = serial, copy
        self.version, self.edge = copy.version, copy.edge
        self.came = time.strftime("%H:%M:%S")
        self.height, self.width = copy.bits.shape
        self.area = clearmap.Map(copy.bits, copy.edge) if here else None
        self.pictures: Dict[str, "asyncio.Task[picture.Picture]"] = {}

    def is_as(self, copy: Copy) -> bool:
        """Whether another look found nothing new."""
        same = (self.version, self.edge) == (copy.version, copy.edge)
        return same and self.copy.image == copy.image
