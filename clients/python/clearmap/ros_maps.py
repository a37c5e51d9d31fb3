"""A map of ROS: a `map.yaml`, and the image that it names."""
from __future__ import annotations

import math
import pathlib
import re
from dataclasses import dataclass
from fractions import Fraction
from itertools import chain
from typing import List, Union

from .errors import RosError
from .frames import Frame
from .gray import Gray, read_image
from .grids import OPEN
from .library import numpy
from .maps import Map
from .requests import chosen
from .settings import Settings, read_settings

UNKNOWN = 255  # what map_server publishes for an unknown cell, as a byte
IMAGE = re.compile(rb"P[1-6]\s|\x89PNG|BM.{4}\0|GIF8|II\*\0|MM\0\*|\xff\xd8", re.DOTALL)


def value_of(share: Fraction, settings: Settings) -> int:
    """What map_server publishes in the modes `scale` and `raw` for a sample with this share of
    dark, or with `negate` of bright: 0 to 100, or in `raw` any byte."""
    if settings.mode == "raw":
        return math.floor(255 * (1 - share))
    if share > settings.occupied_thresh:
        return 100
    if share < settings.free_thresh:
        return 0
    between = settings.occupied_thresh - settings.free_thresh
    return 1 + math.floor(98 * (share - settings.free_thresh) / between if between else 0)


def is_obstacle(share: Fraction, opaque: int, settings: Settings, unknown_is_free: bool) -> bool:
    """Whether a sample is an obstacle. In `scale` and `raw` it is what the value that map_server
    publishes is for clearmap's node: one above `occupied_thresh` of a hundred."""
    known = bool(opaque)
    if settings.mode != "trinary":
        value = value_of(share, settings)
        known = value != UNKNOWN and (known or settings.mode == "raw" or value in (0, 100))
        share = Fraction(value, 100)
    if not known:
        return not unknown_is_free
    blocked = share > settings.occupied_thresh
    return blocked or (not unknown_is_free and share >= settings.free_thresh)


def obstacles(image: Gray, settings: Settings, unknown_is_free: bool = False) -> List[List[bool]]:
    """Which cells are obstacles, by rows from the top. A sample is occupied by its share of dark,
    or with `negate` of bright.

    Above `occupied_thresh` it is occupied, below `free_thresh` free, and otherwise unknown, which
    is an obstacle too unless asked otherwise.
    """
    opaque = image.opaque or bytes([1]) * len(image.samples)
    is_free = chosen("unknown_is_free", unknown_is_free)

    def blocked(sample: int, seen: int) -> bool:
        share = Fraction(sample if settings.negate else image.most - sample, image.most)
        return is_obstacle(share, seen, settings, is_free)

    known = {pair: blocked(*pair) for pair in set(zip(image.samples, opaque))}
    cells = [known[pair] for pair in zip(image.samples, opaque)]
    return [cells[row * image.width : (row + 1) * image.width] for row in range(image.height)]


# ---- the whole


@dataclass(frozen=True)
class RosMap:
    """A map of ROS: its settings, its image and its frame."""

    settings: Settings
    image: Gray
    frame: Frame

    def map(self, edge: str = OPEN, *, unknown_is_free: bool = False) -> Map:
        """Its cells as a map of this process. Unknown cells are obstacles, unless they are said to
        be free."""
        cells = numpy().frombuffer(self.cells(unknown_is_free), bool)
        return Map(cells.reshape(self.frame.height, self.frame.width), edge)

    def cells(self, unknown_is_free: bool = False) -> bytes:
        """Its cells by rows from the top, 1 for an obstacle; if its samples are bytes, by what each
        value becomes."""
        image = self.image
        if image.opaque or not isinstance(image.samples, bytes):
            rows = obstacles(image, self.settings, unknown_is_free)
            return bytes(chain.from_iterable(rows))
        values = Gray(image.most + 1, 1, image.most, range(image.most + 1))
        (table,) = obstacles(values, self.settings, unknown_is_free)
        return image.samples.translate(bytes(table).ljust(256))


def read_map(path: Union[str, pathlib.Path]) -> RosMap:
    """The map that a `map.yaml` names; its image is next to it, unless its path is absolute."""
    yaml = pathlib.Path(path)
    try:
        text = yaml.read_bytes()
        if IMAGE.match(text):
            raise RosError(f"'{path}' is an image: name its map.yaml, which says where it lies")
        settings = read_settings(text.decode("utf-8"))
        image = read_image((yaml.parent / settings.image).read_bytes())
    except (OSError, UnicodeDecodeError) as fault:
        raise RosError(f"a file of the map can't be read: {fault}") from None
    where = settings.resolution, settings.origin_x, settings.origin_y
    return RosMap(settings, image, Frame(image.width, image.height, *where))
