"""What the page takes from a `map.yaml`: the map's name, where it lies, and its unknown cells."""
import pathlib
from typing import TYPE_CHECKING, NamedTuple

import numpy

from clearmap import Frame, read_map
from clearmap.gray import Gray
from clearmap.ros_maps import obstacles
from clearmap.settings import Settings

if TYPE_CHECKING:
    from picture import Cells


class YamlMap(NamedTuple):
    """A map of ROS as the page knows it."""

    name: str
    frame: Frame
    unknown: "Cells"


def unknown_cells(image: Gray, settings: Settings) -> "Cells":
    """Which cells are neither occupied nor free, by rows from the top."""
    opaque = image.opaque or bytes([1])
    table = numpy.zeros((2, image.most + 1), bool)
    for seen in set(opaque):
        for sample in set(image.samples):
            table[seen, sample] = is_unknown(sample, seen, image.most, settings)
    given = image.samples
    samples = numpy.frombuffer(given, numpy.uint8) if isinstance(given, bytes) else given
    cells = table[numpy.frombuffer(opaque, numpy.uint8), numpy.asarray(samples)]
    return cells.reshape(image.height, image.width)


def is_unknown(sample: int, seen: int, most: int, settings: Settings) -> bool:
    """Whether a sample is an obstacle only for being unknown."""
    one = Gray(1, 1, most, [sample], bytes([seen]))
    return obstacles(one, settings) != obstacles(one, settings, unknown_is_free=True)


def read_yaml_map(path: str) -> YamlMap:
    """The map that a `map.yaml` names. A RosError if it can't be taken."""
    found = read_map(path)
    unknown = unknown_cells(found.image, found.settings)
    return YamlMap(pathlib.Path(path).stem, found.frame, unknown)
