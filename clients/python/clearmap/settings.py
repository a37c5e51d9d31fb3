"""What a `map.yaml` of ROS's map_server says."""
from __future__ import annotations

from dataclasses import dataclass
from fractions import Fraction
from typing import Dict, List, Tuple, Union

from .decimals import exact
from .errors import RosError

Values = Dict[str, Union[str, List[str]]]
MODES = ("trinary", "scale", "raw")
NEGATE = {"0": False, "false": False, "1": True, "true": True}


def yaml_values(text: str) -> Values:
    """The keys and values of the flat YAML that a map has: words, and lists as `[1, 2]` or as lines
    with `-`."""
    values: Values = {}
    key, margin = "", 0
    for line in text.splitlines():
        bare = line.split(" #")[0].strip() if not line.lstrip().startswith("#") else ""
        if bare in ("", "---", "..."):
            continue
        if bare.startswith("- ") and key:
            listed = values[key] or []
            if isinstance(listed, str):
                raise RosError(f"the yaml's line '{bare}' comes after a value that is no list")
            values[key] = listed + [bare[2:].strip()]
            continue
        blanks = len(line) - len(line.lstrip())
        if values and blanks != margin:  # a key of another map
            raise RosError(f"the yaml's line '{bare}' is nested in another one")
        margin = blanks
        name, colon, value = bare.partition(":")
        if not colon or (value and not value[0].isspace()) or name in values:
            raise RosError(f"the yaml's line '{bare}' isn't one key and its value")
        key, value = name.strip(), value.strip()
        if value.startswith("["):
            if not value.endswith("]"):
                raise RosError(f"the list of '{key}' doesn't end in its line")
            values[key] = [item.strip() for item in value[1:-1].split(",")]
        else:
            quoted = len(value) > 1 and value[0] == value[-1] and value[0] in "'\""
            values[key] = value[1:-1] if quoted else value
    return values


@dataclass(frozen=True)
class Settings:
    """What `map.yaml` says: metres per cell, where the lower left corner is, and which samples are
    occupied and free."""

    image: str
    resolution: Fraction
    origin_x: Fraction
    origin_y: Fraction
    negate: bool
    occupied_thresh: Fraction
    free_thresh: Fraction
    mode: str = "trinary"


def read_settings(text: str) -> Settings:
    """The settings that a `map.yaml` gives. A turned origin is refused."""
    values = yaml_values(text)
    x, y = _corner(values)
    mode = values.get("mode", "trinary")
    if not isinstance(mode, str) or mode not in MODES:
        raise RosError(f"the map's mode is '{mode}', and there are trinary, scale and raw")
    negate = NEGATE.get(_word(values, "negate").lower())
    if negate is None:
        raise RosError("'negate' of the yaml is 0 or 1")
    numbers = ("occupied_thresh", "free_thresh", "resolution")
    occupied, free, resolution = (exact(_word(values, key)) for key in numbers)
    if not 0 <= free <= occupied <= 1:
        raise RosError("the thresholds aren't 0 <= free_thresh <= occupied_thresh <= 1")
    if resolution <= 0:
        raise RosError("the resolution isn't above 0")
    image = _word(values, "image")
    return Settings(image, resolution, x, y, negate, occupied, free, mode)


def _word(values: Values, key: str) -> str:
    """The one word of a key."""
    value = values.get(key, "")
    if key not in values:
        raise RosError(f"the yaml has no '{key}'")
    if not isinstance(value, str) or not value:
        raise RosError(f"'{key}' of the yaml isn't one word")
    return value


def _corner(values: Values) -> Tuple[Fraction, Fraction]:
    """Where the lower left corner is, in metres."""
    origin = values.get("origin")
    if not isinstance(origin, list) or len(origin) != 3:
        raise RosError("the yaml has no 'origin' of three numbers: x, y and yaw")
    x, y, yaw = (exact(item) for item in origin)
    if yaw != 0:
        turned = "a map that is turned isn't supported: turn the image, and set yaw to 0"
        raise RosError(f"the origin's yaw is {origin[2]}, and {turned}")
    return x, y
