"""The image of a map of ROS: its samples, as PGM has them, or by python3-pil another kind."""
from __future__ import annotations

import io
import re
from dataclasses import dataclass
from typing import Any, Callable, Iterable, List, Sequence, Tuple

from .errors import RosError
from .library import pillow
from .requests import LARGEST_SIDE

PGM = (b"P2", b"P5")  # plain and raw
COLOURS = ("RGB", "RGBA", "P", "LA")  # modes of python3-pil that it converts to RGBA as they are
LEVELS = {"1": 1, "L;2": 3, "L;4": 15}  # the largest sample of a PNG of so few bits
ENDS = "the PGM image ends before its last sample"
NO_NUMBER = "the PGM image has something else where a number stands"


@dataclass(frozen=True)
class Gray:
    """An image: its samples by rows from the top, each from 0 to `most`. `opaque` has 0 where a
    sample is transparent, and is empty if none is."""

    width: int
    height: int
    most: int
    samples: Sequence[int]
    opaque: bytes = b""


def header_number(data: bytes, at: int) -> Tuple[int, int]:
    """The number after blanks and comments, and where it ends."""
    while at < len(data) and (data[at : at + 1].isspace() or data[at : at + 1] == b"#"):
        if data[at : at + 1] == b"#":
            while at < len(data) and data[at] not in b"\r\n":
                at += 1
        else:
            at += 1
    end = at
    while end < len(data) and data[end : end + 1].isdigit():
        end += 1
    if end == at or end - at > 10:
        raise RosError(ENDS if at == len(data) else NO_NUMBER)
    return int(data[at:end]), end


def plain_samples(data: bytes, count: int) -> List[int]:
    """The first samples of a plain image's text; a comment goes from `#` to the end of its line."""
    words = re.sub(rb"#[^\r\n]*", b" ", data).split()[:count]
    if len(words) < count:
        raise RosError(ENDS)
    if not all(word.isdigit() and len(word) <= 10 for word in words):
        raise RosError(NO_NUMBER)
    return [int(word) for word in words]


def raw_samples(data: bytes, at: int, count: int, most: int) -> Sequence[int]:
    """The samples of a raw image after its head; those over 255 are two bytes, the high one first.
    """
    if not data[at : at + 1].isspace():
        raise RosError("the PGM image has no blank after its largest sample")
    size = 1 if most < 256 else 2
    raster = data[at + 1 : at + 1 + size * count]
    if len(raster) != size * count:
        raise RosError(ENDS)
    if size == 1:
        return raster
    return [high * 256 + low for high, low in zip(raster[::2], raster[1::2])]


def read_pgm(data: bytes) -> Gray:
    """A PGM image, plain (P2) or raw (P5), of any maximum up to 65535."""
    magic = data[:2]
    if magic not in PGM:
        raise RosError("the image is no PGM: its first two bytes aren't P2 or P5")
    width, at = header_number(data, 2)
    height, at = header_number(data, at)
    most, at = header_number(data, at)
    check_sides(width, height)
    if not 1 <= most <= 65535:
        raise RosError(f"the image's largest sample is {most}, and PGM has 1 to 65535")
    if magic == b"P2":
        samples: Sequence[int] = plain_samples(data[at:], width * height)
    else:
        samples = raw_samples(data, at, width * height, most)
    if max(samples) > most:
        raise RosError(f"the image has a sample of {max(samples)}, and its largest is to be {most}")
    return Gray(width, height, most, samples)


def check_sides(width: int, height: int) -> None:
    """Refuses an image that no map can have."""
    if not (1 <= width <= LARGEST_SIDE and 1 <= height <= LARGEST_SIDE):
        sides = f"the image has {width} by {height} pixels, and a map has 1 to {LARGEST_SIDE} a side"
        raise RosError(f"{sides}: cut a part out, or make the cells larger")


def read_image(data: bytes) -> Gray:
    """An image of any kind: a PGM by this module, and others, as PNG, by Debian's python3-pil."""
    if data[:2] in PGM:
        return read_pgm(data)
    try:
        images = pillow()
    except ImportError as fault:
        raise RosError(f"the image is no PGM, and other kinds, as PNG, {fault}") from None
    try:
        with images.open(io.BytesIO(data)) as image:
            check_sides(*image.size)
            return gray_of(image)
    except RosError:
        raise
    except Exception as fault:  # python3-pil has many for what it can't read
        said = f"the image is no PGM, and python3-pil can't read it: {fault}"
        raise RosError(" ".join(said.split())[:200]) from None


def gray_of(image: Any) -> Gray:
    """An image of python3-pil, of a mode whose samples are known. A colour is as bright as the mean
    of its three parts, of which the sum is taken; what isn't wholly opaque can be seen through."""
    width, height = image.size
    if image.mode in ("1", "L"):
        levels = LEVELS.get(str(image.tile[0][3]), 255) if image.format == "PNG" else 255
        opaque = _opaque_of(image, 255 // levels)
        samples = image.convert("L").tobytes()
        return Gray(width, height, 255, samples, opaque(samples))
    if image.mode in ("I", "I;16") and image.format == "PNG":
        opaque = _opaque_of(image)
        numbers = list(image.getdata())
        return Gray(width, height, 65535, numbers, opaque(numbers))
    if image.mode not in COLOURS or _is_cut(image):
        raise RosError(
            f"the image is a {image.format} of the mode {image.mode}, whose samples aren't known "
            "here: make it a PGM, or a PNG of 8 bits a sample"
        )
    pixels = image.convert("RGBA").tobytes()
    sums = [sum(parts) for parts in zip(pixels[::4], pixels[1::4], pixels[2::4])]
    return Gray(width, height, 3 * 255, sums, _seen(part == 255 for part in pixels[3::4]))


def _opaque_of(image: Any, scale: int = 1) -> Callable[[Iterable[int]], bytes]:
    """Tells which samples of a gray image are opaque: all but those of its transparent one, which
    is told in its own levels."""
    clear = image.info.get("transparency")
    if clear is None:
        return lambda samples: b""
    if not isinstance(clear, int):
        raise RosError("the image has a transparent sample that is no number")
    return lambda samples: _seen(sample != clear * scale for sample in samples)


def _is_cut(image: Any) -> bool:
    """Whether a transparent colour is told in 16 bits a part, of which python3-pil keeps eight."""
    return "transparency" in image.info and image.mode == "RGB" and image.tile[0][3] != "RGB"


def _seen(flags: Iterable[bool]) -> bytes:
    """Flags as `Gray.opaque` has them."""
    opaque = bytes(flags)
    return b"" if all(opaque) else opaque
