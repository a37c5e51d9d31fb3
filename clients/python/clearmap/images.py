"""A reader of PBM images, plain and raw, by the rules and the faults of docs/use/FORMATS.md."""
import re
from typing import Any, Match, Tuple, cast

from .grids import Memory, byte_map
from .library import numpy
from .requests import LARGEST_SIDE, bytes_of

BLANKS = b" \t\r\n"
GAP = re.compile(rb"(?:[ \t\r\n]+|#[^\r\n]*[\r\n])*")
DIGITS = re.compile(rb"[0-9]*")
COMMENT = re.compile(rb"(?<=[ \t\r\n])#[^\r\n]*")  # without its end, which is whitespace


def pbm_map(image: object) -> Memory:
    """An image as a map in bytes: black is an obstacle. ValueError with its first fault."""
    data = bytes_of(image)
    plain = _is_plain(data)
    width, at = _side(data, _gap(data, 2))
    height, at = _side(data, _gap(data, at))
    at = _space(data, at)
    cells = _plain(data, at, width * height) if plain else _raw(data, at, width, height)
    return byte_map(cells.reshape(height, -1)[:, :width], 1, 1)


def _bad(fault: str) -> ValueError:
    """The error for a fault of this name."""
    return ValueError(f"BadImage {fault}")


# ---- the head


def _is_plain(data: bytes) -> bool:
    """Which of the two forms it is."""
    magic = data[:2]
    if magic in (b"", b"P"):
        raise _bad("Truncated")
    if magic not in (b"P1", b"P4"):
        raise _bad("BadMagic")
    return magic == b"P1"


def _space(data: bytes, at: int) -> int:
    """Where one byte of whitespace ends."""
    byte = data[at : at + 1]
    if not byte:
        raise _bad("Truncated")
    if byte not in BLANKS:
        raise _bad("BadComment" if byte == b"#" else "MissingSpace")
    return at + 1


def _blanks(data: bytes, at: int) -> int:
    """Where whitespace and comments end, before the end of the data."""
    end = _end(GAP.match(data, at))
    if data[end : end + 1] in (b"", b"#"):  # a comment that doesn't end
        raise _bad("Truncated")
    return end


def _gap(data: bytes, at: int) -> int:
    """Where a gap ends."""
    return _blanks(data, _space(data, at))


def _side(data: bytes, at: int) -> Tuple[int, int]:
    """The width or the height, and where it ends."""
    end = _end(DIGITS.match(data, at))
    if end == at:
        raise _bad("BadNumber")
    digits = data[at:end].lstrip(b"0")
    if not digits:
        raise _bad("ZeroSize")
    if len(digits) > 4 or int(digits) > LARGEST_SIDE:
        raise _bad("TooLarge")
    return int(digits), end


def _end(match: object) -> int:
    """Where a match ends, of a form that always has one."""
    return cast(Match[bytes], match).end()


# ---- the pixels


def _plain(data: bytes, at: int, count: int) -> Any:
    """The pixels of a plain image, 1 for black. Only numpy and searches of bytes read them."""
    np = numpy()
    text = data[_blanks(data, at) :]
    bare = COMMENT.sub(lambda comment: b" " * len(comment[0]), text) if b"#" in text else text
    pixels = np.frombuffer(bare.translate(None, BLANKS), np.uint8) ^ ord("0")
    wrong = pixels[:count] > 1
    if wrong.any():
        byte = int(pixels[wrong.argmax()]) ^ ord("0")
        raise _bad("BadComment" if byte == ord("#") else "BadPixel")
    if pixels.size < count:
        raise _bad("Truncated")
    if pixels.size > count:
        _check_after(text, bare, count)
    return pixels[:count]


def _check_after(text: bytes, bare: bytes, count: int) -> None:
    """Whether whitespace follows the last pixel, where something does. `bare` is the text with
    blanks for its comments."""
    np = numpy()
    used = ~np.isin(np.frombuffer(bare, np.uint8), np.frombuffer(BLANKS, np.uint8))
    last = int(np.flatnonzero(used)[count - 1])
    if text[last + 1 : last + 2] not in BLANKS:
        raise _bad("JunkNotSpaced")


def _raw(data: bytes, at: int, width: int, height: int) -> Any:
    """The pixels of a raw image, 1 for black, with the fill bits of its rows."""
    np = numpy()
    row = (width + 7) // 8
    if len(data) - at < row * height:
        raise _bad("Truncated")
    raster = np.frombuffer(data, np.uint8, row * height, at)
    return np.unpackbits(raster.reshape(height, row), axis=1)
