"""Where the fault of a PBM image is, which its refusal doesn't say."""
import re

from .requests import LARGEST_SIDE

_GAP = rb"[ \t\r\n](?:[ \t\r\n]+|#[^\r\n]*[\r\n])*"
_HEAD = re.compile(rb"P([14])" + _GAP + rb"([0-9]+)" + _GAP + rb"([0-9]+)[ \t\r\n]")
_COMMENT = re.compile(rb"(?<=[ \t\r\n])#[^\r\n]*")
_NO_PIXEL = re.compile(rb"[^01 \t\r\n]")


def place_of(fault: str, image: bytes) -> str:
    """What of an image is as its fault says; an empty text if that can't be told."""
    if fault == "TooLarge":
        return f"an image has at most {LARGEST_SIDE} columns and {LARGEST_SIDE} rows"
    head = _HEAD.match(image)
    if head is None or fault not in ("BadPixel", "Truncated"):
        return ""
    width, height, start = int(head[2]), int(head[3]), head.end()
    if head[1] == b"4":
        needed, found = (width + 7) // 8 * height, len(image) - start
        return f"{width} by {height} pixels are {needed} bytes after the head, and {found} are there"
    pixels = _COMMENT.sub(lambda comment: b" " * len(comment[0]), image[start - 1 :])
    if fault == "Truncated":
        found = pixels.count(b"0") + pixels.count(b"1")
        return f"{width} by {height} are {width * height} pixels, and {found} are there"
    wrong = _NO_PIXEL.search(pixels)
    if wrong is None:
        return ""
    return f"its byte {start - 1 + wrong.start()} is {wrong[0]!r}, where a pixel is 0 or 1"
