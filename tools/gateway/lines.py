"""A client's lines: what each says, as far as nobody has to be asked for it."""
import re
from typing import List, NamedTuple, Optional, Sequence, Tuple

from clearmap.requests import LONGEST_LINE
from limits import LARGEST_STAMP
from queries import KINDS, Answer, asked_of, numbers_of

UNKNOWN = b"ERR 11 UnknownCommand\n"
BAD = b"ERR 12 BadArguments\n"
TOO_LONG = b"ERR 13 LineTooLong\n"
TOO_MUCH = b"ERR 14 TooMuchData\n"
NOT_PINNED = b"ERR 6 NotPinned\n"
PINNED = b"ERR 7 AlreadyPinned\n"

CHANGES = (b"PAINT", b"CLEAR", b"PUBLISH", b"REVERT", b"COLLECT", b"CHECKPOINT")
BARE = (b"PIN", b"UNPIN", b"DUMP", b"QUIT", b"WATCH")
HTTP = b" HTTP/"  # in the first line of what a browser sends

AT = re.compile(rb"AT (euclid2|city|chess) ([0-9]{1,10}) ([0-9]{1,10})\r?\n")


class Line(NamedTuple):
    """What a line says: its command, and of a query what it asks, of a stamp how many bytes it
    counts, of a change the line itself. If its form is refused, only `reply` matters."""

    verb: bytes = b""
    reply: bytes = b""
    asked: Optional[Answer] = None
    counted: int = 0
    sent: bytes = b""
    ends: bool = False  # whether the connection ends with the reply


def read_line(line: bytes) -> Line:
    """What a line says, without its line feed. A browser's ends the connection: what comes after it
    may be the text of any page."""
    if HTTP in line:
        return Line(reply=UNKNOWN, ends=True)
    if line.endswith(b"\r"):
        line = line[:-1]
    verb, *words = line.split(b" ")
    if verb in KINDS:
        asked = asked_of(verb, words)
        return Line(verb, asked=asked) if asked else Line(reply=BAD)
    if verb in CHANGES:
        # The server judges it. It would drop another CR, which belongs to the line here.
        return Line(reply=BAD) if line.endswith(b"\r") else Line(verb, sent=line + b"\n")
    if verb in BARE:
        return Line(reply=BAD) if words else Line(verb)
    return _stamp(line, words) if verb == b"STAMP" else Line(reply=UNKNOWN)


def _stamp(line: bytes, words: Sequence[bytes]) -> Line:
    """A stamp's line, which counts the bytes after it."""
    numbers: Optional[List[int]] = numbers_of(words)
    if numbers is None or len(numbers) != 3:
        return Line(reply=BAD)
    if numbers[2] > LARGEST_STAMP:
        return Line(reply=TOO_MUCH, ends=True)
    return Line(b"STAMP", counted=numbers[2], sent=line + b"\n")


def next_cells(pending: bytearray, most: int) -> List[Tuple[bytes, ...]]:
    """Takes up to this many AT lines that come next: the words of each. Most lines are such, and
    looking for nothing else in them takes a third of the time."""
    cells: List[Tuple[bytes, ...]] = []
    end = 0
    while len(cells) < most:
        found = AT.match(pending, end)
        if found is None:
            break
        end = found.end()
        cells.append(found.groups())
    del pending[:end]
    return cells


def next_line(pending: bytearray) -> Optional[Line]:
    """Takes the next line from what a client has sent; None if it isn't whole."""
    end = pending.find(b"\n", 0, LONGEST_LINE + 1)
    if end < 0:
        return Line(reply=TOO_LONG, ends=True) if len(pending) > LONGEST_LINE else None
    line = bytes(pending[:end])
    del pending[: end + 1]
    return read_line(line)
