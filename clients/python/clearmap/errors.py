"""Errors between a client and its server: losses, wrong answers, and each refusal."""
from typing import Dict, Tuple, Type, TypeVar, Union

Size = Tuple[int, int]
T = TypeVar("T")


class ClearmapError(Exception):
    """The base of all errors of this package. Each of them can be pickled."""


class ConnectionLost(ClearmapError):
    """There is no server, or it went away, or an earlier call on this connection was interrupted.

    A command whose reply was lost may have been accepted.
    """


class TimedOut(ConnectionLost):
    """The server didn't answer in time; the connection is closed."""


class WrongAnswer(ClearmapError):
    """What came isn't a reply to what was asked; the connection is closed."""


class WrongMap(ClearmapError):
    """The served map doesn't have the expected size; the connection is closed.

    `expected` and `served` are the two sizes, as columns and rows.
    """

    def __init__(self, expected: Size, served: Size) -> None:
        super().__init__(expected, served)
        self.expected, self.served = expected, served

    def __str__(self) -> str:
        sizes = (*self.served, *self.expected)
        return "another map: the server's has %d by %d cells, and %d by %d are expected" % sizes


class RosError(ClearmapError):
    """A map of ROS, a number or a plan that can't be taken; its text is a sentence that says why.
    """


class NoVersion(ClearmapError):
    """No version of a followed map has come yet, or no newer one in the given time."""


class BadVersion(ClearmapError):
    """A published version isn't whole, or doesn't match its hashes: it isn't taken."""


class Refused(ClearmapError):
    """A line that the server refused. It has changed nothing, and the connection goes on, except
    after `LineTooLong` and `TooMuchData`, which end it.

    `number` and `name` are the refusal's, and `details` are the words after them: numbers, or the
    name of an image's fault. `line` is what was refused. `cure` says what would have been taken,
    where that is known.
    """

    cure = ""

    def __init__(
        self, number: int, name: str, details: Tuple[Union[int, str], ...], line: str
    ) -> None:
        super().__init__(number, name, details, line)
        self.number, self.name, self.details, self.line = number, name, details, line

    def __str__(self) -> str:
        words = ["ERR", str(self.number), self.name, *map(str, self.details)]
        cure = self.cure and f": {self.cure}"
        return " ".join(words) + f" (to '{self.line[:80]}')" + cure


class OutOfRange(Refused):
    """A cell, a rectangle or a stamp isn't wholly on the map."""

    cure = "Client.size has the map's columns and rows"


def extent(size: Size) -> str:
    """Which cells a map of this size has."""
    return f"the map has columns 0 to {size[0] - 1} and rows 0 to {size[1] - 1}"


class BlocksFull(Refused):
    """A change needs `needed` new blocks, and `free` are free: collect, or revert."""

    @property
    def needed(self) -> int:
        """How many blocks the change needs."""
        return int(self.details[0])

    @property
    def free(self) -> int:
        """How many blocks are free."""
        return int(self.details[1])


class VersionsFull(Refused):
    """All slots for versions are in use: collect, once old pins are left."""

    cure = (
        "collect() frees the versions that no pin holds, and publish(collect=True) does so each "
        "time"
    )


class LogFull(Refused):
    """No further change is accepted before a checkpoint; pins and queries go on."""


class NoMemory(Refused):
    """The server had no memory for it."""


class NotPinned(Refused):
    """A query without a pin."""


class AlreadyPinned(Refused):
    """A second pin on one connection."""

    cure = "unpin the other pin"


class BadPath(Refused):
    """A path of no points or over 1000."""

    cure = "a path has 1 to 1000 points"


class Crooked(Refused):
    """The point `index` of a path is in neither the row nor the column of the one before."""

    @property
    def index(self) -> int:
        """Which point, counted from 0."""
        return int(self.details[0])

    @property
    def cure(self) -> str:  # type: ignore[override]
        """Which points aren't in line."""
        return f"the point {self.index} is in neither the row nor the column of the one before"


class BadArguments(Refused):
    """A line of another form, or a rectangle without a cell."""


class BadImage(Refused):
    """The bytes of a stamp aren't a PBM image; `fault` says why."""

    @property
    def fault(self) -> str:
        """The fault's name, as `Truncated`."""
        return str(self.details[0])


class PlacesUsed(Refused):
    """The log has had as many entries as places can number: no command is accepted any more."""


REFUSALS: Dict[int, Tuple[str, Type[Refused]]] = {
    1: ("OutOfRange", OutOfRange),
    2: ("BlocksFull", BlocksFull),
    3: ("VersionsFull", VersionsFull),
    4: ("LogFull", LogFull),
    5: ("Memory", NoMemory),
    6: ("NotPinned", NotPinned),
    7: ("AlreadyPinned", AlreadyPinned),
    8: ("BadPath", BadPath),
    9: ("Crooked", Crooked),
    11: ("UnknownCommand", Refused),
    12: ("BadArguments", BadArguments),
    13: ("LineTooLong", Refused),
    14: ("TooMuchData", Refused),
    15: ("BadImage", BadImage),
    17: ("PlacesUsed", PlacesUsed),
}
DETAILS = {2: r" \d{1,10} \d{1,10}", 9: r" \d{1,10}", 15: r" [A-Za-z]+"}
ENDING = (13, 14)  # the server ends the connection after these


def raised(answer: Union[T, ClearmapError]) -> T:
    """An answer that isn't an error. Errors that leave a connection in step are returned by the
    exchange, and raised here."""
    if isinstance(answer, ClearmapError):
        raise answer
    return answer
