"""Many cells asked of a server by lines that are sent together, and their answers as arrays."""
from __future__ import annotations

from typing import TYPE_CHECKING, Any, List, Optional, Tuple, Union

from . import requests
from .connection import Connection
from .errors import Refused
from .library import NO_OBSTACLE, NOWHERE, numpy
from .many import Nears, cell_at, named, numbers_of
from .requests import LARGEST_SIDE, Near, wrong
from .rows import near_type

if TYPE_CHECKING:
    from numpy.typing import ArrayLike

BATCH = 64  # requests that are sent before their replies are read
NONE = NO_OBSTACLE, NOWHERE, NOWHERE


class Batch:
    """Cells to ask a pin for: `work` asks, and `nears` are the answers."""

    def __init__(self, xs: ArrayLike, ys: ArrayLike, metric: str) -> None:
        np, _ = numpy(), requests.metric_of(metric)
        columns, rows = np.broadcast_arrays(numbers_of("xs", xs), numbers_of("ys", ys))
        self._given, self._shape = (xs, ys), columns.shape
        pairs = zip(columns.ravel().tolist(), rows.ravel().tolist())
        self._asked = [requests.at(x, y, metric) for x, y in pairs]
        self._told: List[Tuple[int, int, int]] = []

    def work(self, connection: Connection) -> Union[None, Refused]:
        """Asks, 64 cells a write, until all are answered or one is refused."""
        for start in range(0, len(self._asked), BATCH):
            part = self._asked[start : start + BATCH]
            for request, answer in zip(part, connection.ask_all(part)):
                if isinstance(answer, Refused):
                    return answer
                self._told.append(_checked(answer, request))
        return None

    def name(self, refusal: Refused) -> None:
        """Adds to a refusal which cell it is of: the first that wasn't answered."""
        index = numpy().unravel_index(len(self._told), self._shape)
        cell = cell_at(*self._given, index)
        cure = refusal.cure and f", and {refusal.cure}"
        refusal.cure = f"{named(tuple(map(int, index)))} is {cell}{cure}"

    def nears(self) -> Nears:
        """The answers."""
        told = numpy().array(self._told, near_type()).reshape(self._shape)
        return Nears(told["dist"], told["x"], told["y"])


def _checked(answer: Optional[Near], request: Any) -> Tuple[int, int, int]:
    """An answer's numbers, which the arrays can hold as they are."""
    if answer is None:
        return NONE
    distance, (x, y) = answer
    if not (distance < NO_OBSTACLE and -1 <= x <= LARGEST_SIDE and -1 <= y <= LARGEST_SIDE):
        raise wrong(f"OK {distance} {x} {y}", request.line)
    return distance, x, y
