"""The size of a served map, found by queries: AT is answered only for its cells."""
from typing import List, Sequence, Union

from .connection import Connection
from .errors import AlreadyPinned, OutOfRange, Refused, Size, WrongAnswer, WrongMap
from .requests import CHESS, LARGEST_SIDE, PIN, UNPIN, Cell, Request, at, whole

STEP = 64  # columns, or rows, between the cells that are asked about first


def size_of(size: Size) -> Size:
    """A size that a map may have: columns and rows, 1 to 4096 each."""
    width, height = (whole(side) for side in size)
    if not (1 <= width <= LARGEST_SIDE and 1 <= height <= LARGEST_SIDE):
        raise ValueError(f"no map has {width} by {height} cells: 1 to {LARGEST_SIDE} a side")
    return width, height


def check_size(connection: Connection, size: Size) -> Union[None, Refused]:
    """Raises WrongMap if the served map has another size. Takes one write, on a connection without
    a pin, if the map is as expected; returns the server's refusal of a pin."""
    width, height = size
    cells = [(width - 1, height - 1), (width, 0), (0, height)]
    pinned, *found, _ = connection.ask_all([PIN, *_asked(cells), UNPIN])
    if isinstance(pinned, Refused):
        return pinned
    if _are_cells(found) == [True, False, False]:
        return None
    served = find_size(connection)
    if isinstance(served, Refused):
        return served
    if served == size:
        raise WrongAnswer(f"the server's map is and isn't {width} by {height} cells")
    raise WrongMap(size, served)


def find_size(connection: Connection) -> Union[Size, Refused]:
    """The size of the served map, by two writes of at most 64 lines per axis, on the current pin or
    on a temporary one. Returns a refusal."""
    steps = range(STEP, LARGEST_SIDE, STEP)
    pinned, *found = connection.ask_all([PIN, *_asked(_on_axes(steps, steps))])
    if isinstance(pinned, Refused) and not isinstance(pinned, AlreadyPinned):
        return pinned
    whole_steps = [STEP * count for count in _counts(found)]
    columns, rows = (range(start + 1, start + STEP) for start in whole_steps)
    last = [UNPIN] if not isinstance(pinned, Refused) else []
    found = connection.ask_all([*_asked(_on_axes(columns, rows)), *last])
    if last:
        found.pop()
    width, height = (start + count + 1 for start, count in zip(whole_steps, _counts(found)))
    return width, height


def _on_axes(columns: Sequence[int], rows: Sequence[int]) -> List[Cell]:
    """Cells of the first row, and then as many of the first column."""
    return [(x, 0) for x in columns] + [(0, y) for y in rows]


def _asked(cells: Sequence[Cell]) -> List[Request[object]]:
    """What asks about each cell."""
    return [at(x, y, CHESS) for x, y in cells]


def _are_cells(answers: Sequence[object]) -> List[bool]:
    """Which of the asked cells the map has."""
    for answer in answers:
        if isinstance(answer, Refused) and not isinstance(answer, OutOfRange):
            raise WrongAnswer(f"'{answer}' tells no size")
    return [not isinstance(answer, OutOfRange) for answer in answers]


def _counts(answers: Sequence[object]) -> List[int]:
    """How many of the asked columns, and of the asked rows, the map has: always the first ones."""
    known = _are_cells(answers)
    halves = known[: len(known) // 2], known[len(known) // 2 :]
    counts = [half.count(True) for half in halves]
    for half, count in zip(halves, counts):
        if not all(half[:count]):
            raise WrongAnswer("the server has a cell, and not the one before it")
    return counts
