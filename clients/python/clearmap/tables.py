"""A reader of the tables that `clearmap dist` writes."""
import re
from typing import List, TextIO, Union

from .errors import WrongAnswer
from .requests import Near

Entry = Union[int, Near, None]


def _entry(word: str) -> Entry:
    """One entry of a table."""
    if word == "-":
        return None
    match = re.fullmatch(r"([0-9]{1,10})(?:/(-?[0-9]{1,10})/(-?[0-9]{1,10}))?", word)
    if not match:
        raise WrongAnswer(f"'{word}' is no entry of a table of distances")
    distance, x, y = match.groups()
    return int(distance) if x is None else Near(int(distance), (int(x), int(y)))


def _row(line: str) -> List[Entry]:
    """The entries of a line."""
    if not line.endswith("\n"):
        raise WrongAnswer("the table's last row has no line feed: it was cut")
    return [_entry(word) for word in line[:-1].split(" ")]


def read_distances(text: TextIO) -> List[List[Entry]]:
    """The table that `clearmap dist` writes, by rows: a number, with `--nearest` a Near, and None
    if the map has no obstacle. Anything else is a `WrongAnswer`, also a last row without its line
    feed, whose last number may have been cut."""
    rows = [_row(line) for line in text]
    if len({len(row) for row in rows}) != 1:
        raise WrongAnswer("the table has no rows, or rows of several lengths")
    return rows
