"""What changed from one version to the next: the cells that became obstacles, and those that became
free."""
from typing import TYPE_CHECKING, Dict, List, Optional

import numpy

if TYPE_CHECKING:
    from picture import Cells
    from shown import Shown

MOST_RUNS = 20_000  # of each kind, that a page is sent


def counts(before: "Optional[Shown]", after: "Shown") -> Optional[Dict[str, object]]:
    """How many cells changed from the version that was shown before, and when this one came. None
    if there is no earlier version of a map of this size."""
    if before is None or before.version >= after.version:
        return None
    old, new = before.copy.bits, after.copy.bits
    if old.shape != new.shape:
        return None
    became, freed = int((new & ~old).sum()), int((old & ~new).sum())
    return {"since": before.version, "at": after.came, "obstacles": became, "free": freed}


def halved(cells: "Cells") -> "Cells":
    """Each four cells as one, which is of them if any is."""
    height, width = cells.shape
    even = numpy.pad(cells, ((0, height % 2), (0, width % 2)))
    rows = even[::2] | even[1::2]
    found: "Cells" = rows[:, ::2] | rows[:, 1::2]
    return found


def runs(cells: "Cells") -> List[List[int]]:
    """The runs of cells in rows, each as its row, its first column, and the one after its last."""
    edges = numpy.diff(numpy.pad(cells.astype(numpy.int8), ((0, 0), (1, 1))), axis=1)
    rows, starts = numpy.nonzero(edges == 1)
    ends = numpy.nonzero(edges == -1)[1]
    found: List[List[int]] = numpy.stack((rows, starts, ends), axis=1).tolist()
    return found


def count_of_runs(cells: "Cells") -> int:
    """How many runs there are."""
    return int((cells[:, 1:] & ~cells[:, :-1]).sum() + cells[:, 0].sum())


def told(before: "Cells", after: "Cells") -> Dict[str, object]:
    """The changed cells of two maps of one size, by runs. Where these are too many, several cells
    become one: `side` is how many its sides are."""
    kinds, side = [after & ~before, before & ~after], 1
    while max(map(count_of_runs, kinds)) > MOST_RUNS:
        kinds, side = [halved(cells) for cells in kinds], 2 * side
    obstacles, free = map(runs, kinds)
    return {"side": side, "obstacles": obstacles, "free": free}
