"""Paths of cells along plans, and the cells of many points at once."""
from __future__ import annotations

import math
from fractions import Fraction
from typing import TYPE_CHECKING, Any, Iterator, List, Sequence, Tuple

from .decimals import exact
from .errors import RosError
from .library import numpy
from .poses import reals
from .requests import Cell

if TYPE_CHECKING:
    import numpy as np
    from numpy.typing import ArrayLike, NDArray

    from .frames import Frame

    Places = NDArray[np.int32]

Place = Tuple[Fraction, Fraction]
APART = 1e-9  # of a segment: crossings farther apart than that come in the order of their floats
SHORT = 0.1  # cells: on a segment that moves less than that the floats are too coarse


def crossed(start: Place, end: Place) -> Iterator[Cell]:
    """The cells that a segment enters after the cell that it begins in, in their order; each is
    next to the one before. Where it goes through a corner, the next column comes first."""
    x, y = math.floor(start[0]), math.floor(start[1])
    parts = 1
    for number in (*start, *end):
        parts = parts * number.denominator // math.gcd(parts, number.denominator)
    (a, b), (c, d) = (tuple(int(number * parts) for number in place) for place in (start, end))
    lengths = abs(c - a), abs(d - b)
    crossings = []
    for axis, (first, last) in enumerate(((a, c), (b, d))):
        step, scale = (1 if last > first else -1), max(lengths[1 - axis], 1)
        for at in range(first // parts, last // parts, step):
            edge = at + 1 if step > 0 else at
            crossings.append((abs(edge * parts - first) * scale, axis, step))
    for _, axis, step in sorted(crossings):
        x, y = (x + step, y) if axis == 0 else (x, y + step)
        yield x, y


def corners(cells: Sequence[Cell]) -> List[Cell]:
    """A path of neighbouring cells by its ends and the cells where it turns."""
    kept = [cells[0]]
    for before, here, after in zip(cells, cells[1:], cells[2:]):
        if (here[0] - before[0], here[1] - before[1]) != (after[0] - here[0], after[1] - here[1]):
            kept.append(here)
    return kept if len(cells) == 1 else kept + [cells[-1]]


# ---- of arrays


def cells_many(frame: Frame, xs: ArrayLike, ys: ArrayLike) -> Tuple[Places, Places]:
    """`Frame.cell_many`."""
    metres = reals(("xs", _decimals(xs)), ("ys", _decimals(ys)))
    (_, columns), (_, ups) = _upwards(frame, *metres)
    return columns.astype("i4"), (frame.height - 1 - ups).astype("i4")


def stairs(frame: Frame, plan: ArrayLike) -> Places:
    """`Frame.staircase` of an array."""
    np = numpy()
    points = reals(("the plan", _decimals(plan)))[0]
    if points.ndim != 2 or points.shape[1] != 2:
        raise ValueError(f"a plan has the shape (points, 2), and this array {points.shape}")
    if not len(points):
        raise RosError("the plan has no point")
    told = _upwards(frame, points[:, 0], points[:, 1])
    about = np.stack([places for places, _ in told], axis=1)
    cells = np.stack([floors for _, floors in told], axis=1).astype("i8")
    steps = [cells[:1]]
    for number in range(len(points) - 1):
        ends = about[number : number + 2], cells[number : number + 2]
        found = _steps(*ends)
        if found is None:
            found = _exact_steps(frame, cells[number], points[number : number + 2].tolist())
        steps.append(found)
    walked = np.cumsum(np.concatenate(steps), axis=0)
    walked[:, 1] = frame.height - 1 - walked[:, 1]
    moved = np.diff(walked, axis=0)
    kept = np.ones(len(walked), bool)
    kept[1:-1] = (moved[1:] != moved[:-1]).any(axis=1)
    return walked[kept].astype("i4")  # type: ignore[no-any-return]


def _steps(about: Any, cells: Any) -> Any:
    """The steps of `crossed`, as an array of the shape (steps, 2). None where floats don't tell
    their order."""
    np = numpy()
    start, moves, counts = about[0], about[1] - about[0], abs(cells[1] - cells[0])
    if ((counts > 0) & (abs(moves) < SHORT)).any():
        return None
    parts, steps = [], np.zeros((counts.sum(), 2), "i8")
    for axis in (0, 1):
        step = 1 if moves[axis] > 0 else -1
        edges = cells[0, axis] + (step > 0) + step * np.arange(counts[axis])
        parts.append((edges - start[axis]) / (moves[axis] if counts[axis] else 1))
        steps[axis * counts[0] : counts[0] + axis * counts[1], axis] = step
    keys = np.concatenate(parts)
    order = keys.argsort(kind="stable")
    turns = steps[order]
    is_close = (np.diff(keys[order]) < APART) & (turns[1:, 0] != turns[:-1, 0])
    return None if is_close.any() else turns


def _decimals(metres: ArrayLike) -> Any:
    """Numbers by the decimals that they are written as: of floats of fewer bits, as 0.1, those of
    the float of 64 bits next to it."""
    np = numpy()
    if isinstance(metres, np.ma.MaskedArray):
        return metres  # which is refused
    given = np.asarray(metres)
    return given.astype("U").astype("f8") if given.dtype in (np.float16, np.float32) else given


def _exact_steps(frame: Frame, cell: Any, ends: Sequence[Any]) -> Any:
    """The same of two points in metres, in whole numbers."""
    np = numpy()
    first, last = (frame._upwards(point) for point in ends)
    walked = [tuple(cell.tolist()), *crossed(first, last)]
    return np.diff(np.array(walked, "i8"), axis=0)


def _upwards(frame: Frame, xs: Any, ys: Any) -> Tuple[Tuple[Any, Any], ...]:
    """Points in cells from the lower left corner, about and rounded down, by axes."""
    np = numpy()
    origin = frame.origin_x, frame.origin_y
    told = tuple(_floors(it, start, frame.resolution) for it, start in zip((xs, ys), origin))
    (_, columns), (_, ups) = told
    is_off = (columns < 0) | (columns >= frame.width) | (ups < 0) | (ups >= frame.height)
    if is_off.any():
        first = tuple(np.argwhere(is_off)[0].tolist())
        raise RosError(f"the point ({xs[first]}, {ys[first]}) isn't on the map")
    return told


def _floors(metres: Any, origin: Fraction, resolution: Fraction) -> Tuple[Any, Any]:
    """Metres in cells, and these rounded down: by floats, but for those so close to a border that
    rounding may have moved them over it; they are taken for the decimals that they are written as.
    """
    np = numpy()
    start, size = float(origin), float(resolution)
    cells = (metres - start) / size
    off = 2.0**-49 * ((abs(metres) + abs(start)) / size + abs(cells))
    floors = np.array(np.floor(cells))
    near = abs(cells - np.rint(cells)) <= off
    if near.any():
        numbers, where = np.unique(metres[near], return_inverse=True)
        told = [math.floor((exact(number) - origin) / resolution) for number in numbers]
        floors[near] = np.array(told, "f8")[where.reshape(-1)]
    return cells, floors
