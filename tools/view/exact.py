"""How much room a round robot has exactly, against the safe rule, which goes by whole cells."""
import math
from fractions import Fraction
from typing import Callable, NamedTuple, Optional, Sequence

import clearmap
from bodies import Cell

ONE, HALF = Fraction(1), Fraction(1, 2)
SLACK = Fraction(1, 10**9)  # the float just below a decimal is told as that decimal


class Unit(NamedTuple):
    """In what lengths are told: how much of it a cell or a step is, the decimals, and its name."""

    cell: Fraction
    places: int
    name: str

    @property
    def parts(self) -> int:
        """How many of the last of the decimals the unit is."""
        return int(10**self.places)

    def below(self, cells: Fraction) -> int:
        """A length in the last of the decimals, rounded down."""
        return math.floor(cells * self.cell * self.parts)

    def above(self, cells: Fraction) -> int:
        """The same, rounded up."""
        return math.ceil(cells * self.cell * self.parts)

    def told(self, parts: int) -> str:
        """A number of the last of the decimals, without the unit's name."""
        return f"{parts / self.parts:.{self.places}f}"


def unit_of(frame: Optional[clearmap.Frame], metric: str = clearmap.EUCLID2) -> Unit:
    """Metres where they are known, and else cells or steps."""
    if frame is not None:
        return Unit(frame.resolution, 3, "m")
    return Unit(ONE, 2, "cells") if metric == clearmap.EUCLID2 else Unit(ONE, 0, "steps")


def free_along(
    frame: Optional[clearmap.Frame], points: Sequence[Cell], radius: str
) -> Callable[[clearmap.Map], Optional[float]]:
    """What finds the room of a robot on a map, from one cell's middle straight to the next: in the
    unit of its radius, 0 if it hits. None if the map has no obstacle."""

    def free(area: clearmap.Map) -> Optional[float]:
        of = frame or clearmap.Frame(*area.size, 1, 0, 0)
        if of.size != area.size:
            return None
        plan = [of.point((x + HALF, y + HALF)) for x, y in points]  # type: ignore[arg-type]
        found = clearmap.plan_clearance(area, of, plan, radius)
        return None if found is None else found.clearance

    return free


def free_said(free: float, unit: Unit) -> str:
    """Room in words: of 0 that it hits."""
    return f"exactly {length_said(free, unit)} free" if free else "exactly: it hits"


def length_said(length: float, unit: Unit) -> str:
    """A length that is exact, rounded down."""
    parts = math.floor(Fraction(length) * unit.parts + SLACK)
    return f"{unit.told(parts) if parts else 'less than ' + unit.told(1)} {unit.name}"
