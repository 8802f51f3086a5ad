"""The scale between a mesh in real coordinates and one in whole numbers."""
from __future__ import annotations

import math
import re
from dataclasses import dataclass
from typing import TYPE_CHECKING

from .errors import Status, UserError
from .limits import MOST_COORDINATE

if TYPE_CHECKING:
    from .arrays import Numbers, Reals

TITLE = re.compile(r"octopus-tools unit (\S+) origin (\S+) (\S+) (\S+)")


@dataclass(frozen=True)
class Scale:
    """The whole place p stands for the real place p · unit + origin, axis by axis."""

    unit: float = 1.0
    origin: tuple[float, float, float] = (0.0, 0.0, 0.0)

    def __post_init__(self) -> None:
        if not (math.isfinite(self.unit) and self.unit > 0):
            raise UserError("the unit has to be a number above 0", Status.WORDS)
        if not all(math.isfinite(value) for value in self.origin):
            raise UserError("the origin has to be three numbers", Status.WORDS)

    def title(self) -> str:
        """The title line that keeps the scale; numbers are written so that they are
        read as the same floating-point numbers."""
        x, y, z = self.origin
        return f"octopus-tools unit {self.unit!r} origin {x!r} {y!r} {z!r}"

    def whole(self, real: Reals) -> Reals:
        """Real places in units, rounded to the nearest whole number (float64)."""
        import numpy as np

        rounded: Reals = np.rint((real - np.asarray(self.origin)) / self.unit)
        return rounded

    def real(self, whole: Numbers) -> Reals:
        """Whole places as real ones (float64)."""
        import numpy as np

        places: Reals = whole * self.unit + np.asarray(self.origin)
        return places


def scale_of_title(title: str) -> Scale | None:
    """The scale that a title keeps, or None."""
    match = TITLE.fullmatch(title.strip())
    if match is None:
        return None
    try:
        unit, x, y, z = (float(text) for text in match.groups())
    except ValueError:
        return None
    return Scale(unit, (x, y, z))


def fitting_unit(largest: float) -> float:
    """The least unit of the form 1, 2 or 5 times a power of ten with which a
    coordinate of this size is still in range."""
    if not largest > 0:
        return 1.0
    least = largest / MOST_COORDINATE
    power = math.floor(math.log10(least)) - 1
    while True:
        for digit in (1, 2, 5):
            unit = float(f"{digit}e{power}")
            if unit >= least:
                return unit
        power += 1
