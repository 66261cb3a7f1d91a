"""Contours made ready, as fonts and old uploads need it."""

from __future__ import annotations

from typing import Iterable

from ._rows import AnyPoint, Point
from ._uploads import clean, drop_idle, explicit


def prepared(points: Iterable[AnyPoint]) -> list[Point]:
    """A contour made ready for crunching: its implied points are written out (`explicit`), repeated points dropped (`clean`), and
    then controls that stand on an end of their curve (`drop_idle`). None of refusals 1 to 5 is given for what comes out, and a
    second time changes nothing.

    Refused by 2; by 21 where no point is on-curve; by 3 where there are too many points with the implied ones.
    """
    return drop_idle(clean(explicit(points)).points).points
