"""Uploads cleaned of repeated points or of idle controls, and put back as they were; cubics made quads; implied points written
out."""

from __future__ import annotations

import enum
import itertools
from typing import Any, Iterable, NamedTuple, Tuple

from ._entries import U32, call
from ._rows import MOST_POINTS_IN, AnyPoint, Point, point_rows, points_in, points_room, row_of
from ._wrong import shown


class Why(enum.IntEnum):
    """Why a point was dropped: the first of these that held."""

    BEFORE = 1
    """An on-curve point equal to the on-curve point before it."""
    BOTH = 2
    """An off-curve point equal to both neighbours, going round."""
    FIRST = 3
    """A last on-curve point equal to the first point."""


class Dropped(NamedTuple):
    """A dropped point."""

    place: int
    """Its place in the upload."""
    why: Why
    """Why it was dropped."""


class Cleaned(NamedTuple):
    """A cleaned contour."""

    points: list[Point]
    """The points kept, in order. None of refusals 1 to 5 is given for them."""
    dropped: list[Dropped]
    """The points dropped, in the order of dropping."""


def clean(points: Iterable[AnyPoint]) -> Cleaned:
    """Drops points that repeat their neighbours: lowest place first, until none remains. Place 0 always stays."""
    kept, drops = _kept_and_dropped("clean", points)
    return Cleaned(kept, [Dropped(place, Why(why)) for place, why in drops])


def put_back(points: Iterable[AnyPoint], dropped: Iterable[Tuple[int, int]]) -> list[Point]:
    """The upload's points, of the points kept and the list. A list that no cleaning gave is put back too, by the same rule.

    Refused by 3 where there are more than MOST_POINTS_IN points with those dropped.
    """
    return _put_back_by("put_back", points, _drop_row(dropped, Why, "why, 1 before, 2 both or 3 first"))


class Beside(enum.IntEnum):
    """The end of its curve that a control stands on: the first of these that held."""

    BEFORE = 1
    """The on-curve point before it."""
    AFTER = 2
    """The on-curve point after it, going round."""


class IdleDrop(NamedTuple):
    """A dropped control."""

    place: int
    """Its place in the contour."""
    beside: Beside
    """The end of its curve that it stands on."""


class Idle(NamedTuple):
    """A contour without idle controls."""

    points: list[Point]
    """The points kept, in order. None of refusals 1 to 5 is given for them."""
    dropped: list[IdleDrop]
    """The controls dropped, by rising place."""


def drop_idle(points: Iterable[AnyPoint]) -> Idle:
    """Drops each off-curve point that is equal to one of its on-curve neighbours, going round: its curve is then the line
    that it was, in the same places. Place 0 always stays. Left in, such a control makes its run come out straight."""
    kept, drops = _kept_and_dropped("drop_idle", points)
    return Idle(kept, [IdleDrop(place, Beside(beside)) for place, beside in drops])


def put_back_idle(points: Iterable[AnyPoint], dropped: Iterable[Tuple[int, int]]) -> list[Point]:
    """The contour's points, of the points kept and the list. A list that no dropping gave is put back too, by the same rule.

    Refused by 3 where there are more than MOST_POINTS_IN points with those dropped.
    """
    return _put_back_by("put_back_idle", points, _drop_row(dropped, Beside, "the end that it stands on, 1 before or 2 after"))


def _kept_and_dropped(name: str, points: Iterable[AnyPoint]) -> Tuple[list[Point], list]:
    """The points kept by an entry that drops some, and its list."""
    contour = point_rows(points)
    # as long as the contour, which always suffices
    room = min(len(contour[0]), MOST_POINTS_IN)
    out, drops = points_room(room), (U32 * 2 * room)()
    report = call(name, *contour, *out, drops)
    return points_in(out, report.kept), drops[: report.dropped]


def _put_back_by(name: str, points: Iterable[AnyPoint], drops: Any) -> list[Point]:
    """The points that an entry makes of the points kept and the row of a list."""
    contour = point_rows(points)
    out = points_room(min(len(contour[0]) + len(drops), MOST_POINTS_IN))
    report = call(name, *contour, drops, *out)
    return points_in(out, report.points)


def _drop_row(dropped: Iterable[Tuple[int, int]], kind: type[enum.IntEnum], second: str) -> Any:
    """The row of a list of drops, whose second numbers are of that kind."""
    held = []
    for number, drop in enumerate(dropped):
        try:
            place, told = drop
            held.append((place, int(kind(told))))
        except (TypeError, ValueError) as error:
            raise type(error)(f"drop {number} is {shown(drop)}: a drop is a place and {second}") from None
    return (U32 * 2 * len(held)).from_buffer_copy(row_of(U32, itertools.chain.from_iterable(held)))


def from_cubics(points: Iterable[AnyPoint]) -> list[Point]:
    """The quads of a contour of cubics, whose off-curve points stand in pairs; a last pair leads back to the start, which is
    not written again. None of refusals 1 to 5 is given for the points that come out.

    Refused by 5 where a stretch of off-curve points is not two long, by 3 where more than MOST_POINTS_IN points come out
    (more may go in), and by 17.
    """
    out = points_room(MOST_POINTS_IN)
    report = call("from_cubics", *point_rows(points), *out)
    return points_in(out, report.points)


def explicit(points: Iterable[AnyPoint]) -> list[Point]:
    """A contour as fonts hold it from its first on-curve point on, with the implied point between two off-curve ones that
    follow each other written out: their middle, halves away from zero. None of refusals 1 to 5 is given for the points that
    come out; a contour that they let through comes out as it is, and where each middle is whole the outline is the same.

    Refused by 2; by 21 where no point is on-curve; by 3 where more than MOST_POINTS_IN points come out.
    """
    out = points_room(MOST_POINTS_IN)
    report = call("explicit", *point_rows(points), *out)
    return points_in(out, report.points)
