"""The rows that are lent to the library, and how points and numbers get into them."""

from __future__ import annotations

import array
import ctypes
import threading
from typing import Any, Iterable, NamedTuple, Sequence, Tuple

from ._entries import F64, I16, U8, U16, U32
from ._wrong import listed, whole, wrong_point

MOST_POINTS_IN = 1024
"""A contour of more points is refused by 3."""

SAMPLE_ROOM = 16384
"""Samples that a run may need; one that needs more is refused by 6."""

BREAK_ROOM = 2048
"""Breaks that a run may have; one with more is refused by 7."""

ANSWER_ROOM = 2 * BREAK_ROOM
"""Stored answers, two for each break."""

MOST_PIECES = BREAK_ROOM - 1
"""Break numbers rise along a chain, so that no chain has more pieces."""

USUAL_POINT_ROOM = 16384
"""Points that a result may have where no other room is given, implied ones counted."""


class Point(NamedTuple):
    """A point of a contour."""

    x: int
    """To the right."""
    y: int
    """Upward."""
    on_curve: bool
    """Whether the outline goes through the point; if not, it is a curve's control."""


AnyPoint = Tuple[int, int, int]
"""What is taken for a point: x, y, and a flag whose bit 0 says that it is on-curve. A Point is one."""

# array's letter for each type, whose range it holds numbers to; ctypes would cut them
_LETTERS = {I16: "h", U8: "B", U16: "H", U32: "I", F64: "d"}


def row_of(place: Any, numbers: Iterable[Any]) -> Any:
    """A row of these numbers."""
    try:
        held = array.array(_LETTERS[place], numbers)
    except TypeError as error:
        raise TypeError(f"a number of another kind: {error}") from None
    except OverflowError as error:
        raise ValueError(f"a number does not fit {8 * ctypes.sizeof(place)} bits: {error}") from None
    return (place * len(held)).from_buffer_copy(held)


def point_rows(points: Iterable[AnyPoint]) -> tuple[Any, Any, Any]:
    """A contour: a place for each point, of its x, of its y and of its flag."""
    held = listed(points)
    try:
        xs, ys = (row_of(I16, [point[k] for point in held]) for k in (0, 1))
        # other bits of a flag are not looked at
        return xs, ys, row_of(U8, [point[2] & 1 for point in held])
    except (TypeError, ValueError, IndexError, KeyError) as error:
        raise wrong_point(held) or error from None


def points_room(places: int) -> tuple[Any, Any, Any]:
    """Rows for points to come out."""
    return (I16 * places)(), (I16 * places)(), (U8 * places)()


def points_in(rows: Sequence[Any], count: int) -> list[Point]:
    """The first points of rows."""
    xs, ys, flags = rows
    return [Point(x, y, flag & 1 == 1) for x, y, flag in zip(xs[:count], ys[:count], flags[:count])]


def assembly_room(places: int) -> Any:
    """The row that the library puts points together in."""
    return (I16 * 3 * places)()


class _Scratch(threading.local):
    """What runs are worked in. What these rows hold does not matter, so that a thread makes them once, at its first call."""

    def __init__(self) -> None:
        self.rows = (
            (F64 * 4 * SAMPLE_ROOM)(),
            (F64 * 6 * BREAK_ROOM)(),
            (F64 * 3 * ANSWER_ROOM)(),
            (U32 * ANSWER_ROOM)(),
        )


SCRATCH = _Scratch()


def counted(number: int, most: int) -> int:
    """A number of something that is counted from 0. One too large to be held is past all of them, as the largest is."""
    number = whole(number, "the number of a run or a segment")
    if number < 0:
        raise ValueError(f"{number} is no number of a run or a segment: they are counted from 0")
    return min(number, most)
