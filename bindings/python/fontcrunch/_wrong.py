"""What is wrong with an argument, in a sentence that names it."""

from __future__ import annotations

import operator
import reprlib
from typing import Any, Iterable, Sequence

_LEAST, _MOST = -32768, 32767


def shown(value: Any) -> str:
    """A value as it is written, cut short where it is long."""
    return reprlib.repr(value)


def kind_of(value: Any) -> str:
    return type(value).__name__


def listed(points: Any) -> Sequence[Any]:
    """The points of a contour."""
    if isinstance(points, (str, bytes, dict)):
        raise TypeError(f"a contour is points, each (x, y, flag), and not {kind_of(points)}: {shown(points)}")
    try:
        return points if isinstance(points, (list, tuple)) else list(points)
    except TypeError:
        raise TypeError(f"a contour is points, each (x, y, flag), and not {kind_of(points)}: {shown(points)}") from None


def wrong_point(points: Iterable[Any]) -> Exception | None:
    """What is wrong with the first point of a contour that is none."""
    for place, point in enumerate(points):
        try:
            x, y, flag = point[0], point[1], point[2]
        except (TypeError, IndexError, KeyError):
            return TypeError(f"point {place} is {shown(point)}: a point is three numbers, x, y and a flag that is 1 on the curve and 0 off it")
        for name, value in (("x", x), ("y", y), ("flag", flag)):
            try:
                whole = operator.index(value)
            except TypeError:
                return TypeError(f"point {place} is {shown(point)}: its {name} is {shown(value)}, and not a whole number")
            if name != "flag" and not _LEAST <= whole <= _MOST:
                return ValueError(f"point {place} is {shown(point)}: its {name} does not fit 16 bits, {_LEAST} to {_MOST}")
    return None


def bytes_of(data: Any, what: str) -> bytes:
    """Bytes, of what holds bytes; nothing else is taken for them."""
    if isinstance(data, (bytes, bytearray, memoryview)):
        return bytes(data)
    hint = ": read it in mode 'rb', or encode the text" if isinstance(data, str) else ""
    raise TypeError(f"{what} is bytes, and not {kind_of(data)}{hint}")


def whole(value: Any, what: str) -> int:
    try:
        return operator.index(value)
    except TypeError:
        raise TypeError(f"{what} is a whole number, and not {kind_of(value)}: {shown(value)}") from None


def room(value: Any) -> int:
    places = whole(value, "point_room")
    if places < 0:
        raise ValueError(f"point_room is a number of points, and not {places}")
    return places
