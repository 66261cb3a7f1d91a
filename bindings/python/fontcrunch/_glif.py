"""Files of UFO's GLIF: their contours read, others written into them, and each crunched. docs/GLIF.md says what is read."""

from __future__ import annotations

import itertools
from typing import Iterable

from ._contours import Settings, words_of
from ._entries import SIZE, U8, U16, call
from ._glyphs import Glyph
from ._prepared import prepared
from ._refusal import Refused
from ._rows import SCRATCH, USUAL_POINT_ROOM, AnyPoint, Point, assembly_room, point_rows, points_in, points_room, row_of
from ._wrong import bytes_of, listed, room

# the text of a contour with a point is longer than this, and so is that of a point
_LEAST_TEXT = 16

# the longest text of a point: two numbers of six bytes, and a type
_MOST_TEXT = 48

# more are refused by 14, before any row is looked at
_MOST_POINTS = 65536

_A_FILE = "a file of GLIF"


def _places(data: bytes) -> int:
    return min(len(data) // _LEAST_TEXT + 1, _MOST_POINTS)


def read_glif(data: bytes) -> list[list[Point]]:
    """The contours of a file, each from its first on-curve point on, with the middle of two off-curve points that follow
    each other, halves away from zero, between them.

    Refused, each over the whole file before the next: by 19, malformed; 20, a cubic or fractional point or an open contour;
    14, a coordinate outside 16 bits, or more than 65,536 points; 21, a contour without an on-curve point.
    """
    data = bytes_of(data, _A_FILE)
    places = _places(data)
    # a point in the file makes at most two in the rows, so that 9 is never given
    ends, points = (U16 * places)(), points_room(2 * places)
    report = call("read_glif", row_of(U8, data), ends, *points, (SIZE * 3 * places)())
    return Glyph(ends[: report.contours], [*points_in(points, report.points)]).contours()


def write_glif(data: bytes, contours: Iterable[Iterable[AnyPoint]]) -> bytes:
    """The file with these contours in place of the insides of its own, one for each; every other byte is as it stood.

    Refused, in this order: by 14, more than 65,536 points; as `read_glif`; by 1, where the file has another number of
    contours; 2, where a contour has no point.
    """
    data = bytes_of(data, _A_FILE)
    held = [listed(contour) for contour in contours]
    points = [point for contour in held for point in contour]
    if len(points) > _MOST_POINTS:
        raise Refused(14)
    # where no point stands yet an end cannot say so, and 2 is given for what follows
    ends = [max(count, 1) - 1 for count in itertools.accumulate(map(len, held))]
    out = (U8 * (len(data) + _MOST_TEXT * len(points)))()
    report = call("write_glif", row_of(U8, data), row_of(U16, ends), *point_rows(points), out)
    return bytes(out[: report.bytes])


def crunch_glif(
    data: bytes, settings: Settings = Settings(), *, point_room: int = USUAL_POINT_ROOM, prepare: bool = False
) -> bytes:
    """Crunches a file, each contour as `crunch` does, and writes the new points into it.

    Refused, in this order: as `read_glif`; then by the first contour that is refused, whatever its number; by 16 where the
    penalty is out of range and there is no contour; by 14 where the new points are more than 65,536. The contours share
    point_room, or twice as many places as the file can have points where these are more: 9 where it does not suffice.

    Where prepare is true the file is read, each contour goes through `prepared` in order, what they became is written into
    the file, and that is crunched: refused as `read_glif`, then by the first contour that is refused there, then as above.
    """
    data = bytes_of(data, _A_FILE)
    if prepare:
        data = write_glif(data, [prepared(contour) for contour in read_glif(data)])
    places = _places(data)
    most = max(2 * places, room(point_room))
    out = (U8 * (len(data) + _MOST_TEXT * most))()
    read_into = ((U16 * places)(), *points_room(most), (SIZE * 3 * places)())
    asked = (row_of(U8, data), *words_of(settings))
    report = call("crunch_glif", *asked, out, *read_into, *SCRATCH.rows, assembly_room(most))
    return bytes(out[: report.bytes])
