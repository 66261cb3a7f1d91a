"""Simple glyph descriptions, as OpenType's glyf table holds them: read into contours, written and crunched."""

from __future__ import annotations

import dataclasses
import itertools
from typing import Callable, Iterable, NamedTuple

from ._contours import Settings, words_of
from ._entries import U8, U16, call
from ._prepared import prepared
from ._refusal import Refused
from ._rows import SCRATCH, USUAL_POINT_ROOM, AnyPoint, Point, assembly_room, point_rows, points_in, points_room, row_of
from ._uploads import explicit as made_explicit
from ._wrong import bytes_of, kind_of, listed
from ._wrong import room as checked_room

_MOST_POINTS = 65536

_A_DESCRIPTION = "a glyph description"


@dataclasses.dataclass
class Glyph:
    """A simple glyph: its contours one after the other, and its instructions."""

    ends: list[int] = dataclasses.field(default_factory=list)
    """The number of each contour's last point; each is above the one before it."""
    points: list[AnyPoint] = dataclasses.field(default_factory=list)
    """The points of all contours. Those after the last end are not written."""
    instructions: bytes = b""
    """The instruction bytes, as they stand."""

    @classmethod
    def of_contours(cls, contours: Iterable[Iterable[AnyPoint]], instructions: bytes = b"") -> Glyph:
        """The glyph of these contours."""
        held = [listed(contour) for contour in contours]
        ends = [count - 1 for count in itertools.accumulate(map(len, held))]
        return cls(ends, list(itertools.chain.from_iterable(held)), instructions)

    def contours(self) -> list[list[AnyPoint]]:
        """The points of each contour."""
        starts = [0, *(end + 1 for end in self.ends)]
        return [self.points[start : end + 1] for start, end in zip(starts, self.ends)]


class _Room(NamedTuple):
    ends: int
    points: int
    instructions: int


def _room(data: bytes) -> _Room:
    """Places that suffice for what the bytes can hold, so that 9 is never given: the counts stand in the bytes."""

    def word(at: int) -> int:
        return int.from_bytes(data[at : at + 2], "big")

    ends = word(0)
    # such a description is refused by 15 or 12, before rows are looked at
    if ends > 32767 or len(data) < 12 + 2 * ends:
        return _Room(0, 0, 0)
    instructions = word(10 + 2 * ends)
    if len(data) < 12 + 2 * ends + instructions:
        return _Room(0, 0, 0)
    return _Room(ends, word(8 + 2 * ends) + 1 if ends else 0, instructions)


def _most_bytes(room: _Room) -> int:
    """A flag byte and two words a point, and the header."""
    return 12 + 2 * room.ends + room.instructions + 5 * room.points


def read_glyph(data: bytes) -> Glyph:
    """Reads a description.

    Refused, in this order: by 15, composite; 12, cut short; 13, ends that do not rise; 14, a coordinate outside 16 bits.
    Bytes after the last coordinate are not looked at.
    """
    data = bytes_of(data, _A_DESCRIPTION)
    room = _room(data)
    ends, points, instructions = (U16 * room.ends)(), points_room(room.points), (U8 * room.instructions)()
    report = call("read_glyph", row_of(U8, data), ends, *points, instructions)
    return Glyph(ends[: report.contours], [*points_in(points, report.points)], bytes(instructions[: report.instructions]))


def write_glyph(glyph: Glyph) -> bytes:
    """A glyph's description: each difference in its shortest coding, a repeat where a flag stands three times or more, the
    box that of the points.

    Refused, in this order: by 12, fewer points than the last end says; 13, ends that do not rise; 14, a difference outside
    16 bits, more than 32,767 contours, more than 65,535 instruction bytes.
    """
    if not isinstance(glyph, Glyph):
        raise TypeError(f"a glyph is fontcrunch.Glyph(ends, points, instructions), and not {kind_of(glyph)}")
    ends, points = row_of(U16, glyph.ends), point_rows(glyph.points)
    instructions = row_of(U8, bytes_of(glyph.instructions, "a glyph's code of instructions"))
    out = (U8 * _most_bytes(_Room(len(ends), len(points[0]), len(instructions))))()
    report = call("write_glyph", ends, *points, instructions, out)
    return bytes(out[: report.bytes])


def _with_contours(data: bytes, made_of: Callable[[Iterable[AnyPoint]], list[Point]]) -> bytes:
    """The description with each contour made another."""
    glyph = read_glyph(data)
    made = Glyph.of_contours(map(made_of, glyph.contours()), glyph.instructions)
    if len(made.points) > _MOST_POINTS:
        raise Refused(14)
    return write_glyph(made)


def crunch_glyph(
    data: bytes,
    settings: Settings = Settings(),
    *,
    point_room: int = USUAL_POINT_ROOM,
    explicit: bool = False,
    prepare: bool = False,
) -> bytes:
    """Crunches a description, each contour as `crunch` does, and writes the new one. Instructions stay as they stand, though
    the points that they name are others now.

    Refused, in this order: as `read_glyph`; then by the first contour that is refused, whatever its number; then by 16
    where the penalty is out of range and there is no contour; by 14 where contours lie too far apart to be written, or
    there are more than 65,536 points. The contours share point_room, or as many places as the glyph has points where
    these are more: 9 where it does not suffice.

    Glyphs of fonts are often refused by 4 or 5. Where explicit is true, the description is read, each contour goes through
    `explicit` in order, and what they became is written and crunched: refused as `read_glyph`, then by the first contour
    that is refused there, by 21 or 3, then by 14 where the glyph with its implied points cannot be written, then as above.
    Where prepare is true each contour goes through `prepared` instead, in the same way.
    """
    data = bytes_of(data, _A_DESCRIPTION)
    if explicit or prepare:
        data = _with_contours(data, prepared if prepare else made_explicit)
    held = _room(data)
    room = held._replace(points=max(held.points, checked_room(point_room)))
    out = (U8 * _most_bytes(room))()
    glyph = ((U16 * room.ends)(), *points_room(room.points), (U8 * room.instructions)())
    asked = (row_of(U8, data), *words_of(settings))
    report = call("crunch_glyph", *asked, out, *glyph, *SCRATCH.rows, assembly_room(room.points))
    return bytes(out[: report.bytes])
