"""Contours crunched, chains asked for and checked, corners explained."""

from __future__ import annotations

import dataclasses
import struct
from typing import Any, Iterable, NamedTuple

from ._entries import F64, U32, call, told
from ._prepared import prepared
from ._refusal import Refused
from ._rows import MOST_PIECES, SCRATCH, USUAL_POINT_ROOM
from ._rows import AnyPoint, Point, assembly_room, counted, point_rows, points_in, points_room, row_of
from ._wrong import kind_of, room, shown, whole

DEFAULT_PENALTY = 32
"""The penalty of Settings(), 2.0."""

CRATE_PENALTY = 16
"""The penalty of the Rust that this follows, 1.0."""

_MOST_U32 = 2**32 - 1
_MOST_SIZE = 2**64 - 1


@dataclasses.dataclass(frozen=True)
class Settings:
    """What a caller chooses."""

    penalty: int = DEFAULT_PENALTY
    """What each piece adds to a score, in sixteenths. A larger one asks for fewer pieces. Refused by 16 where it is not
    from 1 to 256."""

    whole_units: bool = False
    """Whether breaks are rounded to whole units instead of half ones, for engines that misdraw implied points on half units.
    It serves these together with closed, and only then: in closed mode no implied point lies on a half unit, while the mode
    of the Rust drops points that are no exact midpoints, on whole units too."""

    closed: bool = False
    """Whether a last run goes round from the last corner to the first, so that nothing is lost. Then points come out in order,
    from the first corner on, which stays also where it is implied; the start is not written again at the end, and implied
    points are those that OpenType implies. Without it the mode is that of the Rust which this follows."""

    @classmethod
    def of_crate(cls) -> Settings:
        """Those of the Rust that this follows, whose points come out with them."""
        return cls(penalty=CRATE_PENALTY)



def penalty_word(penalty: int) -> int:
    """As the library takes it. A penalty that cannot be held is out of the range, as its neighbour is that can be."""
    return min(max(whole(penalty, "a penalty"), 0), _MOST_U32)


def words_of(settings: Settings) -> tuple[int, int, int]:
    """Settings as the library takes them."""
    if not isinstance(settings, Settings):
        hint = ": write Settings(**settings)" if isinstance(settings, dict) else ""
        raise TypeError(f"settings are fontcrunch.Settings(penalty, whole_units, closed), and not {kind_of(settings)}{hint}")
    return penalty_word(settings.penalty), int(bool(settings.whole_units)), int(bool(settings.closed))


class Crunched(NamedTuple):
    """A crunched contour."""

    points: list[Point]
    """Its points, with implied points dropped: in reverse order, or in closed mode in order."""
    pairs: int
    """How many pairs of breaks were tried, over all runs."""
    fallen: int = 0
    """How many lookups fell past the samples of their run, a place and a direction counting one each: over every attempt
    measured in the runs worked, also where the contour is left unchanged. Such an attempt was held against (0, 0), as the Rust
    which this follows does, and has an odd score."""


class Piece(NamedTuple):
    """A piece of a chain: a quadratic curve between two breaks."""

    start: int
    """The number of the break where it starts."""
    end: int
    """The number of the break where it ends."""
    control: tuple[float, float]
    """Its control point, x and y. A straight piece has it midway."""


class Chain(NamedTuple):
    """The pieces of one run."""

    pieces: list[Piece]
    """The pieces in order. There is none where the run leaves the contour unchanged."""
    score: float
    """How far the pieces are from the run, with a penalty for each; 0.0 where there is no piece."""
    pairs: int
    """How many pairs of breaks were tried. The checker does not look at it."""
    segments: tuple[tuple[int, int], ...] = ()
    """For each piece the first and the last segment of the contour that it replaces, counted from 0: those that hold its start
    break and its end break. In closed mode a run goes round, so that the last may be before the first. The checker does
    not look at it."""
    fallen: int = 0
    """How many lookups fell past the samples, over every attempt measured in the run, as in Crunched. The checker does not
    look at it: `verdict` has the number of the chain's own pieces."""


class Verdict(NamedTuple):
    """What the checker says of a chain. It is true where the chain is accepted."""

    accepted: bool
    """Whether the chain is valid for its run and has the score that it says."""
    fallen: int
    """How many lookups fell past the samples as the chain's own pieces were measured, a place and a direction counting one
    each; 0 where they were not, since they do not lead from break to break as a chain's do."""

    def __bool__(self) -> bool:
        return self.accepted


class Editions(NamedTuple):
    """What became of each edition of an order: its points, or why it was refused. One may be refused where the other is
    not."""

    a: Crunched | Refused
    """The first, as on paper."""
    b: Crunched | Refused
    """The second, as on a screen."""


class Reasons(NamedTuple):
    """Which of the tests that make a segment's start a corner hold there. Where none holds, it is no corner."""

    x: bool
    """A sign turn in x: the product was negative in either of the two rounds."""
    y: bool
    """A sign turn in y."""
    before: bool
    """A zero tangent before."""
    after: bool
    """A zero tangent after."""
    angle: bool
    """An angle. It never stands beside a zero tangent."""

    @property
    def is_corner(self) -> bool:
        """Whether some reason holds."""
        return any(self)

    def __str__(self) -> str:
        """The names of those that hold, with commas between them."""
        return ",".join(name for name, holds in zip(self._fields, self) if holds)


def crunch(
    points: Iterable[AnyPoint],
    settings: Settings = Settings(),
    *,
    point_room: int = USUAL_POINT_ROOM,
    prepare: bool = False,
) -> Crunched:
    """Crunches a contour; where prepare is true, what `prepared` makes of it.

    A run for which no chain is found leaves the whole contour unchanged: then its own points come out, reversed, with the
    start at both ends. In closed mode they come out as they stand, and so do those of a contour with no corner.

    No fixed number of points suffices for every result; one that has more than point_room, implied points counted, is
    refused by 9.
    """
    places = room(point_room)
    out, assembled = points_room(places), assembly_room(places)
    report = call("crunch", *point_rows(prepared(points) if prepare else points), *words_of(settings), *out, *SCRATCH.rows, assembled)
    return _crunched(report, out)


def _crunched(report: Any, out: Any) -> Crunched:
    """What is said of a contour, or of one edition, that is not refused."""
    return Crunched(points_in(out, report.points), report.pairs, report.fallen)


def editions(
    points: Iterable[AnyPoint],
    a: int,
    b: int,
    settings: Settings = Settings(),
    *,
    point_room: int = USUAL_POINT_ROOM,
    prepare: bool = False,
) -> Editions:
    """Two editions of a contour, with a penalty each, in sixteenths; grid and mode are those of the settings, whose own
    penalty is not looked at. Each run is sampled once for both.

    Each edition gets what `crunch` gives at its penalty, whichever comes first and whatever becomes of the other. Where
    prepare is true, both are of what `prepared` makes of the contour, and what it refuses is refused for both.
    """
    if prepare:
        try:
            points = prepared(points)
        except Refused as refused:
            return Editions(refused, refused)
    samples, breaks, answers, links = SCRATCH.rows
    places = room(point_room)
    out_a, out_b = points_room(places), points_room(places)
    own_a = (answers, links, assembly_room(places), *out_a)
    own_b = (type(answers)(), type(links)(), assembly_room(places), *out_b)
    words = (penalty_word(a), penalty_word(b), *words_of(settings)[1:])
    report = told("editions", *point_rows(points), *words, samples, breaks, *own_a, *own_b)

    def edition(said: Any, out: Any) -> Crunched | Refused:
        return Refused(said.number) if said.number else _crunched(said, out)

    return Editions(edition(report.a, out_a), edition(report.b, out_b))


def chain(points: Iterable[AnyPoint], run: int, settings: Settings = Settings()) -> Chain:
    """The chain that is found for one run of a contour, the only run that is worked.

    Refused by 10 where there is no run of that number, and where it is one copied line.
    """
    starts, ends = (U32 * MOST_PIECES)(), (U32 * MOST_PIECES)()
    xs, ys = (F64 * MOST_PIECES)(), (F64 * MOST_PIECES)()
    spans = (U32 * 2 * MOST_PIECES)()
    asked = (*point_rows(points), counted(run, _MOST_SIZE), *words_of(settings))
    report = call("chain", *asked, starts, ends, xs, ys, spans, *SCRATCH.rows)
    n = report.pieces
    pieces = [Piece(a, b, (x, y)) for a, b, x, y in zip(starts[:n], ends[:n], xs[:n], ys[:n])]
    segments = tuple((first, last) for first, last in spans[:n])
    score = struct.unpack("d", struct.pack("Q", report.score_bits))[0]
    return Chain(pieces, score, report.pairs, segments, report.fallen)


def check(points: Iterable[AnyPoint], run: int, given: Chain, settings: Settings = Settings()) -> bool:
    """Whether a chain, whoever made it, is valid for one run of a contour and has the score that it says, at these settings:
    a chain is checked at those that it was made with.

    Controls and score are compared as values: -0.0 equals 0.0, and a NaN equals a NaN. A chain with no piece is never
    accepted.
    """
    return verdict(points, run, given, settings).accepted


def verdict(points: Iterable[AnyPoint], run: int, given: Chain, settings: Settings = Settings()) -> Verdict:
    """What `check` says, and how many lookups fell past the samples as the chain was measured."""
    starts, ends, xs, ys = _chain_rows(given)
    asked = (*point_rows(points), counted(run, _MOST_SIZE), *words_of(settings))
    report = call("check", *asked, starts, ends, xs, ys, given.score, *SCRATCH.rows)
    return Verdict(bool(report.accepted), report.fallen)


def _chain_rows(given: Chain) -> tuple[Any, Any, Any, Any]:
    """The rows of a chain's pieces: starts, ends, and the controls' x and y."""
    if not isinstance(given, Chain):
        raise TypeError(f"a chain is fontcrunch.Chain(pieces, score, pairs), and not {kind_of(given)}")
    pieces = []
    for place, piece in enumerate(given.pieces):
        try:
            start, end, (x, y) = piece
            pieces.append((whole(start, "a break"), whole(end, "a break"), float(x), float(y)))
        except (TypeError, ValueError):
            raise TypeError(f"piece {place} is {shown(piece)}: a piece is fontcrunch.Piece(start, end, (x, y))") from None
    return tuple(row_of(kind, [piece[k] for piece in pieces]) for k, kind in enumerate((U32, U32, F64, F64)))


def why(points: Iterable[AnyPoint], index: int) -> Reasons:
    """Why the segment of that index, counted from 0, starts at a corner: all reasons that hold. Where there is none, it does
    not. A contour has a segment for each on-curve point.

    Refused by 1 to 5, then by 11 where there is no segment of that index. No other refusal is given, since no run is
    worked.
    """
    report = call("why", *point_rows(points), counted(index, _MOST_SIZE))
    return Reasons(*(report.reasons >> bit & 1 == 1 for bit in range(5)))
