"""Pens that crunch what is drawn with them, for users of fontTools and ufoLib.

CrunchPen is a pen of segments and CrunchPointPen a pen of points; each hands on to another pen of its kind. They follow
fontTools' protocols and need nothing of it.

    from fontTools.pens.ttGlyphPen import TTGlyphPen
    from fontcrunch.pens import CrunchPen

    out = TTGlyphPen(glyph_set)
    pen = CrunchPen(out)                  # closed mode, a penalty of 2.0
    glyph_set["a"].draw(pen)
    crunched = out.glyph()
    for number, why in pen.left:          # contours that were handed on as they came
        print(number, why)

A contour is closed, of lines and quadratic curves, with whole coordinates of 16 bits. It may start off-curve and leave out implied
points. Any other is handed on as it came, point for point, and so is one that is refused, or that would come out with no fewer
points; `left` lists these with their numbers, counted from 0, and why. With cubics=True contours of cubic curves are made quads
(`fontcrunch.from_cubics`) and then crunched. Components are handed on.

What is crunched in closed mode keeps its direction and starts at its first corner. Names, smoothness and identifiers of its points are
lost, since they are other points now.
"""

from __future__ import annotations

from typing import Any, Iterable, NamedTuple

from ._contours import Settings, crunch, words_of
from ._refusal import Refused
from ._rows import AnyPoint, Point
from ._uploads import drop_idle, explicit, from_cubics

__all__ = ["CrunchPen", "CrunchPointPen", "Left"]

_CLOSED = Settings(closed=True)


class Left(NamedTuple):
    """A contour that was handed on as it came."""

    number: int
    """Its number, counted from 0."""
    why: str
    """Why, in words."""


class _Kept(Exception):
    """A contour stays as it came, for this reason."""


class _Drawn(NamedTuple):
    """A point as it was drawn: its place, and the type of the segment that ends at it, None off the curve."""

    place: tuple[float, float]
    kind: str | None


def _whole(place: tuple[float, float]) -> tuple[int, int]:
    x, y = place
    # also of what is no number at all
    if x % 1 or y % 1:
        raise _Kept(f"a coordinate is not whole: {x}, {y}")
    if not (-32768 <= x <= 32767 and -32768 <= y <= 32767):
        raise _Kept(f"a coordinate does not fit 16 bits: {x}, {y}")
    return int(x), int(y)


def _rows_of(drawn: list[_Drawn]) -> list[AnyPoint]:
    return [(*_whole(point.place), int(point.kind is not None)) for point in drawn]


def _from_cubics(drawn: list[_Drawn]) -> list[Point]:
    """The quads of a contour of cubics and lines, which is turned to an on-curve point."""
    first = next((k for k, point in enumerate(drawn) if point.kind is not None), 0)
    return from_cubics(_rows_of(drawn[first:] + drawn[:first]))


def _crunched(drawn: list[_Drawn], settings: Settings, cubics: bool) -> list[Point]:
    """The points that a contour becomes."""
    kinds = {point.kind for point in drawn}
    if not drawn or "move" in kinds:
        raise _Kept("the contour is open" if drawn else "the contour has no point")
    try:
        if "curve" in kinds:
            if not cubics or "qcurve" in kinds:
                raise _Kept("the contour has cubic curves")
            return crunch(drop_idle(_from_cubics(drawn)).points, settings).points
        points = crunch(drop_idle(explicit(_rows_of(drawn))).points, settings).points
    except Refused as refused:
        raise _Kept(str(refused)) from None
    if len(points) >= len(drawn):
        raise _Kept("it would come out with no fewer points")
    return points


class _Pen:
    """What both pens have: where to hand on to, and how."""

    def __init__(self, out: Any, settings: Settings = _CLOSED, *, cubics: bool = False) -> None:
        # settings that are none are told here, and not at the first contour
        words_of(settings)
        self.out = out
        self.settings = settings
        self.cubics = cubics
        self.left: list[Left] = []
        self._count = 0

    def _become(self, drawn: list[_Drawn]) -> list[Point] | None:
        """The points that a contour becomes; None where it is handed on as it came."""
        number = self._count
        self._count += 1
        try:
            return _crunched(drawn, self.settings, self.cubics)
        except _Kept as kept:
            self.left.append(Left(number, str(kept)))
            return None

    def addComponent(self, *given: Any, **named: Any) -> None:
        """A component is handed on."""
        self.out.addComponent(*given, **named)

    def addVarComponent(self, *given: Any, **named: Any) -> None:
        """A component is handed on."""
        self.out.addVarComponent(*given, **named)


class CrunchPointPen(_Pen):
    """A pen of points that crunches each contour and hands on to another pen of points."""

    _path: dict[str, Any] | None = None

    def beginPath(self, identifier: str | None = None, **named: Any) -> None:
        """A contour begins."""
        self._path = {"identifier": identifier, **named} if identifier is not None else named
        self._drawn: list[tuple[_Drawn, tuple[Any, ...], dict[str, Any]]] = []

    def addPoint(self, pt: tuple[float, float], segmentType: str | None = None, *given: Any, **named: Any) -> None:
        """A point of the contour."""
        kind = None if segmentType == "offcurve" else segmentType
        self._drawn.append((_Drawn(pt, kind), (pt, segmentType, *given), named))

    def endPath(self) -> None:
        """The contour ends: it is handed on, crunched or as it came."""
        self.out.beginPath(**(self._path or {}))
        points = self._become([point for point, _, _ in self._drawn])
        if points is None:
            for _, given, named in self._drawn:
                self.out.addPoint(*given, **named)
        else:
            for before, (x, y, on_curve) in zip([points[-1], *points], points):
                self.out.addPoint((x, y), ("line" if before[2] else "qcurve") if on_curve else None)
        self.out.endPath()


class CrunchPen(_Pen):
    """A pen of segments that crunches each contour and hands on to another pen of segments."""

    def __init__(self, out: Any, settings: Settings = _CLOSED, *, cubics: bool = False) -> None:
        super().__init__(out, settings, cubics=cubics)
        self._calls: list[tuple[str, tuple[Any, ...]]] = []
        self._drawn: list[_Drawn] = []

    def _take(self, name: str, kind: str, places: tuple[Any, ...]) -> None:
        self._calls.append((name, places))
        *controls, end = places
        self._drawn += [_Drawn(place, None) for place in controls]
        # a curve of off-curve points alone ends nowhere
        if end is not None:
            self._drawn.append(_Drawn(end, kind))

    def moveTo(self, pt: tuple[float, float]) -> None:
        """A contour begins."""
        self._take("moveTo", "move", (pt,))

    def lineTo(self, pt: tuple[float, float]) -> None:
        """A line."""
        self._take("lineTo", "line", (pt,))

    def qCurveTo(self, *points: Any) -> None:
        """Quadratic curves; the last point is None where all are off-curve."""
        self._take("qCurveTo", "qcurve", points)

    def curveTo(self, *points: Any) -> None:
        """A cubic curve."""
        self._take("curveTo", "curve", points)

    def closePath(self) -> None:
        """The contour is closed: it is handed on, crunched or as it came."""
        self._hand_on("closePath", _closed_up(self._drawn))

    def endPath(self) -> None:
        """The contour is left open: it is handed on as it came."""
        self._hand_on("endPath", self._drawn)

    def _hand_on(self, last: str, drawn: list[_Drawn]) -> None:
        points = self._become(drawn)
        calls = [*self._calls, (last, ())] if points is None else _segments(points)
        self._calls, self._drawn = [], []
        for name, places in calls:
            getattr(self.out, name)(*places)


def _closed_up(drawn: list[_Drawn]) -> list[_Drawn]:
    """The points of a closed contour: its start is the end of its last segment, and is not there twice."""
    if not drawn or drawn[0].kind != "move":
        return drawn
    first, *rest = drawn
    if rest and rest[-1].kind is not None and rest[-1].place == first.place:
        return [_Drawn(first.place, rest[-1].kind), *rest[:-1]]
    return [_Drawn(first.place, "line"), *rest]


def _segments(points: list[Point]) -> Iterable[tuple[str, tuple[Any, ...]]]:
    """The calls that draw a closed contour, which starts on the curve."""
    start = (points[0].x, points[0].y)
    yield "moveTo", (start,)
    controls: list[tuple[int, int]] = []
    for x, y, on_curve in points[1:]:
        if not on_curve:
            controls.append((x, y))
        elif controls:
            yield "qCurveTo", (*controls, (x, y))
            controls = []
        else:
            yield "lineTo", ((x, y),)
    if controls:
        yield "qCurveTo", (*controls, start)
    yield "closePath", ()
