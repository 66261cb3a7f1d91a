"""All that can be told of a contour, as docs/trace.schema.json has it: the library's entries asked in turn, and what none of
them says worked out beside them, under keys of the name `beside`."""

from __future__ import annotations

import itertools
import math
from typing import Any, Iterable

from . import _sampling as sampling
from ._contours import Chain, Settings, chain, crunch, verdict, why
from ._refusal import Refused
from ._rows import BREAK_ROOM, SAMPLE_ROOM, AnyPoint, Point
from ._sampling import Place, Quad

BEND_LIMIT = 0.02
"""A corner by angle bends so that the sine of the angle is above this."""


def trace(points: Iterable[AnyPoint], settings: Settings = Settings.of_crate()) -> dict[str, Any]:
    """All that can be told of a contour: its segments and corners with their reasons, what came of each run, its pieces and
    what each replaced; or what refused it and where. It is the object that `fontcrunch trace` writes as a line of JSON.

    What no entry of the library says stands under the key `beside`. It is held to the entries: a piece has no such key where
    the breaks of its run are not as many as the chain says, or the shares of its pieces do not make its score.

    A contour that is refused raises nothing: the trace tells it. Without settings the penalty is that of
    Settings.of_crate(), 16; an order's default is another, 32.
    """
    given = [Point(x, y, int(flag) & 1 == 1) for x, y, flag in points]
    told: dict[str, Any] = {
        "settings": {"penalty": settings.penalty, "whole_units": settings.whole_units, "closed": settings.closed},
        "points": [_flagged(point) for point in given],
    }
    number = 0
    try:
        crunched = crunch(given, settings)
        told["crunch"] = {
            "points": [_flagged(point) for point in crunched.points],
            "pairs": crunched.pairs,
            "fallen": crunched.fallen,
        }
    except Refused as refused:
        number = refused.number
        told["refused"] = _refused(refused)
    told["segments"] = _segments(given)
    told["runs"] = [] if number == 16 else _runs(given, told["segments"], settings)
    told["beside"] = _beside(told, number)
    _write(told)
    return told


def _flagged(point: Point) -> list[int]:
    return [point.x, point.y, int(point.on_curve)]


def _refused(refused: Refused) -> dict[str, Any]:
    return {"number": refused.number, "reason": str(refused).partition(": ")[2]}


def _number(value: float) -> Any:
    """What JSON has no number for is a string."""
    if math.isnan(value):
        return "NaN"
    if math.isinf(value):
        return "Infinity" if value > 0 else "-Infinity"
    return value


def _place(place: Place) -> list[Any]:
    return [_number(place[0]), _number(place[1])]


# ---- segments


def _segments(given: list[Point]) -> list[dict[str, Any]]:
    """Each with its reasons; none where the contour is refused by 1 to 5."""
    starts = [i for i, point in enumerate(given) if point.on_curve]
    segments: list[dict[str, Any]] = []
    for k in itertools.count():
        try:
            reasons = why(given, k)
        except Refused:
            break
        at = starts[k]
        follows = given[(at + 1) % len(given)]
        end = follows if follows.on_curve else given[(at + 2) % len(given)]
        segment = {"start": [given[at].x, given[at].y], "end": [end.x, end.y], "why": str(reasons).split(",") if any(reasons) else []}
        if not follows.on_curve:
            segment["control"] = [follows.x, follows.y]
        segments.append(segment)
    for k, segment in enumerate(segments):
        bend = _bend(segments[k - 1], segment)
        if bend:
            segment["beside"] = bend
    return segments


def _bend(before: dict[str, Any], after: dict[str, Any]) -> dict[str, float] | None:
    """How the outline bends between two segments, as the test of corners compares tangents."""
    start, end = before.get("control", before["start"]), after.get("control", after["end"])
    dx0, dy0 = before["end"][0] - start[0], before["end"][1] - start[1]
    dx1, dy1 = end[0] - after["start"][0], end[1] - after["start"][1]
    if (dx0, dy0) == (0, 0) or (dx1, dy1) == (0, 0):
        return None
    cross = float(dx1 * dy0 - dx0 * dy1)
    sizes = math.sqrt(dx0 * dx0 + dy0 * dy0) * math.sqrt(dx1 * dx1 + dy1 * dy1)
    # as Rust's to_degrees multiplies
    degrees = math.atan2(abs(cross), float(dx0 * dx1 + dy0 * dy1)) * (180.0 / math.pi)
    return {"sine": abs(cross / sizes), "degrees": degrees}


def _quad(segment: dict[str, Any]) -> Quad:
    start, end = _float(segment["start"]), _float(segment["end"])
    control = _float(segment["control"]) if "control" in segment else sampling.lerp(start, end, 0.5)
    return Quad(start, control, end)


def _float(place: list[Any]) -> Place:
    return float(place[0]), float(place[1])


# ---- runs


def _spans(corners: list[int], segments: int, closed: bool) -> list[tuple[int, int]]:
    """The first segment of each run and how many it has: from corner to corner, and in closed mode a last one that goes round."""
    spans = [(a, b - a) for a, b in zip(corners, corners[1:])]
    if closed and corners:
        spans.append((corners[-1], segments + corners[0] - corners[-1]))
    return spans


def _runs(given: list[Point], segments: list[dict[str, Any]], settings: Settings) -> list[dict[str, Any]]:
    corners = [k for k, segment in enumerate(segments) if segment["why"]]
    runs, reached = [], True
    for k, (first, count) in enumerate(_spans(corners, len(segments), settings.closed)):
        run = _run(given, segments, settings, k, first, count)
        run["reached"] = reached
        reached = reached and run["came"] in ("copied", "found")
        runs.append(run)
    return runs


def _run(given: list[Point], segments: list[dict[str, Any]], settings: Settings, k: int, first: int, count: int) -> dict[str, Any]:
    own = [segments[i % len(segments)] for i in range(first, first + count)]
    run: dict[str, Any] = {"first": first, "count": count}
    if count == 1 and "control" not in own[0]:
        return {**run, **_copied(own[0], first)}
    sampled = _Sampled([_quad(segment) for segment in own], settings)
    run["beside"] = sampled.extent
    try:
        found = chain(given, k, settings)
    except Refused as refused:
        return {**run, "came": "refused", "refused": _refused(refused), "pieces": []}
    judged = found.fallen > 0 and found.pieces
    worked = {
        "score": _number(found.score),
        "pairs": found.pairs,
        "fallen": found.fallen,
        "found_fallen": verdict(given, k, found, settings).fallen if judged else 0,
    }
    came = "found" if found.pieces else "unchanged"
    return {**run, "came": came, "chain": worked, "pieces": _pieces(found, sampled, segments, settings)}


def _copied(line: dict[str, Any], at: int) -> dict[str, Any]:
    """A run of one line."""
    (x0, y0), (x1, y1) = line["start"], line["end"]
    share = {"start": line["start"], "end": line["end"], "straight": True, "penalties": 0, "measure": 0, "share": 0,
             "distance": 0, "at": line["start"]}
    piece = {"segments": [at, at], "beside": share}
    length = math.sqrt((x1 - x0) * (x1 - x0) + (y1 - y0) * (y1 - y0))
    return {"came": "copied", "pieces": [piece], "beside": {"length": length, "samples": 0}}


class _Sampled:
    """A run's samples and breaks, where it has room for the samples."""

    def __init__(self, quads: list[Quad], settings: Settings) -> None:
        length = sampling.lengths(quads)[-1]
        needed = int(length + 2.0) + 1
        self.extent: dict[str, Any] = {"length": length, "samples": needed}
        self.samples: sampling.Samples | None = None
        self.breaks: list[sampling.Break] = []
        if needed > SAMPLE_ROOM:
            return
        self.samples = sampling.Samples(quads)
        self.breaks = self.samples.breaks(settings.whole_units)
        self.extent["samples"] = len(self.samples.places)
        self.extent["breaks"] = len(self.breaks)
        if len(self.breaks) > BREAK_ROOM and not settings.whole_units:
            self.extent["on_whole_units"] = len(self.samples.breaks(True))


# ---- pieces


def _pieces(found: Chain, sampled: _Sampled, segments: list[dict[str, Any]], settings: Settings) -> list[dict[str, Any]]:
    shares = _shares(found, sampled, segments, settings)
    pieces = []
    for i, (piece, span) in enumerate(zip(found.pieces, found.segments)):
        told = {"segments": list(span), "breaks": [piece.start, piece.end], "control": _place(piece.control)}
        if shares:
            told["beside"] = shares[i]
        pieces.append(told)
    return pieces


def _shares(found: Chain, sampled: _Sampled, segments: list[dict[str, Any]], settings: Settings) -> list[dict[str, Any]]:
    """Empty unless the breaks are as many as the chain says, and the shares make its score to the bit."""
    if sampled.samples is None or not found.pieces or found.pieces[-1].end + 1 != len(sampled.breaks):
        return []
    penalty, score, shares = settings.penalty / 16.0, 0.0, []
    before: Quad | None = None
    for piece, (first, last) in zip(found.pieces, found.segments):
        start, end = sampled.breaks[piece.start], sampled.breaks[piece.end]
        quad = Quad(start.place, piece.control, end.place)
        smooth = quad.is_line() or (before is not None and before.joins(quad))
        penalties = 1 if smooth else 2
        measure = sampled.samples.measure(start.along, end.along, quad)
        if measure is None:
            return []
        paid = penalty * penalties
        score = (score + paid) + measure
        share = {"start": _place(quad.start), "end": _place(quad.end), "straight": quad.is_line(), "penalties": penalties,
                 "measure": _number(measure), "share": _number(paid + measure)}
        far = sampling.farthest(quad, _replaced(segments, first, last))
        if far is not None:
            share.update(distance=_number(far[0]), at=_place(far[1]))
        shares.append(share)
        before = quad
    same = score == found.score or (math.isnan(score) and math.isnan(found.score))
    return shares if same else []


def _replaced(segments: list[dict[str, Any]], first: int, last: int) -> list[Quad]:
    count = len(segments)
    return [_quad(segments[i % count]) for i in range(first, (last if last >= first else last + count) + 1)]


# ---- the contour


def _beside(told: dict[str, Any], number: int) -> dict[str, Any]:
    beside: dict[str, Any] = {
        "lost": [],
        "limit": {"sine": BEND_LIMIT, "degrees": math.asin(BEND_LIMIT) * (180.0 / math.pi)},
    }
    if number:
        hint = _hint(told, number)
        return {**beside, "hint": hint} if hint else beside
    corners = [k for k, segment in enumerate(told["segments"]) if segment["why"]]
    closed = told["settings"]["closed"]
    if any(run["came"] == "unchanged" for run in told["runs"]):
        beside["unchanged"] = "no chain was found for a run"
    elif closed and not corners:
        beside["unchanged"] = "there is no corner"
    elif not closed:
        beside["lost"] = _lost(told["segments"], corners)
    return beside


def _lost(segments: list[dict[str, Any]], corners: list[int]) -> list[int]:
    """What lies outside the first and the last corner; one line between them is no loss, since the contour closes by it."""
    count = len(segments)
    if not corners:
        return list(range(count))
    first, last = corners[0], corners[-1]
    if first == 0 and last + 1 == count and "control" not in segments[last]:
        return []
    return [*range(first), *range(last, count)]


_HINTS = {
    2: "leave the contour out",
    3: "`fontcrunch clean` drops repeated points; else cut the outline into several contours",
    4: "`fontcrunch explicit` turns the contour to an on-curve point and writes out implied points",
    5: "`fontcrunch explicit` turns the contour to an on-curve point and writes out implied points",
    9: "give the cruncher more room for points",
    16: "give a penalty from 1 to 256",
    21: "put an on-curve point into the contour",
}


def _hint(told: dict[str, Any], number: int) -> str | None:
    """What may help where the contour is refused."""
    for k, run in enumerate(told["runs"]):
        if run["reached"] and run["came"] == "refused":
            return f"run {k} {_run_hint(run)}"
    return _HINTS.get(number)


def _run_hint(run: dict[str, Any]) -> str:
    extent = run["beside"]
    length = f"{extent['length']:.1f}"
    long = f"is {length[:-2] if length.endswith('.0') else length} units long"
    cut = "a corner within it makes two runs of it"
    number = run["refused"]["number"]
    if number == 6:
        return f"{long} and needs {extent['samples']} samples, room {SAMPLE_ROOM}; {cut}"
    if number == 7:
        fewer = extent.get("on_whole_units")
        grid = ""
        if fewer is not None:
            room = f"on whole units it has {fewer}, for which there is room; "
            grid = room if fewer <= BREAK_ROOM else f"on whole units it still has {fewer}; "
        return f"{long} and has {extent['breaks']} breaks, room {BREAK_ROOM}; {grid}{cut}"
    return f"{long}; another penalty or whole units may be worked, and {cut}"


def _write(told: dict[str, Any]) -> None:
    """Gives each piece the curve of the result that it is written as."""
    if "crunch" not in told or "unchanged" in told["beside"]:
        return
    curves = _curves(told["crunch"]["points"])
    closed = told["settings"]["closed"]
    pieces = [piece for run in told["runs"] for piece in run["pieces"]]
    if len(curves) != len(pieces) + (0 if closed else 1):
        return
    for i, piece in enumerate(pieces):
        # in the crate's mode the curves lead the other way
        start, control, end = curves[i if closed else len(pieces) - 1 - i]
        written = {"start": start, "end": end} if closed else {"start": end, "end": start}
        piece["written"] = {**written, "control": control} if control else written


def _curves(points: list[list[int]]) -> list[tuple[list[float], list[float] | None, list[float]]]:
    """The curves of a result, which starts on-curve, with implied points put in."""
    start = points[0][:2]
    curves, here, control = [], start, None
    for x, y, on_curve in points[1:]:
        if on_curve:
            curves.append((here, control, [x, y]))
            here, control = [x, y], None
        else:
            if control:
                middle = [(control[0] + x) / 2, (control[1] + y) / 2]
                curves.append((here, control, middle))
                here = middle
            control = [x, y]
    curves.append((here, control, start))
    return curves
