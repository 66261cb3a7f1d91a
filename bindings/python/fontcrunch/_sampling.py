"""A run sampled, its breaks, the measure of a piece and its distance: beside the library's entries, which tell none of them.
The operations are those of document 01, modules 4 to 7, in their order, so that the doubles are the library's own."""

from __future__ import annotations

import math
from typing import NamedTuple, Optional, Tuple

Place = Tuple[float, float]


def lerp(a: Place, b: Place, t: float) -> Place:
    return a[0] + t * (b[0] - a[0]), a[1] + t * (b[1] - a[1])


def _is_close(a: float, b: float) -> bool:
    return abs(a - b) < 1e-8


def _are_close(a: Place, b: Place) -> bool:
    return _is_close(a[0], b[0]) and _is_close(a[1], b[1])


def _size(p: Place) -> float:
    return math.sqrt(p[0] * p[0] + p[1] * p[1])


def _unit(p: Place) -> Place:
    size = _size(p)
    scale = 1.0 / size if size else math.inf
    return p[0] * scale, p[1] * scale


def _round(value: float) -> float:
    """Halves away from zero."""
    if math.isnan(value):
        return value
    whole = math.trunc(value)
    return float(whole + (int(math.copysign(1, value)) if abs(value - whole) >= 0.5 else 0))


def _quotient(a: float, b: float) -> float:
    """As IEEE 754 divides."""
    if b:
        return a / b
    return math.nan if a == 0 or math.isnan(a) else math.copysign(math.inf, a)


class Quad(NamedTuple):
    """What a piece or a segment is measured as: a line has its control midway."""

    start: Place
    control: Place
    end: Place

    def at(self, t: float) -> Place:
        return lerp(lerp(self.start, self.control, t), lerp(self.control, self.end, t), t)

    def is_line(self) -> bool:
        return _are_close(self.control, lerp(self.start, self.end, 0.5))

    def joins(self, following: Quad) -> bool:
        """Whether the outline goes on smoothly: both are bent, and the joint is midway between their controls."""
        return not self.is_line() and _are_close(lerp(self.control, following.control, 0.5), following.start)

    def moves(self) -> tuple[Place, Place]:
        """How it moves at its start and at its end; linear between them."""
        (ax, ay), (bx, by), (cx, cy) = self
        return (2.0 * (bx - ax), 2.0 * (by - ay)), (2.0 * (cx - bx), 2.0 * (cy - by))

    def length(self) -> float:
        """In ten steps."""
        (first, last), length, t = self.moves(), 0.0, 0.0
        for _ in range(10):
            length = _stepped(first, last, length, t, 0.1)
            t += 0.1
        return length


def _stepped(first: Place, last: Place, length: float, t: float, step: float) -> float:
    """A length after one step of Runge and Kutta. The pace does not depend on the length, so that both middle stages are one."""
    middle = _size(lerp(first, last, t + step * 0.5))
    before, after = _size(lerp(first, last, t)), _size(lerp(first, last, t + step))
    return length + step / 6.0 * (before + after + 2.0 * (middle + middle))


def lengths(quads: list[Quad]) -> list[float]:
    """Where each quad of a run ends, as lengths along it: 100 steps a quad."""
    ends, along = [], 0.0
    for quad in quads:
        (first, last), t = quad.moves(), 0.0
        for _ in range(100):
            along = _stepped(first, last, along, t, 0.01)
            t += 0.01
        ends.append(along)
    return ends


class Break(NamedTuple):
    """A place along a run that pieces may join at."""

    along: float
    place: Place


class Samples:
    """A place and a direction at each whole length of a run."""

    def __init__(self, quads: list[Quad]) -> None:
        self.places: list[Place] = []
        self.directions: list[Place] = []
        self.length = 0.0
        place, moves, along = (0.0, 0.0), (0.0, 0.0), -1.0
        for quad in quads:
            (first, last), t = quad.moves(), 0.0
            for _ in range(100):
                here, now = quad.at(t), lerp(first, last, t)
                self._fill(place, moves, along, here, now, self.length, self.length)
                place, moves, along = here, now, self.length
                self.length = _stepped(first, last, self.length, t, 0.01)
                t += 0.01
        first, last = quads[-1].moves()
        self._fill(place, moves, along, quads[-1].end, lerp(first, last, 1.0), self.length, self.length + 2.0)

    def _fill(self, place: Place, moves: Place, along: float, to: Place, then: Place, reached: float, until: float) -> None:
        """The samples at whole lengths up to that one, on the line from one place passed to the next."""
        while len(self.places) <= until:
            u = _quotient(len(self.places) - along, reached - along)
            self.places.append(lerp(place, to, u))
            self.directions.append(_unit(lerp(moves, then, u)))

    def at(self, along: float) -> Optional[Tuple[Place, Place]]:
        """The place and the direction at a length: past the end (0, 0), and none at the last sample, which has no next one."""
        bucket, part = (0, along) if math.isnan(along) else (max(int(along), 0), along - math.trunc(along))
        if bucket >= len(self.places):
            return (0.0, 0.0), (0.0, 0.0)
        if bucket + 1 >= len(self.places):
            return None
        row, ways = self.places, self.directions
        return lerp(row[bucket], row[bucket + 1], part), lerp(ways[bucket], ways[bucket + 1], part)

    def breaks(self, whole_units: bool) -> list[Break]:
        """Places along the run on half units, or on whole ones."""
        per, step = (1.0, 1.0) if whole_units else (2.0, 0.5)
        count = int(_round(10.0 * self.length))
        breaks: list[Break] = []
        opened = 0.0
        for i in range(count + 1):
            along = _quotient(self.length * i, float(count))
            looked = self.at(along)
            if looked is None:
                return []
            exact = looked[0]
            place = step * _round(per * exact[0]), step * _round(per * exact[1])
            off = _size((place[0] - exact[0], place[1] - exact[1]))
            if not breaks or not _are_close(place, breaks[-1].place):
                breaks.append(Break(along, place))
                opened = off
            elif off < opened:
                breaks[-1] = Break(along, place)
        return breaks

    def measure(self, start: float, end: float, quad: Quad) -> Optional[float]:
        """How far a piece between two lengths is from the run."""
        length = quad.length()
        stretch = 0.0 if _is_close(length, 0.0) else (end - start) / length
        gauge = _Gauge(self, start, stretch, quad)
        reached, error, t = 0.0, 0.0, 0.0
        for _ in range(10):
            after = gauge.stepped(reached, error, t, 0.1)
            if after is None:
                return None
            (reached, error), t = after, t + 0.1
        return error


class _Gauge:
    """What a piece is measured by, as it is gone along."""

    def __init__(self, samples: Samples, start: float, stretch: float, quad: Quad) -> None:
        self.samples, self.start, self.stretch, self.quad = samples, start, stretch, quad
        self.first, self.last = quad.moves()

    def pace(self, t: float, length: float) -> Optional[Tuple[float, float]]:
        """How fast the length and the error grow."""
        moves = lerp(self.first, self.last, t)
        speed = _size(moves)
        looked = self.samples.at(self.start + length * self.stretch)
        if looked is None:
            return None
        place, direction = looked
        here = self.quad.at(t)
        dx, dy = here[0] - place[0], here[1] - place[1]
        far = (dx * dx + dy * dy) * speed
        turned = direction[0] * moves[1] - direction[1] * moves[0]
        return speed, 0.005 * far + 5.0 * _quotient(turned * turned, speed)

    def stepped(self, length: float, error: float, t: float, step: float) -> Optional[Tuple[float, float]]:
        """One step of Runge and Kutta, of both."""
        half = step * 0.5
        a = self.pace(t, length)
        b = a and self.pace(t + half, length + half * a[0])
        c = b and self.pace(t + half, length + half * b[0])
        d = c and self.pace(t + step, length + step * c[0])
        if not (a and b and c and d):
            return None
        after = [y + step / 6.0 * (a[i] + d[i] + 2.0 * (c[i] + b[i])) for i, y in enumerate((length, error))]
        return after[0], after[1]


# ---- distance

_STEPS = 32
_HALVINGS = 36


def farthest(piece: Quad, segments: list[Quad]) -> Optional[Tuple[float, Place]]:
    """The place of a piece that is farthest from the segments, of 33 looked at, and how far it is."""
    most: Optional[Tuple[float, Place]] = None
    for i in range(_STEPS + 1):
        place = piece.at(i / _STEPS)
        square = math.inf
        for segment in segments:
            near = _nearest(segment, place)
            # a NaN is never less
            square = near if near < square else square
        if square < math.inf and (most is None or square > most[0]):
            most = square, place
    return most and (math.sqrt(most[0]), most[1])


def _square_to(quad: Quad, t: float, place: Place) -> float:
    here = quad.at(t)
    x, y = here[0] - place[0], here[1] - place[1]
    return x * x + y * y


def _nearest(quad: Quad, place: Place) -> float:
    """The square of the distance to the nearest place of a quad: one of its ends, or where the distance stops falling."""
    (sx, sy), (mx, my), (ex, ey) = quad
    bx, by = sx - 2.0 * mx + ex, sy - 2.0 * my + ey
    vx, vy = mx - sx, my - sy
    fx, fy = sx - place[0], sy - place[1]
    # how the square falls or grows, but for a factor: a cubic in t
    a, b = bx * bx + by * by, 3.0 * (bx * vx + by * vy)
    c, d = 2.0 * (vx * vx + vy * vy) + (bx * fx + by * fy), vx * fx + vy * fy
    best = min(_square_to(quad, 0.0, place), _square_to(quad, 1.0, place))
    root = b * b - 3.0 * a * c
    turns = (0.0, 0.0)
    if a > 0.0 and root > 0.0:
        turns = tuple(min(max((sign * math.sqrt(root) - b) / (3.0 * a), 0.0), 1.0) for sign in (-1.0, 1.0))
    for low, high in ((0.0, turns[0]), (turns[0], turns[1]), (turns[1], 1.0)):
        if not (((a * low + b) * low + c) * low + d < 0.0 < ((a * high + b) * high + c) * high + d):
            continue
        for _ in range(_HALVINGS):
            middle = 0.5 * (low + high)
            if ((a * middle + b) * middle + c) * middle + d < 0.0:
                low = middle
            else:
                high = middle
        best = min(best, _square_to(quad, low, place))
    return best
