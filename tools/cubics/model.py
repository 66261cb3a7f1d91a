"""Cubic outlines made quads, from document 02 alone, in exact fractions.

A contour is a list of (x, y, flag); flags go out as 1 or 0. `from_cubics` gives ('refused', k) or ('ok', points).
The rows it is lent can be short: `room` is the shortest output row.
"""
from fractions import Fraction

LIMIT = 1024
LEAST, MOST = -32768, 32767


def nearest(value):
    """Rounded, halves away from zero."""
    size = abs(value)
    whole = size.numerator // size.denominator
    if size - whole >= Fraction(1, 2):
        whole += 1
    return -whole if value < 0 else whole


def midpoint(p, q):
    return tuple((a + b) / 2 for a, b in zip(p, q))


def halves(cubic):
    """De Casteljau at 1/2."""
    p0, p1, p2, p3 = cubic
    p01, p12, p23 = midpoint(p0, p1), midpoint(p1, p2), midpoint(p2, p3)
    p012, p123 = midpoint(p01, p12), midpoint(p12, p23)
    middle = midpoint(p012, p123)
    return (p0, p01, p012, middle), (middle, p123, p23, p3)


def third_difference(cubic):
    return [d - 3 * c + 3 * b - a for a, b, c, d in zip(*cubic)]


def parts(cubic, depth=0):
    """The parts, each with how often it was halved."""
    if all(abs(d) <= 8 for d in third_difference(cubic)):
        return [(cubic, depth)]
    first, second = halves(cubic)
    return parts(first, depth + 1) + parts(second, depth + 1)


def control(cubic):
    return tuple((3 * b + 3 * c - a - d) / 4 for a, b, c, d in zip(*cubic))


def stretches(on):
    """Lengths of the stretches of off-curve points, in the row."""
    found, length = [], 0
    for flag in on + [1]:
        if flag:
            if length:
                found.append(length)
            length = 0
        else:
            length += 1
    return found


def segments(points):
    """(start, end) of a line or (start, control, control, end) of a cubic, and whether it leads back to the start."""
    at, n = 0, len(points)
    while at < n:
        if at + 1 < n and not points[at + 1][2] & 1:
            end = at + 3
            places = [at, at + 1, at + 2, end % n]
        else:
            end = at + 1
            places = [at, end % n]
        yield [tuple(Fraction(v) for v in points[k][:2]) for k in places], end >= n
        at = end


def replaced(points):
    """Every point that is written, rounded; and the depths met."""
    out, depths = [(points[0][0], points[0][1], 1)], []
    for places, back in segments(points):
        if len(places) == 2:
            if not back:
                out.append((nearest(places[1][0]), nearest(places[1][1]), 1))
            continue
        found = parts(tuple(places))
        depths.append({depth for _, depth in found})
        for number, (part, _) in enumerate(found):
            x, y = control(part)
            out.append((nearest(x), nearest(y), 0))
            if not (back and number + 1 == len(found)):
                out.append((nearest(part[3][0]), nearest(part[3][1]), 1))
    return out, depths


def from_cubics(points, room=None, lengths=None, seen=None):
    """`seen`, a list, is given the depth of each cubic."""
    if lengths and len(set(lengths)) != 1:
        return 'refused', 1
    on = [flag & 1 for _, _, flag in points]
    if not points:
        return 'refused', 2
    if not on[0]:
        return 'refused', 4
    if any(length != 2 for length in stretches(on)):
        return 'refused', 5
    out, depths = replaced(points)
    assert all(len(found) == 1 and max(found) <= 5 for found in depths)
    if seen is not None:
        seen.extend(max(found) for found in depths)
    if len(out) > LIMIT:
        return 'refused', 3
    if any(not LEAST <= v <= MOST for x, y, _ in out for v in (x, y)):
        return 'refused', 17
    if room is not None and len(out) > room:
        return 'refused', 9
    return 'ok', out
