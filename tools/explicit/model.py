"""Implied points written out, from document 02's words for W13 alone, in exact fractions.

A contour is three rows, which may differ in length. `explicit` gives ('refused', k) or ('ok', points) with points of (x, y, flag), flags 1 or 0.
`rooms` are the lengths of the three output rows.
"""
from fractions import Fraction

LIMIT = 1024


def rounded(value):
    """To a whole number, halves away from zero."""
    size = abs(value)
    whole = size.numerator // size.denominator
    if size - whole >= Fraction(1, 2):
        whole += 1
    return -whole if value < 0 else whole


def between(p, q):
    """What is implied between two off-curve points."""
    return (*(rounded(Fraction(p[k] + q[k], 2)) for k in (0, 1)), 1)


def turned(points):
    """From the first on-curve point round to it; None where there is none."""
    for first, point in enumerate(points):
        if point[2]:
            return points[first:] + points[:first]
    return None


def written_out(points):
    row = []
    for point in points:
        if row and not row[-1][2] and not point[2]:
            row.append(between(row[-1], point))
        row.append(point)
    return row


def explicit(xs, ys, flags, rooms):
    if not len(xs) == len(ys) == len(flags):
        return 'refused', 1
    if not flags:
        return 'refused', 2
    points = turned([(x, y, f & 1) for x, y, f in zip(xs, ys, flags)])
    if points is None:
        return 'refused', 21
    row = written_out(points)
    if len(row) > LIMIT:
        return 'refused', 3
    if min(rooms) < len(row):
        return 'refused', 9
    return 'ok', row


def outline(points):
    """The closed outline as a list of on-curve points and controls, exact, from its first on-curve point: for points that have one."""
    row = []
    for point in turned(points):
        if row and not row[-1][2] and not point[2]:
            row.append((*(Fraction(row[-1][k] + point[k], 2) for k in (0, 1)), 1))
        row.append(point)
    return row
