"""Closed mode (document 02, W3 and W5) from the documents alone: the runs of a contour, and its points as they are written.

A contour is a list of (x, y, flag) that refusals 2 to 5 let through; of a flag only bit 0 counts. Its corners are given, as
segment numbers that rise, since closed mode does not change them. A run is (first segment, how many), going round. A piece is
(start, control, end), each two floats.
"""

LOW, HIGH = -32768, 32767


def segments(points):
    """(start, control, end) of each segment, control None for a line; the last one leads back to the start."""
    found, control = [], None
    start = first = points[0][:2]
    for x, y, flag in points[1:] + points[:1]:
        if flag & 1:
            found.append((start, control, (x, y)))
            start, control = (x, y), None
        else:
            control = (x, y)
    assert start == first and control is None
    return found


def runs(corners, count):
    """Run k lies between corners k and k + 1 of a contour of `count` segments; the last one goes round to the first corner."""
    following = corners[1:] + corners[:1]
    # one corner makes one run all round
    return [(a, (b - a) % count or count) for a, b in zip(corners, following)]


def is_copied(segments, run):
    """Whether a run is one segment that is a line."""
    first, count = run
    return count == 1 and segments[first][1] is None


def close(a, b):
    return abs(a - b) < 1e-8


def is_line(piece):
    """Whether the control is close to the middle of the ends."""
    return all(close(c, a + 0.5 * (b - a)) for a, c, b in zip(*piece))


def to_16_bits(value):
    """Truncated and saturated; NaN gives 0."""
    if value != value:
        return 0
    return int(min(max(value, LOW), HIGH))


def place(point, flag):
    return (to_16_bits(point[0]), to_16_bits(point[1]), flag)


def written(start, pieces):
    """The first corner as it came, then the pieces of all runs, but for the end of the last: the start stands for it."""
    row = [(*start, 1)]
    for piece in pieces:
        _, control, end = piece
        if not is_line(piece):
            row.append(place(control, 0))
        row.append(place(end, 1))
    return row[:-1]


def unchanged(points):
    """The input points in their order, the start not again."""
    return [(x, y, flag & 1) for x, y, flag in points]


def is_implied(before, this, after):
    """An on-curve point between two off-curve ones, at their exact midpoint."""
    if not this[2] or before[2] or after[2]:
        return False
    return all(2 * this[c] == before[c] + after[c] for c in (0, 1))


def without_implied(row):
    """Looked at from place 1 on, going round, so that place 0 stays; after a removal the same place is looked at again."""
    row, i = list(row), 1
    while i < len(row):
        if is_implied(row[i - 1], row[i], row[(i + 1) % len(row)]):
            del row[i]
        else:
            i += 1
    return row
