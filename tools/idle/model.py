"""Idle controls dropped and put back, from the definition alone.

A contour is a list of (x, y, flag). An idle control is an off-curve point equal, in x and y, to one of its on-curve neighbours, going round.
`drop_idle` gives ('refused', k), or ('ok', kept points, drops) with a drop (place, which neighbour: 1 the one before, 2 the one after).
`put_back` gives the upload's points of the points kept and such a list, whoever made it. Flags go out as 1 or 0.
"""

LIMIT = 1024
BEFORE, AFTER = 1, 2


def judged(points):
    """Refusals 2 to 5 (rows of points cannot differ in length), or 0."""
    on = [flag & 1 for _, _, flag in points]
    if not points:
        return 2
    if len(points) > LIMIT:
        return 3
    if not on[0]:
        return 4
    if any(not a and not b for a, b in zip(on, on[1:])):
        return 5
    return 0


def beside(points, place):
    """The neighbour that the point at a place is idle on, or None."""
    x, y, flag = points[place]
    for which, at in (BEFORE, place - 1), (AFTER, (place + 1) % len(points)):
        if not flag & 1 and points[at][2] & 1 and points[at][:2] == (x, y):
            return which
    return None


def drop_idle(points):
    refusal = judged(points)
    if refusal:
        return 'refused', refusal
    found = [(place, beside(points, place)) for place in range(len(points))]
    kept = [(x, y, flag & 1) for (x, y, flag), (_, which) in zip(points, found) if which is None]
    return 'ok', kept, [(place, which) for place, which in found if which is not None]


def put_back(kept, drops):
    """Place by place: a drop where the next of the list names the place, or where no kept point is left; else the next kept point."""
    if not kept:
        return 'refused', 2
    if len(kept) + len(drops) > LIMIT:
        return 'refused', 3
    points, left, listed = [], list(enumerate(kept)), list(drops)
    while left or listed:
        if listed and (listed[0][0] == len(points) or not left):
            _, which = listed.pop(0)
            passed = len(kept) - len(left)
            copied = kept[max(passed - 1, 0)] if which == BEFORE else kept[passed % len(kept)]
            points.append((copied[0], copied[1], 0))
        else:
            _, (x, y, flag) = left.pop(0)
            points.append((x, y, flag & 1))
    return 'ok', points


def outline(points):
    """The segments of a contour: (start, end) or (start, control, end), the last to the first point."""
    segments, start, control = [], points[0][:2], None
    for x, y, flag in points[1:] + points[:1]:
        if not flag & 1:
            control = (x, y)
            continue
        segments.append((start, (x, y)) if control is None else (start, control, (x, y)))
        start, control = (x, y), None
    return segments


def straight(segment):
    """A segment whose control stands on an end of it, as the line that it is."""
    idle = len(segment) == 3 and segment[1] in (segment[0], segment[2])
    return (segment[0], segment[2]) if idle else segment
