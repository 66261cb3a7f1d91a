"""Why a segment starts at a corner, from the documents alone, in whole numbers as far as they reach.

A contour is a list of (x, y, flag). `why` gives ('refused', k), or ('ok', a list of reasons for each segment). Steps and tangents of a contour are
whole, so that signs and zeros are exact; only the angle needs floats: each length is a root of an exact whole number, rounded once.
"""
import math

LIMIT = 1024
NAMES = ('x', 'y', 'before', 'after', 'angle')


def judged(points):
    """Refusals 2 to 5 (rows of points cannot differ in length), or 0."""
    on = [flag & 1 for _, _, flag in points]
    if not points:
        return 2
    if len(points) > LIMIT:
        return 3
    if not on[0]:
        return 4
    if any(not a and not b for a, b in zip(on, on[1:])):
        return 5
    return 0


def segments(points):
    """Each segment as its two or three points; the last leads back to the start."""
    found = []
    for place, (x, y, flag) in enumerate(points):
        if not flag & 1:
            continue
        stretch = [(x, y)]
        for step in (1, 2):
            u, v, on = points[(place + step) % len(points)]
            stretch.append((u, v))
            if on & 1:
                break
        found.append(stretch)
    return found


def step(a, b):
    return b[0] - a[0], b[1] - a[1]


def turns(stretches):
    """For each segment whether the product was negative, in x and in y, in either of the two rounds over one state."""
    x, y = [False] * len(stretches), [False] * len(stretches)
    state = (0, 0)
    for k in [*range(len(stretches))] * 2:
        chord = step(stretches[k][0], stretches[k][-1])
        in_x, in_y = state[0] * chord[0] < 0, state[1] * chord[1] < 0
        x[k] |= in_x
        y[k] |= in_y
        if in_x or in_y:
            state = chord
        else:
            state = (state[0] or chord[0], state[1] or chord[1])
    return x, y


def angled(before, after):
    lengths = math.sqrt(before[0] ** 2 + before[1] ** 2) * math.sqrt(after[0] ** 2 + after[1] ** 2)
    if lengths == 0:
        return False  # 0 / 0 is above no bound
    return abs((after[0] * before[1] - before[0] * after[1]) / lengths) > 0.02


def why(points):
    refusal = judged(points)
    if refusal:
        return 'refused', refusal
    stretches = segments(points)
    x, y = turns(stretches)
    told = []
    for k, stretch in enumerate(stretches):
        before, after = step(*stretches[k - 1][-2:]), step(*stretch[:2])
        told.append((x[k], y[k], before == (0, 0), after == (0, 0), angled(before, after)))
    return 'ok', told


def text(marks):
    return ','.join(name for name, holds in zip(NAMES, marks) if holds)
