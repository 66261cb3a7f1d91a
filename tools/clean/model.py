"""Cleaning, from document 02 alone: the rule is applied from the start after every drop, with no shortcut.

A contour is a list of (x, y, flag). `clean` gives ('refused', k), or ('ok', kept points, drops) with a drop (original number, why).
`put_back` undoes the drops, last one first. Flags go out as 1 or 0.
"""

LIMIT = 1024


def judged(points):
    """Refusals 2 to 5 (rows of points cannot differ in length), or 0."""
    on = [flag & 1 for _, _, flag in points]
    if not points:
        return 2
    if len(points) > LIMIT:
        return 3
    if not on[0]:
        return 4
    if any(not a and not b for a, b in zip(on, on[1:])):
        return 5
    return 0


def why(row, i):
    """Why place i of the row goes, or None. A place of the row is (number, x, y, on)."""
    same = lambda a, b: a[1:3] == b[1:3]
    this, before, after = row[i], row[i - 1], row[(i + 1) % len(row)]
    if this[3] and before[3] and same(this, before):
        return 'before'
    if not this[3] and same(this, before) and same(this, after):
        return 'both'
    if i == len(row) - 1 and this[3] and same(this, row[0]):
        return 'first'
    return None


def clean(points):
    refusal = judged(points)
    if refusal:
        return 'refused', refusal
    row = [(number, x, y, flag & 1) for number, (x, y, flag) in enumerate(points)]
    drops = []
    while True:
        lowest = next((i for i in range(1, len(row)) if why(row, i)), None)
        if lowest is None:
            return 'ok', [place[1:] for place in row], drops
        drops.append((row[lowest][0], why(row, lowest)))
        del row[lowest]


def put_back(kept, drops):
    listed = {number for number, _ in drops}
    numbers = [n for n in range(len(kept) + len(drops)) if n not in listed]
    row = [(number,) + tuple(point) for number, point in zip(numbers, kept)]
    for number, reason in reversed(drops):
        at = sum(place[0] < number for place in row)
        copied = row[0] if reason == 'first' else row[at - 1]
        row.insert(at, (number, copied[1], copied[2], 0 if reason == 'both' else 1))
    return [place[1:] for place in row]
