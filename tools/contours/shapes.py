"""Whole-number geometry for the makers.

No float is used, so a family, seed and count give the same bytes on every host.
A contour is a list of (x, y, flag).
"""

UNIT = 1 << 60
PI = 3622009729038561421  # pi in units of 2^-60

LOW, HIGH = -32768, 32767


def on(x, y):
    return (x, y, 1)


def off(x, y):
    return (x, y, 0)


def kept(contour):
    """The contour with every coordinate brought within 16 bits."""
    return [(min(max(x, LOW), HIGH), min(max(y, LOW), HIGH), f) for x, y, f in contour]


def moved(contour, dx, dy):
    return kept([(x + dx, y + dy, f) for x, y, f in contour])


def turn(part, whole):
    """Cosine and sine of part/whole of a full turn, in units of 2^-60, by their series."""
    angle = 2 * PI * (part % whole) // whole
    sums = [0, 0]
    term, k = UNIT, 0
    while term:
        sums[k % 2] += term if k % 4 < 2 else -term
        k += 1
        term = term * angle // (UNIT * k)
    return sums


def nearest(value, unit):
    return (2 * value + unit) // (2 * unit)


def around(count, start, radius_x, radius_y):
    """A closed ellipse of `count` curves from `start` sixty-fourths of a turn."""
    contour = []
    for k in range(count):
        cos, sin = turn(64 * k + start * count, 64 * count)
        contour.append(on(nearest(radius_x * cos, UNIT), nearest(radius_y * sin, UNIT)))
        # the control is where the tangents cross: outside by the cosine of half a step
        half, _ = turn(1, 2 * count)
        cos, sin = turn(64 * (2 * k + 1) + 2 * start * count, 128 * count)
        contour.append(off(nearest(radius_x * cos, half), nearest(radius_y * sin, half)))
    return contour


def smooth(controls):
    """A closed curve through the middles of its controls, the middles explicit (and rounded)."""
    contour = []
    for (x0, y0), (x1, y1) in zip(controls[-1:] + controls[:-1], controls):
        contour.append(on((x0 + x1) // 2, (y0 + y1) // 2))
        contour.append(off(x1, y1))
    return contour


def sized(rng, bits):
    """A positive number of 1 to `bits` binary digits, every length as likely."""
    digits = rng.randrange(1, bits + 1)
    return rng.randrange(1 << digits - 1, 1 << digits)


def flags(rng, count, off_in_ten):
    """Flags of a contour that is not refused: the first on, no two neighbours off."""
    row = [1]
    while len(row) < count:
        row.append(0 if row[-1] and rng.randrange(10) < off_in_ten else 1)
    return row


def near(rng, reach):
    """A step in x and y, each up to `reach` either way."""
    return rng.randint(-reach, reach), rng.randint(-reach, reach)
