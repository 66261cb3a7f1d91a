"""The families of made contours. Each maker takes a random source and gives one contour.

Only whole-number methods of the source are used.
"""

import functools
import itertools
from collections import namedtuple
from math import gcd

from shapes import HIGH, LOW, around, flags, kept, moved, near, nearest, off, on, sized, smooth

# stream: from a random source, contours without end (or all there are); weight: share in `all`
Family = namedtuple("Family", "name weight purpose stream")
FAMILIES = []


def family(name, weight, purpose):
    """Register a maker of one contour at a time."""

    def register(maker):
        def stream(rng):
            while True:
                yield maker(rng)

        FAMILIES.append(Family(name, weight, purpose, stream))
        return maker

    return register


# ---- everything small


@functools.lru_cache(maxsize=None)
def patterns(count):
    """All rows of flags that are not refused, in order."""
    rows = itertools.product((1, 0), repeat=count)
    return [r for r in rows if r[0] and not any(a + b == 0 for a, b in zip(r, r[1:]))]


def tiny_at(index):
    """The contour of this number among all of 1 to 5 points on a grid of 3 by 3; None past them."""
    for count in range(1, 6):
        rows = patterns(count)
        size = len(rows) * 9**count
        if index < size:
            row, index = rows[index % len(rows)], index // len(rows)
            places = [index // 9**k % 9 for k in range(count)]
            return [(p % 3, p // 3, f) for p, f in zip(places, row)]
        index -= size
    return None


def tiny_total():
    return sum(len(patterns(count)) * 9**count for count in range(1, 6))


def tiny(rng):
    total = tiny_total()
    start, stride = rng.randrange(total), rng.randrange(total)
    # a stride with no common factor meets every number once
    while gcd(stride, total) != 1:
        stride += 1
    for k in range(total):
        yield tiny_at((start + k * stride) % total)


TINY = "all 507,555 contours of 1 to 5 points on a 3 by 3 grid, each once, in an order by the seed"
FAMILIES.append(Family("tiny", 10, TINY, tiny))


@family("small", 20, "1 to 10 random points on grids of 2 to 9 lines, 1 to 25 units apart")
def small(rng):
    side, apart = rng.randrange(2, 10), rng.choice([1, 1, 1, 2, 3, 5, 10, 25])
    row = flags(rng, rng.randrange(1, 11), 5)
    grid = [(rng.randrange(side) * apart, rng.randrange(side) * apart, f) for f in row]
    return moved(grid, *near(rng, 30))


@family("repeated", 8, "all points equal, or few places met again and again: zero lengths, 0/0, unchanged contours")
def repeated(rng):
    places = [near(rng, rng.choice([1, 5, 60])) for _ in range(rng.choice([1, 2, 2, 3]))]
    row = flags(rng, rng.randrange(1, 13), 6)
    return [(*rng.choice(places), f) for f in row]


# ---- what divides by nothing


def walk(rng, count, reach):
    """On-curve places a random step apart."""
    x = y = 0
    for _ in range(count):
        yield x, y
        dx, dy = near(rng, reach)
        x, y = x + dx, y + dy


@family("zero", 8, "zero-length segments, zero first or last tangents: NaN directions, scores that stay NaN")
def zero(rng):
    contour, reach = [], rng.choice([3, 20, 80])
    places = list(walk(rng, rng.randrange(2, 7), reach))
    for (x, y), (next_x, next_y) in zip(places, places[1:] + places[:1]):
        contour.append(on(x, y))
        kind = rng.randrange(6)
        if kind == 0:
            contour.append(on(x, y))
        elif kind == 1:
            contour.append(off(x, y))
        elif kind == 2:
            contour.append(off(next_x, next_y))
        elif kind == 3:
            contour += [off(x, y), on(x, y)]
        elif kind == 4:
            dx, dy = near(rng, reach)
            contour.append(off(x + dx, y + dy))
    return moved(contour, *near(rng, 30))


@family("loops", 5, "curves whose start is their end, alone, in pairs, and beside others")
def loops(rng):
    reach = rng.choice([2, 10, 60])
    x, y = near(rng, 20)
    contour = [on(x, y)]
    for _ in range(rng.randrange(1, 4)):
        dx, dy = near(rng, reach)
        contour += [off(x + dx, y + dy), on(x, y)]
        if rng.randrange(3) == 0:
            # out by one curve, back by another
            (ax, ay), (bx, by), (cx, cy) = near(rng, reach), near(rng, reach), near(rng, reach)
            contour += [off(x + ax, y + ay), on(x + bx, y + by), off(x + cx, y + cy), on(x, y)]
    for dx, dy in walk(rng, rng.randrange(0, 3), 60):
        contour.append(on(x + dx + 5, y + dy + 50))
    return contour


@family("onebreak", 4, "runs with one break of both kinds: length 0 with a NaN break, and all places at the first")
def onebreak(rng):
    x, y = near(rng, 50)
    step = rng.choice([(0, 0), (0, 1), (1, 0), (0, -1), (-1, 0), (1, 1), (1, -1), (2, 0), (0, 2)])
    core = [on(x, y), off(x + step[0], y + step[1]), on(x, y)]
    ahead = [on(x + dx + 9, y + dy - 40) for dx, dy in walk(rng, rng.randrange(0, 3), 40)]
    behind = [on(x + dx + 5, y + dy + 50) for dx, dy in walk(rng, rng.randrange(0, 3), 40)]
    return ahead + core + behind


# ---- the ends of 16 bits


@family("ends", 6, "coordinates at the ends of 16 bits: small shapes in the corners, and whole widths (refusal 6)")
def ends(rng):
    row = flags(rng, rng.randrange(1, 9), 5)
    if rng.randrange(4) == 0:
        values = [LOW, LOW + 1, -1, 0, 1, HIGH - 1, HIGH]
        return [(rng.choice(values), rng.choice(values), f) for f in row]
    reach = rng.choice([2, 20, 90])
    x, y = rng.choice([LOW, 0, HIGH]), rng.choice([LOW, HIGH])
    return moved([(*near(rng, reach), f) for f in row], x, y)


@family("overflow", 5, "implied points whose neighbours' sum leaves 16 bits: the debug build stops, the release wraps")
def overflow(rng):
    if rng.randrange(2):
        return far_smooth(rng)
    # a first run of one point leaves the contour unchanged, so that the rest is written as it is
    x, y = near(rng, 50)
    contour = [on(x, y), off(x, y), on(x, y)]
    for _ in range(rng.randrange(1, 4)):
        a, b = rng.randint(LOW, HIGH), rng.choice([LOW, HIGH, rng.randint(LOW, HIGH)])
        level, jitter = rng.randint(-5, 5), rng.choice([0, 0, 0, 1, -1])
        middle = implied(a, b) + jitter
        points = [(a, level), (middle, level), (b, level)]
        if rng.randrange(2):
            points = [(py, px) for px, py in points]
        contour += [off(*points[0]), on(*points[1]), off(*points[2]), on(*near(rng, 50))]
    return kept(contour)


def implied(a, b):
    """Half of the sum cut to 16 bits, toward zero."""
    wrapped = (a + b + 32768) % 65536 - 32768
    return abs(wrapped) // 2 * (-1 if wrapped < 0 else 1)


def far_smooth(rng):
    reach = rng.choice([8, 40])
    controls = [near(rng, reach) for _ in range(rng.randrange(2, 7))]
    x, y = rng.randint(16000, HIGH - 40), rng.choice([0, rng.randint(16000, HIGH - 40)])
    return moved(smooth(controls), x * rng.choice([1, -1]), y * rng.choice([1, -1]))


# ---- turns


@family("halfturn", 6, "curves that turn back on themselves, exactly or nearly: no corner by angle at a half turn")
def halfturn(rng):
    x = y = 0
    contour, reach = [on(0, 0)], rng.choice([5, 5, 15, 15, 40])
    for _ in range(rng.randrange(1, 4)):
        # the steps all go one way; the tangents at the joint are opposite
        (tx, ty), (jx, jy) = near(rng, reach), near(rng, rng.choice([0, 1, 3]))
        step = rng.randrange(1, reach + 1), rng.randrange(1, reach + 1)
        x, y = x + step[0], y + step[1]
        contour += [off(x - tx, y - ty), on(x, y), off(x - tx + jx, y - ty + jy)]
        x, y = x + step[0], y + step[1]
        contour.append(on(x, y))
    if rng.randrange(2):
        contour.append(on(*near(rng, 100)))
    return moved(contour, *near(rng, 30))


@family("angles", 8, "joints whose bend is about 0.02, the corner test's limit")
def angles(rng):
    x = y = 0
    dx, dy = rng.randrange(1, 120), rng.randrange(0, 120)
    contour = [on(0, 0)]
    for _ in range(rng.randrange(2, 6)):
        times, way = rng.randrange(1, 4), rng.choice([1, -1])
        jx, jy = near(rng, 1)
        next_dx, next_dy = dx * times - way * dy * times // 50 + jx, dy * times + way * dx * times // 50 + jy
        if rng.randrange(3) == 0:
            contour.append(off(x + dx, y + dy))
            x, y = x + dx, y + dy
        x, y = x + next_dx, y + next_dy
        contour.append(on(x, y))
        if abs(next_dx) + abs(next_dy) < 250:
            dx, dy = next_dx, next_dy
    return moved(contour + [on(*near(rng, 200))], *near(rng, 30))


@family("ties", 5, "straight runs along whole directions: places equally far from a break, where roots decide")
def ties(rng):
    step_x, step_y = rng.choice([(3, 4), (4, 3), (3, 4), (4, 3), (5, 12), (8, 15), near(rng, 40)])
    step_x, step_y = step_x * rng.choice([1, -1]), step_y * rng.choice([1, -1])
    (x, y), far = near(rng, 60), 0
    contour = [on(x, y)]
    for _ in range(rng.randrange(2, 5)):
        # a control on the line keeps the run straight, its pace uneven
        along = rng.randrange(1, 14)
        if rng.randrange(3) == 0:
            contour.append(off(x + step_x * (far + along), y + step_y * (far + along)))
            far += rng.randrange(1, 9)
        far += along
        contour.append(on(x + step_x * far, y + step_y * far))
    return contour + [on(*near(rng, 90))]


@family("late", 6, "curves whose derivative nearly vanishes late: the measure asks past the last sample (refusal 8)")
def late(rng):
    if rng.randrange(3) == 0:
        return late_small(rng)
    # long, but within both rooms: there a stage overshoots by more than the two samples to spare
    total = rng.randrange(850, 1000)
    wide = rng.randrange(total + 1)
    x, y = wide * rng.choice([1, -1]), (total - wide) * rng.choice([1, -1])
    ratio, (jx, jy) = rng.randrange(17, 28), near(rng, 1)
    contour = [on(0, 0), off(x, y), on(x - nearest(x, ratio) + jx, y - nearest(y, ratio) + jy)]
    return contour + [on(*near(rng, 900)) for _ in range(rng.randrange(1, 3))]


def late_small(rng):
    contour = [on(0, 0)]
    x = y = 0
    for _ in range(rng.choice([1, 1, 1, 2])):
        # the end lies 1/19 of the way back from the control, so t = 0.95 is where it vanishes
        back_x, back_y = near(rng, rng.choice([3, 10, 25]))
        ratio = rng.choice([19, 19, 19, rng.randrange(5, 45)])
        (jx, jy), (kx, ky) = near(rng, 2), near(rng, 1)
        x, y = x + back_x * ratio + jx, y + back_y * ratio + jy
        contour.append(off(x, y))
        x, y = x - back_x + kx, y - back_y + ky
        contour.append(on(x, y))
    if rng.randrange(4):
        contour.append(on(*near(rng, 900)))
    return kept(contour)


# Steps to the control and on to the end of curves whose measure falls past the samples without being refused: after a line of one
# unit the first break alone has a direction of its own, so that only pieces from there overshoot, and by more than is stored.
FALLING = [
    (1937, -4, -146, 11),
    (1866, -2, -125, 7),
    (1850, -4, -154, 9),
    (2078, -1, -130, 6),
    (1997, -3, -167, 6),
    (2029, -4, -145, 12),
    (2121, -4, -177, 9),
    (2089, -4, -139, 13),
    (1806, -2, -139, 5),
    (1961, -1, -115, 5),
    (2148, -1, -134, 3),
    (2016, -1, -168, 2),
]


@family("fallen", 0, "on whole units: runs of about 1,800 units whose lookups fall past the samples, most of them with no refusal")
def fallen(rng):
    dx, dy, back_x, back_y = rng.choice(FALLING)
    if rng.randrange(4) == 0:
        # near one that falls: most are refused by 8 or have none that fall
        dx, back_x = dx + rng.randint(-9, 9), back_x + rng.randint(-9, 9)
    control = 1 + dx, dy
    end = control[0] + back_x, control[1] + back_y
    contour = [on(0, 0), on(1, 0), off(*control), on(*end), on(0, rng.randrange(-1500, -300))]
    # the samples fall to (0, 0), so an end near there costs little
    contour = moved(contour, -end[0], -end[1])
    if rng.randrange(4) == 0:
        # across the start: only closed mode works this run
        contour = contour[3:] + contour[:3]
    if rng.randrange(2):
        contour = [(y, x, f) for x, y, f in contour]
    side_x, side_y = rng.choice([1, -1]), rng.choice([1, -1])
    return moved([(x * side_x, y * side_y, f) for x, y, f in contour], *near(rng, rng.choice([3, 9, 30])))


# ---- smooth curves


@family("chains", 6, "short runs of several smooth curves: scores above 3 and 4, chains of many pieces, all phases")
def chains(rng):
    reach = rng.choice([6, 15, 30])
    x = y = 0
    controls = []
    for _ in range(rng.randrange(3, 8)):
        x, y = x + rng.randrange(reach), y + rng.randrange(reach)
        controls.append((x, y))
    contour = smooth(controls)
    # without the curve back to the start; a far point closes the contour
    return moved(contour[2:-1] + [on(*near(rng, 60))], *near(rng, 30))


@family("round", 4, "ellipses of 1 to 16 curves a quarter, and single sweeps, of every size to over both rooms")
def round_(rng):
    bits = rng.choice([5, 5, 5, 5, 6, 6, 7, 8, 9, 15])
    wide = min(sized(rng, bits), HIGH)
    tall = wide if rng.randrange(2) else min(sized(rng, bits), HIGH)
    if rng.randrange(3) == 0:
        x, y = near(rng, 30)
        return kept([on(x, y), off(x + wide, y), on(x + wide, y + tall)])
    count = 4 * rng.choice([1, 1, 2, 2, 3, 4, 16]) if wide + tall > 8 else 4
    contour = around(count, rng.randrange(64), wide, tall)
    return moved(contour, *near(rng, 30))


@family("rooms", 1, "runs of about 2,048 breaks and about 16,384 samples: the last that fits and the first refused")
def rooms(rng):
    # a nearly straight sweep has a sample a unit and two breaks a unit, and is one piece
    wide = rng.choice([1022, 1022, 16382]) + rng.randint(-4, 4)
    x, y = wide // 2 + rng.randint(-3, 3), rng.randrange(2)
    sweep = [off(x, y), on(wide, rng.randrange(5)), on(-3000, 500)]
    if rng.randrange(2):
        sweep = [(py, px, f) for px, py, f in sweep]
    return moved([on(0, 0)] + [(px, -py, f) for px, py, f in sweep], *near(rng, 30))


@family("letters", 1, "closed smooth outlines of 8 to 60 points as letters have them, on 1,000 and 2,048 units")
def letters(rng):
    units, count = rng.choice([1000, 2048]), rng.randrange(4, 31)
    wide, tall = rng.randrange(units // 20, units // 3), rng.randrange(units // 20, units // 3)
    # controls go round, each at a distance of its own, so that the outline wavers
    ring = around(count, rng.randrange(64), 64, 64)[1::2]
    controls = []
    for x, y, _ in ring:
        share = rng.randrange(70, 131)
        # even, so that a middle is whole and the joint exactly smooth; odd now and then
        odd = rng.randrange(8) == 0
        controls.append((2 * (x * wide * share // 12800) + odd, 2 * (y * tall * share // 12800)))
    return moved(smooth(controls), units // 4, units // 4)


# ---- what is looked at before any work


@family("flags", 4, "flags such as 3, 128 and 254, of which only bit 0 counts")
def flags_(rng):
    contour = rng.choice([small, repeated, loops, chains])(rng)
    odd, even = [1, 3, 5, 129, 253, 255], [0, 2, 4, 128, 252, 254]
    return [(x, y, rng.choice(odd if f else even)) for x, y, f in contour]


@family("refused", 2, "refusals 2 to 5: no point, 1,024 and 1,025 points and more, first or neighbours off-curve")
def refused(rng):
    kind = rng.randrange(8)
    if kind == 0:
        return []
    if kind == 1:
        return off_somewhere(rng, 0)
    if kind in (2, 3):
        return off_somewhere(rng, rng.randrange(1, 5))
    count = (1024, 1024, 1025, rng.choice([1025, 1026, 1400]))[kind - 4]
    row = flags(rng, count, rng.choice([0, 3]))
    contour = [(k % 512 + rng.randrange(2), 40 * (k % 2), f) for k, f in enumerate(row)]
    if rng.randrange(3) == 0:
        # too many points and a first one off-curve: 3 comes before 4
        contour[0] = off(0, 0)
    return contour


def off_somewhere(rng, place):
    """A contour with two neighbours off-curve at this place; at place 0 the first is one of them."""
    contour = small(rng)
    contour += [on(*near(rng, 30)) for _ in range(place + 2 - len(contour))]
    for k in (place, place + 1):
        x, y, _ = contour[k]
        contour[k] = off(x, y)
    return contour
