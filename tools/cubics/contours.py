"""Made contours of cubics, by a seed: every depth, the ends of 16 bits, closing pairs, refusals, and short output rows.

    python3 contours.py COUNT [SEED]     a contour a line: ROOM x y f x y f ...
"""
import random
import sys

LEAST, MOST = -32768, 32767


def clamp(v):
    return max(LEAST, min(MOST, v))


def cubics(rng, n, size, back, lines):
    """n segments; a share of them lines; the last leads back where `back`. `size` is how far points lie apart."""
    on = lambda: 1 | 2 * rng.randrange(128) if rng.random() < 0.1 else 1
    off = lambda: 2 * rng.randrange(128) if rng.random() < 0.1 else 0
    centre = (rng.randint(LEAST, MOST), rng.randint(LEAST, MOST)) if rng.random() < 0.3 else (0, 0)
    near = lambda p: tuple(clamp(v + rng.randint(-size, size)) for v in p)
    at = near(centre)
    points = [at + (on(),)]
    for k in range(n):
        last = k + 1 == n
        if rng.random() < lines and not (last and back):
            at = near(at if size < 3000 else centre)
            points.append(at + (on(),))
            continue
        end = points[0][:2] if last and back else near(at if size < 3000 else centre)
        if rng.random() < 0.3:
            # nearly a quad: the third difference is small, around 8 times a power of 8
            depth = rng.randrange(6)
            want = [rng.choice((-1, 1)) * (8 ** (depth + 1) + rng.choice((-1, 0, 0, 1))) for _ in (0, 1)]
            p1 = near(at)
            p2 = []
            for a, b, d, w in zip(at, p1, end, want):
                p2.append(clamp(round((d + 3 * b - a - w) / 3)))
            p2 = tuple(p2)
            # d - 3 c + 3 b - a = w is met by moving the end
            if not (last and back):
                end = tuple(clamp(w + 3 * c - 3 * b + a) for a, b, c, w in zip(at, p1, p2, want))
        else:
            p1, p2 = near(at), near(end)
        points += [p1 + (off(),), p2 + (off(),)]
        if not (last and back):
            points.append(end + (on(),))
        at = end
    return points


def extremes(rng, n, back):
    pick = lambda: rng.choice((LEAST, LEAST + 1, -1, 0, 1, MOST - 1, MOST))
    points = [(pick(), pick(), 1)]
    for k in range(n):
        points += [(pick(), pick(), 0), (pick(), pick(), 0)]
        if not (back and k + 1 == n):
            points.append((pick(), pick(), 1))
    return points


def broken(rng, points):
    """A point's flag turned, or a point left out."""
    points = list(points)
    k = rng.randrange(len(points))
    if rng.random() < 0.5:
        x, y, f = points[k]
        points[k] = (x, y, f ^ 1)
    else:
        del points[k]
    return points


def fixed():
    deep = []
    for _ in range(8):
        deep += [(LEAST, LEAST, 1), (MOST, MOST, 0), (LEAST, LEAST, 0), (MOST, MOST, 1), (LEAST, LEAST, 0), (MOST, MOST, 0)]
    flat = []
    for k in range(512):
        flat += [(k % 2, 0, 1), (k % 2, 0, 0), (k % 2, 0, 0)]
    yield deep
    yield deep + [(0, 0, 1)]
    yield flat
    yield flat + [(0, 0, 1)]
    yield [(LEAST, 0, 1), (MOST, 0, 0), (MOST, 0, 0), (LEAST, 0, 1)]
    # third differences of 8, 9, 64, 65 ..: 8 itself is not halved
    for depth in range(6):
        for more in (-1, 0, 1):
            d = 8 ** (depth + 1) + more
            if d <= 65535:
                yield [(LEAST, 5, 1), (LEAST, 5, 0), (LEAST, 5, 0), (LEAST + d, 5, 1)]
                yield [(5, MOST, 1), (5, MOST, 0), (5, MOST, 0), (5, MOST - d, 1)]
    # a control that rounds to just inside, and to just outside: 32767.25 and 32767.5
    for a in range(40):
        for sign in (1, -1):
            top = MOST if sign > 0 else LEAST
            yield [(top - sign * a, 0, 1), (top, 0, 0), (top, 0, 0), (top - sign * (a // 2), 0, 1)]
            yield [(0, top - sign * a, 1), (0, top, 0), (0, top, 0)]
    yield []
    yield [(1, 2, 1)]
    yield [(1, 2, 0)]
    for n in range(1, 7):
        yield [(0, 0, 1)] + [(k, k, 0) for k in range(n)]
        yield [(0, 0, 1)] + [(k, k, 0) for k in range(n)] + [(9, 9, 1)]
    yield [(k, 0, 1) for k in range(1024)]
    yield [(k, 0, 1) for k in range(1025)]


def made(count, seed):
    rng = random.Random(seed)
    given = 0
    for points in fixed():
        yield 2000, points
        given += 1
    while given < count:
        kind = rng.random()
        if kind < 0.15:
            points = extremes(rng, rng.randint(1, 6), rng.random() < 0.5)
        else:
            size = rng.choice((3, 10, 30, 100, 300, 1000, 3000, 10000, 32767))
            n = rng.choice((1, 2, 3, 5, 8)) if kind < 0.95 else rng.randint(9, 40)
            points = cubics(rng, n, size, rng.random() < 0.5, rng.choice((0, 0.3, 0.6)))
        if rng.random() < 0.05:
            points = broken(rng, points)
        yield (rng.randint(0, 150) if rng.random() < 0.2 else 2000), points
        given += 1


if __name__ == '__main__':
    count = int(sys.argv[1])
    seed = int(sys.argv[2]) if len(sys.argv) > 2 else 1
    for room, points in made(count, seed):
        print(room, *(v for point in points for v in point))
