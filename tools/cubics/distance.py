"""How far quads are from the cubics they replace: a measurement, not a proof.

    python3 distance.py [COUNT] [SEED]

For random cubics of 16-bit points: the largest distance in a coordinate, at 201 parameters of each part, between part and quad before rounding,
and between part and the quad of the rounded points. The first is at most 8 * sqrt(3) / 36 = 0.3849 (docs/landings/W7.md).
"""
import random
import sys

import model


def at_cubic(p, t):
    s = 1 - t
    return s * s * s * p[0] + 3 * s * s * t * p[1] + 3 * s * t * t * p[2] + t * t * t * p[3]


def at_quad(p, t):
    s = 1 - t
    return s * s * p[0] + 2 * s * t * p[1] + t * t * p[2]


def main():
    count = int(sys.argv[1]) if len(sys.argv) > 1 else 1000
    rng = random.Random(int(sys.argv[2]) if len(sys.argv) > 2 else 1)
    exact = rounded = 0.0
    quads = 0
    for _ in range(count):
        size = rng.choice((5, 50, 500, 5000, 32767))
        cubic = tuple(tuple(model.Fraction(rng.randint(-size, size)) for _ in 'xy') for _ in range(4))
        for part, _ in model.parts(cubic):
            quads += 1
            control = model.control(part)
            for k in (0, 1):
                p = [float(point[k]) for point in part]
                q = [p[0], float(control[k]), p[3]]
                r = [float(model.nearest(part[0][k])), float(model.nearest(control[k])), float(model.nearest(part[3][k]))]
                for i in range(201):
                    t = i / 200
                    here = at_cubic(p, t)
                    exact = max(exact, abs(here - at_quad(q, t)))
                    rounded = max(rounded, abs(here - at_quad(r, t)))
    print(f'{count} cubics, {quads} quads: at most {exact:.4f} before rounding, {rounded:.4f} after')


main()
