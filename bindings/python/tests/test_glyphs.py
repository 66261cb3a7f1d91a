"""Glyph descriptions: round trips, against the model of tools/glyf, and crunched contour by contour."""

import random
import unittest

import fontcrunch
from fontcrunch import Glyph, Settings

from .common import HILL, RECORDED, STILL, Case, model, points


def made(seed):
    """A glyph with differences of every coding, and flags that repeat."""
    some = random.Random(seed)
    contours, x, y = [], 0, 0
    for _ in range(some.randrange(4)):
        contour = []
        for _ in range(some.randrange(1, 12)):
            size = some.choice((0, 0, 3, 255, 256, 3000))
            x, y = (max(-15000, min(15000, at + some.randint(-size, size))) for at in (x, y))
            contour.append(fontcrunch.Point(x, y, some.random() < 0.5))
        contours.append(contour)
    return Glyph.of_contours(contours, some.randbytes(some.randrange(5)))


class Bytes(Case):
    def test_one_point(self):
        glyph = Glyph([0], points("5 -5 1"))
        # a contour; the box; its end; no instructions; on the curve, both short, x upward; 5; 5
        data = bytes([0, 1, 0, 5, 255, 251, 0, 5, 255, 251, 0, 0, 0, 0, 0x17, 5, 5])
        self.assertEqual(fontcrunch.write_glyph(glyph), data)
        self.assertEqual(fontcrunch.read_glyph(data), glyph)

    def test_written_and_read_back(self):
        for seed in range(300):
            glyph = made(seed)
            self.assertEqual(fontcrunch.read_glyph(fontcrunch.write_glyph(glyph)), glyph, seed)
        for glyph in (Glyph(), Glyph(instructions=b"\x07")):
            self.assertEqual(fontcrunch.read_glyph(fontcrunch.write_glyph(glyph)), glyph)

    def test_against_the_model(self):
        by_text = model("glyf")
        for seed in range(300):
            glyph = made(seed)
            xs, ys, flags = (list(map(int, row)) for row in zip(*glyph.points)) if glyph.points else ([], [], [])
            data = by_text.write(glyph.ends, xs, ys, flags, glyph.instructions)
            self.assertEqual(fontcrunch.write_glyph(glyph), data, seed)
            damaged = bytearray(data)
            damaged[random.Random(seed).randrange(len(data))] ^= 1 << seed % 8
            self.assertEqual(self.read(bytes(damaged)), self.read_by(by_text, bytes(damaged)), seed)

    def read(self, data):
        try:
            glyph = fontcrunch.read_glyph(data)
        except fontcrunch.Refused as refused:
            return refused.number
        return glyph.ends, [tuple(map(int, point)) for point in glyph.points], glyph.instructions

    def read_by(self, by_text, data):
        try:
            glyph = by_text.read(data)
        except by_text.Refused as refused:
            return refused.args[0]
        return glyph["ends"], list(zip(glyph["xs"], glyph["ys"], glyph["flags"])), bytes(glyph["instructions"])

    def test_points_after_the_last_end_are_not_written(self):
        longer = Glyph([0], points("5 -5 1 9 9 1"))
        self.assertEqual(fontcrunch.read_glyph(fontcrunch.write_glyph(longer)).points, points("5 -5 1"))

    def test_contours(self):
        contours = [points(HILL), points(STILL)]
        glyph = Glyph.of_contours(contours)
        self.assertEqual((glyph.ends, glyph.contours()), ([5, 8], contours))
        self.assertEqual(Glyph().contours(), [])


class Crunched(Case):
    def test_each_contour_as_alone(self):
        contours = [points(HILL), points("0 0 1 100 0 1 0 100 1"), points(STILL)]
        glyph = Glyph.of_contours(contours, b"\xb0\x03")
        for settings in (RECORDED, Settings(), Settings(whole_units=True), Settings(closed=True)):
            new = fontcrunch.read_glyph(fontcrunch.crunch_glyph(fontcrunch.write_glyph(glyph), settings))
            alone = [fontcrunch.crunch(contour, settings).points for contour in contours]
            self.assertEqual(new, Glyph.of_contours(alone, b"\xb0\x03"), settings)

    def test_no_contour(self):
        none = fontcrunch.write_glyph(Glyph())
        self.assertEqual(fontcrunch.crunch_glyph(none), none)

    def test_more_points_than_the_usual_room(self):
        # 24 contours of 1,000 corners each: as many places as points are lent
        contour = [fontcrunch.Point(i % 512, 40 * (i % 2), True) for i in range(1000)]
        glyph = Glyph.of_contours([contour] * 24)
        self.assertGreater(len(glyph.points), fontcrunch.USUAL_POINT_ROOM)
        new = fontcrunch.read_glyph(fontcrunch.crunch_glyph(fontcrunch.write_glyph(glyph)))
        self.assertEqual(new, Glyph.of_contours([contour[::-1]] * 24))


if __name__ == "__main__":
    unittest.main()
