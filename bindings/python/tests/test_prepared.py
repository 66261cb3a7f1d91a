"""Idle controls dropped, contours prepared before they are crunched, and the picture of glyphs before and after."""

import random
import unittest
import xml.etree.ElementTree

import fontcrunch
from fontcrunch import Beside, Glyph, IdleDrop, Settings
from fontcrunch._picture import drawn

from .common import Case, points

CLOSED = Settings(closed=True)


class Idle(Case):
    BENT = "60 200 1 20 100 1 0 50 0 0 0 1 90 20 1"

    def test_each_side(self):
        idle = fontcrunch.drop_idle(points("0 0 1 0 0 0 100 0 1 300 200 0 300 200 1 0 200 1 0 0 0"))
        self.assertEqual(idle.points, points("0 0 1 100 0 1 300 200 1 0 200 1"))
        self.assertEqual(idle.dropped, [IdleDrop(1, Beside.BEFORE), IdleDrop(3, Beside.AFTER), IdleDrop(6, Beside.AFTER)])

    def test_what_is_left_has_none_and_is_let_through(self):
        some = random.Random(3)
        for _ in range(500):
            contour = [fontcrunch.Point(0, 0, True)]
            for _ in range(some.randrange(12)):
                on_curve = some.random() < 0.5 or not contour[-1].on_curve
                contour.append(fontcrunch.Point(some.randrange(3), some.randrange(3), on_curve))
            idle = fontcrunch.drop_idle(contour)
            self.assertEqual(fontcrunch.drop_idle(idle.points), fontcrunch.Idle(idle.points, []))
            listed = {drop.place for drop in idle.dropped}
            self.assertEqual(idle.points, [point for k, point in enumerate(contour) if k not in listed])
            ready = fontcrunch.prepared(contour)
            self.assertEqual(fontcrunch.prepared(ready), ready)

    def test_refusals(self):
        for number, contour in ((2, []), (4, [(0, 0, 0)]), (5, [(0, 0, 1), (1, 1, 0), (2, 2, 0)])):
            self.assert_refused(number, fontcrunch.drop_idle, contour)
        self.assert_refused(2, fontcrunch.prepared, [])
        self.assert_refused(21, fontcrunch.prepared, [(0, 0, 0)])

    def test_left_in_the_run_is_one_straight_piece(self):
        idle = fontcrunch.chain(points("60 200 1 60 200 0 20 100 1 0 50 0 0 0 1 90 20 1"), 0)
        self.assertNotEqual(idle.score, idle.score)
        self.assertEqual((len(idle.pieces), idle.pairs), (1, 1))
        self.assertEqual(len(fontcrunch.chain(points(self.BENT), 0).pieces), 2)


class Prepared(Case):
    FLAT = "0 0 1 0 0 0 100 0 1 300 0 0 300 200 1 0 200 1"
    FONT = "300 0 0 300 100 0 300 200 1 0 200 1 0 0 1 0 0 1"

    def test_a_run_is_not_flattened(self):
        self.assertEqual(fontcrunch.crunch(points(self.FLAT), CLOSED).points, points("0 0 1 300 200 1 0 200 1"))
        by_steps = fontcrunch.crunch(fontcrunch.prepared(points(self.FLAT)), CLOSED)
        self.assertEqual(fontcrunch.crunch(points(self.FLAT), CLOSED, prepare=True), by_steps)
        self.assertIn((300, 3, False), by_steps.points)

    def test_editions(self):
        ready = fontcrunch.prepared(points(self.FONT))
        both = fontcrunch.editions(points(self.FONT), 16, 300, CLOSED, prepare=True)
        self.assertEqual(both.a, fontcrunch.crunch(ready, Settings(16, closed=True)))
        self.assertEqual(both.b.number, 16)
        both = fontcrunch.editions([(0, 0, 0)], 16, 32, CLOSED, prepare=True)
        self.assertEqual((both.a.number, both.b.number), (21, 21))

    def test_glyphs_and_files(self):
        contours = [points(self.FLAT), points(self.FONT)]
        ready = [fontcrunch.crunch(contour, CLOSED, prepare=True).points for contour in contours]
        data = fontcrunch.write_glyph(Glyph.of_contours(contours, b"\xb0\x03"))
        crunched = fontcrunch.read_glyph(fontcrunch.crunch_glyph(data, CLOSED, prepare=True))
        self.assertEqual(crunched, Glyph.of_contours(ready, b"\xb0\x03"))
        file = fontcrunch.write_glif(b"<glyph><outline><contour><point x='0' y='0' type='line'/></contour></outline></glyph>", [contours[0]])
        self.assertEqual(fontcrunch.crunch_glif(file, CLOSED, prepare=True), fontcrunch.write_glif(file, ready[:1]))


class Picture(Case):
    def test_well_formed(self):
        class Side:
            contours, points = [points("0 0 0 10 0 0 10 10 0"), points("0 0 1 5 5 0")], 5

        root = xml.etree.ElementTree.fromstring(drawn([("a<b&c", Side, Side)] * 3))
        self.assertEqual(sum(element.tag.endswith("path") for element in root.iter()), 6)
        self.assertEqual(sum(element.tag.endswith("rect") for element in root.iter()), 6)


if __name__ == "__main__":
    unittest.main()
