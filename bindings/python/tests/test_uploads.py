"""Cleaning and idle controls: which points go and why, and that they can be put back. Cubics made quads. Implied points written out."""

import random
import unittest

import fontcrunch
from fontcrunch import Beside, Dropped, Glyph, IdleDrop, Settings, Why

from .common import HILL, RECORDED, STILL, Case, model, points, zigzag


class Cleaning(Case):
    def cleans(self, line, kept, *dropped):
        upload = points(line)
        cleaned = fontcrunch.clean(upload)
        self.assertEqual(cleaned.points, points(kept))
        self.assertEqual(cleaned.dropped, [Dropped(*drop) for drop in dropped])
        self.assertEqual(fontcrunch.put_back(*cleaned), upload)
        self.assertEqual(fontcrunch.clean(cleaned.points).dropped, [])

    def test_each_reason(self):
        self.cleans("0 0 1 0 0 1", "0 0 1", (1, Why.BEFORE))
        self.cleans("0 0 1 0 0 0", "0 0 1", (1, Why.BOTH))
        self.cleans("0 0 1 5 0 1 0 0 1", "0 0 1 5 0 1", (2, Why.FIRST))
        self.cleans("0 0 1 5 0 0", "0 0 1 5 0 0")
        self.cleans("0 0 1 0 1 1 0 0 1 0 0 1", "0 0 1 0 1 1", (3, Why.BEFORE), (2, Why.FIRST))

    def test_put_back_gives_the_upload(self):
        made = random.Random(1)
        for _ in range(500):
            upload = [fontcrunch.Point(0, 0, True)]
            for _ in range(made.randrange(12)):
                on_curve = made.random() < 0.6 or not upload[-1].on_curve
                upload.append(fontcrunch.Point(made.randrange(2), made.randrange(2), on_curve))
            cleaned = fontcrunch.clean(upload)
            self.assertEqual(fontcrunch.put_back(*cleaned), upload)
            listed = {drop.place for drop in cleaned.dropped}
            self.assertEqual(cleaned.points, [p for k, p in enumerate(upload) if k not in listed])

    def test_most_points(self):
        still = [fontcrunch.Point(7, 9, True)] * 1024
        cleaned = fontcrunch.clean(still)
        self.assertEqual((len(cleaned.points), len(cleaned.dropped)), (1, 1023))
        self.assertEqual(fontcrunch.put_back(*cleaned), still)
        self.assert_refused(3, fontcrunch.put_back, zigzag(1024), [(1, 1)])
        self.assert_refused(2, fontcrunch.put_back, [], [])

    def test_a_list_has_reasons_and_places(self):
        for wrong in ((1, 4), (1, 0), (2**32, 1), (-1, 1)):
            with self.assertRaises(ValueError):
                fontcrunch.put_back(points("0 0 1"), [wrong])


class IdleControls(Case):
    def drops(self, line, kept, *dropped):
        upload = points(line)
        idle = fontcrunch.drop_idle(upload)
        self.assertEqual(idle.points, points(kept))
        self.assertEqual(idle.dropped, [IdleDrop(*drop) for drop in dropped])
        self.assertEqual(fontcrunch.put_back_idle(*idle), upload)
        self.assertEqual(fontcrunch.drop_idle(idle.points).dropped, [])

    def test_each_end(self):
        self.drops("0 0 1 0 0 0 5 0 1", "0 0 1 5 0 1", (1, Beside.BEFORE))
        self.drops("0 0 1 5 0 0 5 0 1", "0 0 1 5 0 1", (1, Beside.AFTER))
        self.drops("0 0 1 5 0 1 0 0 0", "0 0 1 5 0 1", (2, Beside.AFTER))
        self.drops("7 9 1 7 9 0", "7 9 1", (1, Beside.BEFORE))
        self.drops("0 0 1 0 9 0 9 0 1 9 0 1", "0 0 1 0 9 0 9 0 1 9 0 1")
        self.drops("0 0 1 0 0 0 9 0 1 9 5 0 9 9 1 9 9 0", "0 0 1 9 0 1 9 5 0 9 9 1", (1, Beside.BEFORE), (5, Beside.BEFORE))

    def test_by_the_model(self):
        rule, made = model("idle"), random.Random(2)
        for _ in range(500):
            upload = [(0, 0, 1)]
            for _ in range(made.randrange(12)):
                upload.append((made.randrange(2), made.randrange(2), int(made.random() < 0.5 or not upload[-1][2])))
            _, kept, drops = rule.drop_idle(upload)
            idle = fontcrunch.drop_idle(upload)
            self.assertEqual(([tuple(p) for p in idle.points], [tuple(d) for d in idle.dropped]), (kept, drops))
            self.assertEqual([tuple(p) for p in fontcrunch.put_back_idle(*idle)], upload)
            self.assertEqual(rule.outline(kept), [rule.straight(segment) for segment in rule.outline(upload)])
            other = [(made.randrange(14), made.randrange(1, 3)) for _ in range(made.randrange(6))]
            self.assertEqual([tuple(p) for p in fontcrunch.put_back_idle(kept, other)], rule.put_back(kept, other)[1])

    def test_a_run_keeps_its_bend(self):
        upload, closed = points("0 0 1 0 0 0 100 0 1 300 0 0 300 200 1 0 200 1"), Settings(closed=True)
        self.assertEqual(fontcrunch.crunch(upload, closed).points, points("0 0 1 300 200 1 0 200 1"))
        kept = fontcrunch.drop_idle(upload).points
        self.assertIn(False, [point.on_curve for point in fontcrunch.crunch(kept, closed).points])

    def test_refusals(self):
        self.assert_refused(3, fontcrunch.put_back_idle, zigzag(1024), [(1, 1)])
        self.assert_refused(2, fontcrunch.put_back_idle, [], [])
        for wrong in ((1, 3), (1, 0), (2**32, 1), (-1, 1)):
            with self.assertRaises(ValueError):
                fontcrunch.put_back_idle(points("0 0 1"), [wrong])


class Cubics(Case):
    def test_halved_where_the_third_difference_is_above_8(self):
        self.assertEqual(fontcrunch.from_cubics(points("0 0 1 0 0 0 0 0 0 8 0 1")), points("0 0 1 -2 0 0 8 0 1"))
        nine = points("0 0 1 0 0 0 1 0 1 3 0 0 9 0 1")
        self.assertEqual(fontcrunch.from_cubics(points("0 0 1 0 0 0 0 0 0 9 0 1")), nine)

    def test_a_last_pair_leads_back(self):
        self.assertEqual(fontcrunch.from_cubics(points("0 0 1 2 0 0 2 2 0")), points("0 0 1 3 2 0"))

    def test_more_points_in_than_out(self):
        flat = [(k % 2, 0, on) for k in range(512) for on in (1, 0, 0)]
        self.assertEqual(len(fontcrunch.from_cubics(flat)), 1024)

    def test_what_comes_out_is_crunched(self):
        quads = fontcrunch.from_cubics(points("0 0 1 0 200 0 300 400 0 600 400 1 600 0 1"))
        self.assertLess(len(fontcrunch.crunch(quads, RECORDED).points), len(quads))


class Explicit(Case):
    def made(self, line):
        return fontcrunch.explicit(points(line))

    def test_turned_and_written_out(self):
        self.assertEqual(self.made("0 0 1 1 0 0 2 3 0 9 9 1"), points("0 0 1 1 0 0 2 2 1 2 3 0 9 9 1"))
        self.assertEqual(self.made("1 0 0 2 3 0 9 9 1 -7 0 0"), points("9 9 1 -7 0 0 -3 0 1 1 0 0 2 2 1 2 3 0"))
        for line in ("7 9 1", HILL, STILL):
            self.assertEqual(self.made(line), points(line))

    def test_halves_go_away_from_zero(self):
        for a, b, middle in ((0, 1, 1), (0, -1, -1), (-3, 0, -2), (32767, 32766, 32767), (-32768, -32767, -32768), (-32768, 32767, -1)):
            self.assertEqual(fontcrunch.explicit([(0, 0, 1), (a, b, 0), (b, a, 0)])[2], (middle, middle, True))

    def test_against_the_model(self):
        by_words, some = model("explicit"), random.Random(7)
        for _ in range(2000):
            contour = [(some.randrange(-40, 40), some.randrange(-40, 40), some.randrange(4)) for _ in range(some.randrange(1, 9))]
            answer, told = by_words.explicit(*zip(*contour), (1024,) * 3)
            if answer == "refused":
                self.assert_refused(told, fontcrunch.explicit, contour)
                continue
            made = fontcrunch.explicit(contour)
            self.assertEqual(made, told)
            # let through by 1 to 5, and as it is
            self.assertTrue(fontcrunch.clean(made).points)
            self.assertEqual(fontcrunch.explicit(made), made)

    def test_most_points(self):
        late = [(0, 0, 0)] * 512 + [(0, 0, 1)]
        self.assertEqual(len(fontcrunch.explicit(late)), 1024)
        self.assert_refused(3, fontcrunch.explicit, late + [(0, 0, 1)])

    def test_a_glyph_of_a_font(self):
        contours = [points("0 0 1 100 0 1 0 100 1"), points("10 0 0 10 7 0 0 7 1")]
        data = fontcrunch.write_glyph(Glyph.of_contours(contours, b"\xb0\x03"))
        written_out = fontcrunch.write_glyph(Glyph.of_contours(map(fontcrunch.explicit, contours), b"\xb0\x03"))
        for settings in (RECORDED, Settings(closed=True), Settings(whole_units=True)):
            self.assert_refused(4, fontcrunch.crunch_glyph, data, settings)
            crunched = fontcrunch.crunch_glyph(data, settings, explicit=True)
            self.assertEqual(crunched, fontcrunch.crunch_glyph(written_out, settings))


if __name__ == "__main__":
    unittest.main()
