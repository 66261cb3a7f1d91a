"""Wrong arguments get a sentence, in the place of an error from within."""

import unittest

import fontcrunch
from fontcrunch import Chain, Glyph, Settings

from .common import HILL, Case, points


class Wrong(Case):
    def said(self, kind, sentence, called, *given, **named):
        with self.assertRaises(kind) as caught:
            called(*given, **named)
        self.assertIn(sentence, str(caught.exception))
        # what went wrong within is not shown beside it
        self.assertTrue(caught.exception.__context__ is None or caught.exception.__suppress_context__)

    def test_points(self):
        three = "point 0 is (0, 0): a point is three numbers, x, y and a flag"
        for called in (fontcrunch.crunch, fontcrunch.clean, fontcrunch.from_cubics, fontcrunch.explicit):
            self.said(TypeError, three, called, [(0, 0)])
        self.said(TypeError, three, fontcrunch.why, [(0, 0)], 0)
        self.said(TypeError, "point 0 is 7: a point is three numbers", fontcrunch.crunch, [7])
        self.said(TypeError, "point 0 is (1.5, 0, 1): its x is 1.5, and not a whole number", fontcrunch.crunch, [(1.5, 0, 1)])
        self.said(TypeError, "point 0 is (0, 0, None): its flag is None, and not a whole number", fontcrunch.crunch, [(0, 0, None)])
        self.said(ValueError, "point 1 is (0, 40000, 1): its y does not fit 16 bits, -32768 to 32767", fontcrunch.crunch, [(0, 0, 1), (0, 40000, 1)])
        for contour in ("text", b"bytes", {}, 7, None):
            self.said(TypeError, "a contour is points, each (x, y, flag), and not ", fontcrunch.crunch, contour)

    def test_points_of_any_kind_are_taken(self):
        expected = fontcrunch.crunch(points(HILL))
        self.assertEqual(fontcrunch.crunch(iter(points(HILL))), expected)
        self.assertEqual(fontcrunch.crunch([list(point) for point in points(HILL)]), expected)

    def test_bytes(self):
        self.said(TypeError, "a file of GLIF is bytes, and not str: read it in mode 'rb', or encode the text", fontcrunch.read_glif, "text")
        self.said(TypeError, "a file of GLIF is bytes, and not str", fontcrunch.write_glif, "text", [])
        self.said(TypeError, "a file of GLIF is bytes, and not list", fontcrunch.crunch_glif, [60])
        self.said(TypeError, "a glyph description is bytes, and not str", fontcrunch.read_glyph, "00")
        self.said(TypeError, "a glyph description is bytes, and not NoneType", fontcrunch.crunch_glyph, None)
        self.said(TypeError, "a glyph description is bytes, and not int", fontcrunch.crunch_glyph, 7, explicit=True)
        self.said(TypeError, "a glyph is fontcrunch.Glyph(ends, points, instructions), and not dict", fontcrunch.write_glyph, {})
        self.said(TypeError, "instructions is bytes, and not str", fontcrunch.write_glyph, Glyph(instructions="aa"))
        self.assertEqual(fontcrunch.read_glif(bytearray(b"<glyph/>")), [])
        self.assertEqual(fontcrunch.read_glif(memoryview(b"<glyph/>")), [])

    def test_settings(self):
        sentence = "settings are fontcrunch.Settings(penalty, whole_units, closed), and not "
        self.said(TypeError, sentence + "dict: write Settings(**settings)", fontcrunch.crunch, points(HILL), {"penalty": 16})
        self.said(TypeError, sentence + "int", fontcrunch.chain, points(HILL), 0, 16)
        self.said(TypeError, sentence + "int", fontcrunch.editions, points(HILL), 16, 32, 48)
        self.said(TypeError, sentence + "str", fontcrunch.crunch_glif, b"<glyph/>", "closed")
        self.said(TypeError, sentence + "str", fontcrunch.crunch_glyph, b"", "closed")
        self.said(TypeError, "a penalty is a whole number, and not float: 1.5", fontcrunch.crunch, points(HILL), Settings(penalty=1.5))
        self.said(TypeError, "a penalty is a whole number, and not str: '16'", fontcrunch.editions, points(HILL), "16", 32)

    def test_numbers(self):
        self.said(TypeError, "the number of a run or a segment is a whole number, and not str: '0'", fontcrunch.chain, points(HILL), "0")
        self.said(ValueError, "-1 is no number of a run or a segment", fontcrunch.why, points(HILL), -1)
        self.said(ValueError, "point_room is a number of points, and not -1", fontcrunch.crunch, points(HILL), point_room=-1)
        self.said(TypeError, "point_room is a whole number, and not float: 9.0", fontcrunch.crunch_glyph, b"", point_room=9.0)

    def test_chains_and_lists(self):
        self.said(TypeError, "a chain is fontcrunch.Chain(pieces, score, pairs), and not list", fontcrunch.check, points(HILL), 0, [])
        odd = Chain([(0, 1)], 1.0, 1)
        self.said(TypeError, "piece 0 is (0, 1): a piece is fontcrunch.Piece(start, end, (x, y))", fontcrunch.check, points(HILL), 0, odd)
        self.said(ValueError, "drop 0 is (1, 4): a drop is a place and why, 1 before, 2 both or 3 first", fontcrunch.put_back, points(HILL), [(1, 4)])


if __name__ == "__main__":
    unittest.main()
