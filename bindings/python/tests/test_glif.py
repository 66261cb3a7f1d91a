"""Files of UFO's GLIF."""

import unittest

import fontcrunch
from fontcrunch import Settings

from .common import Case


def file(outline):
    return f'<glyph name="a"><outline>{outline}</outline><!-- kept --></glyph>'.encode()


TRIANGLE = "<contour>" + "".join(f'<point x="{x}" y="{y}" type="line"/>' for x, y in ((0, 0), (100, 0), (0, 100))) + "</contour>"


class Glif(Case):
    def test_read(self):
        two = '<contour><point x="0" y="0"/><point x="5" y="0"/><point x="5" y="9" type="qcurve"/></contour>'
        self.assertEqual(fontcrunch.read_glif(file(two)), [[(5, 9, 1), (0, 0, 0), (3, 0, 1), (5, 0, 0)]])
        self.assertEqual(fontcrunch.read_glif(file("")), [])

    def test_written_is_read_back(self):
        contours = [[(-32768, 32767, 1), (7, -7, 0)], [(1, 2, 1)]]
        written = fontcrunch.write_glif(file(TRIANGLE + TRIANGLE), contours)
        self.assertEqual(fontcrunch.read_glif(written), contours)
        self.assertTrue(written.startswith(b'<glyph name="a"><outline><contour><point ') and written.endswith(b"<!-- kept --></glyph>"))

    def test_refusals_in_their_order(self):
        def of(*, x="0", kind="line"):
            return file(f'<contour><point x="{x}" y="0" type="{kind}"/></contour>')

        for number, data in (
            (19, of(x="40000", kind="odd")),
            (20, of(x="40000.5")),
            (20, of(kind="curve")),
            (14, of(x="40000") + b"<!-- -->"),
            (21, file('<contour><point x="0" y="0"/></contour>')),
        ):
            self.assert_refused(number, fontcrunch.read_glif, data)
            self.assert_refused(number, fontcrunch.write_glif, data, [])
            self.assert_refused(number, fontcrunch.crunch_glif, data, Settings(penalty=0))
        self.assert_refused(1, fontcrunch.write_glif, file(TRIANGLE), [])
        self.assert_refused(2, fontcrunch.write_glif, file(TRIANGLE), [[]])
        self.assert_refused(16, fontcrunch.crunch_glif, file(""), Settings(penalty=0))

    def test_crunched(self):
        for settings in (Settings(), Settings(closed=True)):
            alone = fontcrunch.crunch(fontcrunch.read_glif(file(TRIANGLE))[0], settings).points
            self.assertEqual(fontcrunch.read_glif(fontcrunch.crunch_glif(file(TRIANGLE), settings)), [alone])


if __name__ == "__main__":
    unittest.main()
