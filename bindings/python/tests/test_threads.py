"""The same bytes whoever works: one thread, several, and rows that others have worked in."""

import concurrent.futures
import unittest

import fontcrunch
from fontcrunch import Glyph, Settings

from .common import HILL, RECORDED, STILL, Case, answer, letter, points

CONTOURS = [points(line) for line in (HILL, STILL, "7 9 1", "", "0 0 0", "0 0 1 432 433 0 410 410 1 -300 900 1")]
CONTOURS = (CONTOURS + letter()[2:]) * 6


class Threads(Case):
    def test_answers(self):
        alone = [answer(contour, RECORDED) for contour in CONTOURS]
        for threads in (1, 2, 5):
            with concurrent.futures.ThreadPoolExecutor(threads) as pool:
                spread = list(pool.map(lambda contour: answer(contour, RECORDED), CONTOURS))
            self.assertEqual(spread, alone, threads)

    def test_bytes(self):
        glyphs = [fontcrunch.write_glyph(Glyph.of_contours([contour])) for contour in [points(HILL), *letter()[2:]] * 4]
        closed = Settings(closed=True)
        alone = [fontcrunch.crunch_glyph(data, closed) for data in glyphs]
        with concurrent.futures.ThreadPoolExecutor(3) as pool:
            spread = list(pool.map(lambda data: fontcrunch.crunch_glyph(data, closed), glyphs))
        self.assertEqual(b"".join(spread), b"".join(alone))
        self.assertEqual(alone[:2] * 4, alone)


if __name__ == "__main__":
    unittest.main()
