"""Two editions of a contour: each gets what it gets alone."""

import unittest

import fontcrunch
from fontcrunch import Editions, Refused, Settings

from .common import HILL, STILL, Case, points


class TwoEditions(Case):
    def test_each_is_as_if_alone(self):
        for line in (HILL, STILL):
            for closed in (False, True):
                for a, b in ((16, 32), (32, 16), (1, 256)):
                    both = fontcrunch.editions(points(line), a, b, Settings(closed=closed))
                    alone = [fontcrunch.crunch(points(line), Settings(penalty, closed=closed)) for penalty in (a, b)]
                    self.assertEqual(both, Editions(*alone))

    def test_a_penalty_is_refused_to_its_own_edition(self):
        both = fontcrunch.editions(points(HILL), 257, 32)
        self.assertIsInstance(both.a, Refused)
        self.assertEqual(both.a.number, 16)
        self.assertEqual(both.b, fontcrunch.crunch(points(HILL), Settings(penalty=32)))

    def test_what_is_wrong_with_the_contour_is_refused_to_both(self):
        both = fontcrunch.editions([], 257, 32)
        self.assertEqual((both.a.number, both.b.number), (2, 2))


if __name__ == "__main__":
    unittest.main()
