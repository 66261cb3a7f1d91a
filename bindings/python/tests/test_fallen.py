"""Lookups that fell past the samples: the numbers are the oracle's, tools/oracle/cases.py."""

import math
import unittest

import fontcrunch
from fontcrunch import Chain, Crunched, Piece, Settings, Verdict
from fontcrunch._contours import words_of
from fontcrunch._entries import F64, I16, U8, U32, told
from fontcrunch._rows import SCRATCH, assembly_room, point_rows, points_room

from .common import FELL, HILL, RECORDED, STILL, Case, double, letter, points

HIGH = Settings(penalty=256, whole_units=True)
# lookups fall before it is refused by 8
REFUSED_8 = "1858 4 1 1857 4 1 -154 5 0 9 3 1 1858 508 1"
# one piece over the whole run, which no optimiser takes
BENT = Chain([Piece(0, 1821, (90.0, 0.0))], double("40891b566b74f7c1"), 1)


class Counted(Case):
    def test_every_attempt_of_a_contour(self):
        out = "-1795 -900 1 -3 7 1 64 2 0 -297 0 1 -1795 0 1"
        self.assertEqual(fontcrunch.crunch(points(FELL), HIGH), Crunched(points(out), 3641, 4))
        full = fontcrunch.crunch(points(FELL), Settings(penalty=16, whole_units=True))
        self.assertEqual((full.pairs, full.fallen), (1662572, 8))
        closed = Settings(penalty=256, whole_units=True, closed=True)
        self.assertEqual(fontcrunch.crunch(points(FELL), closed).fallen, 4)

    def test_those_of_a_run(self):
        chain = fontcrunch.chain(points(FELL), 0, HIGH)
        self.assertEqual((len(chain.pieces), chain.pairs, chain.fallen), (2, 3641, 4))
        self.assert_refused(10, fontcrunch.chain, points(FELL), 1, HIGH)

    def test_an_unchanged_contour(self):
        unchanged = fontcrunch.crunch(points(f"{FELL} -1795 -900 0 -1795 -900 1"), HIGH)
        self.assertEqual((len(unchanged.points), unchanged.pairs, unchanged.fallen), (8, 3642, 4))
        self.assertEqual(fontcrunch.crunch(points(STILL), RECORDED).fallen, 0)
        self.assertEqual(fontcrunch.chain(points(STILL), 0, RECORDED).fallen, 0)

    def test_none_in_a_letter(self):
        for contour in [*letter()[1:], points(HILL)]:
            self.assertEqual(fontcrunch.crunch(contour, RECORDED).fallen, 0)

    def test_each_edition_has_its_own(self):
        both = fontcrunch.editions(points(FELL), 256, 32, HIGH)
        self.assertEqual((both.a.fallen, both.b.fallen), (4, 8))
        one = fontcrunch.editions(points(FELL), 257, 256, HIGH)
        self.assertEqual((one.a.number, one.b.fallen), (16, 4))


class Checked(Case):
    def said(self, **fields):
        return fontcrunch.verdict(points(FELL), 0, BENT._replace(**fields), HIGH)

    def test_its_chain_alone(self):
        found = fontcrunch.chain(points(FELL), 0, HIGH)
        self.assertEqual(fontcrunch.verdict(points(FELL), 0, found, HIGH), Verdict(True, 0))
        self.assertEqual(self.said(), Verdict(True, 2))
        self.assertIs(fontcrunch.check(points(FELL), 0, BENT, HIGH), True)

    def test_what_is_measured(self):
        self.assertEqual(self.said(score=math.nextafter(BENT.score, math.inf)), Verdict(False, 2))
        self.assertEqual(self.said(score=math.nan), Verdict(False, 2))
        # its shape is at fault, so it is not
        for pieces in ([], [Piece(0, 1820, (90.0, 0.0))], [Piece(0, 1821, (90.5, 0.0))]):
            self.assertEqual(self.said(pieces=pieces), Verdict(False, 0))
        # what the chain says of its search is not looked at
        self.assertEqual(self.said(fallen=7), Verdict(True, 2))

    def test_true_where_accepted(self):
        self.assertTrue(self.said())
        self.assertFalse(self.said(score=0.0))


class NoneRefused(Case):
    """A refusal reports no lookup, also where some fell before it."""

    def report(self, line, settings, places=9, scratch=SCRATCH.rows):
        return told("crunch", *point_rows(points(line)), *words_of(settings), *points_room(places), *scratch, assembly_room(places))

    def assert_none(self, number, report):
        self.assertEqual((report.number, report.fallen), (number, 0))

    def test_crunching(self):
        self.assertEqual((self.report(FELL, HIGH).number, self.report(FELL, HIGH).fallen), (0, 4))
        for number, line in ((2, ""), (4, "0 0 0"), (5, "0 0 1 1 1 0 2 2 0"), (6, "0 0 1 32767 0 0 32767 32767 1"), (8, REFUSED_8)):
            self.assert_none(number, self.report(line, HIGH))
        # a run that falls, and then one that is refused
        self.assert_none(7, self.report(f"{FELL} 3000 -900 0 3000 2000 1", HIGH))
        self.assert_none(9, self.report(FELL, HIGH, places=4))
        self.assert_none(16, self.report(FELL, Settings(penalty=257, whole_units=True)))

    def test_chains(self):
        def report(run, places):
            rows = ((U32 * places)(), (U32 * 2)(), (F64 * 2)(), (F64 * 2)(), (U32 * 2 * 2)())
            return told("chain", *point_rows(points(FELL)), run, *words_of(HIGH), *rows, *SCRATCH.rows)

        self.assertEqual((report(0, 2).number, report(0, 2).fallen), (0, 4))
        self.assert_none(9, report(0, 1))
        self.assert_none(10, report(1, 2))

    def test_the_checker(self):
        def report(contour, penalty, controls):
            piece = ((U32 * 1)(0), (U32 * 1)(1821), (F64 * 1)(90.0), (F64 * controls)())
            return told("check", *contour, 0, penalty, 1, 0, *piece, BENT.score, *SCRATCH.rows)

        contour = point_rows(points(FELL))
        self.assertEqual((report(contour, 256, 1).accepted, report(contour, 256, 1).fallen), (1, 2))
        # rows of unequal length are not measured
        self.assert_none(0, report(contour, 256, 2))
        self.assert_none(16, report(contour, 257, 1))
        self.assert_none(1, report((*contour[:2], (U8 * 4)()), 256, 1))
        self.assert_none(2, report(((I16 * 0)(), (I16 * 0)(), (U8 * 0)()), 256, 1))


if __name__ == "__main__":
    unittest.main()
