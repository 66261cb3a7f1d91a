"""Chains that the library finds are accepted; damaged ones are not; recorded ones come out again."""

import math
import unittest

import fontcrunch
from fontcrunch import Chain, Piece, Refused, Settings

from .common import HILL, RECORDED, STILL, TOP, Case, digits, double, letter, points


def of_hill():
    return fontcrunch.chain(points(HILL), 0, RECORDED)


def accepts(chain):
    return fontcrunch.check(points(HILL), 0, chain, RECORDED)


class Found(Case):
    def test_a_known_chain(self):
        chain = of_hill()
        self.assertEqual(chain.pieces, [Piece(0, 241, (0.0, 60.0)), Piece(241, 469, (80.0, 120.0))])
        self.assertEqual((digits(chain.score), chain.pairs), ("40081ec11db47a5f", 937))
        self.assertEqual(chain.segments, ((0, 1), (1, 1)))
        self.assertTrue(accepts(chain))

    def test_those_of_a_letter(self):
        for contour in letter()[1:]:
            pairs = 0
            for run in range(len(contour)):
                try:
                    chain = fontcrunch.chain(contour, run, RECORDED)
                except Refused as refused:
                    self.assertEqual(refused.number, 10)
                    continue
                self.assertTrue(fontcrunch.check(contour, run, chain, RECORDED))
                pairs += chain.pairs
            self.assertEqual(pairs, fontcrunch.crunch(contour, RECORDED).pairs)

    def test_checked_at_the_settings_it_was_made_with(self):
        chosen = [Settings(), RECORDED, Settings(penalty=256), Settings(whole_units=True)]
        for made in chosen:
            chain = fontcrunch.chain(points(HILL), 0, made)
            for other in chosen:
                self.assertEqual(fontcrunch.check(points(HILL), 0, chain, other), other == made, (made, other))

    def test_none_where_the_contour_is_unchanged(self):
        chain = fontcrunch.chain(points(STILL), 0, RECORDED)
        self.assertEqual(chain, Chain([], 0.0, 1))
        self.assertFalse(fontcrunch.check(points(STILL), 0, chain, RECORDED))

    def test_nan_is_a_score(self):
        contour = points("0 0 1 0 1 0 0 0 1 5 50 1")
        chain = fontcrunch.chain(contour, 0, RECORDED)
        self.assertTrue(math.isnan(chain.score))
        self.assertTrue(fontcrunch.check(contour, 0, chain, RECORDED))
        self.assertFalse(fontcrunch.check(contour, 0, chain._replace(score=1.0), RECORDED))


class Damaged(Case):
    def with_piece(self, place, **fields):
        pieces = list(of_hill().pieces)
        pieces[place] = pieces[place]._replace(**fields)
        return of_hill()._replace(pieces=pieces)

    def test_a_break_off(self):
        for place, piece in enumerate(of_hill().pieces):
            for by in (1, -1):
                if piece.start + by >= 0:
                    self.assertFalse(accepts(self.with_piece(place, start=piece.start + by)))
                self.assertFalse(accepts(self.with_piece(place, end=piece.end + by)))
        self.assertFalse(accepts(self.with_piece(1, end=2**32 - 1)))
        with self.assertRaises(ValueError):
            accepts(self.with_piece(1, end=2**32 + 469))

    def test_a_control_off_by_one_unit_in_the_last_place(self):
        for place, piece in enumerate(of_hill().pieces):
            x, y = piece.control
            for toward in (math.inf, -math.inf):
                self.assertFalse(accepts(self.with_piece(place, control=(math.nextafter(x, toward), y))))
                self.assertFalse(accepts(self.with_piece(place, control=(x, math.nextafter(y, toward)))))
            self.assertFalse(accepts(self.with_piece(place, control=(math.nan, y))))

    def test_a_score_off(self):
        chain = of_hill()
        for score in (math.nextafter(chain.score, math.inf), math.nextafter(chain.score, 0.0), math.nan, -chain.score):
            self.assertFalse(accepts(chain._replace(score=score)))

    def test_pieces_missing_doubled_or_out_of_order(self):
        first, second = of_hill().pieces
        for pieces in ([], [first], [second], [first, first, second], [second, first]):
            self.assertFalse(accepts(of_hill()._replace(pieces=pieces)))

    def test_zeros_of_either_sign_are_equal_and_pairs_not_looked_at(self):
        self.assertTrue(accepts(self.with_piece(0, control=(0.0, 60.0))))
        self.assertTrue(accepts(self.with_piece(0, control=(-0.0, 60.0))))
        self.assertTrue(accepts(of_hill()._replace(pairs=0)))


class Recorded(Case):
    """crates/replay_chains: a penalty, the settings as a number, a run and a contour a line."""

    def told(self, line):
        words = line.split()
        penalty, choices, run = (int(word) for word in words[:3])
        settings = Settings(penalty=penalty, whole_units=choices & 1 == 1, closed=choices & 2 == 2)
        contour = points(" ".join(words[3:]))
        try:
            chain = fontcrunch.chain(contour, run, settings)
        except Refused as refused:
            return f"refused {refused.number}"
        if not chain.pieces:
            return f"pairs {chain.pairs} unchanged"
        pieces = " ".join(f"{p.start} {p.end} {digits(p.control[0])} {digits(p.control[1])}" for p in chain.pieces)
        other = chain._replace(score=double(digits(chain.score)) + 1.0)
        verdicts = " ".join("yes" if fontcrunch.check(contour, run, c, settings) else "no" for c in (chain, other))
        return f"pairs {chain.pairs} score {digits(chain.score)} chain {len(chain.pieces)} {pieces} ; {verdicts}"

    def test_every_line(self):
        folder = TOP / "crates/replay_chains"
        asked, recorded = ((folder / name).read_text().splitlines() for name in ("stdin", "stdout"))
        self.assertEqual([self.told(line) for line in asked], recorded)
        self.assertGreaterEqual(len(recorded), 40)


if __name__ == "__main__":
    unittest.main()
