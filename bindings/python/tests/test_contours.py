"""Whole contours: document 01's table, what is recorded of the Rust, settings, corners."""

import unittest

import fontcrunch
from fontcrunch import Crunched, Reasons, Settings

from .common import BOW, HILL, RECORDED, STILL, TOP, Case, answer, answer_and_fallen, letter, points, zigzag

CLOSED = Settings(penalty=16, closed=True)


class Table(Case):
    def crunches(self, line, pairs, out, settings=RECORDED):
        self.assertEqual(fontcrunch.crunch(points(line), settings), Crunched(points(out), pairs), line)

    def test_document_01(self):
        self.crunches("7 9 1", 0, "7 9 1")
        self.crunches("0 0 1 100 0 1 0 100 1", 0, "0 100 1 100 0 1 0 0 1")
        # the closing curve is lost
        self.crunches("0 0 1 100 0 1 50 100 0", 0, "100 0 1 0 0 1")
        # unchanged: its start stands at both ends
        self.crunches(STILL, 1, "5 5 1 5 5 1 5 5 0 5 5 1")
        # (-1, 0) between (32767, 0) twice is dropped
        self.crunches(f"{STILL} 32767 0 0 -1 0 1 32767 0 0", 1, "5 5 1 32767 0 0 32767 0 0 5 5 1 5 5 0 5 5 1")
        self.crunches(HILL, 937, "200 -40 1 130 120 1 80 120 0 0 60 0 0 0 1")

    def test_most_points(self):
        self.assertEqual(fontcrunch.crunch(zigzag(1024), RECORDED), Crunched(zigzag(1024)[::-1], 0))
        self.assert_refused(3, fontcrunch.crunch, zigzag(1025), RECORDED)

    def test_angles(self):
        def corners(line):
            contour = points(line)
            return [k for k in range(sum(p.on_curve for p in contour)) if fontcrunch.why(contour, k).is_corner]

        # tangents (100, 0) and (100, 2), (100, 0) and (99, 2), a half turn
        self.assertEqual(corners("0 0 1 100 0 1 200 2 1 300 -300 1"), [0, 2, 3])
        self.assertEqual(corners("0 0 1 100 0 1 199 2 1 300 -300 1"), [0, 1, 2, 3])
        self.assertEqual(corners("0 0 1 -50 50 0 50 50 1 -50 50 0 100 100 1"), [0, 2])

    def test_closed_mode(self):
        for line in ("7 9 1", "0 0 1 100 0 1 0 100 1"):
            self.crunches(line, 0, line, CLOSED)
        self.crunches("0 0 1 100 0 1 50 100 0", 1, "0 0 1 100 0 1 50 100 0", CLOSED)
        self.crunches(STILL, 1, STILL, CLOSED)
        far = f"{STILL} 32767 0 0 -1 0 1 32767 0 0"
        self.crunches(far, 1, far, CLOSED)


def is_contour(line):
    """Whether the line is one that the program reads (crates/lines): the recorded ones hold some that are none."""
    words = line.split(" ") if line else []
    whole = all(word.removeprefix("-").isdecimal() for word in words)
    if not whole or len(words) % 3:
        return False
    numbers = [int(word) for word in words]
    return all(-32768 <= x <= 32767 for x in numbers) and all(0 <= f <= 255 for f in numbers[2::3])


class Recorded(Case):
    def assert_recorded(self, contours, answers, settings, least, answer=answer):
        asked = [line for path in contours for line in (TOP / path).read_text().splitlines()]
        recorded = (TOP / answers).read_text().splitlines()
        self.assertEqual(len(asked), len(recorded))
        compared = 0
        for line, told in zip(asked, recorded):
            self.assertEqual(is_contour(line), told != "malformed", line[:80])
            if told != "malformed":
                self.assertEqual(answer(points(line), settings), told, line)
                compared += 1
        self.assertGreaterEqual(compared, least)

    def test_answers_of_the_rust(self):
        self.assert_recorded(["crates/fontcrunch_cli/stdin"], "crates/fontcrunch_cli/stdout", RECORDED, 800)

    def test_answers_at_other_settings(self):
        for name, settings in {
            "at-0": Settings(penalty=0),
            "at-16": RECORDED,
            "at-32": Settings(),
            "at-256": Settings(penalty=256),
            "whole-at-16": Settings(penalty=16, whole_units=True),
            "closed-at-16": CLOSED,
        }.items():
            with self.subTest(name):
                self.assert_recorded(["tools/words/contours"], f"tools/words/{name}", settings, 3)

    def test_lookups_that_fell(self):
        for name, settings in {
            "fallen-at-0": Settings(penalty=0),
            "fallen-at-32": Settings(),
            "fallen-whole-at-256": Settings(penalty=256, whole_units=True),
        }.items():
            with self.subTest(name):
                self.assert_recorded(["tools/words/contours", "tools/words/falling"], f"tools/words/{name}", settings, 12, answer_and_fallen)

    def test_letter(self):
        counts = [(len(contour), len(fontcrunch.crunch(contour, RECORDED).points)) for contour in letter()]
        self.assertEqual(counts, [(54, 43), (17, 11), (12, 8)])
        # examples/c/expected has the same
        counter = "532 995 1 778 995 0 778 748 1 778 512 0 535 512 1 419 512 0 289 630 0 289 745 1"
        self.assertEqual(fontcrunch.crunch(letter()[2], RECORDED), Crunched(points(counter), 1855))


class Chosen(Case):
    def test_names(self):
        self.assertEqual(Settings(), Settings(penalty=32, whole_units=False, closed=False))
        self.assertEqual(Settings.of_crate(), Settings(penalty=16, whole_units=False, closed=False))
        self.assertEqual((fontcrunch.DEFAULT_PENALTY, fontcrunch.CRATE_PENALTY), (32, 16))

    def test_default(self):
        hill = points(HILL)
        self.assertEqual(fontcrunch.chain(hill, 0), fontcrunch.chain(hill, 0, Settings(penalty=32)))
        self.assertNotEqual(fontcrunch.chain(hill, 0), fontcrunch.chain(hill, 0, RECORDED))

    def test_whole_units(self):
        self.assert_refused(7, fontcrunch.crunch, points(BOW))
        self.assertTrue(fontcrunch.crunch(points(BOW), Settings(whole_units=True)).points)

    def test_settings_are_no_other_numbers(self):
        with self.assertRaises(TypeError):
            fontcrunch.crunch(points(HILL), Settings(penalty=1.5))


class Given(Case):
    """What is taken for a contour."""

    def test_any_three_numbers(self):
        asked = [[0, 0, 3], (100, 0, True), (0, 100, 1)]
        for given in (asked, tuple(asked), iter(asked)):
            self.assertEqual(len(fontcrunch.crunch(given).points), 3)
        # bit 0 alone counts
        self.assert_refused(4, fontcrunch.crunch, [(0, 0, 0x40)])

    def test_coordinates_are_not_cut(self):
        for x in (32768, -32769, 65536, 2**70):
            with self.assertRaises(ValueError):
                fontcrunch.crunch([(x, 0, 1)])
            with self.assertRaises(ValueError):
                fontcrunch.crunch([(0, x, 1)])
        with self.assertRaises(TypeError):
            fontcrunch.crunch([(0.5, 0, 1)])


class Corners(Case):
    def test_reasons(self):
        self.assertEqual(fontcrunch.why(points("7 9 1"), 0), Reasons(False, False, True, True, False))
        self.assertEqual(str(fontcrunch.why(points("7 9 1"), 0)), "before,after")
        turns = points("0 0 1 0 1 1 1 1 1 2 0 1")
        self.assertEqual([str(fontcrunch.why(turns, k)) for k in range(4)], ["angle", "x,angle", "y,angle", "x,angle"])
        none = fontcrunch.why(points("0 0 1 10 10 0"), 0)
        self.assertEqual((str(none), none.is_corner), ("", False))


if __name__ == "__main__":
    unittest.main()
