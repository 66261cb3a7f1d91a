"""Every refusal, by each function that gives it, their order and their sentences; rows that the functions never lend, by the entries."""

import pathlib
import pickle
import re
import unittest

import fontcrunch
from fontcrunch import Chain, Glyph, Piece, Refused, Settings
from fontcrunch._entries import F64, I16, U8, U32, told
from fontcrunch._rows import SCRATCH, assembly_room, point_rows, points_room

from .common import BOW, HILL, RECORDED, STILL, TOP, Case, points, zigzag

SOME_CHAIN = Chain([Piece(0, 1, (0.0, 0.0))], 1.0, 1)
NEIGHBOURS = "0 0 1 1 1 0 2 2 0"
PAST = "0 0 1 432 433 0 410 410 1 -300 900 1"


class ByNumber(Case):
    def of_contours(self, number, contour):
        """Every function that takes a contour, at a penalty of 0 and an index that there is not, which come after 1 to 5."""
        none = Settings(penalty=0)
        self.assert_refused(number, fontcrunch.crunch, contour, none)
        self.assert_refused(number, fontcrunch.chain, contour, 7, none)
        self.assert_refused(number, fontcrunch.check, contour, 7, SOME_CHAIN, none)
        self.assert_refused(number, fontcrunch.why, contour, 2000)
        self.assert_refused(number, fontcrunch.clean, contour)
        self.assert_refused(number, fontcrunch.drop_idle, contour)

    def of_run_0(self, number, line):
        self.assert_refused(number, fontcrunch.crunch, points(line), RECORDED)
        self.assert_refused(number, fontcrunch.chain, points(line), 0, RECORDED)

    def test_2_to_5(self):
        self.of_contours(2, [])
        self.of_contours(3, [(0, 0, 0)] * 1025)
        self.of_contours(4, points("0 0 0 1 1 0 2 2 0"))
        self.of_contours(5, points(NEIGHBOURS))

    def test_6_to_8_by_the_first_run(self):
        self.of_run_0(6, "0 0 1 32767 0 0 32767 32767 1")
        self.of_run_0(7, BOW)
        self.of_run_0(8, PAST)
        both = points(f"{BOW} 32767 700 0 32767 -32768 1 0 0 1")
        self.assert_refused(7, fontcrunch.crunch, both, RECORDED)
        self.assert_refused(6, fontcrunch.chain, both, 1, RECORDED)

    def test_9_last(self):
        # five points, and an implied one, which counts
        self.assert_refused(9, fontcrunch.crunch, points(HILL), RECORDED, point_room=5)
        self.assertEqual(len(fontcrunch.crunch(points(HILL), RECORDED, point_room=6).points), 5)
        self.assert_refused(7, fontcrunch.crunch, points(BOW), RECORDED, point_room=0)

    def test_10_and_11(self):
        for run in (1, 2, 2**64, 10**30):
            self.assert_refused(10, fontcrunch.chain, points(HILL), run)
            self.assert_refused(10, fontcrunch.check, points(HILL), run, SOME_CHAIN)
            self.assert_refused(11, fontcrunch.why, points("7 9 1"), run)
        for below in (fontcrunch.chain, fontcrunch.why):
            with self.assertRaises(ValueError):
                below(points(HILL), -1)

    def test_16_after_5_and_before_10(self):
        for penalty in (0, 257, 2**32 + 16, -1, 10**30):
            none = Settings(penalty=penalty)
            self.assert_refused(16, fontcrunch.crunch, points(BOW), none)
            self.assert_refused(16, fontcrunch.chain, points(HILL), 7, none)
            self.assert_refused(16, fontcrunch.check, points(HILL), 7, SOME_CHAIN, none)
            self.assert_refused(5, fontcrunch.crunch, points(NEIGHBOURS), none)
        for penalty in (1, 256):
            self.assertTrue(fontcrunch.crunch(points(HILL), Settings(penalty=penalty)).points)

    def test_cubics(self):
        self.assert_refused(2, fontcrunch.from_cubics, [])
        self.assert_refused(4, fontcrunch.from_cubics, points("0 0 0"))
        self.assert_refused(5, fontcrunch.from_cubics, points("0 0 1 1 1 0"))
        self.assert_refused(3, fontcrunch.from_cubics, zigzag(1025))
        self.assert_refused(17, fontcrunch.from_cubics, points("-32768 0 1 32767 0 0 32767 0 0 -32768 0 1"))

    def test_explicit(self):
        self.assert_refused(2, fontcrunch.explicit, [])
        self.assert_refused(21, fontcrunch.explicit, points("0 0 0"))
        self.assert_refused(21, fontcrunch.explicit, [(0, 0, 0)] * 2000)
        self.assert_refused(3, fontcrunch.explicit, zigzag(1025))

    def test_glyphs(self):
        square = Glyph([3], points("0 0 1 0 300 1 -40 300 0 -32768 -1 1"))
        data = fontcrunch.write_glyph(square)
        for n in range(len(data)):
            self.assert_refused(12, fontcrunch.read_glyph, data[:n])
        self.assert_refused(15, fontcrunch.read_glyph, b"\xff\xff")
        self.assert_refused(15, fontcrunch.crunch_glyph, b"\xff\xff", Settings(penalty=0))
        falling = bytearray(fontcrunch.write_glyph(Glyph([1, 3], square.points)))
        falling[11] = 3
        self.assert_refused(13, fontcrunch.read_glyph, bytes(falling))
        self.assert_refused(12, fontcrunch.read_glyph, bytes(falling[:-1]))
        self.assert_refused(12, fontcrunch.write_glyph, Glyph([4], square.points))
        self.assert_refused(13, fontcrunch.write_glyph, Glyph([2, 2], square.points))
        self.assert_refused(14, fontcrunch.write_glyph, Glyph([1], points("-32768 0 1 32767 0 1")))
        self.assert_refused(14, fontcrunch.write_glyph, Glyph(instructions=bytes(65536)))

    def test_glyphs_by_their_first_contour(self):
        def of(*lines, **named):
            return fontcrunch.write_glyph(Glyph.of_contours(map(points, lines))), Settings(**named)

        self.assert_refused(4, fontcrunch.crunch_glyph, *of("0 0 0 9 9 1", NEIGHBOURS, penalty=0))
        self.assert_refused(5, fontcrunch.crunch_glyph, *of(NEIGHBOURS, "0 0 0 9 9 1"))
        self.assert_refused(7, fontcrunch.crunch_glyph, *of(BOW, NEIGHBOURS))
        # no contour: the penalty is looked at all the same
        self.assert_refused(16, fontcrunch.crunch_glyph, *of(penalty=257))
        # each is fine, and reversed they are too far apart
        self.assert_refused(14, fontcrunch.crunch_glyph, *of("-32767 0 1 0 0 1", "32767 0 1"))
        self.assert_refused(9, fontcrunch.crunch_glyph, *of(STILL), point_room=0)

    def test_glyphs_with_implied_points_written_out(self):
        def refused(number, contours, **named):
            data = fontcrunch.write_glyph(Glyph.of_contours(contours))
            self.assert_refused(number, fontcrunch.crunch_glyph, data, Settings(**named), explicit=True)

        self.assert_refused(15, fontcrunch.crunch_glyph, b"\xff\xff", explicit=True)
        # the first contour that is refused, before the penalty
        refused(21, [points("0 0 0 9 9 0"), zigzag(1025)], penalty=0)
        refused(3, [zigzag(1025), points("0 0 0 9 9 0")], penalty=0)
        # turned, a difference is outside 16 bits; and more than 65,536 points
        refused(14, [points("-30000 0 0 0 0 1 30000 0 1")], penalty=0)
        refused(14, [[(0, 0, 0)] * 512 + [(0, 0, 1)]] * 65, penalty=0)
        refused(16, [points("0 0 0 9 9 1")], penalty=0)
        refused(7, [points("0 0 0 9 9 1"), points(BOW)])


class ByEntries(Case):
    """Rows of lengths that the functions never lend."""

    def test_1_before_all(self):
        xs, ys, flags = point_rows(points(HILL))
        for rows in ((xs, ys, (U8 * 5)()), (xs, (I16 * 0)(), flags), ((I16 * 7)(), ys, flags)):
            out, rest = points_room(0), (*SCRATCH.rows, assembly_room(0))
            self.assertEqual(told("crunch", *rows, 0, 0, 0, *out, *rest).number, 1)
            self.assertEqual(told("why", *rows, 9).number, 1)
            self.assertEqual(told("clean", *rows, *out, (U32 * 2 * 0)()).number, 1)
            self.assertEqual(told("put_back", *rows, (U32 * 2 * 0)(), *out).number, 1)
            self.assertEqual(told("drop_idle", *rows, *out, (U32 * 2 * 0)()).number, 1)
            self.assertEqual(told("put_back_idle", *rows, (U32 * 2 * 0)(), *out).number, 1)
            self.assertEqual(told("from_cubics", *rows, *out).number, 1)
            self.assertEqual(told("explicit", *rows, *out).number, 1)

    def test_9_of_chains_and_cleaning(self):
        hill = point_rows(points(HILL))
        for places, spans in ((1, 2), (2, 1), (2, 2)):
            chain = ((U32 * places)(), (U32 * 2)(), (F64 * 2)(), (F64 * 2)(), (U32 * 2 * spans)())
            report = told("chain", *hill, 0, 16, 0, 0, *chain, *SCRATCH.rows)
            self.assertEqual((report.number, report.pieces), (0, 2) if places == spans else (9, 0))
        self.assertEqual(told("clean", *hill, *points_room(5), (U32 * 2 * 0)()).number, 9)

    def test_9_of_implied_points_written_out(self):
        arch = point_rows(points("3 -3 0 8 0 1 0 0 1 0 0 0"))
        for rooms in ((5, 5, 5), (4, 5, 5), (5, 4, 5), (5, 5, 4), (0, 9, 9)):
            out = ((I16 * rooms[0])(*[7] * rooms[0]), (I16 * rooms[1])(*[7] * rooms[1]), (U8 * rooms[2])(*[7] * rooms[2]))
            report = told("explicit", *arch, *out)
            if min(rooms) == 5:
                self.assertEqual((report.number, report.points, out[0][:], out[2][:]), (0, 5, [8, 0, 0, 2, 3], [1, 1, 0, 1, 0]))
            else:
                self.assertEqual((report.number, report.points), (9, 0))
                self.assertEqual([set(row) - {7} for row in out], [set()] * 3)

    def test_18_before_9(self):
        twice = point_rows(points("0 0 1 0 0 1"))
        self.assertEqual(told("clean", *twice, *points_room(0), (U32 * 2 * 0)()).number, 18)
        self.assertEqual(told("clean", *twice, *points_room(0), (U32 * 2 * 1)()).number, 9)
        self.assertEqual(told("clean", *twice, *points_room(1), (U32 * 2 * 1)()).number, 0)
        idle = point_rows(points("0 0 1 0 0 0"))
        self.assertEqual(told("drop_idle", *idle, *points_room(0), (U32 * 2 * 0)()).number, 18)
        self.assertEqual(told("drop_idle", *idle, *points_room(0), (U32 * 2 * 1)()).number, 9)
        self.assertEqual(told("drop_idle", *idle, *points_room(1), (U32 * 2 * 1)()).number, 0)

    def test_no_room_for_samples_and_breaks(self):
        hill, out = point_rows(points(HILL)), (*points_room(9),)
        samples, breaks, answers, links = SCRATCH.rows
        short = (F64 * 4 * 9)(), (F64 * 6 * 9)()
        self.assertEqual(told("crunch", *hill, 16, 0, 0, *out, short[0], breaks, answers, links, assembly_room(9)).number, 6)
        self.assertEqual(told("crunch", *hill, 16, 0, 0, *out, samples, short[1], answers, links, assembly_room(9)).number, 7)

    def test_a_row_of_another_type_is_not_lent(self):
        with self.assertRaises(Exception) as caught:
            told("why", (U8 * 1)(), (I16 * 1)(), (U8 * 1)(), 0)
        self.assertEqual(type(caught.exception).__name__, "ArgumentError")


class Sentences(Case):
    def of_rust(self):
        """The sentences of the Rust crate by their numbers, read off its text."""
        source = (TOP / "bindings/rust/src/refusal.rs").read_text()
        names = dict(re.findall(r"Refusal::(\w+) => (\d+),", source))
        sentences = dict(re.findall(r'Refusal::(\w+) => \{?\s*"([^"]*)"', source))
        self.assertEqual(set(names), set(sentences))
        return {int(number): sentences[name] for name, number in names.items()}

    def test_those_of_the_rust_crate(self):
        sentences = self.of_rust()
        self.assertGreaterEqual(len(sentences), 18)
        for number, sentence in sentences.items():
            self.assertEqual(Refused(number).sentence, sentence)
            self.assertEqual(str(Refused(number)), f"refused {number}: {sentence}")
        unknown = Refused(max(sentences) + 1).sentence
        self.assertNotIn(unknown, sentences.values())
        self.assertEqual(Refused(10**9).sentence, unknown)

    def test_those_of_the_header(self):
        header = (TOP / "include/fontcrunch.h").read_text()
        table = header[header.index("fontcrunch_reason(uint32_t number)") :].split("\n}\n", 1)[0]
        sentences = dict(re.findall(r'case FONTCRUNCH_(\w+):\s+return "([^"]*)";', table))
        self.assertEqual(sentences.pop("OK"), "nothing is refused")
        names = dict(re.findall(r"^    FONTCRUNCH_(\w+) = (\d+),?$", header.split("/* Why a point", 1)[0], re.M))
        self.assertEqual({int(names[name]): said for name, said in sentences.items()}, self.of_rust())
        self.assertEqual(re.search(r'default: return "([^"]*)";', table)[1], Refused(10**9).sentence)

    def test_numbers_of_the_header(self):
        header = (TOP / "include/fontcrunch.h").read_text()
        numbers = {int(n) for n in re.findall(r"^    FONTCRUNCH_\w+ = (\d+),?$", header.split("/* Why a point", 1)[0], re.M)}
        self.assertEqual(numbers - {0}, set(self.of_rust()))

    def test_a_refusal_goes_to_another_process(self):
        again = pickle.loads(pickle.dumps(Refused(4)))
        self.assertEqual((again.number, str(again)), (4, str(Refused(4))))


if __name__ == "__main__":
    unittest.main()
