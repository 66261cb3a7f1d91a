"""The order of refusals: docs/REFUSALS.md and the header say the same, and two neighbours that hold together are run against
each other."""

import re
import unittest

import fontcrunch
from fontcrunch import Glyph, _entries
from fontcrunch._entries import F64, I16, SIZE, U8, U16, U32, told
from fontcrunch._rows import SCRATCH, assembly_room, point_rows, points_room, row_of

from .common import BOW, HILL, STILL, TOP, Case, points, zigzag

PAGE = (TOP / "docs/REFUSALS.md").read_text()
HEADER = (TOP / "include/fontcrunch.h").read_text()

# more than 16,384 samples, more than 2,048 breaks, a sample past the last, by their first run
LONG, MANY, PAST = "0 0 1 32767 0 0 32767 32767 1", BOW, "0 0 1 432 433 0 410 410 1 -300 900 1"
UNEVEN_EMPTY = ((I16 * 1)(), (I16 * 0)(), (U8 * 0)())
EMPTY = ((I16 * 0)(), (I16 * 0)(), (U8 * 0)())


def orders():
    """The order of each entry, as the table has it."""
    return dict(re.findall(r"^\| `fontcrunch_(\w+)` \| ([\d ()\[\]]+) \|", PAGE, re.M))


def off(count):
    """Points that are all off-curve: 4 and 5 hold, and with more than 1,024 of them 3."""
    return point_rows([(0, 0, 0)] * count)


def rows(line):
    return point_rows(points(line))


class Papers(Case):
    def test_each_entry_has_a_row(self):
        self.assertEqual(set(orders()), set(_entries.SIGNATURES))

    def test_the_header_says_the_same(self):
        # the comment before a declaration, and one before its report where that stands between
        for name, order in orders().items():
            before = HEADER[: HEADER.index(f" fontcrunch_{name}(\n")]
            said = re.findall(r"Refusals(?: of each edition)?, in this order: ([\d ()\[\]]+)\.", before)
            self.assertEqual(said[-1], order, name)
        self.assertEqual(len(re.findall(r"in this order: \d", HEADER)), len(orders()))

    def test_numbers_are_those_of_the_header(self):
        of_page = {int(n): name for n, name in re.findall(r"^\| (\d+) \| `(\w+)` \|", PAGE, re.M)}
        of_header = {int(n): name for name, n in re.findall(r"^    FONTCRUNCH_(\w+) = (\d+),?$", HEADER.split("/* Why a point", 1)[0], re.M)}
        del of_header[0]
        self.assertEqual(of_page, of_header)

    def test_names_are_those_of_rust(self):
        of_page = dict(re.findall(r"^\| (\d+) \| `\w+` \| `(\w+)` \|", PAGE, re.M))
        source = (TOP / "bindings/rust/src/refusal.rs").read_text()
        self.assertEqual(of_page, {n: name for name, n in re.findall(r"Refusal::(\w+) => (\d+),", source)})

    def test_definitions_are_there(self):
        for entry, cell in re.findall(r"^\| `fontcrunch_(\w+)` \|[^|]*\|([^|]*)\|", PAGE, re.M):
            for path in re.findall(r"`(\w+/specs/\w+)`", cell):
                self.assertTrue((TOP / "crates" / f"{path}.antt").is_file(), f"{entry}: {path}")
            for path, name in re.findall(r"`(\w+/specs/\w+)`, `(\w+)`", cell):
                self.assertIn(f" {name} ", (TOP / "crates" / f"{path}.antt").read_text(), f"{entry}: {path}")


class Run(Case):
    """For each entry inputs of which two neighbours of its order hold, and which of them is given."""

    def number(self, name, given):
        report = told(name, *given)
        return (report.a if name == "editions" else report).number

    def assert_order(self, name, pairs):
        """Each pair is (the earlier number, the later one, what is handed to the entry); they are the table's neighbours. None is
        handed where the two do not hold together."""
        of_table = [int(n) for n in re.findall(r"\d+", orders()[name])]
        self.assertEqual([(a, b) for a, b, _ in pairs], list(zip(of_table, of_table[1:])), name)
        for earlier, later, given in pairs:
            if given is not None:
                self.assertEqual(self.number(name, given), earlier, f"{name}: {earlier} before {later}")

    def first_five(self, after, rest):
        """The pairs from 1 to 5 and to `after`. A contour of no point has neither too many nor a first, and 2 is held against what
        the rest gives."""
        contours = UNEVEN_EMPTY, EMPTY, off(1025), off(2), point_rows([(0, 0, 1), (0, 0, 0), (0, 0, 0)])
        return [(a, b, (*contour, *rest)) for a, b, contour in zip((1, 2, 3, 4, 5), (2, 3, 4, 5, after), contours)]

    def crunching(self, name, settings, room):
        """What follows a contour in a call of crunch or editions, with rows of so many points."""
        own = (*SCRATCH.rows[2:], assembly_room(room), *points_room(room))
        if name == "crunch":
            return (*settings, *points_room(room), *SCRATCH.rows, assembly_room(room))
        again = ((F64 * 3 * 4096)(), (U32 * 4096)(), assembly_room(room), *points_room(room))
        return (settings[0], settings[0], *settings[1:], *SCRATCH.rows[:2], *own, *again)

    def test_crunch_and_editions(self):
        for name in ("crunch", "editions"):
            none, good = self.crunching(name, (0, 0, 0), 0), self.crunching(name, (16, 0, 0), 0)
            self.assert_order(name, [
                *self.first_five(16, none),
                (16, 6, (*rows(LONG), *none)),
                # of the numbers in parentheses the first met; each before the 9 of rows of no place
                (6, 7, (*rows(LONG), *good)),
                (7, 8, (*rows(MANY), *good)),
                (8, 9, (*rows(PAST), *good)),
            ])
            seven_then_six = rows(f"{MANY} 32767 700 0 32767 -32768 1 0 0 1")
            self.assertEqual(self.number(name, (*seven_then_six, *good)), 7)
            self.assertEqual(self.number(name, (*rows(STILL), *good)), 9)

    def test_chain(self):
        def rest(penalty, run, room):
            return (run, penalty, 0, 0, *((U32 * room)(), (U32 * room)(), (F64 * room)(), (F64 * room)(), (U32 * 2 * room)()), *SCRATCH.rows)

        self.assert_order("chain", [
            *self.first_five(16, rest(0, 99, 0)),
            (16, 10, (*rows(LONG), *rest(0, 99, 0))),
            (10, 6, (*rows(LONG), *rest(16, 99, 0))),
            (6, 7, (*rows(LONG), *rest(16, 0, 0))),
            (7, 8, (*rows(MANY), *rest(16, 0, 0))),
            (8, 9, (*rows(PAST), *rest(16, 0, 0))),
        ])
        self.assertEqual(told("chain", *rows(HILL), *rest(16, 0, 0)).number, 9)

    def test_check(self):
        def rest(penalty, run, samples=SCRATCH.rows[0], breaks=SCRATCH.rows[1]):
            chain = (row_of(U32, [1]), row_of(U32, [0]), row_of(F64, [0.0]), row_of(F64, [0.0]))
            return (run, penalty, 0, 0, *chain, 1.0, samples, breaks, *SCRATCH.rows[2:])

        few_samples, few_breaks = (F64 * 4 * 3)(), (F64 * 6 * 1)()
        self.assert_order("check", [
            *self.first_five(16, rest(0, 99)),
            (16, 10, (*rows(HILL), *rest(0, 99, few_samples, few_breaks))),
            (10, 6, (*rows(HILL), *rest(16, 99, few_samples, few_breaks))),
            (6, 7, (*rows(HILL), *rest(16, 0, few_samples, few_breaks))),
            # 8 is met as the pieces of a good shape are measured, for which all breaks are needed
            (7, 8, None),
        ])
        # a fault of shape comes after 7, and is no refusal
        self.assertEqual(told("check", *rows(HILL), *rest(16, 0, breaks=few_breaks)).number, 7)
        self.assertEqual(told("check", *rows(HILL), *rest(16, 0)).number, 0)

    def test_why(self):
        self.assert_order("why", self.first_five(11, (99,)))
        self.assertEqual(told("why", *rows(HILL), 99).number, 11)

    def test_clean_and_drop_idle(self):
        none = (*points_room(0), (U32 * 2 * 0)())
        for entry, line in (("clean", "0 0 1 0 0 1"), ("drop_idle", "0 0 1 0 0 0")):
            self.assert_order(entry, [*self.first_five(18, none), (18, 9, (*rows(line), *none))])

    def test_put_back(self):
        none = ((U32 * 2 * 1025)(), *points_room(0))
        for entry in ("put_back", "put_back_idle"):
            self.assert_order(entry, [(1, 2, (*UNEVEN_EMPTY, *none)), (2, 3, (*EMPTY, *none)), (3, 9, (*rows("0 0 1"), *none))])

    def test_from_cubics(self):
        none = points_room(0)
        ends = "-32768 0 1 32767 0 0 32767 0 0 -32768 0 1"
        self.assert_order("from_cubics", [
            (1, 2, (*UNEVEN_EMPTY, *none)),
            # 4 speaks of a first point, so that it never holds beside 2
            (2, 4, (*EMPTY, *none)),
            (4, 5, (*off(1), *none)),
            (5, 3, (*point_rows([*zigzag(1025), (0, 0, 0)]), *none)),
            (3, 17, (*point_rows([*points(ends), *zigzag(1025)]), *none)),
            (17, 9, (*rows(ends), *none)),
        ])

    def test_explicit(self):
        none = points_room(0)
        self.assert_order("explicit", [
            (1, 2, (*UNEVEN_EMPTY, *none)),
            (2, 21, (*EMPTY, *none)),
            (21, 3, (*off(2000), *none)),
            (3, 9, (*point_rows(zigzag(1025)), *none)),
        ])

    def test_read_glyph(self):
        none = ((U16 * 0)(), *points_room(0), (U8 * 0)())
        composite = bytes.fromhex("ffff")
        # ends 1 and 1; two points whose x goes to 32767 and then on
        far = bytes.fromhex("0002" "0000000000000000" "00010001" "0000" "2121" "7fff7fff")
        self.assert_order("read_glyph", [
            (15, 12, (row_of(U8, composite), *none)),
            (12, 13, (row_of(U8, far[:-1]), *none)),
            (13, 14, (row_of(U8, far), *none)),
            (14, 9, (row_of(U8, far.replace(bytes.fromhex("00010001"), bytes.fromhex("00000001"))), *none)),
        ])

    def test_write_glyph(self):
        none = (U8 * 0)()
        far = points("-32768 0 1 32767 0 1 0 0 1")

        def given(ends, contour):
            return (row_of(U16, ends), *contour, row_of(U8, b""), none)

        self.assert_order("write_glyph", [
            (1, 12, given([9, 9], ((I16 * 1)(), (I16 * 2)(), (U8 * 2)()))),
            (12, 13, given([9, 9], point_rows(far))),
            (13, 14, given([2, 2], point_rows(far))),
            (14, 9, given([2], point_rows(far))),
        ])

    def glyph(self, *contours):
        return row_of(U8, fontcrunch.write_glyph(Glyph.of_contours(contours)))

    def test_crunch_glyph(self):
        def rest(penalty, room, out=0, ends=2, assembled=None):
            glyph = ((U16 * ends)(), *points_room(room), (U8 * 0)())
            return (penalty, 0, 0, (U8 * out)(), *glyph, *SCRATCH.rows, assembly_room(room if assembled is None else assembled))

        far = bytes.fromhex("0002" "0000000000000000" "00010001" "0000" "2121" "7fff7fff")
        many = self.glyph([(0, 0, 0)] * 1025)
        apart = self.glyph(points("-32767 0 1 0 0 1"), points("32767 0 1"))
        self.assert_order("crunch_glyph", [
            (15, 12, (row_of(U8, b"\xff\xff"), *rest(0, 0))),
            (12, 13, (row_of(U8, far[:-1]), *rest(0, 0))),
            (13, 14, (row_of(U8, far), *rest(0, 0))),
            (14, 9, (row_of(U8, far.replace(bytes.fromhex("00010001"), bytes.fromhex("00000001"))), *rest(0, 0))),
            # no contour that was read has rows of unequal length, or no point: 9 is held against 3
            (9, 1, (many, *rest(0, 0))),
            (1, 2, None),
            (2, 3, None),
            (3, 4, (many, *rest(0, 1025))),
            (4, 5, (self.glyph([(0, 0, 0)] * 2), *rest(0, 9))),
            (5, 16, (self.glyph([(0, 0, 1), (0, 0, 0), (0, 0, 0)]), *rest(0, 9))),
            (16, 6, (self.glyph(points(LONG)), *rest(0, 9))),
            (6, 7, (self.glyph(points(LONG)), *rest(16, 9, assembled=0))),
            (7, 8, (self.glyph(points(MANY)), *rest(16, 9, assembled=0))),
            (8, 9, (self.glyph(points(PAST)), *rest(16, 9, assembled=0))),
            (9, 16, (self.glyph(points("7 9 1")), *rest(16, 9, assembled=0))),
            (16, 14, (self.glyph(), *rest(0, 9))),
            (14, 9, (apart, *rest(16, 9))),
        ])
        self.assertEqual(told("crunch_glyph", self.glyph(), *rest(16, 9)).number, 9)

    GLIF = "<glyph><outline>{}</outline></glyph>"
    DOT = "<contour><point x='0' y='0' type='line'/></contour>"
    BAD = {
        19: "<contour><point x='a' y='0' type='line'/></contour>",
        20: "<contour><point x='0.5' y='0' type='line'/></contour>",
        14: "<contour><point x='40000' y='0' type='line'/></contour>",
        21: "<contour><point x='0' y='0'/></contour>",
    }

    def file(self, *numbers, more=""):
        return row_of(U8, self.GLIF.format("".join(self.BAD[n] for n in numbers) + more).encode())

    def drawn(self, contour):
        """A file of one contour."""
        return row_of(U8, fontcrunch.write_glif(self.GLIF.format(self.DOT).encode(), [contour]))

    def test_read_glif(self):
        none = ((U16 * 0)(), *points_room(0), (SIZE * 3 * 0)())
        self.assert_order("read_glif", [
            (19, 20, (self.file(20, 19), *none)),
            (20, 14, (self.file(14, 20), *none)),
            (14, 21, (self.file(21, 14), *none)),
            (21, 9, (self.file(21), *none)),
        ])

    def test_write_glif(self):
        none, uneven, good = (U8 * 0)(), ((I16 * 1)(), (I16 * 0)(), (U8 * 0)()), self.drawn([(0, 0, 1)])
        self.assert_order("write_glif", [
            (19, 20, (self.file(20, 19), row_of(U16, []), *uneven, none)),
            (20, 14, (self.file(14, 20), row_of(U16, []), *uneven, none)),
            (14, 21, (self.file(21, 14), row_of(U16, []), *uneven, none)),
            (21, 1, (self.file(21), row_of(U16, []), *uneven, none)),
            (1, 2, (good, row_of(U16, [0, 0]), *rows("0 0 1"), none)),
            (2, 9, (self.file(more=2 * self.DOT), row_of(U16, [0, 0]), *rows("0 0 1"), none)),
        ])

    def test_crunch_glif(self):
        def rest(penalty, room, out=0, assembled=None):
            read_into = ((U16 * 2)(), *points_room(room), (SIZE * 3 * room)())
            return (penalty, 0, 0, (U8 * out)(), *read_into, *SCRATCH.rows, assembly_room(room if assembled is None else assembled))

        many = self.drawn(zigzag(1025))
        none = row_of(U8, self.GLIF.format("").encode())
        self.assert_order("crunch_glif", [
            (19, 20, (self.file(20, 19), *rest(0, 0))),
            (20, 14, (self.file(14, 20), *rest(0, 0))),
            (14, 21, (self.file(21, 14), *rest(0, 0))),
            (21, 9, (self.file(21), *rest(0, 0))),
            (9, 1, (many, *rest(0, 0))),
            # what is read of a file is refused by none of 1, 2, 4 and 5
            (1, 2, None),
            (2, 3, None),
            (3, 4, (many, *rest(0, 1025))),
            (4, 5, None),
            (5, 16, None),
            (16, 6, (self.drawn(points(LONG)), *rest(0, 9))),
            (6, 7, (self.drawn(points(LONG)), *rest(16, 9, assembled=0))),
            (7, 8, (self.drawn(points(MANY)), *rest(16, 9, assembled=0))),
            (8, 9, (self.drawn(points(PAST)), *rest(16, 9, assembled=0))),
            (9, 16, (self.drawn(points("7 9 1")), *rest(16, 9, assembled=0))),
            # more than 65,536 new points need as many places: bindings/rust/src/glif/tests.rs has them
            (16, 14, (none, *rest(0, 9))),
            (14, 9, None),
        ])
        self.assertEqual(told("crunch_glif", none, *rest(16, 9)).number, 9)


if __name__ == "__main__":
    unittest.main()
