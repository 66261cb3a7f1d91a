"""Pens of segments and of points, alone and between pens of fontTools."""

import unittest

import fontcrunch
from fontcrunch import Settings
from fontcrunch.pens import CrunchPen, CrunchPointPen, Left

from .common import BOW, HILL, Case, letter, needs_fonttools, points

CLOSED = Settings(closed=True)


class Recording:
    """A pen that keeps what it is told."""

    def __init__(self):
        self.calls = []

    def __getattr__(self, name):
        return lambda *given, **named: self.calls.append((name, *given, *sorted(named.items())))


def draw_segments(pen, contour):
    """Draws a contour whose implied points are written out."""
    pen.moveTo(contour[0][:2])
    row = [*contour, contour[0]]
    for before, at, after in zip(row, row[1:], [*row[2:], None]):
        if not at[2]:
            pen.qCurveTo(at[:2], after[:2])
        elif before[2] and after is not None:
            pen.lineTo(at[:2])
    pen.closePath()


def draw_points(pen, contour):
    pen.beginPath()
    for before, (x, y, on_curve) in zip([contour[-1], *contour], contour):
        pen.addPoint((x, y), ("line" if before[2] else "qcurve") if on_curve else None)
    pen.endPath()


def as_points(calls):
    """The contours of what a pen of points was told."""
    contours = []
    for name, *given in calls:
        if name == "beginPath":
            contours.append([])
        elif name == "addPoint":
            contours[-1].append((*given[0], given[1] is not None))
    return contours


def as_segments(contour):
    out = Recording()
    draw_implied(out, contour)
    return out.calls


def draw_implied(pen, contour):
    """Draws a contour that leaves implied points out."""
    pen.moveTo(contour[0][:2])
    controls = []
    for x, y, on_curve in [*contour[1:], contour[0]]:
        controls.append((x, y))
        if on_curve:
            if len(controls) > 1:
                pen.qCurveTo(*controls)
            elif (x, y) != tuple(contour[0][:2]):
                pen.lineTo((x, y))
            controls = []
    pen.closePath()


class Pens(Case):
    def test_both_give_what_crunch_gives(self):
        for contour in [points(HILL), *letter()[1:]]:
            expected = fontcrunch.crunch(contour, CLOSED).points
            out = Recording()
            pen = CrunchPointPen(out)
            draw_points(pen, contour)
            self.assertEqual(as_points(out.calls), [[tuple(point) for point in expected]])
            self.assertEqual(pen.left, [])
            out = Recording()
            pen = CrunchPen(out)
            draw_segments(pen, contour)
            self.assertEqual(out.calls, as_segments(expected))
            self.assertEqual(pen.left, [])

    def test_settings_are_those_given(self):
        contour, settings = points(HILL), Settings(penalty=200, whole_units=True, closed=True)
        out = Recording()
        draw_points(CrunchPointPen(out, settings), contour)
        self.assertEqual(as_points(out.calls), [[tuple(point) for point in fontcrunch.crunch(contour, settings).points]])
        for pen in (CrunchPen, CrunchPointPen):
            with self.assertRaises(TypeError):
                pen(Recording(), {"closed": True})

    def kept(self, why, draw):
        """What is drawn is handed on as it came, by both ways of looking at it."""
        given, out = Recording(), Recording()
        draw(given)
        pen = (CrunchPointPen if given.calls[0][0] == "beginPath" else CrunchPen)(out)
        draw(pen)
        self.assertEqual(out.calls, given.calls)
        self.assertEqual([left.number for left in pen.left], [0])
        self.assertIn(why, pen.left[0].why)

    def test_what_is_handed_on_as_it_came(self):
        self.kept("refused 7: ", lambda pen: draw_points(pen, points(BOW)))
        self.kept("refused 7: ", lambda pen: draw_segments(pen, points(BOW)))
        self.kept("no fewer points", lambda pen: draw_points(pen, points("0 0 1 9 0 1 9 9 1")))
        self.kept("no fewer points", lambda pen: draw_segments(pen, points("0 0 1 9 0 1 9 9 1")))

        def of_points(*row, **named):
            def draw(pen):
                pen.beginPath(**named)
                for place, kind in row:
                    pen.addPoint(place, kind, True, name="n")
                pen.endPath()

            return draw

        self.kept("open", of_points(((0, 0), "move"), ((9, 9), "line"), identifier="i"))
        self.kept("not whole: 0.5, 0", of_points(((0.5, 0), "line"), ((9, 9), "line")))
        self.kept("not whole", of_points(((float("nan"), 0), "line"), ((9, 9), "line")))
        self.kept("16 bits: 40000, 0", of_points(((40000, 0), "line"), ((9, 9), "line")))
        self.kept("cubic", of_points(((0, 0), "line"), ((1, 1), None), ((2, 2), None), ((9, 9), "curve")))
        self.kept("refused 21: ", of_points(((0, 0), None), ((9, 9), None), ((0, 9), None)))
        self.kept("no point", of_points())

        def alone(pen):
            pen.qCurveTo((0, 0), (9, 9), (0, 9), None)
            pen.closePath()

        self.kept("refused 21: ", alone)

        def left_open(pen):
            pen.moveTo((0, 0))
            pen.lineTo((9, 9))
            pen.endPath()

        self.kept("open", left_open)

    def test_cubics(self):
        cubic = points("0 0 1 0 100 0 100 200 0 200 200 1 200 0 1")
        expected = fontcrunch.crunch(fontcrunch.from_cubics(cubic), CLOSED).points
        out = Recording()
        pen = CrunchPen(out, cubics=True)
        pen.moveTo((0, 0))
        pen.curveTo((0, 100), (100, 200), (200, 200))
        pen.lineTo((200, 0))
        pen.closePath()
        self.assertEqual(out.calls, as_segments(expected))
        out = Recording()
        pen = CrunchPointPen(out, cubics=True)
        pen.beginPath()
        # from an off-curve point on
        for place, kind in [((100, 200), None), ((200, 200), "curve"), ((200, 0), "line"), ((0, 0), "line"), ((0, 100), None)]:
            pen.addPoint(place, kind)
        pen.endPath()
        turned = points("200 200 1 200 0 1 0 0 1 0 100 0 100 200 0")
        self.assertEqual(as_points(out.calls), [[tuple(p) for p in fontcrunch.crunch(fontcrunch.from_cubics(turned), CLOSED).points]])

    def test_components_and_numbers(self):
        out = Recording()
        pen = CrunchPointPen(out)
        pen.addComponent("a", (1, 0, 0, 1, 5, 0), identifier="i")
        draw_points(pen, points(HILL))
        draw_points(pen, points(BOW))
        self.assertEqual(out.calls[0], ("addComponent", "a", (1, 0, 0, 1, 5, 0), ("identifier", "i")))
        self.assertEqual([left.number for left in pen.left], [1])
        self.assertIsInstance(pen.left[0], Left)


@needs_fonttools
class OfFontTools(Case):
    def test_a_glyph_of_a_font(self):
        from fontTools.pens.ttGlyphPen import TTGlyphPen, TTGlyphPointPen

        contours = letter()[1:]
        expected = [[(p.x, p.y, int(p.on_curve)) for p in fontcrunch.crunch(contour, CLOSED).points] for contour in contours]
        for out, pen, draw in ((TTGlyphPen(None), CrunchPen, draw_segments), (TTGlyphPointPen(None), CrunchPointPen, draw_points)):
            pen = pen(out)
            for contour in contours:
                draw(pen, contour)
            glyph = out.glyph()
            held = list(zip(*zip(*glyph.coordinates), glyph.flags))
            starts = [0, *(end + 1 for end in glyph.endPtsOfContours)]
            self.assertEqual([held[a : end + 1] for a, end in zip(starts, glyph.endPtsOfContours)], expected)

    def test_protocols_are_changed_into_each_other(self):
        from fontTools.pens.pointPen import PointToSegmentPen, SegmentToPointPen
        from fontTools.pens.recordingPen import RecordingPen

        contour = letter()[2]
        plain, by_points = RecordingPen(), RecordingPen()
        draw_segments(CrunchPen(plain), contour)
        draw_segments(SegmentToPointPen(CrunchPointPen(PointToSegmentPen(by_points))), contour)
        self.assertEqual(by_points.value, plain.value)


if __name__ == "__main__":
    unittest.main()
