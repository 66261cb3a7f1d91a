"""python3 -m fontcrunch: what it says of wrong words and files, and what it makes of a font."""

import io
import os
import pathlib
import pty
import stat
import subprocess
import sys
import tempfile
import unittest

import fontcrunch
from fontcrunch import Glyph, Settings

from .common import BOW, HILL, TOP, Case, letter, needs_fonttools, points

MODULE = str(TOP / "bindings/python")


class Command(Case):
    def setUp(self):
        held = tempfile.TemporaryDirectory()
        self.addCleanup(held.cleanup)
        self.folder = pathlib.Path(held.name)

    def run_with(self, *words, **named):
        around = {**os.environ, "PYTHONPATH": MODULE}
        words = [sys.executable, "-m", "fontcrunch", *map(str, words)]
        return subprocess.run(words, env=around, cwd=self.folder, capture_output=True, text=True, **named)

    def assert_wrong(self, said, *words):
        """One line, nothing on standard output, status 2, and nothing new in the folder."""
        before = {path: path.read_bytes() for path in self.folder.rglob("*") if path.is_file()}
        done = self.run_with(*words)
        self.assertEqual((done.returncode, done.stdout), (2, ""), done.stderr)
        self.assertEqual(len(done.stderr.splitlines()), 1, done.stderr)
        self.assertTrue(done.stderr.startswith("fontcrunch: "), done.stderr)
        self.assertIn(said, done.stderr)
        self.assertEqual({path: path.read_bytes() for path in self.folder.rglob("*") if path.is_file()}, before)


class Words(Command):
    def test_help_and_version(self):
        done = self.run_with("--help")
        self.assertEqual((done.returncode, done.stderr), (0, ""))
        self.assertIn("usage: python3 -m fontcrunch ", done.stdout)
        self.assertLess(max(map(len, done.stdout.splitlines())), 160)
        done = self.run_with("--version")
        self.assertEqual((done.returncode, done.stdout, done.stderr), (0, f"fontcrunch {fontcrunch.__version__}\n", ""))

    def test_wrong_words(self):
        self.assert_wrong("the following arguments are required: IN.ttf, OUT.ttf; see python3 -m fontcrunch --help")
        self.assert_wrong("the following arguments are required: OUT.ttf", "a.ttf")
        self.assert_wrong("unrecognized arguments: c", "a", "b", "c")
        self.assert_wrong("unrecognized arguments: --pen", "--pen", "a", "b")
        for number in ("0", "257", "-1", "16.0", "", "x", "٣"):
            self.assert_wrong("from 1 to 256", f"--penalty={number}", "a", "b")
            self.assert_wrong("from 1 to 256", f"--jobs={number}", "a", "b")

    def test_without_the_library(self):
        done = subprocess.run([sys.executable, "-m", "fontcrunch", "a.ttf", "b.ttf"], capture_output=True, text=True,
                              env={**os.environ, "PYTHONPATH": MODULE, "FONTCRUNCH_LIB_DIR": str(self.folder)})
        self.assertEqual((done.returncode, done.stdout, len(done.stderr.splitlines())), (2, "", 1), done.stderr)
        self.assertTrue(done.stderr.startswith("fontcrunch: there is no libfontcrunch.so in "), done.stderr)

    def test_without_fonttools(self):
        (self.folder / "fontTools.py").write_text("raise ImportError\n")
        around = {**os.environ, "PYTHONPATH": f"{self.folder}{os.pathsep}{MODULE}"}
        words = [sys.executable, "-m", "fontcrunch", "a.ttf", "b.ttf"]
        done = subprocess.run(words, env=around, cwd=self.folder, capture_output=True, text=True)
        self.assertEqual((done.returncode, done.stdout), (2, ""))
        self.assertIn("fontcrunch: fontTools is missing: install python3-fonttools", done.stderr)
        self.assertEqual(len(done.stderr.splitlines()), 1)


def font_of(**more):
    """The bytes of a small font: a letter, a glyph that is refused by 7, a triangle, a composite, an empty glyph."""
    from fontTools.fontBuilder import FontBuilder
    from fontTools.ttLib.tables import _g_l_y_f
    from fontTools.pens.ttGlyphPen import TTGlyphPen

    glyphs = {".notdef": _g_l_y_f.Glyph(), "space": _g_l_y_f.Glyph()}
    contours = {"g": letter()[1:], "bow": [points(BOW)], "triangle": [points("0 0 1 100 0 1 0 100 1")], "hill": [points(HILL)], **more}
    for name, held in contours.items():
        glyphs[name] = _g_l_y_f.Glyph(fontcrunch.write_glyph(Glyph.of_contours(held, b"\xb0\x00")))
        glyphs[name].expand(None)
    pen = TTGlyphPen(glyphs)
    pen.addComponent("g", (1, 0, 0, 1, 0, 0))
    pen.addComponent("hill", (1, 0, 0, 1, 900, 100))
    glyphs["both"] = pen.glyph()
    builder = FontBuilder(2048)
    builder.setupGlyphOrder(list(glyphs))
    builder.setupCharacterMap({ord("g"): "g", ord(" "): "space"})
    builder.setupGlyf(glyphs)
    builder.setupHorizontalMetrics({name: (1000, getattr(glyphs[name], "xMin", 0)) for name in glyphs})
    builder.setupHorizontalHeader(ascent=1600, descent=-400)
    builder.setupOS2()
    builder.setupPost()
    builder.font["head"].modified = builder.font["head"].created = 3_600_000_000
    builder.font.recalcTimestamp = False
    out = io.BytesIO()
    builder.save(out)
    return out.getvalue()


@needs_fonttools
class Fonts(Command):
    def setUp(self):
        super().setUp()
        self.given = self.folder / "in.ttf"
        self.given.write_bytes(font_of())

    def test_a_font(self):
        from fontTools.ttLib import TTFont

        done = self.run_with("in.ttf", "out.ttf", "--report", "report", "--svg", "picture.svg")
        self.assertEqual((done.returncode, done.stderr), (1, ""))
        self.assertIn("4 simple glyphs, 1 composite\n2 crunched, 1 as they were, 1 refused\n", done.stdout)
        self.assertIn("refused 7: ", done.stdout)
        self.assertIn("  bow\n", done.stdout)
        made = TTFont(self.folder / "out.ttf")
        expected = [fontcrunch.crunch(contour, Settings(closed=True)).points for contour in letter()[1:]]
        glyph = made["glyf"]["g"]
        self.assertEqual(list(glyph.coordinates), [(p.x, p.y) for contour in expected for p in contour])
        self.assertFalse(glyph.program.getBytecode())
        self.assertEqual(made["glyf"]["triangle"].program.getBytecode(), b"\xb0\x00")
        self.assertEqual(made["hmtx"]["g"], (1000, glyph.xMin))
        self.assertEqual([part.glyphName for part in made["glyf"]["both"].components], ["g", "hill"])
        rows = [line.split("\t") for line in (self.folder / "report").read_text().splitlines()]
        self.assertEqual({name: became for name, became, *_ in rows[1:]},
                         {"g": "crunched", "bow": "refused 7", "triangle": "as it was", "hill": "crunched", "both": "composite"})
        self.assertEqual(rows[1][2:4], [str(sum(map(len, letter()[1:]))), str(sum(map(len, expected)))])
        self.assertIn("<svg ", (self.folder / "picture.svg").read_text())
        self.assertEqual(sorted(path.name for path in self.folder.iterdir()), ["in.ttf", "out.ttf", "picture.svg", "report"])

    def test_status_0_and_whole_units(self):
        done = self.run_with("--whole-units", "in.ttf", "out.ttf", "--penalty", "64")
        self.assertEqual((done.returncode, done.stderr), (0, ""))
        self.assertNotIn("refused 7", done.stdout)

    def test_the_same_bytes_for_any_number_of_threads(self):
        for jobs in (1, 2, 5):
            self.run_with("in.ttf", f"{jobs}.ttf", "--jobs", jobs)
        self.assertEqual(len({(self.folder / f"{jobs}.ttf").read_bytes() for jobs in (1, 2, 5)}), 1)

    def test_in_place(self):
        apart = self.run_with("in.ttf", "out.ttf")
        self.given.chmod(0o640)
        (self.folder / "link.ttf").symlink_to("in.ttf")
        within = self.run_with("in.ttf", "link.ttf")
        self.assertEqual(within.stdout, apart.stdout)
        self.assertNotIn("bytes " + " " * 9 + "100.0 %", within.stdout)
        self.assertEqual(self.given.read_bytes(), (self.folder / "out.ttf").read_bytes())
        self.assertTrue((self.folder / "link.ttf").is_symlink())
        self.assertEqual(stat.S_IMODE(self.given.stat().st_mode), 0o640)
        again = self.run_with("in.ttf", "in.ttf")
        self.assertIn("0 crunched", again.stdout)

    def test_files_that_cannot_be_read(self):
        self.assert_wrong("none.ttf: no such file or directory", "none.ttf", "out.ttf")
        self.assert_wrong(".: is a directory", ".", "out.ttf")
        for name, data in (("empty", b""), ("text", b"no font at all"), ("cut", self.given.read_bytes()[:300])):
            (self.folder / name).write_bytes(data)
            self.assert_wrong(f"{name}: it is damaged, or no TrueType font: ", name, "out.ttf")

    def test_files_that_cannot_be_written(self):
        self.assert_wrong("no/out.ttf: no such file or directory", "in.ttf", "no/out.ttf")
        self.assert_wrong(".: is a folder", "in.ttf", ".")
        self.assert_wrong("/dev/null: is no file that can be replaced", "in.ttf", "/dev/null")
        self.assert_wrong("no/r: no such file or directory", "in.ttf", "out.ttf", "--report", "no/r")
        self.assert_wrong("no/s: no such file or directory", "in.ttf", "out.ttf", "--svg", "no/s")
        self.assert_wrong("named twice, for IN.ttf and for --report", "in.ttf", "out.ttf", "--report", "in.ttf")
        self.assert_wrong("named twice, for OUT.ttf and for --svg", "in.ttf", "out.ttf", "--svg", "./out.ttf")

    def test_a_damaged_glyph(self):
        from fontTools.ttLib import TTFont

        font = TTFont(self.given)
        font["glyf"].glyphs["g"] = type(font["glyf"].glyphs["g"])(b"\x00\x01" + bytes(8) + b"\x00\x09\x00\x00")
        font["glyf"].glyphs["g"].compile = lambda *_, **__: b"\x00\x01" + bytes(8) + b"\x00\x09\x00\x00"
        font["head"].xMin = 0
        font.recalcBBoxes = False
        font.save(self.folder / "damaged.ttf")
        self.assert_wrong("damaged.ttf: its glyph g is damaged: ", "damaged.ttf", "out.ttf")

    def test_fonts_that_are_turned_down(self):
        from fontTools.ttLib import TTFont, newTable

        font = TTFont(self.given)
        font["fvar"] = newTable("fvar")
        font["fvar"].axes, font["fvar"].instances = [], []
        font.save(self.folder / "variable.ttf")
        self.assert_wrong("variable.ttf: it is a variable font", "variable.ttf", "out.ttf")
        font = TTFont(self.given)
        del font["glyf"], font["loca"]
        font.save(self.folder / "bare.ttf")
        self.assert_wrong("bare.ttf: it has no glyf table", "bare.ttf", "out.ttf")

    def test_a_bar_on_a_terminal(self):
        main, other = pty.openpty()
        around = {**os.environ, "PYTHONPATH": MODULE}
        words = [sys.executable, "-m", "fontcrunch", "in.ttf", "out.ttf"]
        done = subprocess.run(words, env=around, cwd=self.folder, stdout=subprocess.PIPE, stderr=other)
        os.close(other)
        said = os.read(main, 1 << 16).decode()
        os.close(main)
        self.assertEqual(done.returncode, 1)
        self.assertIn("] 4 of 4 glyphs", said)
        # and is gone at the end
        self.assertTrue(said.endswith("\r"))
        self.assertEqual(said.rsplit("\r", 2)[1].strip(), "")


if __name__ == "__main__":
    unittest.main()
