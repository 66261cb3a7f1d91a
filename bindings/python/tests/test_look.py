"""tools/look: what it draws, and that it says first that nothing was proved."""

import importlib.machinery
import importlib.util
import shutil
import subprocess
import sys
import unittest

import fontcrunch
from fontcrunch import Settings

from .common import TOP, Case, letter, needs, points


def loaded():
    loader = importlib.machinery.SourceFileLoader("look", str(TOP / "tools/look"))
    module = importlib.util.module_from_spec(importlib.util.spec_from_loader("look", loader))
    loader.exec_module(module)
    return module


class Drawn(Case):
    def setUp(self):
        # a file without an ending leaves its compiled text beside it
        self.addCleanup(setattr, sys, "dont_write_bytecode", sys.dont_write_bytecode)
        sys.dont_write_bytecode = True
        self.look = loaded()

    def test_inside_and_outside(self):
        straight = self.look.picture().with_implied
        # a square with a square hole, which goes the other way round
        outer, hole = points("0 0 1 0 90 1 90 90 1 90 0 1"), points("30 30 1 60 30 1 60 60 1 30 60 1")
        polygons = [self.look.polygon(contour, straight) for contour in (outer, hole)]
        inside = [self.look.winding(polygons, x, y) != 0 for x, y in ((15, 45), (45, 45), (75, 45), (100, 45), (45, 15))]
        self.assertEqual(inside, [True, False, True, False, True])

    def test_curves(self):
        straight = self.look.picture().with_implied
        places = self.look.polygon(points("0 0 1 50 100 0 100 0 1"), straight)
        self.assertIn((50.0, 50.0), places)
        self.assertEqual(len(places), 2 + self.look.PARTS - 1)


@needs(shutil.which("rt"), "the kit")
class Letter(Case):
    def test_before_and_after(self):
        done = subprocess.run([sys.executable, TOP / "tools/look"], capture_output=True, text=True)
        self.assertEqual((done.returncode, done.stderr), (0, ""))
        lines = done.stdout.splitlines()
        self.assertTrue(lines[0].startswith("NOTHING WAS PROVED"))
        after = [fontcrunch.crunch(contour, Settings(16, closed=True)).points for contour in letter()]
        counts = [sum(map(len, side)) for side in (letter(), after)]
        self.assertEqual(lines[1].split(), f"{counts[0]} points before {counts[1]} points after".split())
        self.assertEqual(lines[-1], "with its points: build/look.svg")
        self.assertTrue(all(set(line) <= set(" ▀▄█'.#") for line in lines[2:-1]))
        self.assertIn("<svg ", (TOP / "build/look.svg").read_text())


if __name__ == "__main__":
    unittest.main()
