"""What is told of a contour, against the entries and the schema."""

import importlib.util
import itertools
import json
import math

import fontcrunch
from fontcrunch import Refused, Settings

from .common import BOW, FELL, HILL, RECORDED, STILL, TOP, Case, letter, points, zigzag


def schema():
    spec = importlib.util.spec_from_file_location("trace_schema", TOP / "tools/trace/schema.py")
    module = importlib.util.module_from_spec(spec)
    spec.loader.exec_module(module)
    return module


CASES = [HILL, STILL, FELL, BOW, "", "7 9 1", "0 0 0", "0 0 1 9 9 0 5 5 0", "0 0 1 10 10 0", "0 0 1 100 0 1 50 100 0"]
ALL = [RECORDED, Settings(closed=True), Settings(48, whole_units=True), Settings(0), Settings(256, whole_units=True, closed=True)]


class Traces(Case):
    def test_every_trace_is_as_the_schema_says(self):
        faults = schema().faults
        for line, settings in itertools.product(CASES, ALL):
            told = fontcrunch.trace(points(line), settings)
            self.assertEqual(faults(json.loads(json.dumps(told))), [], (line, settings))
        self.assertEqual(faults({"malformed": "x"}), [])
        self.assertNotEqual(faults({"malformed": 1}), [])
        self.assertNotEqual(faults({**fontcrunch.trace(points("7 9 1")), "more": 1}), [])

    def test_a_trace_says_what_the_entries_say(self):
        for line, settings in itertools.product(CASES, ALL):
            contour = points(line)
            told = fontcrunch.trace(contour, settings)
            try:
                crunched = fontcrunch.crunch(contour, settings)
                self.assertEqual(told["crunch"]["points"], [[x, y, int(on)] for x, y, on in crunched.points])
                self.assertEqual((told["crunch"]["pairs"], told["crunch"]["fallen"]), (crunched.pairs, crunched.fallen))
            except Refused as refused:
                self.assertEqual(told["refused"]["number"], refused.number)
            for k, segment in enumerate(told["segments"]):
                self.assertEqual(",".join(segment["why"]), str(fontcrunch.why(contour, k)))
            for k, run in enumerate(told["runs"]):
                self.assert_run(contour, settings, k, run)
            if told["runs"]:
                self.assert_refused(10, fontcrunch.chain, contour, len(told["runs"]), settings)

    def assert_run(self, contour, settings, k, run):
        if run["came"] == "copied":
            return self.assert_refused(10, fontcrunch.chain, contour, k, settings)
        if run["came"] == "refused":
            return self.assert_refused(run["refused"]["number"], fontcrunch.chain, contour, k, settings)
        chain = fontcrunch.chain(contour, k, settings)
        self.assertEqual([piece["breaks"] for piece in run["pieces"]], [[piece.start, piece.end] for piece in chain.pieces])
        self.assertEqual([tuple(piece["segments"]) for piece in run["pieces"]], list(chain.segments))
        score = 0.0
        for piece in run["pieces"]:
            beside = piece["beside"]
            score = (score + settings.penalty / 16 * beside["penalties"]) + float(beside["measure"])
        self.assertTrue(score == chain.score or math.isnan(score) and math.isnan(chain.score))

    def test_a_hill(self):
        told = fontcrunch.trace(points(HILL))
        self.assertEqual(told["settings"]["penalty"], 16)
        first, second = told["runs"][0]["pieces"]
        self.assertEqual(first["written"], {"start": [0, 0], "control": [0, 60], "end": [40, 90]})
        self.assertEqual((first["segments"], second["segments"]), ([0, 1], [1, 1]))
        self.assertEqual((first["beside"]["penalties"], second["beside"]["penalties"]), (2, 1))
        self.assertLess(first["beside"]["distance"], 1)
        self.assertEqual(told["beside"]["lost"], [])
        self.assertAlmostEqual(told["beside"]["limit"]["degrees"], 1.146, 3)

    def test_what_refuses_a_contour_and_where(self):
        told = fontcrunch.trace(points("0 0 1 100 0 1 800 0 0 800 700 1 0 700 1"))
        self.assertEqual((told["refused"]["number"], told["runs"][0]["refused"]["number"]), (7, 7))
        self.assertEqual([run["reached"] for run in told["runs"]], [True, False])
        self.assertTrue(told["beside"]["hint"].startswith("run 0 is 1236.3 units long and has 2839 breaks, room 2048; on whole units"))
        self.assertEqual(told["runs"][0]["beside"]["on_whole_units"], 1476)

    def test_too_many_points_are_all_told(self):
        told = fontcrunch.trace(zigzag(1030))
        self.assertEqual((told["refused"]["number"], len(told["points"]), told["runs"]), (3, 1030, []))

    def test_the_letter_loses_what_lies_outside_its_corners(self):
        told = fontcrunch.trace(letter()[2])
        self.assertEqual(told["beside"]["lost"], [4, 5])
        self.assertEqual(fontcrunch.trace(letter()[2], Settings(16, closed=True))["beside"]["lost"], [])
