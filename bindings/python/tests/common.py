"""Contours that the tests share, and what is recorded in the repository."""

import importlib.util
import pathlib
import struct
import sys
import unittest

import fontcrunch
from fontcrunch import Point, Refused, Settings

TOP = pathlib.Path(__file__).resolve().parents[3]

# what the recorded answers were recorded with: those of the Rust that this follows
RECORDED = Settings.of_crate()

# two curves with a smooth joint: run 0 has a chain of two pieces, and run 1 is a copied line
HILL = "0 0 1 0 60 0 40 90 1 80 120 0 130 120 1 200 -40 1"
# stays in one place, so that no chain is found
STILL = "5 5 1 5 5 0 5 5 1"
# on whole units some lookups of run 0 fall past its samples
FELL = "-1795 0 1 -1794 0 1 143 -4 0 -3 7 1 -1795 -900 1"
# too many breaks on half units, and not on whole ones
BOW = "0 0 1 700 0 0 700 700 1"


def points(line):
    """Points written as they are on a line: x y f x y f ..."""
    numbers = [int(word) for word in line.split()]
    return [Point(x, y, f & 1 == 1) for x, y, f in zip(numbers[::3], numbers[1::3], numbers[2::3])]


def line_of(some):
    return " ".join(f"{x} {y} {int(on_curve)}" for x, y, on_curve in some)


def letter():
    """The contours of the letter that comes with the repository."""
    return [points(line) for line in (TOP / "examples/letter.txt").read_text().splitlines()]


def zigzag(count):
    """Points of which every one is a corner."""
    return [Point(i % 512, 40 * (i % 2), True) for i in range(count)]


def answer_and_fallen(contour, settings):
    """What the program and the command answer to a contour with --fallen."""
    try:
        crunched = fontcrunch.crunch(contour, settings)
    except Refused as refused:
        return f"refused {refused.number} fallen 0"
    return f"ok {crunched.pairs} {line_of(crunched.points)} fallen {crunched.fallen}"


def answer(contour, settings):
    """What they answer without it."""
    return answer_and_fallen(contour, settings).rpartition(" fallen ")[0]


def double(digits):
    return struct.unpack(">d", bytes.fromhex(digits))[0]


def digits(value):
    """The 16 hexadecimal digits of a double's bits. All NaNs have one pattern, since which of them comes is not fixed."""
    return struct.pack(">d", float("nan") if value != value else value).hex()


def model(folder):
    """The model of a folder of tools, written from the documents without regard to the port."""
    spec = importlib.util.spec_from_file_location(f"{folder}_model", TOP / "tools" / folder / "model.py")
    module = importlib.util.module_from_spec(spec)
    spec.loader.exec_module(module)
    return module


def needs(found, what):
    """A class of tests that is passed over where something is missing, which is said in a line."""

    def around(case):
        if found:
            return case
        print(f"{case.__module__}.{case.__name__} is passed over: {what} is missing", file=sys.stderr)
        return unittest.skip(f"{what} is missing")(case)

    return around


needs_fonttools = needs(importlib.util.find_spec("fontTools"), "fontTools (Debian's python3-fonttools)")


class Case(unittest.TestCase):
    def assert_refused(self, number, called, *given, **named):
        with self.assertRaises(Refused) as caught:
            called(*given, **named)
        self.assertEqual(caught.exception.number, number)
