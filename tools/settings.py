"""The settings that a comparing tool gives to both sides, in the words that the oracle, the program and the command share.

A tool calls `add` on its parser and hands `words` of its options to whatever it runs. Where the user says nothing they are the
Rust's own, by name, and never what a program takes by default.
"""

import argparse

# the Rust's penalty 1.0, in sixteenths
CRATE_PENALTY = 16

CHOICES = ("--whole-units", "--closed")

HELP = """SETTINGS  given to whatever is run:
  --penalty N    of a piece, in sixteenths; the Rust's own, 16, by default
  --whole-units  breaks on whole units
  --closed       closed mode"""

FALLEN = """
  --fallen       each answer ends with the lookups that fell past the samples"""


def add(parser):
    parser.add_argument("--penalty", type=int, default=CRATE_PENALTY, help=argparse.SUPPRESS)
    for word in CHOICES:
        parser.add_argument(word, action="store_true", help=argparse.SUPPRESS)


def add_fallen(parser):
    """For tools that compare whole answers: both sides then end each with the lookups that fell."""
    parser.add_argument("--fallen", action="store_true", help=argparse.SUPPRESS)


def chosen(options, word):
    return getattr(options, word[2:].replace("-", "_"))


def words(options):
    choices = [word for word in CHOICES if chosen(options, word)]
    counted = ["--fallen"] if getattr(options, "fallen", False) else []
    return ["--penalty", str(options.penalty), *choices, *counted]


def number(options):
    """The choices as one number: 1 for the first, 2 for the second, added up."""
    return sum(1 << place for place, word in enumerate(CHOICES) if chosen(options, word))
