"""Contours to ask the oracle about, and what it says of them: shared by the tools that hold something to it run by run."""

import argparse
import itertools
import pathlib
import struct
import subprocess
import sys

import settings

TOP = pathlib.Path(__file__).resolve().parents[1]
ORACLE = TOP / "build/oracle/oracle"


def arguments(text):
    """The options of a tool that takes CONTOURS or --families SEED COUNT, and settings."""
    text %= {"settings": settings.HELP}
    parser = argparse.ArgumentParser(usage=argparse.SUPPRESS, description=text,
                                     formatter_class=argparse.RawDescriptionHelpFormatter)
    parser.add_argument("contours", nargs="?", help=argparse.SUPPRESS)
    parser.add_argument("--families", nargs=2, help=argparse.SUPPRESS)
    settings.add(parser)
    options = parser.parse_args()
    if (options.contours is None) == (options.families is None):
        parser.error("give CONTOURS, or --families SEED COUNT")
    return options


def source(options):
    if options.families:
        seed, count = options.families
        maker = [TOP / "tools/contours/make", "all", "--seed", seed, "--count", count]
        return subprocess.Popen(maker, stdout=subprocess.PIPE, text=True).stdout
    return sys.stdin if options.contours == "-" else open(options.contours)


def batches(options, size):
    """The contours, so many lines at a time; a last line with no line end counts."""
    lines = source(options)
    while batch := list(itertools.islice(lines, size)):
        batch[-1] = batch[-1].rstrip("\n") + "\n"
        yield batch


def tell(command, text):
    return subprocess.run(command, input=text, capture_output=True, text=True, check=True).stdout


def oracle(words, batch):
    """The oracle's answer to each contour: its line, then those of its runs."""
    answers = []
    for line in tell([ORACLE, *words], "".join(batch)).splitlines():
        if line.startswith("run "):
            answers[-1].append(line)
        else:
            answers.append([line])
    return answers


def bits(word):
    """The double of 16 hexadecimal digits."""
    return struct.unpack(">d", bytes.fromhex(word))[0]


def points(text):
    numbers = [int(word) for word in text.split()]
    return list(zip(numbers[::3], numbers[1::3], numbers[2::3]))


def close(counts, passed):
    """Prints what was met and the score, and ends the program."""
    failed = counts.pop("failed", 0)
    print(", ".join(f"{kind}: {count}" for kind, count in sorted(counts.items())))
    print(f"{passed} passed, {failed} failed")
    sys.exit(failed > 0 or passed == 0)
