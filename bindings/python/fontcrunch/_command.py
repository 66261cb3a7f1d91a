"""The command python3 -m fontcrunch."""

from __future__ import annotations

import argparse
import contextlib
import os
import signal
import sys
from typing import Any, Iterable, NoReturn

from ._contours import DEFAULT_PENALTY, Settings
from ._files import Outlet
from ._refusal import Refused
from ._version import __version__

HELP = """Crunches every simple glyph of a TrueType font.

usage: python3 -m fontcrunch [--penalty N] [--whole-units] [--jobs N] [--report FILE] [--svg PICTURE] IN.ttf OUT.ttf

--penalty N    what each piece adds to a score, in sixteenths, 1 to 256; 32 without it. A larger one asks for fewer pieces
--whole-units  rounds breaks to whole units, not to half ones. Runs may then be twice as long
--jobs N       spreads glyphs over N threads, 1 to 256; without it as many as there are processors. The bytes are the same for any N
--report FILE  a line for each glyph with an outline, with tabs between name, what became of it (crunched, as it was, refused K,
               composite), points before and after, and bytes of the outline before and after
--svg PICTURE  draws the ten glyphs that lost most points, before and after
--help         this text
--version      the version

It needs fontTools (Debian's python3-fonttools). IN and OUT may be one file. OUT, FILE and PICTURE are written beside their places and then put
there in one step, so that each is there whole or as it was.

Each contour is turned to its first on-curve point, its implied points are written out, and a curve whose control stands on one of its
ends is made the line that it is; then the glyph is crunched in closed mode. A glyph that is refused stays as it was and is listed with its
number; so does one that would come out with no fewer points. What a font is beside its outlines stays:

- advance widths stay, and the side bearing goes along with the box, so that no outline moves against its origin;
- composite glyphs keep their components;
- instructions name points by number, so those of a glyph that changed are dropped, and those of every composite that has it as a
  component; fpgm, prep and cvt stay;
- a glyph stays as it was where a composite places another at one of its points by number;
- a signature (DSIG) no longer holds and is dropped.

A variable font is turned down, and so is one whose layout tables name points by number. Equal fonts give equal bytes.

Exit status: 0 every glyph was answered; 1 some were refused; 2 the command line was wrong, a file could not be read or written, or the font
was turned down. OUT is written in the first two cases.
"""

MOST_JOBS = 256


class Wrong(Exception):
    """What is wrong, in a line."""


class _Words(argparse.ArgumentParser):
    def error(self, message: str) -> NoReturn:
        raise Wrong(f"{message}; see python3 -m fontcrunch --help")


def _number(low: int, high: int) -> Any:
    def number(word: str) -> int:
        if not (word.isascii() and word.isdigit() and low <= int(word) <= high):
            raise argparse.ArgumentTypeError(f"{word!r} is no number from {low} to {high}")
        return int(word)

    return number


def _options(words: Iterable[str]) -> argparse.Namespace:
    parser = _Words(prog="fontcrunch", add_help=False, allow_abbrev=False)
    parser.add_argument("--penalty", type=_number(1, 256), default=DEFAULT_PENALTY)
    parser.add_argument("--whole-units", action="store_true")
    parser.add_argument("--jobs", type=_number(1, MOST_JOBS), default=min(os.cpu_count() or 1, MOST_JOBS))
    parser.add_argument("--report", metavar="FILE")
    parser.add_argument("--svg", metavar="PICTURE")
    parser.add_argument("given", metavar="IN.ttf")
    parser.add_argument("made", metavar="OUT.ttf")
    return parser.parse_args(list(words))


class _Progress:
    """A bar on standard error, where that is a terminal."""

    def __init__(self) -> None:
        self.shown = sys.stderr.isatty()
        self.last = ""

    def __call__(self, done: int, all: int) -> None:
        bar = "#" * (30 * done // all)
        line = f"[{bar:<30}] {done} of {all} glyphs"
        if self.shown and line != self.last:
            self.last = line
            print(f"\r{line}", end="", file=sys.stderr, flush=True)

    def clear(self) -> None:
        if self.shown and self.last:
            print(f"\r{'':<{len(self.last)}}\r", end="", file=sys.stderr, flush=True)


def _told(error: OSError, name: str) -> Wrong:
    return Wrong(f"{name}: {(error.strerror or str(error)).lower()}")


def _read(name: str) -> bytes:
    try:
        with open(name, "rb") as file:
            return file.read()
    except OSError as error:
        raise _told(error, name) from None


def _outlets(names: dict[str, str | None], given: str, around: contextlib.ExitStack) -> dict[str, Outlet]:
    """The files to write, opened. No two are one file, and only the font may be written over the font that is read."""
    found: dict[str, Outlet] = {}
    taken = {os.path.realpath(given): "IN.ttf"}
    for what, name in names.items():
        if name is None:
            continue
        place = os.path.realpath(name)
        if place in taken and (what, taken[place]) != ("OUT.ttf", "IN.ttf"):
            raise Wrong(f"{name}: is named twice, for {taken[place]} and for {what}")
        taken[place] = what
        try:
            found[what] = Outlet(name)
        except OSError as error:
            raise _told(error, name) from None
        around.callback(found[what].close)
    return found


def _line(name: str, before: int, after: int) -> str:
    return f"{name:<18}{before:>12,}{after:>12,}{100 * after / before if before else 100:>9.1f} %"


def _table(font: Any, old_size: int, new_size: int) -> str:
    """The table of points and bytes, and the glyphs that stayed as they were."""
    rows = [row for row in font.rows() if row.became != "composite"]
    left = len(rows) - len(font.after) - len(font.refused)
    lines = [
        f"{len(font.simple)} simple glyphs, {len(font.composite)} composite",
        f"{len(font.after)} crunched, {left} as they were, {len(font.refused)} refused",
        f"{'':<18}{'before':>12}{'after':>12}",
    ]
    for what in ("points", "bytes", "instructions"):
        name = "outline bytes" if what == "bytes" else what
        before, after = (sum(getattr(getattr(row, side), what) for row in rows) for side in ("before", "after"))
        lines.append(_line(name, before, after))
    lines.append(_line("the font's bytes", old_size, new_size))
    for number, names in font.refusals().items():
        lines += [f"{Refused(number)}: {len(names)}", f"  {' '.join(names)}"]
    return "\n".join(lines) + "\n"


def _report(rows: Iterable[Any]) -> str:
    lines = ["glyph\tbecame\tpoints\tpoints after\tbytes\tbytes after"]
    lines += [f"{r.name}\t{r.became}\t{r.before.points}\t{r.after.points}\t{r.before.bytes}\t{r.after.bytes}" for r in rows]
    return "\n".join(lines) + "\n"


def _picture(rows: Iterable[Any]) -> str:
    from ._picture import drawn

    changed = sorted((row for row in rows if row.became == "crunched"), key=lambda row: row.after.points - row.before.points)
    return drawn([(row.name, row.before, row.after) for row in changed[:10]])


def _work(options: argparse.Namespace) -> int:
    try:
        from ._fonts import Font, Unfit
    except ImportError:
        raise Wrong("fontTools is missing: install python3-fonttools and run Debian's python3, or pip install fonttools") from None
    data = _read(options.given)
    with contextlib.ExitStack() as around:
        outlets = _outlets({"OUT.ttf": options.made, "--report": options.report, "--svg": options.svg}, options.given, around)
        progress = _Progress()
        around.callback(progress.clear)
        try:
            font = Font(data)
            font.crunch(Settings(options.penalty, options.whole_units, closed=True), options.jobs, progress)
        except Unfit as error:
            raise Wrong(f"{options.given}: {error}") from None
        made = font.to_bytes()
        texts = {"OUT.ttf": made, "--report": _report(font.rows()).encode(), "--svg": _picture(font.rows()).encode()}
        for what, outlet in outlets.items():
            try:
                outlet.put(texts[what])
            except OSError as error:
                raise _told(error, str(outlet.place)) from None
    sys.stdout.write(_table(font, len(data), len(made)))
    sys.stdout.flush()
    return 1 if font.refused else 0


def main(words: list[str]) -> int:
    """The exit status of the command with these words."""
    if "--help" in words or "-h" in words:
        sys.stdout.write(HELP)
        return 0
    if "--version" in words:
        sys.stdout.write(f"fontcrunch {__version__}\n")
        return 0
    # so that what stands beside a file is taken away
    signal.signal(signal.SIGTERM, lambda *_: sys.exit(143))
    try:
        return _work(_options(words))
    except Wrong as wrong:
        print(f"fontcrunch: {wrong}", file=sys.stderr)
        return 2
    except KeyboardInterrupt:
        print("fontcrunch: stopped", file=sys.stderr)
        return 130
    except BrokenPipeError:
        # who reads the table has read enough; what was to be written is written
        os.dup2(os.open(os.devnull, os.O_WRONLY), sys.stdout.fileno())
        return 0
