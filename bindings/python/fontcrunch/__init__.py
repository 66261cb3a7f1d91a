"""Crunches TrueType contours: finds a contour's corners, and puts fewer quadratic pieces between them.

The work is done by a proved library, libfontcrunch.so; this module has functions over it and needs nothing else. Equal
contours give equal points on every host, always.

    >>> import fontcrunch
    >>> triangle = [(0, 0, 1), (100, 0, 1), (0, 100, 1)]
    >>> crunched = fontcrunch.crunch(triangle)
    >>> [(point.x, point.y) for point in crunched.points]  # in reverse order
    [(0, 100), (100, 0), (0, 0)]
    >>> closed = fontcrunch.Settings(closed=True)
    >>> [(point.x, point.y) for point in fontcrunch.crunch(triangle, closed).points]
    [(0, 0), (100, 0), (0, 100)]

Contours. A contour is points, each x, y and a flag: Point, or any three numbers. Bit 0 of a flag is set for an on-curve
point. The first point is on-curve, and an implied point between two off-curve ones is written out. The contour is closed:
its last point leads back to its first, by a line if it is on-curve, by a curve if not.

Settings. The penalty of a piece, by default 2.0; whether breaks are on half units, as by default, or on whole ones; and
whether contours are crunched in closed mode, as by default they are not. Settings.of_crate() has those of the Rust which this
follows: a penalty of 1.0, half units, not closed.

Refusals. What is not done is refused by a number, with its reason in words:

    >>> try:
    ...     fontcrunch.crunch([])
    ... except fontcrunch.Refused as refused:
    ...     print(refused.number, refused)
    2 refused 2: the contour has no point

Runs and chains. Corners cut a contour into runs, numbered from 0: run k lies between corners k and k + 1. What lies before
the first corner and after the last is in no run, and is not written, or in closed mode it is the last run, which goes round.
`chain` gives the pieces of a run, and `check` judges those of anyone: it measures anew and seeks nothing. `why` tells which
tests make the start of a segment a corner. `trace` tells all of it at once, as docs/trace.schema.json has it.

Lookups that fell. A piece is measured against the samples of its run, and some lookups may fall past their end, where the
Rust which this follows takes (0, 0). `fallen` of Crunched and of Chain counts them, and `verdict`, which is `check` with
that number, those of its chain alone. They change nothing else.

Uploads. `clean` drops repeated points and lists each with why, and `put_back` gives the upload's points again. `drop_idle`
drops controls that stand on an end of their curve, which flatten its run, and `put_back_idle` gives them back.
`from_cubics` makes quads of cubics. `explicit` takes contours as fonts hold them: it turns one to its first on-curve point
and writes its implied points out. `prepared` does three of these: explicit, clean, drop_idle; and so do `crunch`,
`editions`, `crunch_glyph` and `crunch_glif` before they crunch, where prepare is true.

Glyphs. `read_glyph` and `write_glyph` take OpenType's simple glyph descriptions, bytes, to a Glyph and back;
`crunch_glyph` crunches one, bytes in and bytes out, with explicit=True after writing out implied points. `read_glif`,
`write_glif` and `crunch_glif` do the same for files of UFO's GLIF, whose other bytes stay as they are.

Editions. `editions` crunches a contour at two penalties from one sampling.

Fonts. `python3 -m fontcrunch IN.ttf OUT.ttf` crunches a whole font, by way of fontTools, which nothing else needs.
`fontcrunch.pens` has pens for users of fontTools and ufoLib.

Threads. Every function may be called in any thread. The library works outside Python's lock, so that threads do work at
the same time; answers do not depend on them.
"""

from ._contours import CRATE_PENALTY, DEFAULT_PENALTY, Chain, Crunched, Editions, Piece, Reasons, Settings, Verdict
from ._contours import chain, check, crunch, editions, verdict, why
from ._glif import crunch_glif, read_glif, write_glif
from ._glyphs import Glyph, crunch_glyph, read_glyph, write_glyph
from ._prepared import prepared
from ._refusal import Refused
from ._rows import ANSWER_ROOM, BREAK_ROOM, MOST_PIECES, MOST_POINTS_IN, SAMPLE_ROOM, USUAL_POINT_ROOM, Point
from ._trace import trace
from ._uploads import Beside, Cleaned, Dropped, Idle, IdleDrop, Why
from ._uploads import clean, drop_idle, explicit, from_cubics, put_back, put_back_idle
from ._version import __version__ as __version__

__all__ = [
    "ANSWER_ROOM",
    "BREAK_ROOM",
    "Beside",
    "CRATE_PENALTY",
    "Chain",
    "Cleaned",
    "Crunched",
    "DEFAULT_PENALTY",
    "Dropped",
    "Editions",
    "Glyph",
    "Idle",
    "IdleDrop",
    "MOST_PIECES",
    "MOST_POINTS_IN",
    "Piece",
    "Point",
    "Reasons",
    "Refused",
    "SAMPLE_ROOM",
    "Settings",
    "USUAL_POINT_ROOM",
    "Verdict",
    "Why",
    "chain",
    "check",
    "clean",
    "crunch",
    "crunch_glif",
    "crunch_glyph",
    "drop_idle",
    "editions",
    "explicit",
    "from_cubics",
    "prepared",
    "put_back",
    "put_back_idle",
    "read_glif",
    "read_glyph",
    "trace",
    "verdict",
    "why",
    "write_glif",
    "write_glyph",
]
