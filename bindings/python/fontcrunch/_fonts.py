"""Whole TrueType fonts: every simple glyph crunched, and what else a font holds kept true to it. Needs fontTools."""

from __future__ import annotations

import collections
import concurrent.futures
import io
import struct
from typing import Any, Callable, Iterator, NamedTuple

from fontTools.ttLib import TTFont
from fontTools.ttLib.tables import _g_l_y_f, otTraverse

from ._contours import Settings
from ._glyphs import Glyph, crunch_glyph, read_glyph, write_glyph
from ._refusal import Refused
from ._uploads import drop_idle, explicit

OVERLAP = _g_l_y_f.flagOverlapSimple


class Unfit(Exception):
    """A font that is not crunched, with the reason in a sentence."""


class Outline(NamedTuple):
    """What a description says; its bytes are counted without the instructions."""

    contours: list
    points: int
    bytes: int
    instructions: int


class Row(NamedTuple):
    """What became of a glyph: `crunched`, `as it was`, `refused K` or `composite`."""

    name: str
    became: str
    before: Outline
    after: Outline


def outline(data: bytes) -> Outline:
    """What a description says."""
    glyph = read_glyph(data)
    code = len(glyph.instructions)
    return Outline(glyph.contours(), len(glyph.points), len(data) - code, code)


def _box(data: bytes) -> tuple[int, int, int, int]:
    """The box that stands in a description."""
    return struct.unpack(">4h", data[2:10])


def _is_composite(data: bytes) -> bool:
    return data[0] >= 0x80


def crunched(data: bytes, settings: Settings) -> bytes | None:
    """The description crunched, without instructions; None where it would have no fewer points."""
    given = read_glyph(data)
    contours = [drop_idle(explicit(contour)).points for contour in given.contours()]
    new = crunch_glyph(write_glyph(Glyph.of_contours(contours)), settings)
    return new if len(read_glyph(new).points) < len(given.points) else None


class Font:
    """A font, and what became of its glyphs."""

    def __init__(self, data: bytes) -> None:
        try:
            # the time of the change is not written, so that equal fonts give equal bytes
            self.font = TTFont(io.BytesIO(data), recalcTimestamp=False)
            self._turn_down(data)
            self.table = self.font["glyf"]
            held = ((name, getattr(self.table.glyphs[name], "data", b"")) for name in self.font.getGlyphOrder())
            self.before = {name: bytes(given) for name, given in held if given}
            self.composite = [name for name, given in self.before.items() if _is_composite(given)]
            self.simple = [name for name, given in self.before.items() if not _is_composite(given)]
            self._read_all()
        except Unfit:
            raise
        except Exception as error:
            # a damaged font makes fontTools stop in many ways
            raise Unfit(f"it is damaged, or no TrueType font: {type(error).__name__}: {error}") from None
        self.after: dict[str, bytes] = {}
        self.refused: dict[str, int] = {}

    def _turn_down(self, data: bytes) -> None:
        """What cannot be crunched at all."""
        if "glyf" not in self.font:
            raise Unfit("it has no glyf table, so no TrueType outlines")
        if "fvar" in self.font or "gvar" in self.font:
            raise Unfit("it is a variable font: its variations move points by number, and crunching changes the numbers")
        # read apart, so that these tables are written as they stood
        if _names_points(TTFont(io.BytesIO(data))):
            raise Unfit("a layout table of it names points by number, and crunching changes the numbers")

    def _read_all(self) -> None:
        """Every glyph and every metric as fontTools reads them, so that none stops the work when it is half done."""
        for name in self.before:
            try:
                self.table[name]  # noqa: B018
            except Exception as error:
                raise Unfit(f"its glyph {name} is damaged: {type(error).__name__}: {error}") from None
        for tag in ("hmtx", "head", "maxp", "hhea"):
            self.font[tag]  # noqa: B018

    def crunch(self, settings: Settings, jobs: int = 1, told: Callable[[int, int], None] = lambda done, all: None) -> None:
        """Crunches every simple glyph, by so many threads; the answers do not depend on how many. `told` is called with the
        number of glyphs that are done and that of all."""
        joined = self._joined_by_points()
        names = [name for name in self.simple if name not in joined]
        for done, (name, answer) in enumerate(zip(names, self._answers(names, settings, jobs)), 1):
            if isinstance(answer, Refused):
                self.refused[name] = answer.number
            elif answer is not None:
                self.after[name] = answer
            told(done, len(names))
        for name in self.after:
            self._put(name)
        self._drop_instructions()
        self._keep_places()
        if "DSIG" in self.font:
            del self.font["DSIG"]

    def _answers(self, names: list[str], settings: Settings, jobs: int) -> Iterator[Any]:
        """For each glyph its new description, None, or why it is refused; in the order of the names."""

        def answer(name: str) -> Any:
            try:
                return crunched(self.before[name], settings)
            except Refused as refused:
                return refused

        if jobs == 1:
            yield from map(answer, names)
            return
        pool = concurrent.futures.ThreadPoolExecutor(jobs)
        try:
            yield from pool.map(answer, names)
        finally:
            pool.shutdown(cancel_futures=True)

    def _joined_by_points(self) -> set[str]:
        """The glyphs whose points a composite names by number: of components placed so, and those before them."""
        named: set[str] = set()
        for name in self.composite:
            if any(hasattr(part, "firstPt") for part in self.table[name].components):
                named |= self._parts(name)
        return named

    def _parts(self, name: str) -> set[str]:
        """A composite's components, with theirs."""
        found: set[str] = set()
        waiting = [name]
        while waiting:
            at = waiting.pop()
            if at in self.before and _is_composite(self.before[at]):
                parts = {part.glyphName for part in self.table[at].components} - found
                found |= parts
                waiting += parts
        return found

    def _put(self, name: str) -> None:
        glyph = _g_l_y_f.Glyph(self.after[name])
        glyph.expand(self.table)
        # the one bit that the library does not keep and that an engine looks at
        glyph.flags[0] |= self.table[name].flags[0] & OVERLAP
        self.table.glyphs[name] = glyph

    def _drop_instructions(self) -> None:
        """Of composites over a glyph that changed: they name its points."""
        for name in self.composite:
            if self._parts(name) & self.after.keys() and hasattr(self.table[name], "program"):
                del self.table[name].program

    def _keep_places(self) -> None:
        """An engine places an outline by its box and its bearings: where the box changed, they change as much."""
        upright = self.font.get("vmtx")
        for name, data in self.before.items():
            old_left, _, _, old_top = _box(data)
            glyph = self.table[name]
            glyph.recalcBounds(self.table)
            width, left = self.font["hmtx"][name]
            self.font["hmtx"][name] = width, left + glyph.xMin - old_left
            if upright is not None:
                height, top = upright[name]
                upright[name] = height, top + old_top - glyph.yMax

    def to_bytes(self) -> bytes:
        """The font as it is now."""
        out = io.BytesIO()
        self.font.save(out)
        return out.getvalue()

    def rows(self) -> list[Row]:
        """What became of each glyph that has an outline, in the font's order."""
        return [self._row(name, data) for name, data in self.before.items()]

    def _row(self, name: str, data: bytes) -> Row:
        if _is_composite(data):
            none = Outline([], 0, len(data), 0)
            return Row(name, "composite", none, none)
        try:
            before = outline(data)
        except Refused:
            before = Outline([], 0, len(data), 0)
        if name in self.refused:
            return Row(name, f"refused {self.refused[name]}", before, before)
        if name in self.after:
            return Row(name, "crunched", before, outline(self.after[name]))
        return Row(name, "as it was", before, before)

    def refusals(self) -> dict[int, list[str]]:
        """The names of the refused glyphs, by number."""
        found: dict[int, list[str]] = collections.defaultdict(list)
        for name, number in self.refused.items():
            found[number].append(name)
        return dict(sorted(found.items()))


def _names_points(font: TTFont) -> bool:
    """Whether a layout table names points of glyphs by number."""
    for tag in ("GDEF", "GPOS", "BASE"):
        if tag not in font or not hasattr(font[tag], "table"):
            continue
        for path in otTraverse.dfs_base_table(font[tag].table):
            kind, form = type(path[-1].value).__name__, getattr(path[-1].value, "Format", None)
            if kind == "AttachPoint" or (kind in ("Anchor", "CaretValue", "BaseCoord") and form == 2):
                return True
    return False
