"""Contours of real fonts, by Debian's fontTools."""

import os
import sys

PACKAGES = "fonts-quicksand (1,000 units), fonts-open-sans, fonts-dejavu-core, fonts-liberation2 (2,048)"
DEBIAN_PYTHON = "/usr/bin/python3"


def library():
    """fontTools' TTFont; Debian's package serves Debian's Python only, so that one is tried too."""
    try:
        from fontTools.ttLib import TTFont
    except ImportError:
        if os.path.exists(DEBIAN_PYTHON) and not os.path.samefile(sys.executable, DEBIAN_PYTHON):
            os.execv(DEBIAN_PYTHON, [DEBIAN_PYTHON, *sys.argv])
        sys.exit("make: fontTools is missing: install python3-fonttools")
    return TTFont


def contours(files, each=None, is_away=False):
    """Of each file all contours of simple glyphs, or one of each of `each` glyphs."""
    if not files:
        sys.exit("make: fonts needs font files")
    opened = library()
    for name in files:
        # of a collection the first
        font = opened(name, fontNumber=0)
        if "glyf" not in font:
            sys.exit(f"make: {name} has no glyf table, so no TrueType outlines")
        skipped = 0
        for contour in of_font(font) if each is None else spaced(font, each):
            if any(f for _, _, f in contour):
                yield explicit(turned(contour), half_away if is_away else half)
            else:
                skipped += 1
        if skipped:
            print(f"{name}: {skipped} contours with no on-curve point left out", file=sys.stderr)


def of_font(font):
    """The contours of simple glyphs in the font's glyph order; composite ones repeat others."""
    for name in font.getGlyphOrder():
        yield from of_glyph(font["glyf"], name)


def of_glyph(table, name):
    """None of a composite glyph."""
    glyph = table[name]
    if glyph.isComposite() or glyph.numberOfContours <= 0:
        return
    places, ends, flags = glyph.getCoordinates(table)
    start = 0
    for end in ends:
        rows = zip(places[start : end + 1], flags[start : end + 1])
        yield [(x, y, f & 1) for (x, y), f in rows]
        start = end + 1


def spaced(font, each):
    """One contour of each of at most `each` simple glyphs that lie evenly in the glyph order, now the first, now another."""
    names = font.getGlyphOrder()
    starts = [len(names) * k // each for k in range(each)] if len(names) > each else range(len(names))
    for number, (start, end) in enumerate(zip(starts, [*starts[1:], len(names)])):
        for name in names[start:end]:
            found = list(of_glyph(font["glyf"], name))
            if found:
                yield found[number % len(found)]
                break


def turned(contour):
    first = next(k for k, point in enumerate(contour) if point[2])
    return contour[first:] + contour[:first]


def explicit(contour, halved):
    """With the implied point between two off-curve neighbours."""
    row = contour[:1]
    for x, y, f in contour[1:]:
        last_x, last_y, last_f = row[-1]
        if not f and not last_f:
            row.append((halved(last_x + x), halved(last_y + y), 1))
        row.append((x, y, f))
    return row


def half(total):
    """Toward zero, as the Rust does."""
    return total // 2 if total >= 0 else -(-total // 2)


def half_away(total):
    """Away from zero, as `fontcrunch explicit` does."""
    return (total + 1) // 2 if total >= 0 else -((1 - total) // 2)
