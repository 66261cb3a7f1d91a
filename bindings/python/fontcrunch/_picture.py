"""A picture of glyphs before and after, as SVG: squares are on-curve points, circles off-curve ones."""

WIDTH, HEIGHT, MARGIN = 260, 300, 20
STYLE = """.outline { fill: #dde4ee; stroke: #36454f; stroke-width: 1; fill-rule: nonzero }
.on { fill: #b3261e } .off { fill: none; stroke: #1f5fa8 } text { font: 12px sans-serif; fill: #222 }"""


def drawn(glyphs):
    """The picture of (name, outline before, outline after), two pairs to a row."""
    rows = (len(glyphs) + 1) // 2
    cells = []
    for place, (name, *sides) in enumerate(glyphs):
        left, top = place % 2 * 2 * WIDTH, place // 2 * HEIGHT
        view = view_of(sides)
        for k, side in enumerate(sides):
            title = f"{escaped(name)} {('before', 'after')[k]}: {side.points} points"
            cells.append(cell(side.contours, title, view, left + k * WIDTH, top))
    size = f'width="{4 * WIDTH}" height="{max(rows, 1) * HEIGHT}"'
    return f'<svg xmlns="http://www.w3.org/2000/svg" {size}>\n<style>{STYLE}</style>\n' + "\n".join(cells) + "\n</svg>\n"


def escaped(text):
    return text.replace("&", "&amp;").replace("<", "&lt;").replace(">", "&gt;")


def view_of(sides):
    """One scale for both sides, so that they can be held side by side: from units to places in a cell."""
    places = [point for side in sides for contour in side.contours for point in contour]
    low_x, high_x = min(p.x for p in places), max(p.x for p in places)
    low_y, high_y = min(p.y for p in places), max(p.y for p in places)
    scale = min((WIDTH - 2 * MARGIN) / max(high_x - low_x, 1), (HEIGHT - 3 * MARGIN) / max(high_y - low_y, 1))
    return lambda x, y: (MARGIN + (x - low_x) * scale, 2 * MARGIN + (high_y - y) * scale)


def cell(contours, title, view, left, top):
    path = " ".join(path_of(contour, view) for contour in contours)
    marks = "".join(mark(point, view) for contour in contours for point in contour)
    text = f'<text x="{MARGIN}" y="{MARGIN}">{title}</text>'
    return f'<g transform="translate({left} {top})">{text}<path class="outline" d="{path}"/>{marks}</g>'


def mark(point, view):
    x, y = view(point.x, point.y)
    if point.on_curve:
        return f'<rect class="on" x="{x - 2:.1f}" y="{y - 2:.1f}" width="4" height="4"/>'
    return f'<circle class="off" cx="{x:.1f}" cy="{y:.1f}" r="2"/>'


def with_implied(contour):
    """The contour as OpenType draws it: from an on-curve point on, the midpoint between two off-curve neighbours put in."""
    row = []
    for k, (x, y, on_curve) in enumerate(contour):
        before_x, before_y, before_on = contour[k - 1]
        if not on_curve and not before_on:
            row.append(((before_x + x) / 2, (before_y + y) / 2, True))
        row.append((x, y, on_curve))
    first = next((k for k, point in enumerate(row) if point[2]), 0)
    return row[first:] + row[:first]


def path_of(contour, view):
    row = with_implied(contour)
    words = ["M {:.1f} {:.1f}".format(*view(*row[0][:2]))]
    for before, (x, y, on_curve), after in zip(row, row[1:], row[2:] + row[:1]):
        if not on_curve:
            words.append("Q {:.1f} {:.1f} {:.1f} {:.1f}".format(*view(x, y), *view(*after[:2])))
        elif before[2]:
            words.append("L {:.1f} {:.1f}".format(*view(x, y)))
    return " ".join(words) + " Z"
