"""A simple glyph description by OpenType's text ("glyf — Glyph Data") and document 02's W2, written without regard to the port.

read(bytes) and write(ends, xs, ys, flags, instructions) give a dict or bytes, or raise Refused. Rooms are tested last, by the callers below."""
import struct


class Refused(Exception):
    pass


class Cut(Exception):
    pass


class Reader:
    def __init__(self, data):
        self.data, self.at = data, 0

    def take(self, form):
        size = struct.calcsize(form)
        if self.at + size > len(self.data):
            raise Cut
        v, = struct.unpack_from(form, self.data, self.at)
        self.at += size
        return v

    def bytes(self, n):
        if self.at + n > len(self.data):
            raise Cut
        self.at += n
        return self.data[self.at - n:self.at]


ON_CURVE, X_SHORT, Y_SHORT, REPEAT, X_SAME, Y_SAME = 1, 2, 4, 8, 16, 32


def parse(data):
    r = Reader(data)
    contours = r.take('>h')
    if contours < 0:
        raise Refused(15)
    for _ in range(4):  # xMin, yMin, xMax, yMax
        r.take('>h')
    ends = [r.take('>H') for _ in range(contours)]
    instructions = r.bytes(r.take('>H'))
    points = ends[-1] + 1 if ends else 0
    flags = []
    while len(flags) < points:
        f = r.take('>B')
        times = 1 + (r.take('>B') if f & REPEAT else 0)
        flags += [f] * times
    flags = flags[:points]  # what a repeat has beyond the last point

    def deltas(short, same):
        out = []
        for f in flags:
            if f & short:
                d = r.take('>B')
                out.append(d if f & same else -d)
            else:
                out.append(0 if f & same else r.take('>h'))
        return out

    dx = deltas(X_SHORT, X_SAME)
    dy = deltas(Y_SHORT, Y_SAME)
    return ends, instructions, flags, dx, dy


def read(data):
    try:
        ends, instructions, flags, dx, dy = parse(data)
    except Cut:
        raise Refused(12)
    if any(b <= a for a, b in zip(ends, ends[1:])):
        raise Refused(13)
    rows = []
    for d in (dx, dy):
        at, row = 0, []
        for v in d:
            at += v
            if not -32768 <= at <= 32767:
                raise Refused(14)
            row.append(at)
        rows.append(row)
    return dict(ends=ends, xs=rows[0], ys=rows[1], flags=[f & 1 for f in flags], instructions=instructions)


def write(ends, xs, ys, flags, instructions):
    if not len(xs) == len(ys) == len(flags):
        raise Refused(1)
    points = ends[-1] + 1 if ends else 0
    if len(xs) < points:
        raise Refused(12)
    if any(b <= a for a, b in zip(ends, ends[1:])):
        raise Refused(13)
    xs, ys, flags = xs[:points], ys[:points], flags[:points]
    dx = [b - a for a, b in zip([0] + xs, xs)]
    dy = [b - a for a, b in zip([0] + ys, ys)]
    if len(ends) > 32767 or len(instructions) > 65535 or any(not -32768 <= d <= 32767 for d in dx + dy):
        raise Refused(14)
    box = (min(xs), min(ys), max(xs), max(ys)) if points else (0, 0, 0, 0)
    coded, x_bytes, y_bytes = [], b'', b''
    for f, x, y in zip(flags, dx, dy):
        c = f & 1
        for d, short, same in ((x, X_SHORT, X_SAME), (y, Y_SHORT, Y_SAME)):
            if d == 0:
                c |= same
            elif abs(d) < 256:
                c |= short | (same if d > 0 else 0)
        coded.append(c)

    def code(d):
        return b'' if d == 0 else bytes([abs(d)]) if abs(d) < 256 else struct.pack('>h', d)

    x_bytes = b''.join(map(code, dx))
    y_bytes = b''.join(map(code, dy))
    packed, i = b'', 0
    while i < points:
        k = i
        while k < points and coded[k] == coded[i] and k - i < 256:
            k += 1
        packed += bytes([coded[i] | REPEAT, k - i - 1]) if k - i > 2 else bytes([coded[i]]) * (k - i)
        i = k
    return (struct.pack('>h4h', len(ends), *box) + b''.join(struct.pack('>H', e) for e in ends) + struct.pack('>H', len(instructions))
            + bytes(instructions) + packed + x_bytes + y_bytes)
