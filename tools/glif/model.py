"""GLIF read and written as docs/GLIF.md says, written from that page by productions, and not by its table. read(bytes) gives a number or the
contours; write(bytes, rows) a number or bytes. model.py on its own: lines as the command takes them."""
import re
import sys

BLANK = ' \t\r\n'
NAME_START = 'A-Za-z_:\u0080-\U0010ffff'
NAME = re.compile('[%s][%s0-9.\\-]*' % (NAME_START, NAME_START))
BLANKS = re.compile('[ \t\r\n]*')
MOST = 256


class Malformed(Exception):
    pass


def text_of(data):
    try:
        text = data.decode('utf-8')
    except UnicodeDecodeError:
        raise Malformed('utf-8')
    for c in text:
        if not is_char(ord(c)):
            raise Malformed('char')
    return text


def is_char(n):
    return n in (9, 10, 13) or 0x20 <= n <= 0xD7FF or 0xE000 <= n <= 0xFFFD or 0x10000 <= n <= 0x10FFFF


class Reader:
    def __init__(self, text, plain=False):
        """plain: as XML alone, whatever the elements are"""
        self.s, self.i, self.plain = text, 0, plain
        self.open = []          # names of the open elements
        self.root = self.outline = False
        self.contours = []      # lists of (x, y, kind), numbers as given
        self.insides = []       # of each contour, from and to, in characters

    def peek(self, word):
        return self.s.startswith(word, self.i)

    def take(self, word):
        if not self.peek(word):
            raise Malformed(word)
        self.i += len(word)

    def name(self):
        m = NAME.match(self.s, self.i)
        if not m:
            raise Malformed('name')
        self.i = m.end()
        return m.group()

    def blanks(self):
        j = self.i
        self.i = BLANKS.match(self.s, self.i).end()
        return self.i > j

    def upto(self, word):
        j = self.s.find(word, self.i)
        if j < 0:
            raise Malformed('no ' + word)
        t, self.i = self.s[self.i:j], j + len(word)
        return t

    def reference(self):
        self.take('&')
        m = re.compile('#([0-9]+);|#x([0-9a-fA-F]+);').match(self.s, self.i)
        if m:
            self.i = m.end()
            n = int(m.group(1)) if m.group(1) else int(m.group(2), 16)
            if not is_char(n):
                raise Malformed('reference')
            return chr(n)
        name = self.name()
        self.take(';')
        if name not in ('lt', 'gt', 'amp', 'apos', 'quot'):
            raise Malformed('reference')
        return {'lt': '<', 'gt': '>', 'amp': '&', 'apos': "'", 'quot': '"'}[name]

    def quoted(self, references=True):
        q = self.s[self.i:self.i + 1]
        if q not in ('"', "'"):
            raise Malformed('quote')
        self.i += 1
        out = []
        while not self.peek(q):
            c = self.s[self.i:self.i + 1]
            if c == '' or c == '<':
                raise Malformed('value')
            if c == '&':
                if not references:
                    raise Malformed('value')
                out.append(self.reference())
            else:
                out.append(c)
                self.i += 1
        self.i += 1
        return ''.join(out)

    def attribute(self, references=True):
        n = self.name()
        self.blanks()
        self.take('=')
        self.blanks()
        return n, self.quoted(references)

    def declaration(self):
        if not self.peek('<?'):
            return
        self.i += 2
        if self.name() != 'xml' or not self.blanks():
            raise Malformed('declaration')
        found = []
        while not self.peek('?>'):
            found.append(self.attribute(False))
            if not self.blanks() and not self.peek('?>'):
                raise Malformed('declaration')
        self.i += 2
        if found not in [[('version', '1.0')], [('version', '1.0'), ('encoding', 'UTF-8')], [('version', '1.0'), ('encoding', 'utf-8')]]:
            raise Malformed('declaration')

    def comment(self):
        self.take('<!--')
        t = self.upto('--')
        self.take('>')

    def instruction(self):
        self.take('<?')
        n = self.name()
        if n[0] in 'xX':
            raise Malformed('target')
        if self.peek('?>'):
            self.i += 2
            return
        if self.s[self.i:self.i + 1] not in tuple(BLANK):
            raise Malformed('target')
        self.upto('?>')

    def where(self):
        """how many of the open elements are those of the path, if all are; else nothing"""
        path = ['glyph', 'outline', 'contour', 'point']
        if self.plain:
            return None
        return len(self.open) if self.open == path[:len(self.open)] else None

    def text_allowed(self):
        return self.open and self.where() not in (3, 4)

    def start_tag(self):
        begin = self.i
        self.take('<')
        n = self.name()
        seen = {}
        while True:
            had = self.blanks()
            if self.peek('/>') or self.peek('>'):
                break
            if not had:
                raise Malformed('tag')
            a, v = self.attribute()
            if a in seen or len(self.open) + len(seen) >= MOST:
                raise Malformed('attribute')
            seen[a] = v
        w = self.where()
        if len(self.open) >= MOST:
            raise Malformed('deep')
        if not self.open and (self.root or n != 'glyph' and not self.plain):
            raise Malformed('root')
        self.root = True
        if w == 1 and n == 'outline':
            if self.outline:
                raise Malformed('outline')
            self.outline = True
        if w == 2 and n == 'contour':
            self.contours.append([])
            self.insides.append(None)
        if w == 3:
            if n != 'point':
                raise Malformed('in contour')
            self.contours[-1].append((number(seen.get('x')), number(seen.get('y')), kind(seen.get('type', 'offcurve'))))
        if w == 4:
            raise Malformed('in point')
        if self.peek('/>'):
            self.i += 2
            return
        self.i += 1
        self.open.append(n)
        if self.where() == 3:
            self.insides[-1] = (self.i, None)

    def end_tag(self):
        begin = self.i
        self.take('</')
        n = self.name()
        self.blanks()
        self.take('>')
        if not self.open or self.open[-1] != n:
            raise Malformed('end')
        if self.where() == 3:
            self.insides[-1] = (self.insides[-1][0], begin)
        self.open.pop()

    def read(self):
        self.declaration()
        while self.i < len(self.s):
            if self.peek('<!--'):
                self.comment()
            elif self.peek('<![CDATA['):
                if not self.text_allowed():
                    raise Malformed('section')
                self.i += 9
                self.upto(']]>')
            elif self.peek('<?'):
                self.instruction()
            elif self.peek('</'):
                self.end_tag()
            elif self.peek('<'):
                self.start_tag()
            elif self.peek('&'):
                if not self.text_allowed():
                    raise Malformed('text')
                self.reference()
            else:
                if self.s[self.i] not in BLANK and not self.text_allowed():
                    raise Malformed('text')
                if self.peek(']]>'):
                    raise Malformed(']]>')
                self.i += 1
        if self.open or not self.root:
            raise Malformed('end')
        return self


def number(v):
    """sign, digits before the point, digits after it"""
    m = re.fullmatch(r'([+-]?)([0-9]+)(?:\.([0-9]+))?', v if v is not None else '', re.ASCII)
    if not m:
        raise Malformed('number')
    return (-1 if m.group(1) == '-' else 1) * int(m.group(2)), bool((m.group(3) or '').strip('0'))


def kind(v):
    if v not in ('move', 'line', 'curve', 'qcurve', 'offcurve'):
        raise Malformed('type')
    return v


def half_away(n):
    return (n + 1) // 2 if n >= 0 else -((1 - n) // 2)


def entered(points):
    """from the first on-curve point; between two off-curve points the middle, on-curve"""
    k = next(i for i, p in enumerate(points) if p[2])
    out = []
    for p in points[k:] + points[:k]:
        if out and not out[-1][2] and not p[2]:
            out.append((half_away(out[-1][0] + p[0]), half_away(out[-1][1] + p[1]), 1))
        out.append(p)
    return out


def judge(data):
    """a number, or the reader and the contours as they enter"""
    try:
        r = Reader(text_of(data)).read()
        for c in r.contours:
            for i, (x, y, t) in enumerate(c):
                if t == 'move' and i > 0 or t == 'line' and c[i - 1][2] == 'offcurve':
                    raise Malformed('order')
    except Malformed:
        return 19
    points = [p for c in r.contours for p in c]
    if any(t in ('move', 'curve') or x[1] or y[1] for x, y, t in points):
        return 20
    made = sum(len(c) + sum(c[i - 1][2] == c[i][2] == 'offcurve' for i in range(len(c))) for c in r.contours)
    if any(not -32768 <= v[0] <= 32767 for x, y, t in points for v in (x, y)) or made > 65536:
        return 14
    if any(all(t == 'offcurve' for _, _, t in c) for c in r.contours):
        return 21
    return r, [entered([(x[0], y[0], int(t != 'offcurve')) for x, y, t in c]) for c in r.contours]


def read(data):
    j = judge(data)
    return j if isinstance(j, int) else j[1]


def inside(rows):
    out = []
    for i, (x, y, on) in enumerate(rows):
        kind = ('' if not on % 2 else ' type="line"' if rows[i - 1][2] % 2 else ' type="qcurve"')
        out.append('<point x="%d" y="%d"%s/>' % (x, y, kind))
    return ''.join(out)


def write(data, rows):
    j = judge(data)
    if isinstance(j, int):
        return j
    reader = j[0]
    if len(rows) != len(reader.insides):
        return 1
    if any(not r for r in rows):
        return 2
    out, at = [], 0
    for (a, b), r in zip(reader.insides, rows):
        out += [reader.s[at:a], inside(r)]
        at = b
    return (''.join(out) + reader.s[at:]).encode()


def show(a):
    return 'refused %d' % a if isinstance(a, int) else ' '.join(['ok %d' % len(a)] + ['|' + ''.join(' %d %d %d' % p for p in c) for c in a])


if __name__ == '__main__':
    for line in sys.stdin:
        print(show(read(bytes.fromhex(line.strip()))))
