#!/usr/bin/env python3
"""tools/glif/make.py [--seed S] [--count N]: files made and damaged, a line of hex each. Kinds: good files with every form that docs/GLIF.md
allows; the same with one form that it refuses; the same with bytes dropped, doubled, exchanged or put in; files of pieces at random."""
import argparse
import random

PIECES = [b'<', b'>', b'/', b'?', b'!', b'-', b'--', b'[', b']', b']]>', b'"', b"'", b'=', b' ', b'\n', b'&', b'&lt;', b'&#49;', b'&#x31;', b'&#0;', b'&bad;',
          b'&#xD800;', b'<!--', b'-->', b'<![CDATA[', b'<?a b?>', b'<?xml version="1.0"?>', b'<!DOCTYPE glyph>', b'<glyph>', b'</glyph>', b'<outline>',
          b'</outline>', b'<contour>', b'</contour>', b'<contour/>', b'<point x="1" y="2" type="line"/>', b'<point x="1" y="2"/>', b'<point x="1" y="2">',
          b'</point>', b'x="3"', b'type="curve"', b'type="move"', b'name="a"', b'\x00', b'\x80', b'\xc3\xa9', b'\xef\xbf\xbf', b'\xef\xbb\xbf', b'a', b'1',
          b'.5', b'.0', b'40000',
          b'<lib>', b'</lib>', b'\xf0\x9f\x98\x80', b'\xed\xa0\x80', b'\x7f', b'\t', b'\r\n', b':', b'_', b'<a', b'x']


def number(r, wild):
    n = r.choice([0, 1, -1, 2, 3, 100, -100, r.randint(-1000, 1000), 32767, -32768, r.randint(-32768, 32767)])
    if r.random() < wild / 3:
        return r.choice(['32768', '-32769', '40000', '1.5', '-0.25', '1.0', '007', '+7', '-0', '65536', '12.000'])
    if r.random() < wild / 30:
        return r.choice(['32768', '-32769', '40000', '40000.5', '1.5', '1.0', '-0', '+7', '', ' 1', '1 ', '1.', '.5', '1e2', '--1', '0x1',
                         '99999999999999999999', '-99999999999999999999999.000', '007',
                         '+-1', '1.00', '1.0.0', '65536', '\u0661', '&#49;', '&#x31;&#50;', '1&lt;'])
    return str(n)


def blank(r, least=0):
    return ''.join(r.choice(' \n\t') for _ in range(least + r.choice([0, 0, 0, 1, 2])))


def attribute(r, name, value):
    q = '"' if r.random() < 0.7 else "'"
    return name + blank(r) * (r.random() < 0.1) + '=' + blank(r) * (r.random() < 0.1) + q + value + q


def point(r, kind, wild):
    a = [('x', number(r, wild)), ('y', number(r, wild))]
    if kind or r.random() < 0.2:
        a.append(('type', kind or 'offcurve'))
    if r.random() < 0.1:
        a.append((r.choice(['name', 'smooth', 'identifier', 'X', 'xx', 'type2', 'é']), r.choice(['yes', 'a b', '&amp;', '', 'é'])))
    if r.random() < wild / 4:
        a.append(r.choice(a))
    if r.random() < wild / 4:
        a.pop(r.randrange(len(a)))
    r.shuffle(a)
    body = '<point' + ''.join(blank(r, 1) + attribute(r, k, v) for k, v in a) + blank(r)
    return body + ('/>' if r.random() < 0.8 else '>' + r.choice(['', ' ', '<!-- <point/> -->', '<?p ?>']) + '</point>')


def contour(r, wild):
    n = r.choice([0, 1, 1, 2, 3, 4, 5, 8]) if r.random() < wild else r.choice([1, 2, 3, 4, 5, 8])
    on = [r.random() < 0.6 for _ in range(n)]
    if n and not any(on) and r.random() > wild * 3:
        on[r.randrange(n)] = True
    kinds = []
    for i in range(n):
        k = None
        if on[i]:
            k = 'line' if on[i - 1] and r.random() < 0.7 else 'qcurve'
        if r.random() < wild / 8:
            k = r.choice(['move', 'line', 'curve', 'curve', 'qcurve', 'qcurve', 'offcurve', 'Line', '', 'lines', 'offcurves', 'q&#99;urve',
                          'qcu&#x72;ve'])
        kinds.append(k)
    right, wrong = ['', '', '\n  ', ' ', '<!-- - c -->', '<?q x?>'], ['text', '&#32;', '<![CDATA[]]>', '<a/>', ']']
    gap = lambda: r.choice(right if r.random() > wild / 10 else wrong)
    inner = gap() + ''.join(point(r, k, wild) + gap() for k in kinds)
    head = '<contour' + (blank(r, 1) + attribute(r, 'identifier', 'c1') if r.random() < 0.2 else '') + blank(r) + '>'
    if not kinds and r.random() < 0.5:
        return '<contour/>'
    return head + inner + '</contour' + blank(r) + '>'


LIB = ('<lib><dict><key>a</key><array><integer>1</integer></array><key>point</key><string>&lt;point x="1"/&gt; ]] &gt; &#233;é</string><outline/>'
       '<contour><point/></contour></dict></lib>')


def other(r):
    return r.choice(['<advance width="500"/>', '<unicode hex="0041"/>', LIB, '<note>text <![CDATA[<point x="1" y="1"/> ]] ]>]]> more</note>',
                     '<!-- <outline> -->', '<guideline x="1" y="2"/>', '<anchor x="1" y="2" name="top"/>', 'loose text', '<image fileName=\'a>b.png\'/>',
                     '<?note <point/>?>', '<point x="1"/>', '<contour></contour>'])


def deep(r, n):
    return '<a>' * n + '</a>' * n


def good(r, wild):
    parts = [other(r) for _ in range(r.choice([0, 0, 1, 2]))]
    beside = ['', '\n', '<component base="a"/>', 'x', '<point x="0"/>', '<b><contour/></b>']
    start = '<outline' + blank(r) + '>'
    contours = [r.choice(beside) * (r.random() < 0.3) + contour(r, wild) for _ in range(r.choice([0, 1, 1, 2, 3]))]
    outline = start + ''.join(contours) + '</outline>'
    if r.random() < 0.95:
        parts.insert(r.randint(0, len(parts)), outline)
    if r.random() < wild / 10:
        parts.insert(r.randint(0, len(parts)), r.choice([outline, '<outline/>']))
    if r.random() < 0.02:
        parts.append(deep(r, r.choice([20, 254, 255, 256, 300])))
    if r.random() < 0.02:
        n = r.choice([10, 254, 255, 256, 300])
        parts.append('<a' + ''.join(' k%d=""' % i for i in range(n)) + '/>')
    declared = r.choice(['', '', '<?xml version="1.0" encoding="UTF-8"?>', "<?xml version='1.0' encoding='UTF-8'?>", '<?xml version="1.0"?>',
                         '<?xml  version = "1.0"\nencoding="utf-8" ?>'])
    if r.random() < wild / 6:
        declared = r.choice(['<?xml?>', '<?xml ?>', '<?xml version="1.1"?>', '<?xml encoding="UTF-8"?>', '<?xml version="1.0" encoding="latin-1"?>',
                             ' <?xml version="1.0"?>', '<?xml version="1.0"encoding="UTF-8"?>', '<?xml version="1.0" standalone="no"?>',
                             '<?xmlx version="1.0"?>', '<?XML version="1.0"?>', '<?a?>', '\ufeff'])
    right = ['', '\n', '<!-- - -->', '<?p?>', '<?p a ?b??>', ' ']
    wrong = ['x', '<![CDATA[]]>', '&#32;', '<glyph/>', '<!---->', '<!-- -- -->', '<!--->']
    around = lambda: r.choice(right if r.random() > wild / 10 else wrong)
    root = r.choice(['glyph'] * 19 + ['glif']) if r.random() < wild else 'glyph'
    head = '<' + root + ''.join(blank(r, 1) + attribute(r, k, v) for k, v in [('name', 'A'), ('format', '2')]) + '>'
    return (declared + around() + head + ''.join(r.choice(['', '\n  ']) + p for p in parts) + '</' + root + '>' + around()).encode()


def damaged(r, data):
    data = bytearray(data)
    for _ in range(r.choice([1, 1, 1, 2, 3])):
        i, way = r.randrange(len(data) + 1), r.randrange(6)
        j = min(len(data), i + r.choice([1, 1, 2, 5, 20]))
        if way == 0:
            del data[i:j]
        elif way == 1:
            data[i:i] = data[i:j]
        elif way == 2:
            data[i:j] = r.choice(PIECES)
        elif way == 3:
            data[i:i] = r.choice(PIECES)
        elif way == 4 and data:
            data[min(i, len(data) - 1)] = r.choice([r.randrange(256), r.randrange(32, 127)])
        else:
            del data[j:]
    return bytes(data)


def files(seed, count):
    r = random.Random(seed)
    for k in range(count):
        way = r.random()
        if way < 0.3:
            yield good(r, 0)
        elif way < 0.6:
            yield good(r, r.choice([0.03, 0.1, 0.3]))
        elif way < 0.92:
            yield damaged(r, good(r, r.choice([0, 0, 0.3])))
        else:
            yield b''.join(r.choice(PIECES) for _ in range(r.choice([0, 1, 2, 5, 10])))


if __name__ == '__main__':
    parser = argparse.ArgumentParser(description=__doc__)
    parser.add_argument('--seed', type=int, default=1)
    parser.add_argument('--count', type=int, default=1000)
    given = parser.parse_args()
    for data in files(given.seed, given.count):
        print(data.hex())
