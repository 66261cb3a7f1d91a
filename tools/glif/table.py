#!/usr/bin/env python3
"""tools/glif/table.py code|specs|page: the table of docs/GLIF.md as src/table.rt has it, as specs/Table.antt has it, and as the page has it.
One source for the three; that the code's numbers are those of the definition is proved, and not taken from here."""
import sys

CLASSES = ['control', 'blank', 'lt', 'gt', 'amp', 'slash', 'double', 'single', 'equals', 'bang', 'question', 'dash', 'open', 'shut',
           'semicolon', 'hash', 'digit', 'hex', 'small-x', 'large-x', 'letter', 'dot', 'other']
START = ['hex', 'small-x', 'large-x', 'letter']
NAME = START + ['digit', 'dash', 'dot']
ACTIONS = ['none', 'tag', 'tag-on', 'name', 'name-on', 'quote', 'char', 'attribute', 'opens', 'empty', 'closes', 'text', 'section', 'reference',
           'text-reference', 'letter-of', 'decimal', 'hexadecimal', 'named', 'numbered', 'said', 'declared', 'declaration', 'target']
# their names in the code and in the definition, where they are not these written without a hyphen
VARIANTS = {'none': 'Pass', 'name': 'NameStart', 'text': 'Content', 'declaration': 'Declares'}


def class_of(b):
    c = chr(b)
    if b in (9, 10, 13, 32):
        return 'blank'
    if b < 32:
        return 'control'
    if c in '0123456789':
        return 'digit'
    if c in 'abcdefABCDEF':
        return 'hex'
    if c == 'x':
        return 'small-x'
    if c == 'X':
        return 'large-x'
    if b >= 128 or c.isalpha() or c in '_:':
        return 'letter'
    return {'<': 'lt', '>': 'gt', '&': 'amp', '/': 'slash', '"': 'double', "'": 'single', '=': 'equals', '!': 'bang', '?': 'question',
            '-': 'dash', '[': 'open', ']': 'shut', ';': 'semicolon', '#': 'hash', '.': 'dot'}.get(c, 'other')


rows = []


def state(name, default, *moves):
    """each move: classes, the next state, the action"""
    rows.append((name, default, moves))


BAD = ('bad', 'none')
state('start', BAD, (['blank'], 'content', 'none'), (['lt'], 'start-lt', 'none'))
lt = ((START, 'tag', 'tag'), (['slash'], 'end-lt', 'none'), (['bang'], 'bang', 'none'))
state('start-lt', BAD, *lt, (['question'], 'start-pi', 'none'))
state('start-pi', BAD, (START, 'd-target', 'name'))
state('d-target', BAD, (NAME, 'd-target', 'name-on'), (['blank'], 'd-blank', 'target'))
state('d-blank', BAD, (['blank'], 'd-blank', 'none'), (START, 'd-name', 'name'), (['question'], 'd-end', 'none'))
state('d-name', BAD, (NAME, 'd-name', 'name-on'), (['blank'], 'd-after', 'none'), (['equals'], 'd-equals', 'none'))
state('d-after', BAD, (['blank'], 'd-after', 'none'), (['equals'], 'd-equals', 'none'))
state('d-equals', BAD, (['blank'], 'd-equals', 'none'), (['double'], 'd-double', 'said'), (['single'], 'd-single', 'said'))
state('d-double', ('d-double', 'char'), (['control', 'lt', 'amp'], 'bad', 'none'), (['double'], 'd-done', 'declared'))
state('d-single', ('d-single', 'char'), (['control', 'lt', 'amp'], 'bad', 'none'), (['single'], 'd-done', 'declared'))
state('d-done', BAD, (['blank'], 'd-blank', 'none'), (['question'], 'd-end', 'none'))
state('d-end', BAD, (['gt'], 'content', 'declaration'))
text = ((['control'], 'bad', 'none'), (['blank'], 'content', 'none'), (['lt'], 'lt', 'none'), (['amp'], 'ref', 'text-reference'))
state('content', ('content', 'text'), *text, (['shut'], 'text1', 'text'))
state('text1', ('content', 'text'), *text, (['shut'], 'text2', 'text'))
state('text2', ('content', 'text'), *text, (['shut'], 'text2', 'text'), (['gt'], 'bad', 'none'))
state('lt', BAD, *lt, (['question'], 'pi', 'none'))
tag = ((['slash'], 'slash', 'none'), (['gt'], 'content', 'opens'))
state('tag', BAD, (NAME, 'tag', 'tag-on'), (['blank'], 'in-tag', 'none'), *tag)
state('in-tag', BAD, (['blank'], 'in-tag', 'none'), (START, 'attr', 'name'), *tag)
state('attr', BAD, (NAME, 'attr', 'name-on'), (['blank'], 'after', 'none'), (['equals'], 'equals', 'none'))
state('after', BAD, (['blank'], 'after', 'none'), (['equals'], 'equals', 'none'))
state('equals', BAD, (['blank'], 'equals', 'none'), (['double'], 'double', 'quote'), (['single'], 'single', 'quote'))
state('double', ('double', 'char'), (['control', 'lt'], 'bad', 'none'), (['double'], 'done', 'attribute'), (['amp'], 'ref-d', 'reference'))
state('single', ('single', 'char'), (['control', 'lt'], 'bad', 'none'), (['single'], 'done', 'attribute'), (['amp'], 'ref-s', 'reference'))
state('done', BAD, (['blank'], 'in-tag', 'none'), *tag)
state('slash', BAD, (['gt'], 'content', 'empty'))
state('end-lt', BAD, (START, 'end-name', 'name'))
state('end-name', BAD, (NAME, 'end-name', 'name-on'), (['blank'], 'end-blank', 'none'), (['gt'], 'content', 'closes'))
state('end-blank', BAD, (['blank'], 'end-blank', 'none'), (['gt'], 'content', 'closes'))
state('bang', BAD, (['dash'], 'bang-dash', 'none'), (['open'], 'bang-open', 'none'))
state('bang-dash', BAD, (['dash'], 'comment', 'none'))
state('comment', ('comment', 'none'), (['control'], 'bad', 'none'), (['dash'], 'comment1', 'none'))
state('comment1', ('comment', 'none'), (['control'], 'bad', 'none'), (['dash'], 'comment2', 'none'))
state('comment2', BAD, (['gt'], 'content', 'none'))
state('bang-open', BAD, (START, 'section', 'name'))
state('section', BAD, (NAME, 'section', 'name-on'), (['open'], 'cdata', 'section'))
state('cdata', ('cdata', 'none'), (['control'], 'bad', 'none'), (['shut'], 'cdata1', 'none'))
state('cdata1', ('cdata', 'none'), (['control'], 'bad', 'none'), (['shut'], 'cdata2', 'none'))
state('cdata2', ('cdata', 'none'), (['control'], 'bad', 'none'), (['shut'], 'cdata2', 'none'), (['gt'], 'content', 'none'))
state('pi', BAD, (['hex', 'letter'], 'pi-target', 'none'))
state('pi-target', BAD, (NAME, 'pi-target', 'none'), (['blank'], 'pi-body', 'none'), (['question'], 'pi-end', 'none'))
state('pi-body', ('pi-body', 'none'), (['control'], 'bad', 'none'), (['question'], 'pi-question', 'none'))
state('pi-question', ('pi-body', 'none'), (['control'], 'bad', 'none'), (['question'], 'pi-question', 'none'), (['gt'], 'content', 'none'))
state('pi-end', BAD, (['gt'], 'content', 'none'))
for end, back in (('', 'content'), ('-d', 'double'), ('-s', 'single')):
    state('ref' + end, BAD, (START, 'word' + end, 'letter-of'), (['hash'], 'hash' + end, 'none'))
    state('word' + end, BAD, (NAME, 'word' + end, 'letter-of'), (['semicolon'], back, 'named'))
    state('hash' + end, BAD, (['digit'], 'decimal' + end, 'decimal'), (['small-x'], 'x' + end, 'none'))
    state('decimal' + end, BAD, (['digit'], 'decimal' + end, 'decimal'), (['semicolon'], back, 'numbered'))
    state('x' + end, BAD, (['digit', 'hex'], 'hex' + end, 'hexadecimal'))
    state('hex' + end, BAD, (['digit', 'hex'], 'hex' + end, 'hexadecimal'), (['semicolon'], back, 'numbered'))
state('bad', BAD)
STATES = [r[0] for r in rows]
assert len(STATES) <= 64 and len(set(STATES)) == len(STATES), len(STATES)


def cell(row, k):
    name, default, moves = row
    for classes, to, act in moves:
        if CLASSES[k] in classes:
            return to, act
    return default


def entry(row, k):
    to, act = cell(row, k)
    return ACTIONS.index(act) * 64 + STATES.index(to)


def variant(act):
    return VARIANTS.get(act) or ''.join(word.capitalize() for word in act.split('-'))


def code():
    """the arrays of src/table.rt"""
    for name, numbers in (('CLASSES', [CLASSES.index(class_of(b)) for b in range(256)]), ('TABLE', [entry(r, k) for r in rows for k in range(len(CLASSES))])):
        print(name, len(numbers), numbers)


def specs():
    """the lines of specs/Table.antt"""
    for i, (name, default, moves) in enumerate(rows):
        line = 'bad' if default == BAD else '(rest %d %s)' % (STATES.index(default[0]), variant(default[1]))
        for classes, to, act in reversed(moves):
            which = 'starts' if classes == START else 'names' if classes == NAME else '(%s ∷ [])' % ' ∷ '.join(str(CLASSES.index(c)) for c in classes)
            line = '(on %s %d %s %s)' % (which, STATES.index(to), variant(act), line)
        print('    -- %d %s\n    %s ∷' % (i, name, line[1:-1] if line.startswith('(') else line))


def page():
    """the table of docs/GLIF.md"""
    said = lambda to, act: to if act == 'none' else '%s *%s*' % (to, act)
    for i, (name, default, moves) in enumerate(rows):
        which = lambda c: 'start' if c == START else 'name' if c == NAME else ' '.join(c)
        print('| %d %s | %s | %s |' % (i, name, '; '.join('%s → %s' % (which(c), said(to, act)) for c, to, act in moves), said(*default)))


if __name__ == '__main__':
    parts = {'code': code, 'specs': specs, 'page': page}
    if len(sys.argv) != 2 or sys.argv[1] not in parts:
        sys.exit(__doc__)
    parts[sys.argv[1]]()
