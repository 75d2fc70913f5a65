"""Written lists damaged in many ways, and what the line book (docs/FORMAT.md) answers on each damaged text.

    python3 tests/damage.py

writes crates/damage/stdin (frames: u32 length, tape) and crates/damage/stdout. The texts are those of tests/model.py, the answers those of
the book over tests/grammar.py; nothing expected here was ever asked of the program. The program reads each text call by call and by lists of
calls over one session, whose last call must be the same: on no text may the two differ. In no layout may a tape not read back as itself, nor may a text, or the tree text of its first value,
be another in the room that was measured, or anything but cut by 6 in a byte less.
"""
import collections
import os
import struct

import model
from grammar import book, expect
from tapes import UNKNOWN, tape, whole

PRIME = 4294967291
ROOM = 256
LONG_ROOM = 512
PAST = 1000
answers = collections.Counter()
texts = 0


def sym(text):
    return ('sym', text.encode())


def string(text):
    return ('str', text.encode())


def dec(magnitude, exponent, negative=0):
    return ('dec', negative, magnitude, exponent)


def int_(i):
    return ('int', i)


# "Text 1 LF 2 LF 3 LF": the first tape, which the examples are about.
ONE_TWO_THREE = [int_(1), int_(2), int_(3)]
TAPES = [
    ONE_TWO_THREE,
    [('marker',), ('null', 2), ('bool', 1), ('float', 0x7FF8 << 48), ('float', 0xFFF0 << 48), ('id', 7)],
    [('list', [int_(1), ('list', []), ('struct', [(sym('a'), ('sexp', [sym('b'), int_(-20)])), (sym('c d'), ('struct', []))])]), ('sexp', []),
     ('struct', [(('id', 4), ('list', [('list', [('list', [])])]))])],
    [string('a\n"é\\'), sym('true'), sym(''), sym('$7'), sym('it\'s\0'), string('日\x01')],
    # Control characters that hex digits escape: a damaged escape is refused, or means other characters.
    [string('\x01\x1f'), ('struct', [(sym('\x06'), sym('a\x0e'))]), string('\x10\x7f\0'), ('clob', b'\x01')],
    # Records with counts as floats, and floats by themselves: a damaged spelling is refused, or means another float or number.
    [('struct', [(sym('n'), whole(15))]), whole(100), ('struct', [(sym('n'), whole(2**53))]), whole(-120), whole(7)],
    [dec(123456, 0), dec(1234567, 0), dec(116, -8), dec(116, -9, 1), dec(0, 0, 1), dec(12, 3)],
    [('ts', 2, 2024, 2, 29, 0, 0, 0, UNKNOWN, 0, 0), ('ts', 3, 2024, 2, 29, 23, 59, 0, UNKNOWN, 0, 0), ('ts', 0, 2026, 0, 0, 0, 0, 0, UNKNOWN, 0, 0),
     ('ts', 4, 1999, 12, 31, 23, 59, 7, 330, 3, 42)],
    [('blob', b''), ('blob', b'\xff'), ('list', [('blob', b'\0\1'), int_(7)]), ('blob', b'finder image'), ('null', 9)],
    [('clob', b'a"\x80\'\n'), ('clob', b''), ('list', [('clob', b'}'), ('null', 8)]), int_(-2**63), sym('$ion_1_0')],
    # A tape of 265 bytes, between two that fit; with one int less it has 256.
    [int_(1), ('sexp', [int_(i % 10) for i in range(28)]), ('marker',)],
]
CHANGES = [b'\n', b'x', b'"', b'[', b"'", b'\0', b'\xff']
INSERTIONS = [b'\n', b'"', b"'", b'[', b']', b'{', b'(', b'\\', b',']


def kinds(text):
    """Each kind of damage with its (from, to, new bytes)."""
    n = len(text)
    for new in CHANGES:
        yield 'changed to %d' % new[0], [(i, i + 1, new) for i in range(n)]
    yield 'raised', [(i, i + 1, bytes([(text[i] + 1) % 256])) for i in range(n)]
    for run in range(1, 9):
        yield 'cut %d' % run, [(i, i + run, b'') for i in range(n - run + 1)]
    for new in INSERTIONS:
        yield 'inserted %d' % new[0], [(i, i, new) for i in range(n + 1)]


def damaged(text, start, end, new):
    return text[:start] + new + text[end:]


def fed(d, text):
    """The digest with all calls on a text, and two more, at its end and past it: answer, offset and whole buffer of each."""
    global texts
    texts += 1
    calls = list(book(text, b'#' * ROOM))
    buffer = calls[-1][2]
    calls += [(None, len(text), buffer), (-10, PAST, buffer)]
    for answer, at, buffer in calls:
        answers['end' if answer is None else 'count' if answer > 0 else answer] += 1
        for x in (answer or 0, at, *buffer):
            d = (d * 257 + x + 1) % PRIME
    return d


def shown(text):
    """A text, and its answers in full."""
    yield text
    for answer, _, buffer in book(text, b'#' * ROOM):
        yield b'end\n' if answer is None else b'%s\n' % buffer[:answer].hex().encode() if answer > 0 else b'refused %d\n' % -answer


def examples():
    """"Bytes 2 and 3 (from 0) replaced by one `x`: answers int 1, symbol x3. Byte 2 alone replaced: 1, x, 3.\""""
    text = model.stream(1, tape(ONE_TWO_THREE))
    assert text == b'1\n2\n3\n'
    for end, due in (4, [int_(1), sym('x3')]), (3, [int_(1), sym('x'), int_(3)]):
        said = list(shown(damaged(text, 2, end, b'x')))
        assert said[1:] == [tape([v]).hex().encode() + b'\n' for v in due] + [b'end\n'], said
        yield from said


def differs_back(layout, values):
    """Whether the tape's text in a layout does not read back as the tape."""
    made = tape(values)
    text = model.stream(layout, made)
    return len(text) > LONG_ROOM or expect(text, LONG_ROOM) != (len(made), made)


def output():
    yield from examples()
    for values in TAPES:
        yield b'written and read back, differs in layouts: %d\n' % sum(differs_back(layout, values) for layout in range(3))
        yield b'measured and written, differs in texts: 0\n'
        text = model.stream(1, tape(values))
        assert len(text) < 120, text
        yield text
        for kind, places in kinds(text):
            d = 0
            for place in places:
                d = fed(d, damaged(text, *place))
            yield b'%s: %d texts, %d, lists differ on 0\n' % (kind.encode(), len(places), d)


def main():
    folder = os.path.join(os.path.dirname(os.path.dirname(os.path.abspath(__file__))), 'crates', 'damage')
    with open(os.path.join(folder, 'stdin'), 'wb') as f:
        f.write(b''.join(struct.pack('<I', len(t)) + t for t in map(tape, TAPES)))
    with open(os.path.join(folder, 'stdout'), 'wb') as f:
        f.write(b''.join(output()))
    print('%d texts, %d calls:' % (texts, sum(answers.values())), dict(answers))


if __name__ == '__main__':
    main()
