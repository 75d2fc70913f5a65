#!/usr/bin/env python3
"""Makes the list that crates/vectors replays: tapes with their four texts or refusals (crates/vectors/README.md has the format).

    ION_RUST_FILES=folder tests/oracle/build
    python3 tests/vectors.py

The first line builds the oracle, for whoever has the Rust's files; once is enough. The texts are the Rust's, asked of the oracle, with control
characters as document 02, A5, has them (`amended` of tests/tapes.py); the refusals are those of docs/FORMAT.md, from tests/model.py. Where both
speak they must agree, and every text must read back to its tape by tests/grammar.py, by which those with control characters raw must be refused, and
read once they are converted, or the script stops. Nothing is asked of our own crates. The
tapes are the systematic ones below and random ones from a fixed seed, so a second run makes the same bytes. Prints what is covered, and stops
where something that should be is not.
"""
import collections
import random
import struct

import grammar
import model
from compare import damaged
from listing import LONGEST, escaped, write
from random_tapes import IDS, nested, stream, tree, value
from tapes import UNKNOWN, ask, node, tape, whole
from writings import (FALSE, INF, MARKER, MINUS_INF, MINUS_ZERO, NAN, NULL, TRUE, ZERO, at, blob, clob, dec, fraction, int_, list_, minus, nest, notes,
                      sexp, sid, sized, string, struct_, sym, time, trailed)

SEED = 7
LAYOUTS = '012t'
OVER = {'3': 3, '9': 9, 'm': 2**32 - 1}

records = {}
sections = []
cover = collections.defaultdict(collections.Counter)


class Record:
    """Of a tape, which stands once: a comment, layouts over 2 to try, whether the refusal 6 of every short room is written out, further texts that
    mean the tape, and texts that are refused, with the tapes that they mean by the old grammar."""

    def __init__(self, said):
        self.said, self.over, self.rooms, self.spellings, self.stored = said, '', False, [], []


def section(title):
    sections.append((len(records), title))


def raw(t, said='', over='', rooms=False):
    """A tape as it is."""
    record = records.setdefault(t, Record(said))
    record.over += ''.join(y for y in over if y not in record.over)
    record.rooms = record.rooms or rooms
    return t


def add(*values, **more):
    return raw(tape(values), **more)


def spelt(texts, *values):
    """Values that each of the texts means."""
    records[add(*values)].spellings += texts


def stored(text, *values):
    """A text with control characters raw, behind the last tape: it means the values by the old grammar alone."""
    records[next(reversed(records))].stored.append((text, tape(values)))


def refused(number, t, said, layouts=LAYOUTS, **more):
    """A tape refused by this number: the list takes the number from the model, and this one must be it."""
    raw(t, '%d: %s' % (number, said), **more)
    for y in layouts:
        assert asked(y, t) == number, (number, said, y, t.hex(), asked(y, t))
        cover['refusal %d' % number][said] += 1


def asked(y, t):
    """The model's text, or the number of the refusal."""
    return model.tree(t) if y == 't' else model.stream(OVER.get(y, ord(y) - ord('0')), t)


# --- Kinds and places.

FLOATS = [NAN, INF, MINUS_INF, ZERO, MINUS_ZERO]
SAMPLES = {
    0: [('null', i) for i in range(13)], 1: [TRUE, FALSE], 2: [int_(0), int_(-7)], 3: FLOATS, 4: [dec(116, -9), minus(0, 0)],
    5: [time(0, 2024), at(-5)], 6: [sym('a'), sym('true'), sym("it's")], 7: [sid(0), sid(10)], 8: [string(''), string('a"\n')],
    9: [clob(b''), clob(b'\x00a"')], 10: [list_(), list_(TRUE)], 11: [sexp(), sexp(TRUE, NULL)], 12: [struct_(), struct_(('a', TRUE))],
    13: [notes(TRUE, sym('a'))], 14: [MARKER], 15: [blob(b''), blob(b'\x00a"')], 16: [('odd', 16)]}
KINDS = ['null', 'bool', 'int', 'float', 'decimal', 'timestamp', 'symbol', 'identifier', 'string', 'clob', 'list', 'sexp', 'struct', 'annotated',
         'marker', 'blob', 'none']


def fit(kind, place):
    """Whether the kind may stand there (docs/FORMAT.md)."""
    if place in ('name', 'annotation'):
        return kind in (6, 7)
    return kind < 13 or kind == 13 and place != 'annotated' or kind == 14 and place == 'top' or kind == 15


def bytes_of(v):
    return bytes([v[1]]) if v[0] == 'odd' else node(v)


A, ONE = node(sym('k')), node(int_(1))
PLACES = {
    'top': lambda n: n, 'list': lambda n: sized(10, n), 'list, second': lambda n: sized(10, ONE + n), 'sexp': lambda n: sized(11, n),
    'sexp, second': lambda n: sized(11, ONE + n), 'struct': lambda n: sized(12, A + n), 'struct, second': lambda n: sized(12, A + ONE + A + n),
    'name': lambda n: sized(12, n + ONE), 'annotation': lambda n: b'\x0d\x01' + n + ONE, 'annotation, second': lambda n: b'\x0d\x02' + A + n + ONE,
    'annotated': lambda n: b'\x0d\x01' + A + n, 'annotated in list': lambda n: sized(10, b'\x0d\x01' + A + n),
    'annotated in sexp': lambda n: sized(11, b'\x0d\x01' + A + n), 'annotated in struct': lambda n: sized(12, A + b'\x0d\x01' + A + n),
    'list in list': lambda n: sized(10, sized(10, n)), 'sexp in struct': lambda n: sized(12, A + sized(11, n)),
    'struct in sexp': lambda n: sized(11, sized(12, A + n)), 'struct in struct': lambda n: sized(12, A + sized(12, A + n))}

section('every kind at every place')
for place, around in PLACES.items():
    for kind, samples in SAMPLES.items():
        for v in samples:
            t = raw(trailed(around(bytes_of(v)), 1), '%s, %s' % (KINDS[kind], place))
            fits = fit(kind, place.split(' ')[0].rstrip(','))
            assert fits == (asked('0', t) != 2), (kind, place)
            if not fits:
                cover['refused there'][kind, place.split(' ')[0].rstrip(',')] += 1

section('top-level nodes: none to eight, markers')
for n in range(9):
    add(*[int_(i) for i in range(n)])
    add(*[MARKER] * n)
for values in [MARKER, int_(1)], [int_(1), MARKER], [MARKER, list_(), MARKER], [list_(), sexp(), struct_()], [string('a'), sym('a'), clob(b'a')]:
    add(*values, over='39m')

section('nulls, bools, floats, ints')
for i in range(13):
    add(list_(('null', i), ('null', 12 - i)))
add(TRUE, FALSE, NULL)
add(*FLOATS)
# 02, A8: the powers of two and of ten up to 2^53 and their neighbours, other whole numbers, of either sign.
WHOLES = sorted({min(max(n, 1), model.MOST_WHOLE) for b in [*(2**k for k in range(54)), *(10**k for k in range(16))] for n in (b - 1, b, b + 1)})
for n in WHOLES:
    add(whole(n), whole(-n))
for d in range(1, 17):
    add(*(whole(int('9007199254740992'[:d]) * 10**k) for k in range(17 - d)))
for n in 15, 100, 120, 123456789, 1234567890123456, 1000000000000010, 9000000000000000:
    add(struct_(('n', whole(n))), list_(whole(n), whole(-n)), notes(whole(n), sym('a')), over='39m')
for i in sorted({s * b + d for b in [0, *(10**k for k in range(1, 19)), 2**31, 2**32, 2**53] for d in (-1, 0, 1) for s in (1, -1)}):
    add(int_(i))
for i in 2**63 - 1, 2**63 - 2, -2**63, -2**63 + 1:
    add(int_(i))
    add(struct_(('n', list_(int_(i)))))

section('identifiers')
for i in 0, 1, 9, 10, 2**31, 2**32 - 1:
    add(sid(i))
    add(struct_((sid(i), sid(i))))
    add(list_(sexp(sid(i))))
    add(notes(sid(i), sid(i)))

# --- Text.

section('symbols that are bare or quoted by their spelling')
WORDS = ['', 'true', 'false', 'nan', 'null', 'True', 'truex', 'nulls', 'null.int', 'inf', '+inf', '-inf', '$', '$$', '$7', '$0', '$07', '$7a', '$a7',
         '$4294967296', '$ion_1_0', '$ion_1_1', '$ion_12_34', '$ion_1_0_0', '$ion_1_', '$ion_1', '$ion__0', '$ion_', '$ion_1a_0', '$ion_1_0a', '$ion',
         '_', '__', '_1', 'a1', '1a', '7up', 'a-b', 'a b', ' ', 'a.b', '+', '-', '/', '//', "'", "''", "'''", '"', '\\', '{{', '::', 'é', 'aé',
         '日本']
for w in WORDS:
    add(sym(w))
    add(struct_((sym(w), TRUE)))
    add(notes(sym(w), sym(w)))

section('every byte in symbols, names, annotations, strings, clobs and blobs')


def character(b):
    """UTF-8 that has this byte, or None where none has it."""
    if b < 0x80:
        return bytes([b])
    if b < 0xC0:
        return bytes([0xC3, b])
    found = [bytes([b, *tail]) for tail in ([0xA5], [0xA5, 0x85], [0x95, 0x85], [0xA5, 0x85, 0xB5], [0x85, 0x95, 0xB5])]
    return next((c for c in found if model.is_utf8(c)), None)


NEVER = []
for b in range(256):
    c = character(b)
    add(clob(bytes([b])))
    add(list_(clob(b'a' + bytes([b]) + b'"')))
    add(blob(bytes([b])))
    add(list_(blob(bytes([b, 255 - b])), blob(bytes([b ^ 85, b, 255 - b]))))
    if c is None:
        for n in sym('a'), string('a'):
            refused(2, trailed(bytes_of(n)[:1] + struct.pack('<I', 1) + bytes([b]), 1), 'a byte of no UTF-8')
        NEVER.append(b)
    else:
        add(('sym', c))
        add(list_(('sym', b'a' + c)))
        add(struct_((('sym', c), ('str', c + b'z'))))
        add(notes(('str', c), ('sym', c), ('sym', b'_' + c)))

section('symbols, names, annotations and strings of up to nine words of eight bytes, with one byte that is otherwise')
STEM, DIGITS = b'Small_letters_and_Capitals' * 3, b'1234567890' * 7
for n in 7, 8, 9, 12, 15, 16, 17, 20, 27, 31, 32, 33, 40, 48, 64, 65:
    for odd in b'', b'"', b"'", b'\\', b'\0', b'\x0b', b'\r', b'\x1f', b' ', b'$', b'7', 'é'.encode():
        texts = sorted({STEM[:i] + odd + STEM[i + len(odd):n] for i in (0, n // 2, n - len(odd))})
        add(struct_(*((('sym', x), list_(('sym', x), ('str', x))) for x in texts)))
        add(notes(string('a'), *(('sym', x) for x in texts)))
    words = [b'$' + DIGITS[1:n], DIGITS[:n], b'$ion_' + DIGITS[:n - 7] + b'_1', b'$ion_1_' + DIGITS[:n - 7], b'$' + STEM[:n - 1], b'_' + DIGITS[:n - 1]]
    add(struct_(*((('sym', x), ('sym', x)) for x in words)))
    add(notes(NULL, *(('sym', x) for x in words)))

section('control characters that hex digits escape: in texts of many lengths, at the borders of words of eight bytes and of blocks of 32')
HEXED = bytes([*range(1, 7), *range(14, 32)])
for n in *range(1, 10), 12, 15, 16, 17, 24, 31, 32, 33, 40, 64, 65:
    places = sorted({0, 7, 8, 15, 16, 23, 24, 31, 32, n // 2, n - 9, n - 8, n - 1} & set(range(n)))
    texts = [STEM[:i] + HEXED[(n + 5 * i) % 24:][:1] + STEM[i + 1:n] for i in places] + [(HEXED * 3)[n % 24:][:n]]
    add(struct_(*((('sym', x), list_(('sym', x), ('str', x))) for x in texts)))
    add(notes(string('a'), *(('sym', x) for x in texts)))
    for x in dict.fromkeys(texts):
        stored(b'"' + x + b'"', ('str', x))
        stored(b"'" + x + b"'", ('sym', x))
for n in 255, 256, 1000:
    add(('str', (HEXED * 42)[:n]))
    add(('sym', (HEXED * 42)[:n]))

section('these and their neighbours: twice, before hex digits, in a clob; every spelling, by a letter, by hex digits, and raw, where it is read or refused')
NEIGHBOURS = {0: '0', 7: 'a', 8: 'b', 9: 't', 10: 'n', 11: 'v', 12: 'f', 13: 'r', 0x20: None, 0x7F: None, 0x80: None}


def placed(*spellings):
    """A character as annotation, name, symbol and string."""
    return ("'%s'::{'%s':['%s',\"%s\"]}" % spellings).encode()


for b in *HEXED, *NEIGHBOURS:
    c = chr(b)
    add(struct_((c + '0f', list_(sym('F' + c + c + '1'), string(c + c + 'a'), clob(c.encode() + b'0f')))))
    spellings = ['\\x%02x' % b, '\\x%02X' % b, '\\u%04x' % b, '\\U%08X' % b]
    if c in '\t\v\f \x7f\x80':
        spellings.append(c)
    if NEIGHBOURS.get(b):
        spellings.append('\\' + NEIGHBOURS[b])
    v = notes(struct_((c, list_(sym(c), string(c)))), sym(c))
    spelt([placed(*[s] * 4) for s in dict.fromkeys(spellings)], v)
    for place in range(4) if c not in spellings and c not in '\n\r' else ():
        stored(placed(*(c if i == place else spellings[0] for i in range(4))), v)

section('UTF-8: borders of one to four bytes, and what is broken')
BORDERS = [b'\x7f', b'\xc2\x80', b'\xdf\xbf', b'\xe0\xa0\x80', b'\xe0\xbf\xbf', b'\xe1\x80\x80', b'\xec\xbf\xbf', b'\xed\x80\x80', b'\xed\x9f\xbf',
           b'\xee\x80\x80', b'\xef\xbf\xbf', b'\xef\xbb\xbf', b'\xf0\x90\x80\x80', b'\xf1\x80\x80\x80', b'\xf3\xbf\xbf\xbf', b'\xf4\x80\x80\x80',
           b'\xf4\x8f\xbf\xbf']
BROKEN = [b'\x80', b'\xbf', b'\xc0\x80', b'\xc1\xbf', b'\xc2', b'\xc2a', b'\xc2\x80\x80', b'\xdf\xc0', b'\xe0\x80\x80', b'\xe0\x9f\xbf', b'\xe0\xa0',
          b'\xe1\x80\xc0', b'\xed\xa0\x80', b'\xed\xbf\xbf', b'\xf0\x80\x80\x80', b'\xf0\x8f\xbf\xbf', b'\xf0\x90\x80', b'\xf0', b'\xf4\x90\x80\x80',
          b'\xf5\x80\x80\x80', b'\xf8\x88\x80\x80\x80', b'\xfe', b'\xff']
for c in BORDERS:
    add(('sym', c))
    add(('str', c))
    add(struct_((('sym', c + c), ('str', b'a' + c + b'"' + c))))
for c in BROKEN:
    for kind in 6, 8:
        refused(2, trailed(sized(kind, c), 1), 'broken UTF-8')
        refused(2, trailed(sized(kind, b'a' + c), 1), 'broken UTF-8')
    refused(2, trailed(sized(12, sized(6, c) + ONE), 1), 'broken UTF-8 in a name')
    refused(2, trailed(b'\x0d\x01' + sized(6, c) + ONE, 1), 'broken UTF-8 in an annotation')
    add(('clob', c))
for n in 1, 2, 16, 255, 256, 1000:
    add(('str', b'x' * n))
    add(('sym', b'x' * n))
    add(('clob', b'x' * n))
    add(('blob', b'x' * n))

section('blobs of every length below 100, and on both sides of 3072 and 6144')
for n in *range(100), 3071, 3072, 3073, 3074, 6143, 6144, 6145:
    add(blob((bytes(range(7, 256)) * 25)[:n]), rooms=n < 8)

# --- Numbers.

section('decimals: sums of length and exponent from -30 to 30, seven lengths, both signs')


def magnitude(length, last=0):
    return 2**64 - 1 if length == 20 else int(('9876543210' * 2)[:length]) - last


for total in range(-30, 31):
    for length in 1, 2, 3, 6, 7, 19, 20:
        add(('dec', (total + length) % 2, magnitude(length), total - length))
    add(list_(*(('dec', length % 2, 10**(length - 1), total - length) for length in range(1, 21))))

section('decimals: exponent zero, borders of exponent and magnitude, zeros')
for length in range(1, 21):
    add(dec(magnitude(length), 0), minus(10**(length - 1), 0))
for e in (-2**31, -2**31 + 1, -2**31 + 19, -2**31 + 20, -1, 0, 1, 2**31 - 2, 2**31 - 1):
    for m in 0, 1, 9, 10, 123456, 1234567, 2**63, 2**64 - 1:
        add(list_(dec(m, e), minus(m, e)))
for e in range(-9, 4):
    add(minus(0, e))
    add(dec(0, e))

section('timestamps: precisions, offsets, fractions, months, leap days')
OFFSETS = [UNKNOWN, 0, 1, -1, 59, -59, 60, -60, 61, -61, 480, -480, 1438, 1439, -1438, -1439]
for p in range(5):
    for y in 1, 9, 99, 999, 1000, 1999, 9999:
        fields = (y, 12, 31, 23, 59, 58)[:(1, 2, 3, 5, 6)[p]]
        add(time(p, *fields))
for offset in OFFSETS:
    for p in 3, 4:
        add(time(p, 2024, 2, 29, 0, 1, 2 * (p - 3), offset))
for digits in range(10):
    for n in sorted({0, 1 if digits else 0, 10**digits - 1, 10**digits // 2}):
        add(fraction(digits, n))
        add(struct_(('at', time(4, 2007, 2, 23, 12, 14, 33, -480, digits, n))))
for y in 2023, 2024, 1900, 2000:
    for m in range(1, 13):
        last = 28 + (m == 2 and y in (2024, 2000)) if m == 2 else 30 if m in (4, 6, 9, 11) else 31
        add(list_(time(1, y, m), time(2, y, m, 1), time(2, y, m, last), time(3, y, m, last, 23, 59, 0, UNKNOWN)))
        refused(2, tape([time(2, y, m, last + 1)]), 'day past the month')
TIME = dict(p=4, year=2024, month=2, day=29, hour=23, minute=59, second=59, offset=-5, digits=3, fraction=999)
for name, wrong in (('p', (5, 255)), ('year', (0, 10000, 65535)), ('month', (0, 13, 255)), ('day', (0, 30, 255)), ('hour', (24, 255)),
                    ('minute', (60, 255)), ('second', (60, 255)), ('offset', (-1440, 1440, -32768, 32766)), ('digits', (0, 2, 10, 255)),
                    ('fraction', (1000, 2**32 - 1))):
    for n in wrong:
        refused(2, tape([time(**{**TIME, name: n})]), 'timestamp with a wrong ' + name)
for p, name, n in ((0, 'month', 1), (1, 'day', 1), (2, 'hour', 1), (2, 'minute', 1), (3, 'second', 1), (3, 'digits', 1), (2, 'offset', 0),
                   (0, 'offset', 5)):
    fields = dict(zip(('month', 'day', 'hour', 'minute', 'second'), (2, 28, 1, 1, 1)[:(0, 1, 2, 4, 5)[p]]))
    refused(2, tape([time(p, 2024, **{**fields, name: n})]), 'timestamp with a field past its precision')

# --- Containers.

section('containers: empty, full and in each other, in every layout')
EMPTY = [list_(), sexp(), struct_()]
for outer in list_, sexp, lambda *v: struct_(*(('f%d' % i, x) for i, x in enumerate(v))):
    for n in range(6):
        add(outer(*[int_(i) for i in range(n)]))
        add(outer(*(EMPTY * 2)[:n]))
    for inner in list_, sexp, lambda *v: struct_(*(('g%d' % i, x) for i, x in enumerate(v))):
        add(outer(inner(TRUE), NULL, inner()))
        add(outer(inner(inner(), sym('x')), inner(outer())))
add(struct_(('a', int_(1)), ('a', int_(2)), ('', NULL), (sid(0), NULL)))

section('depth 1 to 64, and 65')
CYCLE = ['list', 'sexp', 'struct']
for depth in range(1, 65):
    v = int_(depth)
    for level in range(depth):
        v = nest(CYCLE[(level + depth) % 3], 1, v)
    add(v)
for kind in CYCLE:
    for depth in 2, 63, 64:
        add(nest(kind, depth, NULL))
        add(nest(kind, depth - 1, (kind, [])))
    for inner in NULL, list_(), struct_():
        refused(3, tape([nest(kind, 65, inner)]), 'depth 65, ' + kind)
    refused(3, tape([nest(kind, 64, (kind, []))]), 'depth 65, empty ' + kind)
    refused(3, tape([nest(kind, 64, notes((kind, []), sym('a')))]), 'depth 65, annotated ' + kind)
    refused(3, tape([int_(1), nest(kind, 70, NULL), int_(2)]), 'depth 70, ' + kind)
add(notes(nest('list', 64, notes(TRUE, sym('b'))), sym('a')))

section('annotations 1 to 16, none and 17')
for n in range(1, 17):
    add(notes(int_(n), *[sym('a%d' % i) for i in range(n)]))
    add(list_(notes(list_(), *[sid(0)] * n)))
    add(struct_((sym('f'), notes(sexp(notes(NULL, sym('b'))), *[sym('b c')] * n))))
for n in 0, 17, 255:
    refused(2, trailed(bytes([13, n]) + node(sym('a')) * n + ONE, 1), '%d annotations' % n)
    refused(2, trailed(sized(10, bytes([13, n]) + node(sid(0)) * n + ONE), 1), '%d annotations' % n)

# --- Refusals, by cause; the model gives the number and the cause is what it is expected for.

section('refusal 1')
for n in range(8):
    refused(1, bytes(n), 'tape under 8 bytes')
    refused(1, b'\xff' * n, 'tape under 8 bytes')
for body in b'', ONE, node(list_(TRUE)), node(string('abc')):
    for length in sorted({len(body) + 1, len(body) + 8, 2**32 - 1, 2**31, max(len(body) - 1, 0)} - {len(body)}):
        refused(1, trailed(body, 1, length), 'body length is not the tape\'s', over='3')
    refused(1, trailed(body, 1) + b'\0', 'a byte behind the trailer')
    refused(1, trailed(body, 1)[:-1], 'the trailer cut')

section('refusal 2')
for kind in [*range(16, 32), 127, 128, 255]:
    refused(2, trailed(bytes([kind]), 1), 'kind over 15')
    refused(2, trailed(sized(10, bytes([kind])), 1), 'kind over 15')
for cut in b'\x0f', b'\x0f\0\0\0', b'\x0f\x01\0\0\0', b'\x0f\xff\xff\xff\xff':
    refused(2, trailed(cut, 1), 'a blob cut off')
    refused(2, trailed(sized(10, cut), 1), 'a blob cut off')
for kind, limit, said in (0, 12, 'null type over 12'), (1, 1, 'bool over 1'):
    for n in limit + 1, limit + 2, 128, 255:
        refused(2, trailed(bytes([kind, n]), 1), said)
for sign in 2, 128, 255:
    refused(2, trailed(b'\x04' + struct.pack('<BQi', sign, 1, 1), 1), 'decimal sign over 1')
for bits in 0x7FF8000000000001, 0x7FF0000000000001, 0xFFF8 << 48, 0x7FFFFFFFFFFFFFFF, 0xFFFFFFFFFFFFFFFF, 0xFFF0000000000001, 0x7FF4 << 48:
    refused(2, tape([('float', bits)]), 'another NaN')
for kind, samples in SAMPLES.items():
    v = bytes_of(samples[-1])
    for cut in range(1, len(v)):
        refused(2, trailed(v[:cut], 1), 'a node cut short')
        if kind != 13:
            refused(2, trailed(sized(10, v[:cut]), 1), 'a node cut short in a list')
for kind in 6, 8, 9, 10, 11, 12:
    for length in 3, 2**31, 2**32 - 1, 2**32 - 5:
        refused(2, trailed(sized(kind, node(TRUE), length), 1), 'a length past the body')
        refused(2, trailed(sized(11, sized(kind, node(TRUE), length)) + ONE, 2), 'a length past the container')
for body, right in (b'', 0), (ONE, 1), (ONE * 2, 2), (b'\x0e' * 3, 3):
    for count in sorted({0, 1, 2, 3, right + 1, 2**32 - 1} - {right}):
        refused(2, trailed(body, count), 'wrong top-level count')
refused(2, trailed(sized(12, A), 1), 'a name without a value')
refused(2, trailed(sized(12, A + ONE + A), 1), 'a name without a value')
refused(2, trailed(b'\x0d\x01' + A, 1), 'annotations without a value')

section('refusal 4')
MOST = 0x4340000000000000  # the bits of 2^53
for bits in (0x3FF8 << 48, 1, 0x8000000000000001, 0x7FEFFFFFFFFFFFFF, 0xFFEFFFFFFFFFFFFF, 0x3FB999999999999A, 0x0010000000000000, 0xBFF8 << 48,
             MOST + 1, MOST + (1 << 63) + 1, 0x3FE0 << 48, 0x3FEFFFFFFFFFFFFF, 0x3FF0000000000001):
    f = ('float', bits)
    for said, v in ('', f), (' in a list', list_(TRUE, f)), (' in a struct', struct_(('a', f))), (' annotated', notes(f, sym('a'))):
        refused(4, tape([v]), 'a finite float that is no whole number of magnitude up to 2^53' + said)
    refused(4, tape([int_(1), f]), 'a finite float that is no whole number of magnitude up to 2^53, second')
for k in range(1, 60):
    refused(4, tape([whole(2.0**-k)]), 'a power of two below one')
for k in range(54, 64):
    refused(4, tape([whole(2.0**k)]), 'a power of two over 2^53')
for k in range(16, 30):
    refused(4, tape([whole(10.0**k)]), 'a power of ten over 2^53')
for n in (15, 100, 4503599627370495):
    refused(4, tape([whole(n + 0.5)]), 'a half')

section('refusal 5: streaming')
for v in TRUE, list_(), string('a'), sid(1):
    for said, w in ('', notes(v, sym('a'))), (' in a list', list_(TRUE, notes(v, sid(0)))), (' in a sexp', sexp(notes(v, sym('')))), (
            ' in a struct', struct_(('a', notes(v, sym('a'), sym('b'))))), (' deep', nest('list', 62, list_(notes(v, sym('a'))))):
        refused(5, tape([w]), 'an annotated value' + said, layouts='012')
section('refusal 5: tree')
refused(5, tape([]), 'no top-level node', layouts='t')
for n in 2, 3, 17:
    refused(5, tape([int_(i) for i in range(n)]), 'more than one top-level node', layouts='t')
refused(5, tape([MARKER]), 'a marker', layouts='t')
refused(5, tape([MARKER, int_(1)]), 'a marker and a value', layouts='t')
for i in 1, 4, 9, 2**32 - 1:
    for said, v in ('a value', sid(i)), ('a name', struct_((sid(i), TRUE))), ('an annotation', notes(TRUE, sid(i))), (
            'a value inside', list_(sexp(sid(i)))), ('a name inside', sexp(struct_((sid(i), TRUE)))), (
            'an annotation inside', list_(notes(NULL, sym('a'), sid(i)))):
        refused(5, tape([v]), 'an identifier but 0 as ' + said, layouts='t')

section('the order of refusals: a tape with two faults')
FAULTS = {2: b'\x10', 3: node(nest('list', 65, TRUE)), 4: node(('float', 0x3FF8 << 48)), 5: node(notes(TRUE, sid(1)))}


def order(first, second, t, over=''):
    refused(2 if first == 'the count' else first, t, '%s comes before %s' % (first, second), over=over)
    cover['order'][first, second] += 1


for first in 2, 3, 4:
    for second in 2, 3, 4:
        order(first, second, trailed(FAULTS[first] + FAULTS[second], 2), over='3m')
        order(first, second, trailed(ONE + FAULTS[first] + FAULTS[second], 3))
        if first != 3:
            order(first, second, trailed(sized(10, FAULTS[first] + FAULTS[second]), 1))
    order(first, 5, trailed(FAULTS[first] + FAULTS[5], 2), over='9')
    order(first, 5, trailed(FAULTS[5] + FAULTS[first], 2))
    order(first, 'the count', trailed(FAULTS[first], 0))
    order(first, 'the count', trailed(FAULTS[first] + ONE, 5))
    order(1, first, trailed(FAULTS[first], 1, 0), over='3')
order(1, 5, trailed(FAULTS[5], 1, 3), over='m')
order(1, 'the count', trailed(ONE, 7, 3), over='9')
for t in trailed(FAULTS[5], 0), trailed(FAULTS[5], 2), trailed(node(sid(1)), 2):
    order('the count', 5, t)
# The header of the 65th container comes before its depth, its depth before what it holds, a name before its value.
overlong = sized(10, b'', 1)
for _ in range(64):
    overlong = sized(10, overlong)
refused(2, trailed(overlong, 1), 'the 65th container\'s length comes before its depth')
refused(3, tape([nest('list', 65, ('float', 1))]), 'depth comes before what the 65th container holds')
refused(2, trailed(sized(12, sized(6, b'\xff') + FAULTS[4]), 1), 'a name comes before its value')
refused(4, trailed(sized(12, A + FAULTS[4] + sized(6, b'\xff') + ONE), 1), 'a value comes before the next name')
for t in tape([notes(list_(TRUE), sym('a'))]), tape([sid(1)]), tape([struct_((sid(7), string('abc')))]), b'', tape([]), tape([TRUE]):
    raw(t, over='39m')

section('refusal 6: every room, written out')
for values in ([list_(TRUE)], [struct_(('a', list_(int_(1))))], [struct_(('a', int_(1)), ('b c', sexp(NULL, string('é\n'))))], [clob(b'\x01"')],
               [string('\x01')], [string('\x01\x02\x03\x04\x0e\x0f\x1fb')], [struct_(('\x1f', list_(sym('a\x06'), string('\x0e\x10b'))))],
               [notes(sym('\x02\x11'), sym('\x1e'), sym("\x05'"))],
               [dec(116, -9)], [at(-5)], [MARKER, int_(-1)], [sym('é')], [notes(list_(dec(1, -9), sid(0)), sym('a'), sym('b c'))],
               [sexp(), list_(), struct_()]):
    add(*values, rooms=True)

section('random tapes without annotations')
r = random.Random(SEED)
for _ in range(400):
    add(*stream(r))
section('random single values with annotations')
for _ in range(300):
    add(*tree(r))
section('random tapes, damaged')
for _ in range(300):
    v = stream(r) if r.random() < .5 else tree(r)
    if r.random() < .05:
        v = [nested(r, r.choice([64, 65]), value(r, 0, IDS, True))]
    raw(damaged(r, v))


# --- The list.

def held(t, y, text):
    """What the program tries with a text follows from docs/FORMAT.md: the rooms, and reading back."""
    for room in {len(text) + 9, len(text), max(len(text) - 1, 0), len(text) // 2, 0}:
        due = (len(text), text + b'\xa5' * (room - len(text))) if room >= len(text) else (-6, text[:room])
        assert model.answer(text, b'\xa5' * room) == due
    assert min(text.replace(b'\n', b' '), default=0x20) >= 0x20
    assert grammar.expect(text, len(t)) == (len(t), t) and grammar.expect(text, len(t) - 1) == (-9, b'')
    if y == '1':
        nodes = b''.join(buffer[:n - 8] for n, _, buffer in grammar.book(text, b'\xa5' * len(t)) if n)
        assert nodes == t[:-8]


def refusal_line(y, t, number, sums):
    sums.update(refusals=1, writes=3)
    cover['refusals met'][number] += 1
    if y in OVER:
        without = asked('1', t)
        cover['7 comes before'][without if isinstance(without, int) else 'a text'] += 1
    return '%s!%d' % (y, number)


def text_lines(y, t, text, rooms, sums):
    """The text's line, and where asked for those of its short rooms."""
    assert max(len(t), len(text)) <= LONGEST
    held(t, y, text)
    sums.update(texts=1, writes=6 if text else 3, reads=3)
    cover['texts met'][y] += 1
    if y == '1':
        sums.update(reads=1 + struct.unpack('<I', t[-4:])[0])
    yield '%s=%s' % (y, escaped(text))
    for room in range(len(text) if rooms else 0):
        sums.update(refusals=1, writes=1)
        cover['refusals met'][6] += 1
        yield '%s!6%s' % (y, escaped(text[:room]))


def record_lines(t, record, rust, sums):
    if record.said:
        yield '# ' + record.said
    yield 'x' + t.hex()
    for y in LAYOUTS + record.over:
        said = asked(y, t)
        if isinstance(said, int):
            yield refusal_line(y, t, said, sums)
        else:
            assert rust[y, t] == said, (y, t.hex(), rust[y, t], said)
            yield from text_lines(y, t, rust[y, t], record.rooms, sums)
    for text in record.spellings:
        assert grammar.expect(text, len(t)) == (len(t), t), text
        sums.update(texts=1, reads=3)
        yield 'r=' + escaped(text)
    for text, meant in record.stored:
        assert grammar.expect(text, LONGEST) == (-8, b''), text
        assert grammar.expect(text, LONGEST, grammar.OLD)[1] == grammar.expect(grammar.converted(text), LONGEST)[1] == meant, text
        sums.update(refusals=1, reads=3)
        cover['refusals met'][8] += 1
        yield 'r!8' + escaped(text)


def main():
    accepted = [(y, t) for t in records for y in LAYOUTS if not isinstance(asked(y, t), int)]
    rust = dict(zip(accepted, ask([(3 if y == 't' else int(y), t) for y, t in accepted])))
    sums = collections.Counter(tapes=len(records))
    lines = ['# Tapes with their four texts, or refusals. Made by tests/vectors.py; README.md has the format.']
    heads = dict(sections)
    for i, (t, record) in enumerate(records.items()):
        if i in heads:
            lines += ['', '# --- ' + heads[i]]
        lines += record_lines(t, record, rust, sums)
    check_cover()
    assert sums['tapes'] >= 2000
    write('vectors', lines, sums)


def meet(v, place, outer, depth):
    """Counts what an accepted value has."""
    kind = v[0]
    number = KIND_NUMBER[kind]
    cover['kind and place'][number, place] += 1
    if kind in ('sym', 'str', 'clob', 'blob'):
        of = {'str': 'string', 'clob': 'clob', 'blob': 'blob'}.get(kind, place if place in ('name', 'annotation') else 'symbol')
        cover['byte of: ' + of].update(v[1])
        cover['length of a text'][len(v[1])] += 1
        if kind not in ('clob', 'blob'):
            cover['UTF-8 width'].update(len(c.encode()) for c in v[1].decode())
    elif kind == 'dec':
        length = len(str(v[2]))
        p = length + v[3]
        form = (v[3] > 0) - (v[3] < 0), 'p over 0' if p > 0 else 'p to -5' if p > -6 else 'p below -5'
        cover['decimal sum'][p] += 1
        cover['decimal length'][length] += 1
        cover['decimal form'][v[1], form] += 1
        cover['decimal zero'][v[1], v[3]] += v[2] == 0
    elif kind == 'ts':
        cover['precision'][v[1]] += 1
        cover['offset'][v[8]] += v[1] > 2
        cover['fraction digits'][v[9]] += v[1] == 4
        cover['29 February'][v[1]] += v[3:5] == (2, 29)
    elif kind in ('null', 'bool', 'float', 'id', 'int'):
        cover[kind][v[1]] += 1
    elif kind == 'notes':
        cover['annotations'][len(v[1])] += 1
        for s in v[1]:
            meet(s, 'annotation', kind, depth)
        meet(v[2], 'annotated', outer, depth)
    elif kind in ('list', 'sexp', 'struct'):
        cover['depth'][depth + 1] += 1
        cover['container in container'][outer, kind] += 1
        cover['children'][kind, min(len(v[1]), 3)] += 1
        for child in v[1]:
            if kind == 'struct':
                meet(child[0], 'name', kind, depth + 1)
                child = child[1]
            meet(child, kind, kind, depth + 1)


KIND_NUMBER = dict(zip('null bool int float dec ts sym id str clob list sexp struct notes marker blob'.split(), range(16)))


def check_cover():
    """Counts what the tapes hold, prints it, and stops where a cell that should be covered is empty."""
    for t in records:
        try:
            found, _ = model.values(t)
        except model.Refused:
            continue
        cover['top-level nodes'][min(len(found), 8)] += 1
        for v in found:
            meet(v, 'top', 'top', 0)
    valid = [b for b in range(256) if b not in NEVER]
    containers = ('list', 'sexp', 'struct')
    due = {'byte of: ' + text: valid for text in ('symbol', 'string', 'name', 'annotation')}
    due.update({
        'byte of: clob': range(256), 'byte of: blob': range(256), 'UTF-8 width': range(1, 5), 'length of a text': (0, 1, 2, 16, 255, 256, 1000), 'null': range(13),
        'bool': range(2), 'float': [f[1] for f in FLOATS] + [whole(s * n)[1] for n in WHOLES for s in (1, -1)], 'int': (0, 1, -1, 9, 10, 2**31, 2**63 - 1, -2**63), 'id': (0, 1, 10, 2**32 - 1),
        'decimal sum': range(-30, 31), 'decimal length': range(1, 21), 'decimal zero': [(s, e) for s in (0, 1) for e in range(-9, 4)],
        'decimal form': [(s, form) for s in (0, 1) for form in ((-1, 'p over 0'), (-1, 'p to -5'), (-1, 'p below -5'), (0, 'p over 0'),
                                                                (1, 'p over 0'))],
        'precision': range(5), 'offset': OFFSETS, 'fraction digits': range(10), '29 February': (2, 3, 4), 'annotations': range(1, 17),
        'depth': range(1, 65), 'container in container': [(a, b) for a in ('top', *containers) for b in containers],
        'children': [(c, n) for c in containers for n in range(4)], 'top-level nodes': range(9), 'texts met': LAYOUTS, 'refusals met': range(1, 9),
        '7 comes before': (1, 2, 3, 4, 5, 'a text'),
        'order': [(1, x) for x in (2, 3, 4, 5, 'the count')] + [(x, y) for x in (2, 3, 4) for y in (2, 3, 4, 5, 'the count')] + [('the count', 5)]})
    places = ('top', 'list', 'sexp', 'struct', 'name', 'annotation', 'annotated')
    print('%-12s' % 'kind' + ''.join('%12s' % p for p in places))
    for k, kind in enumerate(KINDS):
        cells = [(cover['kind and place' if fit(k, p) else 'refused there'][k, p], '' if fit(k, p) else ' refused') for p in places]
        print('%-12s' % kind + ''.join('%12s' % ('%d%s' % c) for c in cells))
        assert all(n for n, _ in cells), kind
    for name, cells in due.items():
        counts = [cover[name][c] for c in cells]
        print('%-22s %3d cells, %d to %d in each' % (name, len(counts), min(counts), max(counts)))
        assert min(counts) > 0, (name, [c for c in cells if not cover[name][c]])
    for number in range(1, 9):
        causes = cover['refusal %d' % number]
        told = '; by cause: ' + '; '.join('%s %d' % c for c in causes.items()) if causes else ''
        print('refusal %d: %d lines%s' % (number, cover['refusals met'][number], told))


if __name__ == '__main__':
    main()
