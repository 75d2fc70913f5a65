#!/usr/bin/env python3
"""The writer on worked tapes: a table of tapes and what they give by docs/FORMAT.md.

`gives(layout, values, text)` has its text written down here by hand. `refuses(number, tape)` has its number so. The comments are sentences
of documents 01 and 02, which docs/FORMAT.md restates. `row(layout, tape, room)` is left to tests/model.py; the rows written by hand are held
against it too. Nothing expected here was ever asked of the program or of the Rust.
Run it to write crates/writings/stdin (frames: layout or `t`, u32 room, u32 length, tape) and crates/writings/stdout (answer and whole buffer).
"""
import os
import struct

import model
from tapes import UNKNOWN, node, tape, whole

COMPACT, LINES, PRETTY = LAYOUTS = (0, 1, 2)
TREE = ord('t')
rows = []


def row(layout, t, room):
    """A tape with a room; the buffer is `#` all over before the call."""
    text = model.tree(t) if layout == TREE else model.stream(layout, t)
    answer, buffer = model.answer(text, b'#' * room)
    rows.append((layout, room, t, answer, buffer))
    return answer, buffer


def gives(layout, values, text, spares=(3, 0)):
    """A text, in rooms with so many bytes to spare behind it, which are kept."""
    text = text.encode()
    for spare in spares:
        assert row(layout, tape(values), len(text) + spare) == (len(text), text + b'#' * spare), (layout, values, text)


def gives_lines(*pairs):
    """Values at top level, each with its text; a blank (Compact) or LF follows every one."""
    for v, text in pairs:
        gives(LINES, [v], text + '\n', spares=(2,))
    for layout, end in (COMPACT, ' '), (PRETTY, '\n'):
        gives(layout, [v for v, _ in pairs], ''.join(text + end for _, text in pairs))


def refuses(number, *tapes, layouts=LAYOUTS, rooms=(12,)):
    """Tapes refused in each layout with the buffer untouched."""
    for t in tapes:
        for layout in layouts:
            for room in rooms:
                assert row(layout, t, room) == (-number, b'#' * room), (number, t.hex())


def trailed(body, count, length=None):
    return body + struct.pack('<II', len(body) if length is None else length, count)


def sized(kind, body, length=None):
    return bytes([kind]) + struct.pack('<I', len(body) if length is None else length) + body


def nest(kind, depth, inner):
    """`depth` containers around a value."""
    for _ in range(depth):
        inner = (kind, [(sym('k'), inner)] if kind == 'struct' else [inner])
    return inner


# The nodes.
TYPES = 'null bool int float decimal timestamp symbol string clob blob list sexp struct'.split()
NAN, INF, MINUS_INF, ZERO, MINUS_ZERO = (('float', bits << 48) for bits in (0x7FF8, 0x7FF0, 0xFFF0, 0, 0x8000))
ONE_AND_A_HALF, LEAST, GREATEST = ('float', 0x3FF8 << 48), ('float', 1), ('float', 0xFFEFFFFFFFFFFFFF)
TRUE, FALSE, MARKER, NULL = ('bool', 1), ('bool', 0), ('marker',), ('null', 0)


def int_(i):
    return ('int', i)


def dec(magnitude, exponent):
    return ('dec', 0, magnitude, exponent)


def minus(magnitude, exponent):
    return ('dec', 1, magnitude, exponent)


def sym(text):
    return ('sym', text.encode())


def sid(n):
    return ('id', n)


def string(text):
    return ('str', text.encode())


def clob(content):
    return ('clob', content)


def blob(content):
    return ('blob', content)


def list_(*values):
    return ('list', list(values))


def sexp(*values):
    return ('sexp', list(values))


def struct_(*fields):
    return ('struct', [(sym(n) if isinstance(n, str) else n, v) for n, v in fields])


def notes(value, *symbols):
    return ('notes', list(symbols), value)


def time(p, year, month=0, day=0, hour=0, minute=0, second=0, offset=UNKNOWN, digits=0, fraction=0):
    return ('ts', p, year, month, day, hour, minute, second, offset, digits, fraction)


def at(offset):
    return time(3, 2024, 2, 29, 23, 59, 0, offset)


def fraction(digits, n):
    return time(4, 1999, 12, 31, 23, 59, 7, 0, digits, n)


# "empty symbol `''`; `true` gives `'true'`; text `$7` gives `'$7'`; `$ion_1_0_0` stays bare."
gives_lines((sym(''), "''"), (sym('true'), "'true'"), (sym('$7'), "'$7'"), (sym('$ion_1_0_0'), '$ion_1_0_0'))
# "123456 e 0 `123456.`; 1234567 e 0 `1.234567d6`; 116 e -8 `0.00000116`; 116 e -9 `1.16d-7`; -0 e 0 `-0.`"
gives_lines((dec(123456, 0), '123456.'), (dec(1234567, 0), '1.234567d6'), (dec(116, -8), '0.00000116'), (dec(116, -9), '1.16d-7'),
            (minus(0, 0), '-0.'))
# "offsets unknown, -5: `-00:00`, `-00:05`"; "0 is `+00:00`"
gives_lines((at(UNKNOWN), '2024-02-29T23:59-00:00'), (at(-5), '2024-02-29T23:59-00:05'), (at(0), '2024-02-29T23:59+00:00'))
# "list 1, 2 in Compact is `[1, 2, ] `"
gives(COMPACT, [list_(int_(1), int_(2))], '[1, 2, ] ')
# "Pretty `{a: [1]}`: lines `{`, `  a: [`, `    1,`, `  ],`, `}`."
gives(PRETTY, [struct_(('a', list_(int_(1))))], '{\n  a: [\n    1,\n  ],\n}\n')
# "Hex `0A 02 00 00 00 01 01 07 00 00 00 01 00 00 00` gives `[true, ]`, LF."
EXAMPLE = bytes.fromhex('0A 02 00 00 00 01 01 07 00 00 00 01 00 00 00')
assert EXAMPLE == tape([list_(TRUE)])
gives(COMPACT, [list_(TRUE)], '[true, ] ')
gives(LINES, [list_(TRUE)], '[true, ]\n')
gives(PRETTY, [list_(TRUE)], '[\n  true,\n]\n')
# "Tempting: the inherent `write`, which indents twice"
gives(PRETTY, [list_(list_(list_()))], '[\n  [\n    [\n    ],\n  ],\n]\n')
# "dropping the last separator"
gives(COMPACT, [int_(1), int_(2)], '1 2 ')
gives(LINES, [int_(1), int_(2)], '1\n2\n')
# "p = -6 as plain zeros": the last plain one and the first scientific one
gives_lines((dec(12, -7), '0.0000012'), (dec(12, -8), '1.2d-7'))
# "escaping LF in strings but not in symbols"
gives_lines((string('a\nb'), r'"a\nb"'), (sym('a\nb'), r"'a\nb'"))

# "A separator follows every value, the last included: `, ` in lists and structs, blank in sexps, and at top level a blank (0) or LF (1)."
FIELDS = struct_(('a', int_(1)), (sid(7), sexp(int_(2), NULL)), ('b c', list_()))
gives(COMPACT, [], '')
gives(LINES, [], '')
gives(PRETTY, [], '')
gives(COMPACT, [sexp(int_(1), int_(2)), sexp()], '(1 2 ) () ')
gives(LINES, [sexp(int_(1), int_(2)), sexp()], '(1 2 )\n()\n')
gives(COMPACT, [FIELDS, struct_()], "{a: 1, $7: (2 null ), 'b c': [], } {} ")
gives(LINES, [FIELDS, struct_()], "{a: 1, $7: (2 null ), 'b c': [], }\n{}\n")
# "Pretty uses `,` LF, LF and LF, puts LF after each opening bracket and indents two blanks a level."
gives(PRETTY, [FIELDS, struct_(), sexp(sexp(int_(1))), int_(3)],
      "{\n  a: 1,\n  $7: (\n    2\n    null\n  ),\n  'b c': [\n  ],\n}\n{\n}\n(\n  (\n    1\n  )\n)\n3\n")
# "a struct value has no indentation before it, its name has"
gives(PRETTY, [list_(struct_(('s', struct_(('t', TRUE)))))], '[\n  {\n    s: {\n      t: true,\n    },\n  },\n]\n')
# "A marker is `$ion_1_0` and the top-level separator."
gives(COMPACT, [MARKER, int_(1), MARKER], '$ion_1_0 1 $ion_1_0 ')
gives(LINES, [MARKER, int_(1), MARKER], '$ion_1_0\n1\n$ion_1_0\n')
gives(PRETTY, [MARKER, int_(1), MARKER], '$ion_1_0\n1\n$ion_1_0\n')

# Every scalar kind. "Nulls print `null` or `null.` and the type. Floats: nan, +inf, -inf, 0e0, -0e0." 02, A8: "15 is `1.5e1`"
gives_lines((NULL, 'null'), *((('null', i), 'null.' + t) for i, t in enumerate(TYPES) if i))
gives_lines((TRUE, 'true'), (FALSE, 'false'))
gives_lines((NAN, 'nan'), (INF, '+inf'), (MINUS_INF, '-inf'), (ZERO, '0e0'), (MINUS_ZERO, '-0e0'), (whole(15), '1.5e1'))
gives_lines((int_(0), '0'), (int_(-1), '-1'), (int_(2**63 - 1), '9223372036854775807'), (int_(-2**63), '-9223372036854775808'))
# "e over 0, digits, `d`, e; e below 0 and p over 0, point after p digits; p from -5 to 0, `0.`, -p zeros, digits"
gives_lines((dec(12, 3), '12d3'), (minus(12, 2**31 - 1), '-12d2147483647'), (dec(1234, -2), '12.34'), (minus(1234, -4), '-0.1234'),
            (dec(0, -1), '0.0'), (dec(2**64 - 1, 0), '1.8446744073709551615d19'), (minus(12, -2**31), '-1.2d-2147483647'))
# "`YYYYT`, `YYYY-MMT`, `YYYY-MM-DDT`, `YYYY-MM-DDThh:mm` with offset, or with `:ss`, fraction and offset."
gives_lines((time(0, 1), '0001T'), (time(0, 9999), '9999T'), (time(1, 2026, 2), '2026-02T'), (time(2, 2024, 2, 29), '2024-02-29T'),
            (at(1439), '2024-02-29T23:59+23:59'), (at(-1439), '2024-02-29T23:59-23:59'))
# "A count of 0 prints no point; else a point and that many digits."
gives_lines((fraction(0, 0), '1999-12-31T23:59:07+00:00'), (fraction(1, 0), '1999-12-31T23:59:07.0+00:00'),
            (fraction(9, 42), '1999-12-31T23:59:07.000000042+00:00'))
# "An identifier prints `$` and its number."
gives_lines((sid(0), '$0'), (sid(10), '$10'), (sid(2**32 - 1), '$4294967295'))
# "Text is quoted if it is true, false, nan or null, or `$` and digits, or `$ion_` digits `_` digits; else bare if it is an identifier"
gives_lines(*((sym(s), s) for s in ('a', 'Z9', '_', '$', '$7a', '$ion_1', '$ion__0', '$ion_1_', 'nulls', 'inf', 'norad_id')))
gives_lines(*((sym(s), "'" + s + "'") for s in ('false', 'nan', 'null', '$07', '$ion_1_0', '$ion_12_345', '7up', 'a b', '+', 'é', '{')))
# "escape NUL `\0`, 7 `\a`, 8 `\b`, tab `\t`, LF `\n`, 11 `\v`, 12 `\f`, CR `\r`, backslash and both quote marks; other characters go raw"
ESCAPED = '\0\x07\x08\t\n\x0b\x0c\r\\"\''
ESCAPES = r'\0\a\b\t\n\v\f\r\\\"' + "\\'"
# .. and 02, A5: "U+0001 to U+0006 and U+000E to U+001F in strings and quoted symbols as `\x` with two lower-case hex digits"
HEXED = '\x01\x02\x03\x04\x05\x06\x0e\x0f\x10\x11\x12\x13\x14\x15\x16\x17\x18\x19\x1a\x1b\x1c\x1d\x1e\x1f'
HEXES = r'\x01\x02\x03\x04\x05\x06\x0e\x0f\x10\x11\x12\x13\x14\x15\x16\x17\x18\x19\x1a\x1b\x1c\x1d\x1e\x1f'
RAW = ' /\x7f\x80é日\U0010ffff'
gives_lines((string(ESCAPED), '"' + ESCAPES + '"'), (sym(ESCAPED), "'" + ESCAPES + "'"), (string(HEXED), '"' + HEXES + '"'),
            (sym(HEXED), "'" + HEXES + "'"), (string(RAW), '"' + RAW + '"'), (sym(RAW), "'" + RAW + "'"), (string(''), '""'))
# "leaves hex 20 to 7E raw but for `"` and backslash, uses the short letters above, and `\x` with two lower-case hex digits elsewhere"
gives_lines((clob(b''), '{{""}}'), (clob(ESCAPED.encode()), r'{{"\0\a\b\t\n\v\f\r\\\"' + "'" + '"}}'),
            (clob(b'\x01\x1f ~\x7f\x80\xab\xff'), r'{{"\x01\x1f ~\x7f\x80\xab\xff"}}'))
for layout in LAYOUTS:
    row(layout, tape([clob(bytes(range(256)))]), 800)
# 02, A3: "It prints as `{{`, padded base64 (RFC 4648, standard alphabet), `}}`"; the RFC's own vectors, section 10
gives_lines(*((blob(content), '{{' + said + '}}') for content, said in (
    (b'', ''), (b'f', 'Zg=='), (b'fo', 'Zm8='), (b'foo', 'Zm9v'), (b'foob', 'Zm9vYg=='), (b'fooba', 'Zm9vYmE='), (b'foobar', 'Zm9vYmFy'))))
row(COMPACT, tape([blob(bytes(range(70)))]), 90)

# "Depth 64 passes, 65 gives 3." Pretty also in a room too short for it.
for kind, opening, closing in ('list', '[', ', ]'), ('sexp', '(', ' )'), ('struct', '{k: ', ', }'):
    deep = nest(kind, 64, int_(1))
    gives(COMPACT, [deep], opening * 64 + '1' + closing * 64 + ' ')
    gives(LINES, [deep], opening * 64 + '1' + closing * 64 + '\n')
    assert row(PRETTY, tape([deep]), 100)[0] == -6
    refuses(3, tape([nest(kind, 65, int_(1))]), tape([nest(kind, 64, list_())]))
assert row(PRETTY, tape([nest('sexp', 60, int_(1))]), 4096)[0] == -6
assert row(PRETTY, tape([nest('sexp', 40, int_(1))]), 4096)[0] > 3000
refuses(3, tape([int_(1), nest('list', 65, int_(1))]), layouts=(LINES,))

# 1: "tape under 8 or over 1,048,576 bytes, or body length plus 8 not its length"
refuses(1, b'', b'\0' * 7, b'\0' * 9, trailed(node(TRUE), 1, 1), trailed(node(TRUE), 1, 3), trailed(node(TRUE), 1, 2**32 - 8),
        trailed(b'', 0, 2**32 - 8), EXAMPLE[:-1], EXAMPLE[1:], EXAMPLE + b'\0')
# 2: "node outside the layout": kinds and their bytes; names; cut nodes; counts
bad_nodes = [b'\x0f', b'\x10', b'\xff', b'\0\x0d', b'\x01\x02', b'\x04\x02' + bytes(12), node(('float', NAN[1] + 1)), node(('float', 0xFFF8 << 48))]
bad_nodes += [node(time(5, 2024)), node(time(0, 0)), node(time(0, 10000)), node(time(0, 2024, 1)), node(time(1, 2024, 13)),
              node(time(2, 2023, 2, 29)), node(time(2, 1900, 2, 29)), node(time(2, 2024, 4, 31)), node(time(2, 2024, 4, 0)),
              node(time(2, 2024, 4, 1, 0, 0, 0, 0)), node(time(3, 2024, 4, 1, 24)), node(time(3, 2024, 4, 1, 0, 60)), node(at(1440)),
              node(at(-1440)), node(time(3, 2024, 4, 1, 0, 0, 1)), node(time(4, 2024, 4, 1, 0, 0, 60)), node(fraction(10, 0)),
              node(fraction(0, 1)), node(fraction(3, 1000))]
for broken in b'\x80', b'\xff', b'\xc3', b'\xc0\x80', b'\xc1\xbf', b'\xe0\x9f\xbf', b'\xed\xa0\x80', b'\xf0\x8f\xbf\xbf', b'\xf4\x90\x80\x80', \
        b'\xf8\x88\x80\x80\x80', b'\xe2\x82A':
    bad_nodes += [sized(6, broken), sized(8, broken)]
# In a struct, "a name (6 or 7) precedes each value"; 14 at "top level only".
bad_nodes += [sized(12, node(TRUE) + node(TRUE)), sized(12, node(string('a')) + node(TRUE)), sized(12, node(sym('a'))),
              sized(12, sized(6, b'\xff') + node(TRUE)), sized(10, b'\x0e'), sized(11, b'\x0e'), sized(12, node(sym('a')) + b'\x0e'),
              sized(10, sized(10, node(TRUE), 3))]
# 13: "count 1..16, that many nodes 6 or 7, one value not of kind 13 or 14"
bad_nodes += [b'\x0d\0' + node(TRUE), b'\x0d\x11' + node(sid(1)) * 17 + node(TRUE), b'\x0d\x01' + node(TRUE) * 2, b'\x0d\x01' + node(sid(1)),
              b'\x0d\x01' + node(sid(1)) + b'\x0e', b'\x0d\x01' + node(sid(1)) + node(notes(TRUE, sid(1)))]
refuses(2, *(trailed(b, 1) for b in bad_nodes), layouts=(LINES,))
refuses(2, trailed(b'\x10', 1), trailed(sized(12, node(TRUE) + node(TRUE)), 1), layouts=(COMPACT, PRETTY))
for v in (NULL, TRUE, int_(1), NAN, dec(1, 1), at(0), sym('ab'), sid(1), string('ab'), clob(b'ab'), blob(b'ab'), list_(TRUE), sexp(TRUE), struct_(('a', TRUE)),
          notes(TRUE, sid(1))):
    n = node(v)
    refuses(2, *(trailed(n[:cut], 1) for cut in sorted({1, len(n) // 2, len(n) - 1})), layouts=(COMPACT,))
refuses(2, trailed(sized(8, b'ab', 3), 1), trailed(sized(10, node(TRUE), 3), 1), trailed(sized(10, node(TRUE), 1), 1),
        trailed(sized(9, b'', 2**32 - 1), 1), trailed(sized(12, b'', 2**32 - 5), 1), layouts=(PRETTY,))
refuses(2, trailed(b'', 1), trailed(node(TRUE), 0), trailed(node(TRUE), 2), trailed(node(TRUE) * 3, 2), trailed(node(TRUE), 2**32 - 1))
# 4: "nonzero finite float"; 02, A8: "only for other finite floats"
refuses(4, tape([ONE_AND_A_HALF]), tape([int_(1), LEAST]), tape([list_(struct_(('a', GREATEST)))]), tape([notes(LEAST, sid(1))]))
# 5: "streaming: a kind 13"
refuses(5, tape([notes(TRUE, sym('a'))]), tape([int_(1), list_(struct_(('a', notes(TRUE, *[sid(0)] * 16))))]))
refuses(5, tape([notes(nest('list', 64, int_(1)), sid(0))]), layouts=(LINES,))
# 7: "layout over 2"
refuses(7, EXAMPLE, tape([]), layouts=(3, 255))
# 6: "its first bytes, filling the buffer": every room
for values in [list_(TRUE)], [FIELDS, MARKER, string('é\n')], [dec(116, -9), at(-5), clob(b'\x01')]:
    for layout in LAYOUTS:
        text = model.stream(layout, tape(values))
        for room in range(len(text) + 1):
            expected = (-6, text[:room]) if room < len(text) else (len(text), text)
            assert row(layout, tape(values), room) == expected

# "Order: 7, 1, then nodes in tape order (header 2, then 3, then 4), top-level count, 5, 6."
bad, finite, noted, deep = b'\x10', node(ONE_AND_A_HALF), node(notes(TRUE, sid(1))), node(nest('list', 65, TRUE))
refuses(7, b'', trailed(bad, 1), trailed(finite, 1), trailed(deep, 1), trailed(noted, 1), layouts=(3, 255), rooms=(0, 5))
refuses(1, trailed(bad, 1, 0), trailed(finite, 1, 0), trailed(noted, 1, 0), rooms=(0, 5))
refuses(4, trailed(finite + bad, 2), trailed(finite + deep, 2), rooms=(0, 5))
refuses(2, trailed(bad + finite, 2), trailed(bad + deep, 2), rooms=(0, 5))
refuses(3, trailed(deep + finite, 2), trailed(deep + bad, 2), layouts=(LINES,), rooms=(0, 5))
# Header before depth: the 65th container is too long for the 64th.
overlong = sized(10, b'', 1)
for _ in range(64):
    overlong = sized(10, overlong)
refuses(2, trailed(overlong, 1), layouts=(LINES,))
# Depth before what the 65th container holds; a name before its value.
refuses(3, tape([nest('list', 65, ONE_AND_A_HALF)]), layouts=(LINES,))
refuses(2, trailed(sized(12, sized(6, b'\xff') + finite), 1), rooms=(0, 5))
# Nodes before the count, the count before 5, 5 before 6.
refuses(4, trailed(finite, 0), trailed(finite, 2), trailed(noted + finite, 1), rooms=(0, 5))
refuses(3, trailed(deep, 0), layouts=(LINES,), rooms=(0, 5))
refuses(2, trailed(noted, 0), trailed(noted, 2), rooms=(0, 5))
refuses(5, trailed(noted, 1), trailed(node(TRUE) + noted, 2), rooms=(0, 3))

# The tree text: "No trailing separators: `[1, 2]`, `(1 2)`, `{a: 1}`, annotations `a::`."
ONE, TWO = ('int', 1), ('int', 2)
for value, text in (
        (('list', [ONE, TWO]), '[1, 2]'), (('sexp', [ONE, TWO]), '(1 2)'), (('struct', [(sym('a'), ONE)]), '{a: 1}'),
        (notes(ONE, sym('a')), 'a::1'), (notes(('list', [notes(ONE, sym('b'))]), sym('a'), sym('true')), "a::'true'::[b::1]"),
        (('struct', [(sym('a'), notes(('sexp', []), sid(0))), (sid(0), ('list', []))]), '{a: $0::(), $0: []}'),
        (notes(('struct', [(sym('\x06'), sym('\x0e'))]), sym('\x01')), r"'\x01'::{'\x06': '\x0e'}")):
    gives(TREE, [value], text)
# "not one top-level node, a marker, or an identifier but 0": 5, behind the count; then 6.
refuses(5, tape([]), tape([ONE, TWO]), tape([('marker',)]), tape([sid(1)]), tape([notes(ONE, sid(7))]), layouts=(TREE,))
refuses(5, tape([('list', [('struct', [(sid(4), ONE)])])]), layouts=(TREE,), rooms=(0, 3))
refuses(2, trailed(node(sid(1)), 2), trailed(b'', 1), trailed(bad, 1), layouts=(TREE,))
refuses(4, trailed(finite + node(sid(1)), 2), layouts=(TREE,))
for room in (0, 5):
    assert row(TREE, tape([('list', [ONE, TWO])]), room) == (-6, b'[1, 2]'[:room])


def main():
    folder = os.path.join(os.path.dirname(os.path.dirname(os.path.abspath(__file__))), 'crates', 'writings')
    said = b''.join(bytes([layout]) + struct.pack('<II', room, len(t)) + t for layout, room, t, _, _ in rows)
    assert len(said) <= 65536, len(said)
    with open(os.path.join(folder, 'stdin'), 'wb') as f:
        f.write(said)
    with open(os.path.join(folder, 'stdout'), 'w') as f:
        for _, _, _, answer, buffer in rows:
            f.write('%s %s\n' % (answer if answer >= 0 else 'refused %d' % -answer, buffer.hex()))
    print('%d rows, %d bytes' % (len(rows), len(said)))


if __name__ == '__main__':
    main()
