#!/usr/bin/env python3
"""The reader on worked texts: a table of texts and what they mean by docs/FORMAT.md.

`yes(text, nodes ..)` is a text with the top-level nodes of its tape, `no(texts ..)` are texts outside the grammar (refusal 8), and
`too_long(text)` is one whose tape is longer than the program's buffer (refusal 9). `stored(text, converted, nodes ..)` is one that the raw rule alone
puts outside (8 too), with what the converter makes of it; tests/grammar.py is held against that, and every other text is converted to itself, or
refused by 13 where it is refused by 8. The comments are sentences of documents 01 and 02, which
docs/FORMAT.md restates. What is expected is written by hand or follows from the sentence above it; it is not the program's answer. Run it
to write crates/readings/stdin (each text, then a byte 255) and crates/readings/stdout (each tape in hex, or the refusal).
"""
import base64
import os

from tapes import UNKNOWN, tape, whole

rows = []
conversions = {}
BUFFER = 1024


def raw(text):
    return text if isinstance(text, bytes) else text.encode()


def yes(text, *nodes):
    rows.append((raw(text), tape(nodes).hex()))


def no(*texts):
    rows.extend((raw(t), 'refused 8') for t in texts)


def too_long(text):
    rows.append((raw(text), 'refused 9'))


def stored(text, converted, *nodes):
    no(text)
    conversions[raw(text)] = raw(converted), tape(nodes)


# The nodes.
TYPES = 'null bool int float decimal timestamp symbol string clob blob list sexp struct'.split()
NAN, INF, MINUS_INF, ZERO, MINUS_ZERO = (('float', bits << 48) for bits in (0x7FF8, 0x7FF0, 0xFFF0, 0, 0x8000))
TRUE, FALSE, MARKER = ('bool', True), ('bool', False), ('marker',)


def null(t='null'):
    return ('null', TYPES.index(t))


def int_(i):
    return ('int', i)


def dec(magnitude, exponent):
    return ('dec', False, magnitude, exponent)


def minus(magnitude, exponent):
    return ('dec', True, magnitude, exponent)


def sym(text):
    return ('sym', raw(text))


def sid(n):
    return ('id', n)


def str_(text):
    return ('str', raw(text))


def clob(b):
    return ('clob', raw(b))


def blob(b):
    return ('blob', raw(b))


def list_(*values):
    return ('list', values)


def sexp(*values):
    return ('sexp', values)


def rec(*fields):
    """A struct: name, value, name, value .. A Python string as a name is symbol text."""
    return ('struct', [(n if isinstance(n, tuple) else sym(n), v) for n, v in zip(fields[::2], fields[1::2])])


def notes(*parts):
    """Annotations, then the value."""
    return ('notes', [p if isinstance(p, tuple) else sym(p) for p in parts[:-1]], parts[-1])


def year(y):
    return ('ts', 0, y, 0, 0, 0, 0, 0, UNKNOWN, 0, 0)


def month(y, m):
    return ('ts', 1, y, m, 0, 0, 0, 0, UNKNOWN, 0, 0)


def day(y, m, d):
    return ('ts', 2, y, m, d, 0, 0, 0, UNKNOWN, 0, 0)


def minute(y, m, d, h, mi, offset):
    return ('ts', 3, y, m, d, h, mi, 0, offset, 0, 0)


def second(y, m, d, h, mi, s, offset, digits=0, fraction=0):
    return ('ts', 4, y, m, d, h, mi, s, offset, digits, fraction)


one, two, three = int_(1), int_(2), int_(3)
a, b, c = sym('a'), sym('b'), sym('c')
BLANKS = b' \t\n\x0b\x0c\r'
LETTERS = b'abcdefghijklmnopqrstuvwxyzABCDEFGHIJKLMNOPQRSTUVWXYZ'
DIGITS = b'0123456789'
BYTES = [bytes([n]) for n in range(255)]

# --- A text may be empty or blanks alone. Blanks are space, tab, LF, 11, 12, CR; they may stand before, between and after tokens.
yes('')
for blank in BLANKS:
    blank = chr(blank)
    yes(blank)
    yes(blank + '1', one)
    yes('1' + blank, one)
    yes('[' + blank + '1' + blank + ',' + blank + '2' + blank + ',' + blank + ']', list_(one, two))
    yes('(' + blank + '1' + blank + '2' + blank + ')', sexp(one, two))
    yes('{' + blank + 'a' + blank + ':' + blank + '1' + blank + ',' + blank + 'b:2' + blank + '}', rec('a', one, 'b', two))
    yes('a::[' + blank + ']', notes('a', list_()))
    yes('$ion_1_0' + blank + '1', MARKER, one)
    yes('"' + blank + '"', str_(blank)) if blank not in '\n\r' else no('"' + blank + '"')
    # .. except beside `::`; a clob is one token, and so is a blob
    no('a' + blank + '::1', 'a::' + blank + '1', 'a' + blank + '::' + blank + '1', 'a:' + blank + ':1', 'a::b::' + blank + '1')
    no('{' + blank + '{"a"}}', '{{' + blank + '"a"}}', '{{"a"' + blank + '}}', '{{"a"}' + blank + '}')
    no('{' + blank + '{Zg==}}', '{{' + blank + 'Zg==}}', '{{Zg' + blank + '==}}', '{{Zg==' + blank + '}}', '{{Zg==}' + blank + '}')
    # A number, a keyword or an identifier is one token too.
    no('-' + blank + '1', '$ion_1_0 null' + blank + '.int', '1d' + blank + '2', '+' + blank + 'inf')
    yes('1.' + blank + 'd2', dec(1, 0), sym('d2'))
yes('1' + ' \t\n\v\f\r' * 3 + '2', one, two)
no('\0', '\x08', '\x1c', '\x1f', '\x7f', '\x85', '\u00a0', '\u2028', '\ufeff', '\ufeff1', '1\0', '1\x1c2', '[1\u00a0]')

# Every byte by itself, and every byte between two digits.
for x in BYTES:
    if x in BLANKS:
        yes(x)
        yes(b'1' + x + b'2', one, two)
    elif x in DIGITS:
        yes(x, int_(int(x)))
        yes(b'1' + x + b'2', int_(102 + 10 * int(x)))
    elif x in LETTERS + b'_$':
        yes(x, sym(x))
        if x == b'd':
            yes(b'1d2', dec(1, 2))
        elif x == b'e':
            yes(b'1e2', whole(100))
        else:
            no(b'1' + x + b'2')
    else:
        no(x)
        if x == b'.':
            yes(b'1.2', dec(12, -1))
        else:
            no(b'1' + x + b'2')

# Every byte between two list items, as a name, and as an annotation's last.
for x in BYTES:
    if x in LETTERS + b'_$':
        yes(b'{' + x + b':1}', rec(('sym', x), one))
        yes(b'a' + x + b'::1', notes(('sym', b'a' + x), one))
    elif x in DIGITS:
        no(b'{' + x + b':1}')
        yes(b'a' + x + b'::1', notes(('sym', b'a' + x), one))
    else:
        no(b'{' + x + b':1}', b'a' + x + b'::1')
    if x == b',':
        yes(b'[1,2]', list_(one, two))
    elif x in DIGITS:
        yes(b'[1' + x + b'2]', list_(int_(102 + 10 * int(x))))
    elif x in b'.de':
        yes(b'[1' + x + b'2]', list_({b'.': dec(12, -1), b'd': dec(1, 2), b'e': whole(100)}[x]))
    else:
        no(b'[1' + x + b'2]')

# --- Top-level values and markers, and values in a sexp, need at least one between them.
yes('1 2', one, two)
yes('[1] [2]', list_(one), list_(two))
yes('"a" "b"', str_('a'), str_('b'))
yes('() () {}', sexp(), sexp(), rec())
yes('a $7 b', a, sid(7), b)
no('[1][2]', '"a""b"', "'a''b'", '(1)(2)', '{}{}', '[]1', '1[]', 'a[1]', 'a"b"', '"a"b', "a'b'", '{{"a"}}{{"b"}}', '1"a"')
no('(a[1])', '((1)(2))', '([1][2])', '("a""b")', "(a'b')", '({}{})', '(1{})', '(a(b))', '({{"a"}}{{"b"}})')
yes('(a [1])', sexp(a, list_(one)))
yes('((1) (2))', sexp(sexp(one), sexp(two)))
no('1,2', '1,', ',', ',1', '(1,2)', '(1,)', '(,)', '(, 1)', '1:2', ':', '::', ';', '1;')
yes('()', sexp())
yes('( )', sexp())
yes('(())', sexp(sexp()))
yes('(1)', sexp(one))
yes('(a b c)', sexp(a, b, c))
no('(', ')', '(1', '1)', '(1]', '(1}', '(1))', '((1)', '(')

# --- Lists and structs have one comma between children and allow one after the last child, none in an empty one.
yes('[]', list_())
yes('[ ]', list_())
yes('[1]', list_(one))
yes('[1,]', list_(one))
yes('[1,2]', list_(one, two))
yes('[1,2,]', list_(one, two))
yes('[1, 2, ] ', list_(one, two))
yes('[[],[[]],]', list_(list_(), list_(list_())))
yes('[(),{},[]]', list_(sexp(), rec(), list_()))
yes('[a,"b",\'c\']', list_(a, str_('b'), c))
no('[,]', '[ , ]', '[,1]', '[1,,]', '[1,,2]', '[1 2]', '[1 , , 2]', '[1,2,,]', '[[1][2]]', '[1;2]', '[1:2]')
no('[', ']', '[1', '[1,', '1]', '[1)', '[1}', '[1]]', '[[1]', '[a:1]')
yes('{}', rec())
yes('{ }', rec())
yes('{a:1}', rec('a', one))
yes('{a:1,}', rec('a', one))
yes('{a:1,b:2}', rec('a', one, 'b', two))
yes('{a: 1, b: 2, } ', rec('a', one, 'b', two))
yes('{a:1,a:1}', rec('a', one, 'a', one))
yes('{a:{b:{}}}', rec('a', rec('b', rec())))
yes('{a:{{"b"}}}', rec('a', clob('b')))
yes('{a:{{"b"}},}', rec('a', clob('b')))
no('{,}', '{,a:1}', '{a:1,,}', '{a:1,,b:2}', '{a:1 b:2}', '{a:1;b:2}')
no('{', '}', '{a', '{a:', '{a:1', '{a:1,', '{a:1]', '{a:1)', '{a:1}}', '{{a:1}}', '{{a:1}', '{{}:1}', '{[]:1}')

# --- A field is a name, `:` and a value. Names are symbols.
yes("{'a':1}", rec('a', one))
yes("{'':1}", rec('', one))
yes("{'a b':1}", rec('a b', one))
yes("{'\\n':1}", rec('\n', one))
yes("{'é':1}", rec('é', one))
yes('{$7:1}', rec(sid(7), one))
yes('{$0:1}', rec(sid(0), one))
yes('{$4294967295:1}', rec(sid(4294967295), one))
yes('{$:1,_:2,$7a:3}', rec('$', one, '_', two, '$7a', three))
yes('{inf:1,True:2,nulls:3}', rec('inf', one, 'True', two, 'nulls', three))
yes("{'true':1,'null':2,'$7':3,'$ion_1_0':1}", rec('true', one, 'null', two, '$7', three, '$ion_1_0', one))
yes('{a:b,b:$7,c:\'\'}', rec('a', b, 'b', sid(7), 'c', sym('')))
no('{a}', '{a:}', '{:1}', '{a 1}', '{a::1}', '{a: :1}', '{a:b:1}', '{1}', '{a,b}', '{a:,}', '{a:1:2}', '{a::b:1}', '{a=1}')
no('{"a":1}', '{1:1}', '{1.:1}', '{true:1}', '{false:1}', '{nan:1}', '{null:1}', '{null.int:1}', '{+inf:1}', '{2007T:1}')
no('{$01:1}', '{$4294967296:1}', '{$ion_1_0:1}', '{$ion_1_1:1}', '{[a]:1}', '{{{"a"}}:1}', "{'''a''':1}", '{é:1}', '{a-b:1}')

# --- Null, bool, floats, markers as printed.
yes('null', null())
for name in TYPES[1:]:
    yes('null.' + name, null(name))
    yes('[null.' + name + ']', list_(null(name)))
    no('null.' + name.upper(), 'null.' + name + '1', 'null.' + name + 's', 'null.' + name[:-1], 'null. ' + name, 'Null.' + name)
no('null.null', 'null.', 'null.x', 'null..int', 'null.int.int', 'null.integer', 'null.nan', 'null.true', '[null.]', 'null.int[]')
no('null.$7', "null.'int'", 'null.1', 'null.0', 'null.in', 'null.structs')
yes('true', TRUE)
yes('false', FALSE)
yes('true false null', TRUE, FALSE, null())
yes('[true,false,null,nan]', list_(TRUE, FALSE, null(), NAN))
yes('(true false null nan)', sexp(TRUE, FALSE, null(), NAN))
yes('{a:true,b:null}', rec('a', TRUE, 'b', null()))
for word in ('True', 'TRUE', 'truex', 'true1', 'true_', 'true$', 'tru', 'False', 'falsey', 'Null', 'NULL', 'nulls', 'null1', 'nul'):
    yes(word, sym(word))
for word in ('NaN', 'NAN', 'nano', 'nan0', 'na', 'inf', 'Inf', 'infinity', 'undefined'):
    yes(word, sym(word))
no('true.', 'true.bool', 'true"a"', 'nan.', 'truē')
yes('nan', NAN)
yes('+inf', INF)
yes('-inf', MINUS_INF)
yes('0e0', ZERO)
yes('-0e0', MINUS_ZERO)
yes('[nan,+inf,-inf,0e0,-0e0]', list_(NAN, INF, MINUS_INF, ZERO, MINUS_ZERO))
yes('(+inf -inf)', sexp(INF, MINUS_INF))
no('+nan', '-nan', '+Inf', '+INF', '-Inf', '+in', '+', '-', '+infx', '-inf1', '+inf-inf', '--inf', '+-inf', '-i', '+infinity')
# Out: floats that are no whole number up to 2^53. As printed: no other spelling.
yes('-1.5e3', whole(-1500))
no('1.5e0', '15e0', '10e1', '1.0e1', '1e+2', '1e02', '1E2', '9.007199254740993e15', '1e16', '-1e-1', '0e1', '0e', '0.0e0', '+0e0', '0e0x')
yes('$ion_1_0', MARKER)
yes(' $ion_1_0 ', MARKER)
yes('$ion_1_0\n1\n', MARKER, one)
yes('1 $ion_1_0 $ion_1_0 [2]', one, MARKER, MARKER, list_(two))

# --- `$` with 0 or digits without leading zero, at most 4,294,967,295.
for n in (0, 1, 7, 9, 10, 99, 4294967294, 4294967295):
    yes('$%d' % n, sid(n))
no('$4294967296', '$4294967300', '$9999999999', '$18446744073709551616', '$00', '$01', '$007', '$0000000000', '$-1', '$+1', '$1.')
yes('$ 7', sym('$'), int_(7))
yes('[$0,$7]', list_(sid(0), sid(7)))

# --- Other quoted-only spellings are refused bare; any other bare identifier is symbol text. `$ion_1_0` bare is the marker, at top level,
# unannotated.
no('$ion_1_1', '$ion_0_0', '$ion_2_0', '$ion_10_0', '$ion_1_00', '$ion_01_0', '$ion_12_34', '[$ion_1_1]', '$ion_1_1::1')
no('[$ion_1_0]', '($ion_1_0)', '{a:$ion_1_0}', 'a::$ion_1_0', '$ion_1_0::1', '$ion_1_0::a::1', '$ion_1_0[]', '$ion_1_0,', '$ion_1_0"a"')
no('[1,$ion_1_0]', '(a $ion_1_0)', '$ion_1_0.', '1$ion_1_0', '[$01]', '$01::1', '$4294967296::1', '(true::1)')
for word in ('$', '$$', '_', '__', '$_', '_1', 'a1', 'A', 'z9', '$7a', '$7_', '$7$', '$a7', '$ion', '$ion_', '$ion_1', '$ion_1_',
             '$ion__0'):
    yes(word, sym(word))
for word in ('$ion_1_0_0', '$ion_1_0_', '$ion_1_0a', '$ion_a_0', '$ion_1a_0', '$ION_1_0', '$ion_symbol_table', 'ion_1_0', '$$ion_1_0', 'T'):
    yes(word, sym(word))
yes("'$ion_1_0'", sym('$ion_1_0'))
yes("'$ion_1_1' '$7' '$01' 'true' 'false' 'nan' 'null' 'null.int'", *map(sym, '$ion_1_1 $7 $01 true false nan null null.int'.split()))
yes("['$ion_1_0']", list_(sym('$ion_1_0')))
no('a-b', 'a.b', 'a+b', 'a@b', '@', '#', '%', '&', '*', '/', '~', '^', '|', '<', '>', '=', '?', '!', '`', '\\', 'a\\n', 'é', 'aé', '7up')
no('7_')

# --- Int: 0, or optional minus and digits not starting with 0 (so no `-0`), in i64.
for i in (0, 1, -1, 7, 10, -10, 100, 123, -123, 2007, 2**31, -2**31, 2**32, 2**53 + 1, 10**18, 2**63 - 1, -2**63):
    yes('%d' % i, int_(i))
    yes('[%d,%d]' % (i, i), list_(int_(i), int_(i)))
no('9223372036854775808', '-9223372036854775809', '9223372036854775810', '10000000000000000000', '18446744073709551615', '9' * 30)
no('-0', '00', '01', '-01', '-00', '007', '+0', '+1', '--1', '-', '1-', '1-2', '-1-', '- 1', '-a', '-_1', '-"1"', '0000000000000000000001')
no('0x0', '0xBeef', '0Xff', '0b0', '0b101', '1_000', '1_', '1__0', '0x', '1a', '1$', '1_a', '1(', '0[')

# --- Decimal: optional minus, 0 or digits without leading zero, then a point with zero or more digits, or `d` with optional sign and 1 to
# 10 digits, or both.
yes('0.', dec(0, 0))
yes('-0.', minus(0, 0))
yes('1.', dec(1, 0))
yes('-1.', minus(1, 0))
yes('10.', dec(10, 0))
yes('0.0', dec(0, -1))
yes('-0.0', minus(0, -1))
yes('0.00', dec(0, -2))
yes('0.5', dec(5, -1))
yes('1.0', dec(10, -1))
yes('1.50', dec(150, -2))
yes('-12.5', minus(125, -1))
yes('0.05', dec(5, -2))
yes('0.0000116', dec(116, -7))
yes('0d0', dec(0, 0))
yes('-0d0', minus(0, 0))
yes('0d-0', dec(0, 0))
yes('0d+5', dec(0, 5))
yes('1d0', dec(1, 0))
yes('1d5', dec(1, 5))
yes('1d+5', dec(1, 5))
yes('1d-5', dec(1, -5))
yes('12d34', dec(12, 34))
yes('1.d5', dec(1, 5))
yes('1.d-7', dec(1, -7))
yes('-0.d-7', minus(0, -7))
yes('1.16d-7', dec(116, -9))
yes('1.5d5', dec(15, 4))
yes('1.5d+5', dec(15, 4))
yes('1.234567d6', dec(1234567, 0))
yes('1d00', dec(1, 0))
yes('1d05', dec(1, 5))
yes('1d-05', dec(1, -5))
yes('1d0000000005', dec(1, 5))
yes('1d-0000000005', dec(1, -5))
yes('1d+0000000000', dec(1, 0))
yes('[1.,2.]', list_(dec(1, 0), dec(2, 0)))
yes('(1. 0d0)', sexp(dec(1, 0), dec(0, 0)))
yes('{a:1.}', rec('a', dec(1, 0)))
no('.5', '-.5', '.', '-.', '.d1', '+1.', '+1d1', '01.', '00.', '-01.5', '00d0', '01d1', '1..', '1.5.', '1.5.5', '1.-5', '. 5')
yes('1. 5.', dec(1, 0), dec(5, 0))
no('1d', '1.d', '1.5d', '1d+', '1d-', '1d+-1', '1d--1', '1dd1', '1d1d1', '1d1.', '1d1.5', '1d1x', '1.x', '1.5x', '1d_1', '1_0.', '1._0')
no('1.0_')
no('1D5', '1.5D5', '0D0', '-0D0', '1E5', '1.5E5', '1.e5', '0.0e0', '1d00000000005', '1d-00000000000', '1d+00000000001', '0x1.')
no('1.a')

# --- Magnitude: all digits joined, in u64.
TOP = 2**64 - 1
yes('18446744073709551615.', dec(TOP, 0))
yes('-18446744073709551615.', minus(TOP, 0))
yes('18446744073709551615d0', dec(TOP, 0))
yes('1844674407370955161.5', dec(TOP, -1))
yes('1.8446744073709551615', dec(TOP, -19))
yes('0.18446744073709551615', dec(TOP, -20))
yes('9223372036854775808.', dec(2**63, 0))
yes('0.' + '0' * 30, dec(0, -30))
yes('0.' + '0' * 300 + '1', dec(1, -301))
yes('-0.' + '0' * 500 + '18446744073709551615d5', minus(TOP, -515))
no('18446744073709551616.', '18446744073709551616d0', '1844674407370955161.6', '1.8446744073709551616', '0.18446744073709551616')
no('18446744073709551615.0', '-18446744073709551616.', '99999999999999999999.', '1.' + '0' * 20, '9' * 40 + 'd0', '184467440737095516150.')

# --- Exponent: the written one (else 0) less the digits after the point, in i32.
yes('1d2147483647', dec(1, 2**31 - 1))
yes('1d-2147483648', dec(1, -2**31))
yes('0d2147483647', dec(0, 2**31 - 1))
yes('1.0d2147483648', dec(10, 2**31 - 1))
yes('1.00d2147483649', dec(100, 2**31 - 1))
yes('1.0d-2147483647', dec(10, -2**31))
yes('9.d-2147483648', dec(9, -2**31))
yes('0.0d+2147483648', dec(0, 2**31 - 1))
no('1d2147483648', '1d-2147483649', '1.d2147483648', '1.0d2147483649', '1.0d-2147483648', '1.00d-2147483647', '0d2147483648')
no('0d-2147483649')
no('1d9999999999', '1d-9999999999', '1d4294967296', '1d-4294967296', '1d10000000000', '1.5d9999999999', '1d4294967297')

# --- Timestamps as printed, and `Z` as offset 0.
yes('2007T', year(2007))
yes('0001T', year(1))
yes('9999T', year(9999))
yes('2007-02T', month(2007, 2))
yes('2007-01T', month(2007, 1))
yes('2007-12T', month(2007, 12))
yes('2007-02-23T', day(2007, 2, 23))
yes('[2007T,2007-02T,2007-02-23T]', list_(year(2007), month(2007, 2), day(2007, 2, 23)))
yes('(2007T 2007T)', sexp(year(2007), year(2007)))
yes('2007-02-23T12:14Z', minute(2007, 2, 23, 12, 14, 0))
yes('2007-02-23T12:14:33Z', second(2007, 2, 23, 12, 14, 33, 0))
no('2007t', '2007-02t', '2007-02-23t', '2007-02-23t12:14Z', '2007-02-23T12:14z', '2007-02', '2007-02-23', '2007-', '2007-2T', '2007-02-2T')
no('207T')
no('0000T', '00000T', '10000T', '02007T', '-2007T', '+2007T', '0000-01T', '2007-00T', '2007-13T', '2007-1T', '2007-012T', '2007-02-T')
no('2007--02T')
no('2007-01-00T', '2007-01-32T', '2007T1', '2007TT', '2007T[]', '2007TZ', '2007T12:14Z', '2007-02T12:14Z', '2007/02/23T', '2007 T.')
no('2007-02 -23T')
no('2007-02-23T12', '2007-02-23T12Z', '2007-02-23T12:14', '2007-02-23T12:14:33', '2007-02-23T1:14Z', '2007-02-23T12:1Z')
no('2007-02-23T12:14:3Z')
no('2007-02-23T12:14:', '2007-02-23T12:', '2007-02-23TZ', '2007-02-23 12:14Z', '2007-02-23T 12:14Z', '2007-02-23T12:14 Z')
no('2007-02-23T12:14ZZ')
no('2007-02-23T12:14.5Z', '2007-02-23T12:14:33:00Z', '2007-02-23T+00:00', '2007-02+00:00', '20070223T', '2007-02-23T1214Z')
no('2007-02-23T12:14Z1')
# Calendar dates are real (Gregorian).
for m, last in enumerate((31, 28, 31, 30, 31, 30, 31, 31, 30, 31, 30, 31), 1):
    yes('2023-%02d-01T' % m, day(2023, m, 1))
    yes('2023-%02d-%02dT' % (m, last), day(2023, m, last))
    no('2023-%02d-%02dT' % (m, last + 1), '2023-%02d-%02dT00:00Z' % (m, last + 1), '2023-%02d-00T' % m)
for y in (4, 400, 1600, 1996, 2000, 2024, 2400):
    yes('%04d-02-29T' % y, day(y, 2, 29))
    no('%04d-02-30T' % y)
no(*('%04d-02-29T' % y for y in (1, 100, 1700, 1800, 1900, 2001, 2002, 2003, 2100, 2200, 2300, 9999)))
# Hours stop at 23, minutes and seconds at 59.
yes('2007-02-23T00:00Z', minute(2007, 2, 23, 0, 0, 0))
yes('2007-02-23T23:59Z', minute(2007, 2, 23, 23, 59, 0))
yes('2007-02-23T23:59:59Z', second(2007, 2, 23, 23, 59, 59, 0))
yes('2007-02-23T00:00:00Z', second(2007, 2, 23, 0, 0, 0, 0))
no('2007-02-23T24:00Z', '2007-02-23T23:60Z', '2007-02-23T23:59:60Z', '2007-02-23T24:00:00Z', '2007-02-23T99:00Z', '2007-02-23T23:59:61.5Z')
# Offset: sign, `hh:mm`; unknown is `-00:00`, 0 is `+00:00`; -1439..1439.
for said, offset in (('Z', 0), ('+00:00', 0), ('-00:00', UNKNOWN), ('+00:01', 1), ('-00:01', -1), ('-00:05', -5), ('+00:59', 59),
                     ('-00:59', -59), ('+01:00', 60), ('-01:00', -60), ('+05:30', 330), ('-08:00', -480), ('+23:59', 1439),
                     ('-23:59', -1439), ('+12:45', 765)):
    yes('2007-02-23T12:14' + said, minute(2007, 2, 23, 12, 14, offset))
    yes('2007-02-23T12:14:33' + said, second(2007, 2, 23, 12, 14, 33, offset))
    yes('2007-02-23T12:14:33.079' + said, second(2007, 2, 23, 12, 14, 33, offset, 3, 79))
for said in ('+24:00', '-24:00', '+00:60', '-00:60', '+23:60', '+99:99', '+0:00', '+00:0', '+0000', '+00', '-', '+', '00:00', '+00:000',
             '+-1:00', '+00:00Z', '+000:00', '+ 00:00', ' +00:00', '-00:00.', '\u221200:05', '+00-00', 'UTC'):
    no('2007-02-23T12:14' + said, '2007-02-23T12:14:33' + said)
yes('0001-01-01T00:00+23:59', minute(1, 1, 1, 0, 0, 1439))
yes('9999-12-31T23:59:59.999999999-23:59', second(9999, 12, 31, 23, 59, 59, -1439, 9, 999999999))
# A count of 0 prints no point; else a point and that many digits, 0..9.
for k in range(1, 10):
    yes('2007-02-23T12:14:33.' + '0' * k + 'Z', second(2007, 2, 23, 12, 14, 33, 0, k, 0))
    yes('2007-02-23T12:14:33.' + '9' * k + '-00:00', second(2007, 2, 23, 12, 14, 33, UNKNOWN, k, 10**k - 1))
    yes('2007-02-23T12:14:33.' + '123456789'[:k] + '+01:00', second(2007, 2, 23, 12, 14, 33, 60, k, int('123456789'[:k])))
no('2007-02-23T12:14:33.Z', '2007-02-23T12:14:33.+00:00', '2007-02-23T12:14:33.0000000000Z', '2007-02-23T12:14:33.1234567890Z')
no('2007-02-23T12:14:33.0', '2007-02-23T12:14:33.', '2007-02-23T12:14:33.1_0Z', '2007-02-23T12:14:33,5Z', '2007-02-23T12:14:33..5Z')
no('2007-02-23T12:14:33.5.5Z')

# --- Quoted text: valid UTF-8 but LF, CR, its own quote mark and bare backslash; the escapes above (NUL `\0`, 7 `\a`, 8 `\b`, tab `\t`, LF
# `\n`, 11 `\v`, 12 `\f`, CR `\r`, backslash and both quote marks), `\/`, `\?`. 02, A6: "refuse raw U+0000 to U+001F in quoted text, except tab, 11 and
# 12"; the converter's text has "each such raw character replaced by `\x` and two lower-case hex digits".
# --- Clobs: raw bytes as printed (hex 20 to 7E but for `"` and backslash), these escapes without `\u` and `\U`.
CONTROLS = [bytes([n]) for n in (*range(9), *range(14, 32))]
ESCAPES = {b'0': 0, b'a': 7, b'b': 8, b't': 9, b'n': 10, b'v': 11, b'f': 12, b'r': 13, b'\\': 92, b"'": 39, b'"': 34, b'/': 47, b'?': 63}
for x in BYTES:
    for quote, kind in ((b'"', str_), (b"'", sym)):
        if x in CONTROLS:
            stored(quote + x + quote, quote + b'\\x%02x' % x[0] + quote, kind(x))
        elif x < b'\x80' and x not in (b'\n', b'\r', quote, b'\\'):
            yes(quote + x + quote, kind(x))
        else:
            no(quote + x + quote)
    if b' ' <= x <= b'~' and x not in (b'"', b'\\'):
        yes(b'{{"' + x + b'"}}', clob(x))
    else:
        no(b'{{"' + x + b'"}}')
    if x in ESCAPES:
        content = bytes([ESCAPES[x]])
        yes(b'"\\' + x + b'"', str_(content))
        yes(b"'\\" + x + b"'", sym(content))
        yes(b'{{"\\' + x + b'"}}', clob(content))
    else:
        no(b'"\\' + x + b'"', b"'\\" + x + b"'", b'{{"\\' + x + b'"}}')
yes('""', str_(''))
yes("''", sym(''))
yes('{{""}}', clob(''))
yes('"a\\nb\\tc"', str_('a\nb\tc'))
yes('"//" "/*"', str_('//'), str_('/*'))
yes('"[1, {"', str_('[1, {'))
yes('["a","b"]', list_(str_('a'), str_('b')))
yes('"\\\\n"', str_('\\n'))
yes("'\\'a\\''", sym("'a'"))
no('"', "'", '"a', "'a", 'a"', "a'", '"a\'', '\'a"', '"\\', '"\\"', "'\\'", '"a\nb"', '"a\rb"', "'a\nb'", '"a\\\nb"', '"a\\\r\nb"')
no("'a\\\nb'", '"""', '"a"b"')
no('{{"', '{{"a', '{{"a"', '{{"a"}', '{{"a}}', '{{"\\"}}', '{{"a\nb"}}', '{{"a\tb"}}', '{{"a\\\nb"}}', '{{"é"}}', '{"a"}')
no('{{"a"b}}')
no('{{"a" "b"}}', '{{"a""b"}}', "{{'a'}}", "{{'''a'''}}", '{{"a"}}::1', '{ {"a"} }', '{{{"a"}}}', '{{"a"}}}', '{{[]}}')
yes('{{"\\""}}', clob('"'))
yes('{{"}}"}}', clob('}}'))
yes('{{"{{"}}', clob('{{'))
yes('[{{"a"}},{{"b"}}]', list_(clob('a'), clob('b')))
yes('({{"a"}} {{"b"}})', sexp(clob('a'), clob('b')))

# --- `\x`, `\u`, `\U` with 2, 4, 8 hex digits of either case naming a scalar value.
for said, content in (('\\x00', '\0'), ('\\x41', 'A'), ('\\x7f', '\x7f'), ('\\x7F', '\x7f'), ('\\x80', '\x80'), ('\\xe9', 'é'),
                      ('\\xE9', 'é'), ('\\xfF', 'ÿ'), ('\\u0000', '\0'), ('\\u0041', 'A'), ('\\u007f', '\x7f'), ('\\u0080', '\x80'),
                      ('\\u07ff', '\u07ff'), ('\\u0800', '\u0800'), ('\\u20aC', '€'), ('\\uABCD', '\uabcd'), ('\\ud7ff', '\ud7ff'),
                      ('\\ue000', '\ue000'), ('\\uFFFF', '\uffff'), ('\\uFfFe', '\ufffe'), ('\\U00000000', '\0'), ('\\U00000041', 'A'),
                      ('\\U0000D7FF', '\ud7ff'), ('\\U0000e000', '\ue000'), ('\\U0000ffff', '\uffff'), ('\\U00010000', '\U00010000'),
                      ('\\U0001F600', '\U0001f600'), ('\\U0010ffff', '\U0010ffff'), ('\\U0010FFFF', '\U0010ffff'), ('\\x411', 'A1'),
                      ('\\u00411', 'A1'), ('\\U000000411', 'A1'), ('\\x0a\\x0d', '\n\r'), ('\\x22\\x27\\x5c', '"\'\\')):
    yes('"' + said + '"', str_(content))
    yes("'" + said + "'", sym(content))
for said in ('\\x', '\\x4', '\\x4g', '\\xg4', '\\x 4', '\\x-1', '\\X41', '\\u', '\\u004', '\\u004g', '\\u{41}', '\\u+041', '\\U',
             '\\U0000004', '\\U0000004g', '\\ud800', '\\uDBFF', '\\uDC00', '\\udfff', '\\ud83d\\ude00', '\\U0000d800', '\\U0000DFFF',
             '\\U00110000', '\\U00200000', '\\U01000041', '\\UFFFFFFFF', '\\U80000000', '\\x4\\x1', '\\u00\\x41'):
    no('"' + said + '"', "'" + said + "'")
# Control characters as the writers print them, and raw in names and annotations. (crates/vectors has each raw, by its letter, by `\x`, `\u` and `\U` at
# every place.)
HEXED = '\x01\x02\x03\x04\x05\x06\x0e\x0f\x10\x11\x12\x13\x14\x15\x16\x17\x18\x19\x1a\x1b\x1c\x1d\x1e\x1f'
HEXES = r'\x01\x02\x03\x04\x05\x06\x0e\x0f\x10\x11\x12\x13\x14\x15\x16\x17\x18\x19\x1a\x1b\x1c\x1d\x1e\x1f'
yes('"' + HEXES + '"', str_(HEXED))
yes(r"'\x1F'::{'\x01':'\x0E'}", notes('\x1f', rec('\x01', sym('\x0e'))))
stored("'\x1f'::1", r"'\x1f'::1", notes('\x1f', one))
stored("a::'\x02'::1", r"a::'\x02'::1", notes('a', '\x02', one))
stored("{'\0':1}", r"{'\x00':1}", rec('\0', one))
stored("['\x07\t\x7f']", r"['\x07" + "\t\x7f']", list_(sym('\x07\t\x7f')))
# Clobs: `\x` naming one byte.
for said, content in (('\\x00', b'\0'), ('\\x41', b'A'), ('\\x7f', b'\x7f'), ('\\x80', b'\x80'), ('\\xe9', b'\xe9'), ('\\xFf', b'\xff'),
                      ('\\x411', b'A1'), ('\\xc3\\xa9', b'\xc3\xa9'), ('a\\nb', b'a\nb')):
    yes('{{"' + said + '"}}', clob(content))
no('{{"\\x"}}', '{{"\\x4"}}', '{{"\\x4g"}}', '{{"\\X41"}}', '{{"\\u0041"}}', '{{"\\U00000041"}}', '{{"\\u00e9"}}')

# --- UTF-8: the leading one bits of a first byte give its length; overlong forms, surrogates and values past hex 10FFFF are broken.
for good in (b'\x7f', b'\xc2\x80', b'\xdf\xbf', b'\xe0\xa0\x80', b'\xe0\xbf\xbf', b'\xe1\x80\x80', b'\xec\xbf\xbf', b'\xed\x80\x80',
             b'\xed\x9f\xbf', b'\xee\x80\x80', b'\xef\xbf\xbf', b'\xef\xbb\xbf', b'\xf0\x90\x80\x80', b'\xf0\xbf\xbf\xbf',
             b'\xf1\x80\x80\x80', b'\xf3\xbf\xbf\xbf', b'\xf4\x80\x80\x80', b'\xf4\x8f\xbf\xbf', 'é€😀'.encode(), b'\xc2\x85',
             b'\xe2\x80\xa8'):
    yes(b'"' + good + b'"', str_(good))
    yes(b"'" + good + b"'", sym(good))
    yes(b"{'" + good + b"':1}", rec(('sym', good), one))
    if good != b'\x7f':
        no(b'{{"' + good + b'"}}', good)
for bad in (b'\x80', b'\xbf', b'\xc0\x80', b'\xc1\xbf', b'\xc2', b'\xc2a', b'\xc2\xc2', b'\xc2\x80\x80', b'\xdf\xc0', b'\xe0\x80\x80',
            b'\xe0\x9f\xbf', b'\xe0\xa0', b'\xe0\xa0a', b'\xe1\x80', b'\xe1\x80\xc0', b'\xe1\xc0\x80', b'\xed\xa0\x80', b'\xed\xad\xbf',
            b'\xed\xb0\x80', b'\xed\xbf\xbf', b'\xed\xa0\xbd\xed\xb8\x80', b'\xf0\x80\x80\x80', b'\xf0\x8f\xbf\xbf', b'\xf0\x90\x80',
            b'\xf0\x90', b'\xf0', b'\xf0\x90\x80a', b'\xf0\x90\xc0\x80', b'\xf4\x90\x80\x80', b'\xf4\xbf\xbf\xbf', b'\xf5\x80\x80\x80',
            b'\xf7\xbf\xbf\xbf', b'\xf8\x88\x80\x80\x80', b'\xfc\x84\x80\x80\x80\x80', b'\xfe', b'\xfe\x80'):
    no(b'"' + bad + b'"', b"'" + bad + b"'", b'"a' + bad + b'b"')
no(b'"\xe2\x82', b'"\xf0\x9f\x98', b"'\xc3", b'"\\\xc3\xa9"')

# --- `'''` starting a token is refused.
no("'''", "''''", "'''a'''", "'''''", "''''''", "'''a''' '''b'''", "['''a''']", "('''a''')", "{a:'''b'''}", "{'''a''':1}", "a::'''b'''")
no("'''a'''::1", "'''\n'''")
no("'''a", "'''a'", "''a", "'a''", "'a'''", "'''::1", "''''::1", "'\\'''")
yes("'' ''", sym(''), sym(''))
yes("['','']", list_(sym(''), sym('')))
yes("('' '')", sexp(sym(''), sym('')))
yes("''::''", notes('', sym('')))
yes("{'':''}", rec('', sym('')))
yes('"\'\'\'"', str_("'''"))

# --- Annotations are symbols, each followed by `::`, at most 16.
for said, value in (('null', null()), ('null.int', null('int')), ('true', TRUE), ('1', one), ('nan', NAN), ('+inf', INF),
                    ('-0e0', MINUS_ZERO), ('-1.5', minus(15, -1)), ('2007T', year(2007)), ('b', b), ("'b c'", sym('b c')), ('$7', sid(7)),
                    ('"b"', str_('b')), ('{{"b"}}', clob('b')), ('{{Yg==}}', blob('b')), ('[]', list_()), ('[1,]', list_(one)), ('(b c)', sexp(b, c)),
                    ('{b:1}', rec('b', one))):
    yes('a::' + said, notes('a', value))
    yes("$7::'x y'::" + said, notes(sid(7), 'x y', value))
    yes('[a::' + said + ',1]', list_(notes('a', value), one))
    yes('(a::' + said + ' 1)', sexp(notes('a', value), one))
    yes('{c:a::' + said + '}', rec('c', notes('a', value)))
yes('a::b::c', notes('a', 'b', c))
yes('a::a::a', notes('a', 'a', a))
yes('$0::1', notes(sid(0), one))
yes("''::1", notes('', one))
yes("'true'::true", notes('true', TRUE))
yes("'$ion_1_0'::1", notes('$ion_1_0', one))
yes('a::[b::1]', notes('a', list_(notes('b', one))))
yes('a::1 b::2', notes('a', one), notes('b', two))
yes('$4294967295::1', notes(sid(4294967295), one))
yes('a::' * 16 + '1', notes(*[a] * 16, one))
yes('a::' * 16 + '[' + 'b::' * 16 + '1]', notes(*[a] * 16, list_(notes(*[b] * 16, one))))
yes(''.join('$%d::' % i for i in range(16)) + 'a', notes(*map(sid, range(16)), a))
no('a::' * 17 + '1', '[' + 'a::' * 17 + '1]', '{a:' + 'a::' * 17 + '1}', '(' + 'a::' * 17 + '1)', 'a::' * 100 + '1', 'a::' * 16, 'a::' * 17)
no('a::', '::1', '::', 'a:1', 'a:::1', 'a::::1', 'a::,', '[a::]', '(a::)', '{b:a::}', '[a::,1]', 'a::)', 'a: :1', 'a::b::', 'a::b:1')
no('"a"::1', '1::1', '1.::1', 'true::1', 'false::1', 'null::1', 'nan::1', 'null.int::1', 'null.symbol::1', '+inf::1', '2007T::1', '[]::1')
no('()::1', '{}::1')
no('é::1', 'a.b::1', '(a ::1)', '(a:: 1)', '[a ::1]', '[a:: 1]', '{b:a ::1}', '{b:a:: 1}', '{a::1:2}', '{a::b}', '{a ::1}', 'a::1::2')

# --- The depth binds here too: at most 64 containers are open together.
def nest(opens, closes, wrap, n, inner, value):
    for _ in range(n):
        value = wrap(value)
    return (opens * n + inner + closes * n, value)


for opens, closes, wrap in (('[', ']', list_), ('(', ')', sexp), ('{a:', '}', lambda v: rec('a', v)),
                            ('a::[', ']', lambda v: notes('a', list_(v)))):
    yes(*nest(opens, closes, wrap, 63, '1', one))
    yes(*nest(opens, closes, wrap, 64, '1', one))
    yes(*nest(opens, closes, wrap, 64, '{{"a"}}', clob('a')))
    yes(*nest(opens, closes, wrap, 63, '[]', list_()))
    yes(*nest(opens, closes, wrap, 63, '{}', rec()))
    yes(*nest(opens, closes, wrap, 63, 'b::()', notes('b', sexp())))
    for inner in ('[]', '()', '{}', '[1]', 'b::[]'):
        no(opens * 64 + inner + closes * 64)
    no(opens * 65 + '1' + closes * 65, opens * 64 + '1' + closes * 63, opens * 64 + '1' + closes * 65, opens * 70, opens * 64)
yes('[]' + ' []' * 99, *[list_()] * 100)
yes('[' + '[],' * 100 + ']', list_(*[list_()] * 100))

# --- Lengths and numbers of nodes do not bind, and a text that is only too long for a tape gives 9 (the program's buffer has 1024 bytes).
full = BUFFER - 8 - 5
yes('"' + 'a' * full + '"', str_('a' * full))
too_long('"' + 'a' * (full + 1) + '"')
no('"' + 'a' * (full + 1), '"' + 'a' * (full + 1) + '" ]', '"' + 'a' * (full + 1) + '" 01')
fit = (BUFFER - 8 - 5) // 14
yes('[' + '0.,' * fit + ']', list_(*[dec(0, 0)] * fit))
too_long('[' + '0.,' * (fit + 1) + ']')
no('[' + '0.,' * (fit + 1) + ',]', '[' + '0.,' * (fit + 1), '[' + '0.,' * (fit + 1) + '-0]')
fit = (BUFFER - 8) // 5
yes('$7 ' * fit, *[sid(7)] * fit)
too_long('$7 ' * (fit + 1))
too_long("{{\"" + '\\x00' * (full + 1) + '"}}')

# --- Blobs (document 02, A3): `{{`, padded base64, `}}`, this spelling alone. RFC 4648's own vectors first.
for content, said in (b'', ''), (b'f', 'Zg=='), (b'fo', 'Zm8='), (b'foo', 'Zm9v'), (b'foob', 'Zm9vYg=='), (b'fooba', 'Zm9vYmE='), (b'foobar', 'Zm9vYmFy'):
    yes('{{' + said + '}}', blob(content))
CHARACTERS = b'ABCDEFGHIJKLMNOPQRSTUVWXYZabcdefghijklmnopqrstuvwxyz0123456789+/'
for x in BYTES:
    if x in (b'"', b'\xff'):
        continue
    at = x[0] // 2 % 4
    four = b'AAA'[:at] + x + b'AAA'[at:]
    if x in CHARACTERS:
        yes(b'{{' + four + b'}}', blob((CHARACTERS.index(x) << 6 * (3 - at)).to_bytes(3, 'big')))
    else:
        no(b'{{' + four + b'}}')
# Unused bits are zero.
for i, x in enumerate(CHARACTERS):
    x = bytes([x])
    (yes(b'{{A' + x + b'==}}', blob(bytes([i >> 4]))) if i % 16 == 0 else no(b'{{A' + x + b'==}}'))
    (yes(b'{{AA' + x + b'=}}', blob(bytes([0, i >> 2]))) if i % 4 == 0 else no(b'{{AA' + x + b'=}}'))
# Behind whole words of eight characters, too; a byte that is otherwise at each place of two words.
for n in range(1, 16):
    content = bytes(range(200, 200 + n))
    said = base64.b64encode(content)
    yes(b'{{' + said + b'}}', blob(content))
    no(b'{{' + said[:-1] + b'}}', b'{{' + said + b'=}}', b'{{' + said + b' }}', b'{{' + said + b'}')
for at in range(16):
    for x in b'= }':
        no(b'{{' + b'ABCDEFGHIJKLMNOP'[:at] + bytes([x]) + b'ABCDEFGHIJKLMNOP'[at + 1:] + b'}}')
no('{{ }}', '{{ aGk= }}', '{{aGk= }}', '{{ aGk=}}', '{{aG k=}}', '{{a}}', '{{aG}}', '{{aGk}}', '{{aGk==}}', '{{aGl=}}', '{{=}}', '{{==}}', '{{====}}')
no('{{A===}}', '{{Zg==Zg==}}', '{{Zm8=Zm8=}}', '{{Zg=A}}', '{{-_-_}}', '{{1}}', '{{', '{{}', '{{}}}', '{{Zm9v', '{{Zm9v}', '{{Zm9v}}}', '{{Zm9v}Zm9v}}')
no('{{}}::1', '{ {} }', '{{{}}}', '{{Zm9v}}{{Zm9v}}', '{{Zm9v}}1', '{{Zm9v\n}}', '{{//8=}}/')
yes('{{//8=}} {{+/+/}}', blob(b'\xff\xff'), blob(b'\xfb\xff\xbf'))
yes('[{{}},{{Zg==}}]', list_(blob(b''), blob('f')))
yes('({{}} {{Zg==}})', sexp(blob(b''), blob('f')))
yes('{a:{{Zm9v}}}', rec('a', blob('foo')))
yes('{a: b::{{Zm9v}}, }', rec('a', notes('b', blob('foo'))))
yes('jpeg::{{/9j/4AAQ}}', notes('jpeg', blob(bytes.fromhex('ffd8ffe00010'))))

# --- Out: other finite floats, larger integers, comments, long strings.
no('// a', '//', '1 // a', '/* a */', '/**/', '/* a */ 1', '1 /* a */', '[1, /* a */ 2]', '1//', '# a', '-- a')
yes('"// a" "/* b */"', str_('// a'), str_('/* b */'))

# --- The document's examples.
yes("'true'", sym('true'))
yes("'$7'", sym('$7'))
yes('123456.', dec(123456, 0))
yes('0.00000116', dec(116, -8))
yes('{\n  a: [\n    1,\n  ],\n}\n', rec('a', list_(one)))
yes('[true, ]\n', list_(TRUE))
assert rows[-1][1] == '0a0200000001010700000001000000'  # the document's own hex
yes('1\nx3\n', one, sym('x3'))
no('1\n01\n', '1\n{\n')

if __name__ == '__main__':
    here = os.path.join(os.path.dirname(os.path.abspath(__file__)), '..', 'crates', 'readings')
    table = {}
    for text, expected in rows:
        assert b'\xff' not in text and table.setdefault(text, expected) == expected, text
    rows = list(table.items())
    said = b''.join(text + b'\xff' for text, _ in rows)
    assert len(said) <= 65536, len(said)
    with open(os.path.join(here, 'stdin'), 'wb') as f:
        f.write(said)
    with open(os.path.join(here, 'stdout'), 'w') as f:
        f.write(''.join(expected + '\n' for _, expected in rows))
    refused = sum(e.startswith('refused') for _, e in rows)
    print('%d rows: %d accepted, %d refused; %d bytes' % (len(rows), len(rows) - refused, refused, len(said)))
