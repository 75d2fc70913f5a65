#!/usr/bin/env python3
"""The published examples of Ion 1.0, as a list for crates/examples (its format is in crates/vectors/README.md).

Run it to write crates/examples/stdin and stdout. The examples are those of the pages at amazon-ion.github.io/ion-docs, under their pages and
sections. They were transcribed from memory. Comments beside them are left out, and so is an example that is a sketch
(`...`); among them stand a few companions that a section's sentences call for.

`takes(text, nodes ..)` is read here, with the nodes written by hand; `out(row, texts ..)` is Ion and refused here, for the reason that a row
of docs/DIFFERENCES.md has under that name, which must be there; `error(texts ..)` is refused by Ion too. tests/grammar.py, an independent
reader, must agree with each; our own reader is not asked.
"""
import collections
import os
import re

import grammar
from listing import ROOT, escaped, write
from readings import (FALSE, INF, MARKER, MINUS_INF, MINUS_ZERO, NAN, TRUE, ZERO, blob, clob, day, dec, int_, list_, minus, minute, month, notes, null, rec,
                      second, sexp, sid, str_, sym, year)
from tapes import UNKNOWN, tape, whole

SITE = 'amazon-ion.github.io/ion-docs/'
lines, rows, seen = [], set(), set()
sums = collections.Counter()


def page(where):
    lines.extend(['', '# --- ' + SITE + where])


def spelt(text):
    assert text not in seen, text
    seen.add(text)
    return escaped(text.encode())


def takes(text, *nodes):
    made = tape(nodes)
    assert grammar.expect(text.encode(), len(made)) == (len(made), made), text
    lines.extend(['x' + made.hex(), 'r=' + spelt(text)])
    sums.update(tapes=1, texts=1, reads=3)


def refused(why, *texts):
    lines.append('# 8: ' + why)
    for text in texts:
        assert grammar.expect(text.encode(), 65536) == (-8, b''), text
        lines.append('r!8' + spelt(text))
        sums.update(refusals=1, reads=3)


def out(row, *texts):
    """Ion, and refused here by this row of docs/DIFFERENCES.md."""
    rows.add(row)
    refused(row, *texts)


def error(*texts):
    refused('an error in Ion too', *texts)


page('docs/spec.html, Null Values')
takes('null', null())
out('`null.null`', 'null.null')
for name in 'bool int float decimal timestamp string symbol blob clob struct list sexp'.split():
    takes('null.' + name, null(name))

page('docs/spec.html, Booleans')
takes('true', TRUE)
takes('false', FALSE)

page('docs/spec.html, Integers')
takes('0', int_(0))
out('`-0` as an int', '-0')
takes('123', int_(123))
takes('-123', int_(-123))
out('hexadecimal and binary ints', '0xBeef', '0b0101', '0xFA_CE', '0b10_10_10')
out('`_` in numbers', '1_2_3')
error('+1', '0123', '1_', '1__2', '0x_12')
takes('_1', sym('_1'))

page('docs/spec.html, Real Numbers')
takes('0.123', dec(123, -3))
out('floats spelled otherwise', '-0.12e4')
takes('-0.12d4', minus(12, 2))
out('floats spelled otherwise', '0E0')
out('`D` for `d` in decimals', '0D0')
takes('0.', dec(0, 0))
takes('-0e0', MINUS_ZERO)
takes('-0d0', minus(0, 0))
takes('-0.', minus(0, 0))
takes('-0d-1', minus(0, -1))
takes('-0.0', minus(0, -1))
out('`_` in numbers', '123_456.789_012')
error('123_._456', '123._456', '0_12', '12__34.56', '123.456_', '-_123.456', '_123.456')
takes('nan', NAN)
takes('+inf', INF)
takes('-inf', MINUS_INF)

page('docs/float.html and docs/decimal.html')
takes('0e0', ZERO)
takes('1e0', whole(1))
takes('1.5e1', whole(15))
out('floats that are no whole number of magnitude up to 2^53', '0.1e0', '3.14e0', '6.02e23', '-1.5e-3', '123.456e42')
out('floats spelled otherwise', '0.0e0', '-0.0e0')
takes('0d0', dec(0, 0))
takes('0.0', dec(0, -1))
takes('0.00', dec(0, -2))
takes('0d-1', dec(0, -1))
takes('0d5', dec(0, 5))
takes('-0d5', minus(0, 5))
takes('123.', dec(123, 0))
takes('123d0', dec(123, 0))
takes('1.23', dec(123, -2))
takes('1.230', dec(1230, -3))
takes('123d-2', dec(123, -2))
takes('123.456d42', dec(123456, 39))
takes('123456.', dec(123456, 0))
takes('123456.0', dec(1234560, -1))
takes('123456d0', dec(123456, 0))
takes('1d3', dec(1, 3))
takes('1000.', dec(1000, 0))
takes('1.0d-5', dec(10, -6))
error('.4', '1d', '1.0d', '1e')

page('docs/spec.html, Timestamps')
takes('2007-02-23T12:14Z', minute(2007, 2, 23, 12, 14, 0))
takes('2007-02-23T12:14:33.079-08:00', second(2007, 2, 23, 12, 14, 33, -480, 3, 79))
for offset, minutes in ('Z', 0), ('+00:00', 0), ('-00:00', UNKNOWN):
    takes('2007-02-23T20:14:33.079' + offset, second(2007, 2, 23, 20, 14, 33, minutes, 3, 79))
takes('2007-01-01T00:00-00:00', minute(2007, 1, 1, 0, 0, UNKNOWN))
out('timestamps without `T`', '2007-01-01', '2007-02-23')
takes('2007-01-01T', day(2007, 1, 1))
takes('2007-01T', month(2007, 1))
takes('2007T', year(2007))
takes('2007-02-23T00:00Z', minute(2007, 2, 23, 0, 0, 0))
takes('2007-02-23T00:00+00:00', minute(2007, 2, 23, 0, 0, 0))
takes('2007-02-23T00:00:00-00:00', second(2007, 2, 23, 0, 0, 0, UNKNOWN))
takes('2007', int_(2007))
error('2007-01', '2007-02-23T20:14:33.Z', '2007-02-23T20:14', '2007-02-29T', '2007-13T', '2007-02-23T24:00Z', '2007-02-23T20:60Z')
takes('2000-01-01T00:00:00.000Z', second(2000, 1, 1, 0, 0, 0, 0, 3, 0))
out('fractions of a second past nine digits', '2000-01-01T00:00:00.0000000001Z')

page('docs/spec.html, Strings')
takes('""', str_(''))
takes('" my string "', str_(' my string '))
takes('"\\""', str_('"'))
takes('"\\uABCD"', str_('\uabcd'))
takes('xml::"<e a=\'v\'>c</e>"', notes('xml', str_("<e a='v'>c</e>")))
takes('("hello world!")', sexp(str_('hello world!')))
out('long strings', "( '''hello '''\n  '''world!'''  )",
    "'''\\\nThe first line of the string.\nThis is the second line of the string,\nand this is the third line.\n'''", "''''''", "'''a''' '''b'''")
out('a backslash before a line\'s end in quoted text or a clob', '"a\\\nb"')
for said, content in (('\\0', '\0'), ('\\a', '\a'), ('\\b', '\b'), ('\\t', '\t'), ('\\n', '\n'), ('\\f', '\f'), ('\\r', '\r'), ('\\v', '\v'),
                      ("\\'", "'"), ('\\?', '?'), ('\\\\', '\\'), ('\\/', '/'), ('\\x41', 'A'), ('\\xe9', 'é'), ('\\u00e9', 'é'),
                      ('\\U0001F4A9', '\U0001f4a9')):
    takes('"%s"' % said, str_(content))
error('"a\nb"', '"\\x4"', '"\\u004"', '"\\U00110000"', '"\\z"', '"', '"a')
out('surrogates named by `\\u`', '"\\uD83D\\uDCA9"')

page('docs/spec.html, Symbols')
takes("'myVar2'", sym('myVar2'))
takes('myVar2', sym('myVar2'))
takes('myvar2', sym('myvar2'))
takes("'hi ho'", sym('hi ho'))
takes("'\\'ahoy\\''", sym("'ahoy'"))
takes("''", sym(''))
takes("( 'x' '+' 'y' )", sexp(sym('x'), sym('+'), sym('y')))
out('operators in sexps', '( x + y )', '(x+y)', '(a==b&&c==d)', '(+ 1 2)', '(- 1)', '(a - b)')
takes("'true' 'false' 'nan' 'null' 'null.int'", *map(sym, 'true false nan null null.int'.split()))
takes('_ $ a1 A_b $ion', *map(sym, '_ $ a1 A_b $ion'.split()))

page('docs/spec.html, Blobs')
out('blanks inside `{{` and `}}`', '{{\n+AB/\n}}', '{{ VG8gaW5maW5pdHkuLi4gYW5kIGJleW9uZCE= }}', '{{ dHdvIHBhZGRpbmcgY2hhcmFjdGVycw== }}')
takes('{{+AB/}} {{VG8gaW5maW5pdHkuLi4gYW5kIGJleW9uZCE=}}', blob(b'\xf8\x00\x7f'), blob('To infinity... and beyond!'))
takes('{{dHdvIHBhZGRpbmcgY2hhcmFjdGVycw==}} {{}}', blob('two padding characters'), blob(''))
error('{{ VG8gaW5maW5pdHkuLi4gYW5kIGJleW9uZCE== }}', '{{ VG8gaW5maW5pdHku=Li4gYW5kIGJleW9uZCE= }}', '{{ dHdvIHBhZGRpbmc_gY2hhcmFjdGVycw= }}',
      '{ {VG8=} }')

page('docs/spec.html, Clobs')
out('blanks inside `{{` and `}}`', '{{ "This is a CLOB of text." }}')
takes('{{"This is a CLOB of text."}}', clob('This is a CLOB of text.'))
out('long strings', "shift_jis ::\n{{\n  '''Another clob with user-defined encoding, '''\n  '''this time on multiple lines.'''\n}}")
takes('shift_jis::{{"Another clob with user-defined encoding, \\x66"}}', notes('shift_jis', clob('Another clob with user-defined encoding, f')))
out('blanks beside `::`', 'shift_jis :: {{"a"}}')
error('{{\n  // ERROR\n  "comments not allowed"\n}}', '{{ "\\u3000" }}', '{{"a" "b"}}', '{{"é"}}')
takes('{{"\\x00\\xff\\n\\"\\?"}}', clob(b'\x00\xff\n"?'))
out('raw tab, 11, 12 and 7F in clobs', '{{"a\tb"}}')

page('docs/spec.html, Structures')
takes('{ }', rec())
takes('{ first : "Tom" , last: "Riddle" }', rec('first', str_('Tom'), 'last', str_('Riddle')))
takes('{first:"Tom",last:"Riddle"}', rec('first', str_('Tom'), 'last', str_('Riddle')))
out('strings as field names', '{"first":"Tom","last":"Riddle"}', '{ "":42 }', "{'''a''':1}")
takes('{center:{x:1.0, y:12.5}, radius:3}', rec('center', rec('x', dec(10, -1), 'y', dec(125, -1)), 'radius', int_(3)))
takes('{ x:1, }', rec('x', int_(1)))
out('long strings', "{ x:'''a''' }")
out('`null.null`', '{ field1: null.null }')
takes("{ '':42 }", rec('', int_(42)))
takes('{ x:1, x:null.int }', rec('x', int_(1), 'x', null('int')))
error('{ x:1, , }', '{ x:1 y:2 }', '{ x }', '{ 1:2 }', '{ x:, }', '{ null:1 }', '{ a::x:1 }')

page('docs/spec.html, Lists')
takes('[]', list_())
takes('[1, 2, 3]', list_(int_(1), int_(2), int_(3)))
takes('[ 1 , two ]', list_(int_(1), sym('two')))
takes('[a , [b]]', list_(sym('a'), list_(sym('b'))))
takes('[ 1.2, ]', list_(dec(12, -1)))
error('[ 1, , 2 ]', '[ , ]', '[1 2]', '[1', '1]')

page('docs/spec.html, S-Expressions')
takes('()', sexp())
takes('(cons 1 2)', sexp(sym('cons'), int_(1), int_(2)))
out('values side by side with no blank between', '([hello][there])')
takes('([hello] [there])', sexp(list_(sym('hello')), list_(sym('there'))))
out('operators in sexps', '(a+-b)', '(a.b;)')
takes("( 'a' '+-' 'b' )", sexp(sym('a'), sym('+-'), sym('b')))
takes("( 'a' '.' 'b' ';')", sexp(sym('a'), sym('.'), sym('b'), sym(';')))
error('(1, 2)', '(1', '(1]')

page('docs/spec.html, Type Annotations')
takes('int32::12', notes('int32', int_(12)))
takes("degrees::'celsius'", notes('degrees', sym('celsius')))
out('blanks beside `::`', "'my.custom.type' :: { x : 12 , y : -1 }", 'bool :: null.int', "'' :: 1")
takes("'my.custom.type'::{ x : 12 , y : -1 }", notes('my.custom.type', rec('x', int_(12), 'y', int_(-1))))
takes("{ field: something::'another thing'::value }", rec('field', notes('something', 'another thing', sym('value'))))
takes('dollars::100.0', notes('dollars', dec(1000, -1)))
takes('jpeg::{{/9j/4AAQ}}', notes('jpeg', blob(bytes.fromhex('ffd8ffe00010'))))
takes('bool::null.int', notes('bool', null('int')))
takes("''::1", notes('', int_(1)))
error('null.symbol :: 1', 'null.symbol::1', 'a::', 'true::1', '"a"::1')

page('docs/spec.html, Comments')
out('comments', '// This is a comment\n1', '/* This is a comment */ 1', '[1, /* two */ 2]', '1 // one')
takes('"// no comment" "/* none */"', str_('// no comment'), str_('/* none */'))

page('index.html and docs/spec.html, the first example')
out('comments', '''/* Ion supports comments. */
// Here is a struct, which is similar to a JSON object.
{
  // Field names don't always have to be quoted.
  name: "fido",

  // This is an integer with a user annotation of 'years'.
  age: years::4,

  // This is a timestamp with day precision.
  birthday: 2012-03-01T,

  // Here is a list, which is like a JSON array.
  toys: [
    // These are symbol values, which are like strings,
    // but get encoded as integers in binary.
    ball,
    rope
  ],

  // Here's an annotation, "pounds".
  weight: pounds::41.2,

  // This is a blob.
  buzz: {{VG8gaW5maW5pdHkuLi4gYW5kIGJleW9uZCE=}},
}
''')
takes('{\n  name: "fido",\n  age: years::4,\n  birthday: 2012-03-01T,\n  toys: [\n    ball,\n    rope\n  ],\n  weight: pounds::41.2,\n}\n',
      rec('name', str_('fido'), 'age', notes('years', int_(4)), 'birthday', day(2012, 3, 1), 'toys', list_(sym('ball'), sym('rope')),
          'weight', notes('pounds', dec(412, -1))))
takes('{buzz: {{VG8gaW5maW5pdHkuLi4gYW5kIGJleW9uZCE=}}}', rec('buzz', blob('To infinity... and beyond!')))

page('docs/symbols.html, Ion Version Markers')
takes('$ion_1_0', MARKER)
takes('$ion_1_0 1 $ion_1_0 2', MARKER, int_(1), MARKER, int_(2))
takes("'$ion_1_0'", sym('$ion_1_0'))
out('`$ion_1_0` and its like in a container, annotated or as an annotation', 'annotated::$ion_1_0', '[$ion_1_0]', '($ion_1_0)', '{a: $ion_1_0}', '[$ion_1_1]',
    '$ion_1_0::a')
error('$ion_1234_1', '$ion_1_1', '$ion_2_0')
takes('$ion_1_0_0', sym('$ion_1_0_0'))

page('docs/symbols.html, Symbol Tables')
takes('$ion_symbol_table::{ symbols:[ "fred", "davis" ] }', notes('$ion_symbol_table', rec('symbols', list_(str_('fred'), str_('davis')))))
takes('$ion_symbol_table::\n{\n  imports:[ { name:"com.example.shapes", version:1, max_id:3 } ],\n  symbols:[ "rectangle" ]\n}'.replace('::\n', '::'),
      notes('$ion_symbol_table', rec('imports', list_(rec('name', str_('com.example.shapes'), 'version', int_(1), 'max_id', int_(3))),
                                     'symbols', list_(str_('rectangle')))))
out('blanks beside `::`', '$ion_symbol_table::\n{\n  symbols:[ "rectangle" ]\n}',
    '$ion_shared_symbol_table::\n{\n  name: "com.amazon.ols.symbols.offer",\n  version: 1,\n  symbols: [ "fee", "fie", "foe", "hooligan" ]\n}')
takes('$ion_shared_symbol_table::{name:"com.amazon.ols.symbols.offer",version:1,symbols:["fee","fie","foe","hooligan"]}',
      notes('$ion_shared_symbol_table', rec('name', str_('com.amazon.ols.symbols.offer'), 'version', int_(1),
                                            'symbols', list_(*map(str_, ('fee', 'fie', 'foe', 'hooligan'))))))
takes('$0 $4 $9 $10 $99', *map(sid, (0, 4, 9, 10, 99)))
takes('$10::$11', notes(sid(10), sid(11)))
takes("'$99'", sym('$99'))
takes('{$10:1}', rec(sid(10), int_(1)))
out('identifiers with leading zeros, or past 4,294,967,295', '$01', '$4294967296')

page('guides/cookbook.html')
takes('{hello: "world"}', rec('hello', str_('world')))
takes('"Hello, world!"', str_('Hello, world!'))
takes('{level1: {level2: {level3: "foo"}, x: 2}, y: [a,b,c]}',
      rec('level1', rec('level2', rec('level3', str_('foo')), 'x', int_(2)), 'y', list_(*map(sym, 'abc'))))
takes('{\n  level1:{\n    level2:{\n      level3:"foo"\n    },\n    x:2\n  },\n  y:[\n    a,\n    b,\n    c\n  ]\n}\n',
      rec('level1', rec('level2', rec('level3', str_('foo')), 'x', int_(2)), 'y', list_(*map(sym, 'abc'))))
takes('{id:1,type:"foo",state:false} {id:2,type:"bar",state:true} {id:3,type:"baz",state:true}',
      *(rec('id', int_(i), 'type', str_(t), 'state', b) for i, t, b in ((1, 'foo', FALSE), (2, 'bar', TRUE), (3, 'baz', TRUE))))
takes('$ion_1_0\nfoo::{\n  quantity: 1\n}\nbar::{\n  name: "x",\n  id: 7\n}\nbaz::{\n  items:["thing1", "thing2"]\n}\nfoo::{\n  quantity: 19\n}\n'
      'bar::{\n  name: "y",\n  id: 8\n}\n', MARKER, notes('foo', rec('quantity', int_(1))), notes('bar', rec('name', str_('x'), 'id', int_(7))),
      notes('baz', rec('items', list_(str_('thing1'), str_('thing2')))), notes('foo', rec('quantity', int_(19))),
      notes('bar', rec('name', str_('y'), 'id', int_(8))))
takes('$ion_shared_symbol_table::{\n  name: "test.csv.columns",\n  version: 1,\n  symbols: ["id", "type", "state"],\n}',
      notes('$ion_shared_symbol_table', rec('name', str_('test.csv.columns'), 'version', int_(1),
                                            'symbols', list_(*map(str_, ('id', 'type', 'state'))))))
takes('$ion_1_0 $ion_symbol_table::{imports:[{name:"test.csv.columns",version:1,max_id:3}]} {$10:1,$11:"foo",$12:false}', MARKER,
      notes('$ion_symbol_table', rec('imports', list_(rec('name', str_('test.csv.columns'), 'version', int_(1), 'max_id', int_(3))))),
      rec(sid(10), int_(1), sid(11), str_('foo'), sid(12), FALSE))
takes('{}', rec())
takes('', )
takes(' \t\n', )


def main():
    with open(os.path.join(ROOT, 'docs', 'DIFFERENCES.md')) as f:
        named = {found[1].strip() for found in re.finditer(r'^\| ([^|]*) \|', f.read(), re.M)}
    assert rows <= named, rows - named
    head = ['# The published examples of Ion 1.0, each with the tape that it means here, or 8 and why: a row of docs/DIFFERENCES.md, or an error',
            '# in Ion too. Made by tests/examples.py, from memory of the pages; ../vectors/README.md has the format.']
    write('examples', head + lines, sums)
    print('%d rows of docs/DIFFERENCES.md have an example' % len(rows))


if __name__ == '__main__':
    main()
