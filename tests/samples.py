"""The sample tapes that bench.py and count.py measure, always the same bytes, those for always-quoted symbols, and the texts for the reader and the
converter.

    python3 tests/samples.py FOLDER

writes them as files. Every tape but `lines` has one top-level node, so that it has a tree text too; none but `annotated` has annotations,
so that it has the streaming texts.
"""
import calendar
import os
import random
import sys

import model
from tapes import UNKNOWN, tape, whole


def sym(text):
    return ('sym', text.encode())


def string(text):
    return ('str', text.encode())


def record(r):
    day = r.randrange(1, 29)

    def when(digits):
        return ('ts', 4, 2026, 11, day, r.randrange(24), r.randrange(60), r.randrange(60), r.choice([0, -300, 60, UNKNOWN]), digits,
                r.randrange(10**digits))
    fields = [
        ('id', ('int', r.randrange(10**8))),
        ('object', sym(r.choice(['vega', 'm31', 'ceres', 'NGC_7293']))),
        ('name', string(r.choice(['Andromeda galaxy', "Barnard's star", 'Helix nebula, centre field']))),
        ('rise', when(0)), ('set', when(3)), ('best', when(9)),
        ('day', ('ts', 2, 2026, 11, day, 0, 0, 0, UNKNOWN, 0, 0)),
        ('magnitude', ('dec', r.random() < .2, r.randrange(2000), -2)),
        ('exposure', ('dec', 0, r.randrange(10**9), -6)),
        ('priority', ('int', r.randrange(10))),
        ('visible', ('bool', r.random() < .5)),
        ('moon', ('null', 4)),
        ('radec', ('list', [('dec', 0, r.randrange(36 * 10**7), -6), ('dec', 1, r.randrange(9 * 10**7), -6)])),
        ('filters', ('list', [sym(x) for x in ('u', 'g', 'r', 'i', 'z')])),
        ('rule', ('sexp', [sym('and'), ('sexp', [sym('>'), sym('altitude'), ('int', 30)]), sym('dark')])),
        ('site', ('struct', [(sym('dome'), ('int', 2)), (sym('code name'), string('La "Silla"'))])),
    ]
    return ('struct', [(sym(name), v) for name, v in fields])


def timestamp(r):
    p = r.randrange(5)
    year = r.choice([1, 4, 99, 100, 400, 999, 1000, 1900, 2000, 2024, 9999, r.randrange(1, 10000)])
    month = r.randrange(1, 13) if p >= 1 else 0
    last = calendar.monthrange(year, month)[1] if month else 0
    day = r.choice([1, last, r.randrange(1, last + 1)]) if p >= 2 else 0
    hour = r.choice([0, 9, 10, 23]) if p >= 3 else 0
    minute = r.choice([0, 9, 10, 59]) if p >= 3 else 0
    second = r.choice([0, 9, 10, 59]) if p == 4 else 0
    offsets = [UNKNOWN, 0, 1, -1, 5, -5, 59, -59, 60, -60, 61, -61, 1439, -1439]
    offset = r.choice(offsets + [r.randrange(-1439, 1440)]) if p >= 3 else UNKNOWN
    digits = r.randrange(10) if p == 4 else 0
    fraction = r.choice([0, 10**digits - 1, r.randrange(10**digits), r.randrange(10**(digits // 2))])
    return ('ts', p, year, month, day, hour, minute, second, offset, digits, fraction)


def nested(depth, inner):
    """Lists, sexps and structs in turn, each in the one before."""
    for i in reversed(range(depth)):
        kind = ('list', 'sexp', 'struct')[i % 3]
        inner = (kind, [(sym('a'), inner)] if kind == 'struct' else [inner])
    return inner


def siblings(depth):
    """Lists, each in the one before and with a value behind it."""
    inner = ('int', 1)
    for _ in range(depth):
        inner = ('list', [inner, ('int', 1)])
    return inner


def samples():
    r = random.Random(1)
    yield 'two', [('list', [('int', 1), ('int', 2)])]
    yield 'record', [record(r)]
    records = [record(r) for _ in range(100)]
    yield 'passlist', [('list', records)]
    yield 'lines', records
    yield 'ints', [('list', [('int', r.randrange(-10**r.randrange(1, 19), 10**r.randrange(1, 19))) for _ in range(1000)])]
    yield 'decimals', [('list', [('dec', r.random() < .5, r.randrange(10**r.randrange(1, 19)), r.randrange(-24, 6)) for _ in range(1000)])]
    yield 'timestamps', [('list', [timestamp(r) for _ in range(1000)])]
    words = ['alpha', 'beta_2', '$x', 'true', 'a b', '$7', 'gamma', 'é', 'delta']
    yield 'symbols', [('list', [sym(r.choice(words)) for _ in range(1000)])]
    yield 'strings', [('list', [string('The quick brown fox jumps over the lazy dog, %d times.' % i) for i in range(1000)])]
    yield 'escapes', [('list', [string('a "b" c\td\n\\ \'e\' é %d' % i) for i in range(1000)])]
    yield 'clob', [('clob', bytes(range(256)) * 64)]
    yield 'textclob', [('clob', b'plain ASCII text, all of it raw; ' * 500)]
    yield 'deep', [('list', [nested(63, ('int', 1)) for _ in range(50)])]
    yield 'siblings', [('list', [siblings(63) for _ in range(50)])]
    units = ['degrees', 'mag', 'seconds', 'J2000', 'observed', 'right_ascension', 'photometric_system']
    yield 'annotated', [('list', [('notes', [sym(r.choice(units)) for _ in range(r.choice([2, 3]))], ('int', r.randrange(10**6))) for _ in range(1000)])]
    yield 'blob', [('blob', r.randbytes(1024))]
    yield 'blobs', [('list', [('blob', r.randbytes(n)) for n in range(300)])]
    yield 'floats', [('list', [whole(r.choice([-1, 1]) * r.randrange(10**r.randrange(1, 16))) for _ in range(1000)])]


def put(folder, name, content):
    path = os.path.join(folder, name)
    with open(path, 'wb') as f:
        f.write(content)
    return path


def write(folder):
    """Each as NAME.tape in the folder; gives the names with their files and the layouts that the tape has a text in."""
    for name, values in samples():
        path = put(folder, name + '.tape', tape(values))
        yield name, path, ['0', '1', '2'] * (name != 'annotated') + ['tree'] * (len(values) == 1)


def digit_first(v):
    """The value with a digit for the first character of each symbol text that is ASCII: texts of the same lengths, that every writer quotes by the
    rule, and finds so at the first character."""
    if v[0] == 'sym':
        return ('sym', b'7' + v[1][1:]) if v[1][:1] < b'\x80' and v[1] else v
    if v[0] == 'notes':
        return ('notes', [digit_first(s) for s in v[1]], digit_first(v[2]))
    if v[0] == 'struct':
        return ('struct', [(digit_first(name), digit_first(x)) for name, x in v[1]])
    return (v[0], [digit_first(x) for x in v[1]]) if v[0] in ('list', 'sexp') else v


def write_quoted(folder):
    """For always-quoted symbols: tapes with symbols as files, and each with a digit first in its symbol texts, whose text has as many bytes under the
    setting, and the same without it. Gives the names with the files of both and the layouts."""
    r = random.Random(2)
    letters = 'abcdefghijklmnopqrstuvwxyz'
    of_all = dict(samples())
    of_all['identifiers'] = [('list', [sym(''.join(r.choice(letters) for _ in range(r.randrange(1, 21)))) for _ in range(1000)])]
    of_all['long identifiers'] = [('list', [sym(''.join(r.choice(letters) for _ in range(r.randrange(30, 61)))) for _ in range(1000)])]
    for name in 'identifiers', 'long identifiers', 'symbols', 'record', 'passlist', 'annotated':
        paths = [put(folder, '%s-%s.tape' % (name.replace(' ', '-'), way), tape(values))
                 for way, values in (('quoted', of_all[name]), ('digits', [digit_first(v) for v in of_all[name]]))]
        yield (name, *paths, ['q0', 'q2'] * (name != 'annotated') + ['qtree'])


def write_texts(folder):
    """A clean pass list in Lines, and the same with a control character raw in each pass, as files; gives the names with these and the calls on them."""
    clean = model.stream(1, tape(dict(samples())['lines']))
    for name, text, calls in ('clean list', clean, ['read', 'convert']), ('raw list', clean.replace(b'name: "', b'name: "\x02'), ['convert']):
        yield name, put(folder, name.replace(' ', '-') + '.ion', text), calls


if __name__ == '__main__':
    os.makedirs(sys.argv[1], exist_ok=True)
    for written in *write(sys.argv[1]), *write_texts(sys.argv[1]):
        print(written[1])
    for _, *paths, _ in write_quoted(sys.argv[1]):
        print(*paths, sep='\n')
