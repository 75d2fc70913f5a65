"""Measuring over writing (validation in both) on tapes of one kind of value each, 400 in a list: symbols, names, annotations and strings of many
lengths and spellings, numbers, clobs, blobs, containers. Prints the ratios from the largest on: none should be over 1.

    python3 tests/bench_lengths.py [HOW MANY]

The archive is the one that `rt lib` in crates/ion_c makes, or that of the folder LECHUQTA_LIB_DIR. Processor time, best of many, Compact, or the tree
text for annotations. Where a ratio is over 0.95 it is that of the best of twelve runs; some three minutes.
"""
import os
import subprocess
import sys
import tempfile

import builds
from tapes import tape, whole

SMALL = b'abcdefghijklmnopqrstuvwxyz'
WORDS = {'small letters': SMALL, 'capitals': b'ABCDEFG', 'mixed': b'Ngc_72', 'blanks': b'a b', 'quote marks': b"'",
         'control characters': b'\x01\x1f', 'past ASCII': 'é'.encode()}
FIRSTS = {'$ and letters': (b'$', SMALL), 'a digit and letters': (b'7', SMALL), '$ and digits': (b'$', b'1234567890')}


def cut(n, text, first=b''):
    """n bytes of it, or n - 1 where that would cut a character."""
    return (first + text * n)[:n - n % 2 if text[0] > 127 else n]


def kinds():
    """(name, value) of each kind of value."""
    for n in 0, 1, 2, 4, 7, 8, 9, 12, 15, 16, 17, 20, 24, 27, 31, 32, 33, 40, 53, 64, 100, 300:
        yield 'string, %d raw' % n, ('str', cut(n, b'The quick brown'))
        yield 'string, %d with escapes' % n, ('str', cut(n, b'a "b" c\td'))
        yield 'string, %d with a quote mark last' % n, ('str', cut(max(n, 1) - 1, SMALL) + b'"')
        yield 'string, %d with control characters' % n, ('str', cut(n, b'a\x01b\x1f c'))
        yield 'string, %d past ASCII' % n, ('str', cut(n, 'é'.encode()))
        yield 'clob, %d' % n, ('clob', cut(n, b'hello world'))
        yield 'clob, %d of all bytes' % n, ('clob', cut(n, bytes(range(256))))
        yield 'blob, %d' % n, ('blob', (bytes(range(256)) * 2)[:n])
    for n in 1, 3, 5, 7, 8, 9, 12, 16, 17, 20, 30, 60:
        texts = {said: cut(n, text) for said, text in WORDS.items()}
        texts.update((said, cut(n, text, first)) for said, (first, text) in FIRSTS.items())
        for said, text in texts.items():
            yield 'symbol, %d: %s' % (n, said), ('sym', text)
            yield 'name, %d: %s' % (n, said), ('struct', [(('sym', text), ('bool', 1))])
            yield 'annotations, %d: %s' % (n, said), ('notes', [('sym', text)] * 3, ('int', 1))
    for word in 'true', 'false', 'null', 'nan', '$ion_1_0', '', 'null7', '\n', '\x01':
        yield 'symbol %r' % word, ('sym', word.encode())
        yield 'string %r' % word, ('str', word.encode())
    for t in range(13):
        yield 'null %d' % t, ('null', t)
    for i in 0, 9, -5, 12345, 10**12, -10**18:
        yield 'int %d' % i, ('int', i)
    for m, e in (0, 0), (5, -1), (123456, -2), (1234567, 0), (5, 3), (10**18, -30), (12, -9), (10**18, -5):
        yield 'decimal %d, %d' % (m, e), ('dec', 1, m, e)
    for bits in 0, 0x7FF << 52, 0x7FF8 << 48:
        yield 'float %x' % bits, ('float', bits)
    for n in 7, -15, 100, 1234567, 123456789012, 2**53:
        yield 'float %d' % n, whole(n)
    yield 'bool', ('bool', 1)
    yield 'time', ('ts', 4, 2026, 11, 16, 3, 4, 5, -300, 3, 123)
    yield 'day', ('ts', 2, 2026, 11, 16, 0, 0, 0, 32767, 0, 0)
    for kind in 'list', 'sexp', 'struct':
        yield kind + ', empty', (kind, [])
    yield 'list of one', ('list', [('int', 1)])
    yield 'struct of two', ('struct', [(('sym', b'Ra'), ('int', 1)), (('sym', b'Declination'), ('int', 1))])


def main():
    most = int(sys.argv[1]) if len(sys.argv) > 1 else 20
    bench = builds.c_program('bench')
    ratios = []
    with tempfile.TemporaryDirectory() as folder:
        for i, (name, value) in enumerate(kinds()):
            path = os.path.join(folder, str(i))
            with open(path, 'wb') as f:
                f.write(tape([('list', [value] * 400)]))
            write, length = 1e18, 1e18
            # one run, or where both are about as quick, so many that the best of them does not wander
            for _ in range(12):
                said = subprocess.run([bench, 'tree' if value[0] == 'notes' else '0', path], stdout=subprocess.PIPE, check=True).stdout.split()
                write, length = min(write, float(said[2])), min(length, float(said[3]))
                if length < .95 * write:
                    break
            ratios.append((length / write, name))
    for ratio, name in sorted(ratios, reverse=True)[:most]:
        print('%5.2f  %s' % (ratio, name))
    print('%d kinds of values, %d over 1' % (len(ratios), sum(ratio > 1 for ratio, _ in ratios)))


if __name__ == '__main__':
    main()
