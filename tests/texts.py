"""What the program `texts` must print, asked of the Rust (tests/oracle/build makes the oracle, for whoever has the Rust's files), with control
characters as document 02, A5, has them (`amended` of tests/tapes.py):

    python3 tests/texts.py > crates/texts/stdout
"""
import sys

from tapes import UNKNOWN, ask, tape, whole

values = [('int', z) for z in [
    0, 1, -1, 9, 10, -10, 99999999, 100000000, 9999999999999999, 10000000000000000, 2**63 - 1, -2**63]]
for m in [0, 7, 10, 116, 1000, 12345, 99999, 100000, 123456, 999999, 1000000, 1234567, 99999999, 123456789, 10**10,
          10**12 - 1, 10**15, 10**19 - 1, 10**19, 2**64 - 1]:
    for e in range(-30, 31):
        values += [('dec', 0, m, e), ('dec', 1, m, e)]
for m in [0, 9, 1234567, 2**64 - 1]:
    values += [('dec', 0, m, 2**31 - 1), ('dec', 1, m, 2**31 - 2), ('dec', 0, m, 1 - 2**31), ('dec', 1, m, -2**31)]

date = lambda p, y, m, d: ('ts', p, y, m, d, 0, 0, 0, UNKNOWN, 0, 0)
minute = lambda h, m, o: ('ts', 3, 2024, 2, 29, h, m, 0, o, 0, 0)
second = lambda o, n, f: ('ts', 4, 1999, 12, 31, 23, 59, 59, o, n, f)
values += [date(0, 1, 0, 0), date(0, 9999, 0, 0), date(1, 2026, 1, 0), date(1, 2026, 12, 0), date(2, 2000, 2, 29),
           date(2, 1900, 2, 28), date(2, 2026, 11, 15), minute(0, 0, 0)]
for o in [UNKNOWN, 0, 1, -1, 5, -5, 59, -60, 330, 1439, -1439]:
    values += [minute(23, 59, o), second(o, 0, 0)]
for n in range(10):
    values += [second(0, n, 0), second(UNKNOWN, n, 10**n // 7), second(-5, n, 10**n - 1)]

values += [('null', t) for t in range(13)] + [('bool', 1), ('bool', 0)]
values += [('float', b) for b in (0x7FF8 << 48, 0x7FF0 << 48, 0xFFF0 << 48, 0, 1 << 63)]
values += [whole(n) for n in (1, 15, 100, -250, 12345678, 123456789, 10**15, -9007199254740991, 9007199254740992)]
wide = bytes.fromhex('C280DFBFE0A080ED9FBFEE8080EFBFBFF0908080F48FBFBF')
values += [('str', bytes([b])) for b in range(128)] + [('str', s) for s in (b'', b'a "b" c\td\n\\ \'e\'', wide)]
words = ('', 'true', 'false', 'nan', 'null', 'True', 'inf', 'nulls', '$', '$7', '$007', '$7a', '$ion', '$ion_', '$ion_1_0', '$ion_12_34',
         '$ion_1_0_0', '$ion_1_', '$ion__0', '$ion_symbol_table', '_', 'a b', '7up', 'norad_id')
values += [('sym', bytes([b])) for b in range(128)] + [('sym', w.encode()) for w in words]
values += [('id', n) for n in (0, 10, 2**32 - 1)]
values += [('clob', bytes([b])) for b in range(256)] + [('clob', b''), ('clob', bytes(range(200)))]
values += [('blob', bytes(range(n))) for n in range(100)]

for v, text in zip(values, ask([(1, tape([v])) for v in values])):
    if text is None:
        sys.exit('the oracle has no text for %r' % (v,))
    assert text.endswith(b'\n')
    sys.stdout.buffer.write(text[:-1] + b'\t' + text)
