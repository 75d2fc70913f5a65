"""The reader's time on texts of 100 KiB and of 1 MiB, which must grow in line with the length, and beside jansson's on the same records; and the
converter's time on such texts, clean and with control characters raw.

    python3 tests/bench_read.py [ROUNDS]

The comparison needs Debian's libjansson-dev, and is left out where that is missing. Our side is the archive that `rt lib` in crates/ion_c makes, or that of the folder LECHUQTA_LIB_DIR. Processor
time, best of many, all in one run.
"""
import base64
import ctypes.util
import os
import random
import subprocess
import sys
import tempfile

import builds
import model
import samples
from tapes import tape

ROUNDS = int(sys.argv[1]) if len(sys.argv) > 1 else 4
JANSSON = ctypes.util.find_library('jansson') and os.path.exists('/usr/include/jansson.h')
PROGRAM = builds.c_program('bench_read', *(['-DJANSSON', '-ljansson'] if JANSSON else []))


def filled(unit, size, before='', behind=''):
    """A text of about `size` bytes: `unit` repeated."""
    return before + unit * ((size - len(before) - len(behind)) // len(unit)) + behind


PASS = '{name: "COSMOS 2251", norad: 22675, rise: 2026-11-15T02:14:07Z, peak: 61.25, sunlit: true}'
PASS_JSON = '{"name": "COSMOS 2251", "norad": 22675, "rise": "2026-11-15T02:14:07Z", "peak": 61.25, "sunlit": true}'
with open(os.path.join(builds.ROOT, 'crates/ion/data/passes.ion')) as f:
    WRITTEN = f.read()  # three passes, as the Lines layout has them
# Blanks before a string or clob, so that the tape of 1 MiB of text is no longer than a tape may be. Without them 1 MiB is refused by 9, and what
# is measured is also the zeroing of the buffer.
MARGIN = ' ' * 64
BYTES = random.Random(1).randbytes(1 << 20)
NEST = '[' * 60 + '1' + ']' * 60 + ' '
COUNTS = model.stream(1, tape(dict(samples.samples())['floats'][0][1])).decode().replace('\n', ' ')
SHAPES = {
    'flat ints': lambda n: filled('1234 ', n),
    'floats': lambda n: filled(COUNTS, n),
    'small floats': lambda n: filled('1.5e1 ', n),
    'symbols': lambda n: filled('abcdef ', n),
    'pass list': lambda n: filled(PASS + '\n', n),
    'pass list as written': lambda n: filled(WRITTEN, n),
    'one list of records': lambda n: filled(PASS + ',\n', n, '[', ']'),
    'nested to 60': lambda n: filled(NEST, n),
    'annotations': lambda n: filled('a::b::c::d::1 ', n),
    'opening brackets': lambda n: filled('[', n),
    'opening braces': lambda n: filled('{a:', n),
    'one digit run': lambda n: filled('7', n),
    'one decimal 0.000…': lambda n: filled('0', n, '0.'),
    'one string': lambda n: filled('x', n, MARGIN + '"', '"'),
    'one string, refused': lambda n: filled('x', n, '"', '"'),
    'one string of escapes': lambda n: filled('\\n', n, '"', '"'),
    'an unclosed string': lambda n: filled('x', n, '"'),
    'many strings': lambda n: filled('"pass of the night" ', n),
    'quoted blanks': lambda n: filled("' ", n),
    'blanks': lambda n: filled(' ', n),
    'one clob': lambda n: filled('x', n, MARGIN + '{{"', '"}}'),
    'one clob, refused': lambda n: filled('x', n, '{{"', '"}}'),
    'blobs of 1 KiB': lambda n: filled('{{' + base64.b64encode(BYTES[:1024]).decode() + '}} ', n),
    'one blob': lambda n: '{{' + base64.b64encode(BYTES[:n // 4 * 3 - 9]).decode() + '}}',
}


STORED = PASS.replace('COSMOS ', 'COSMOS\x01')
CONVERTED = {name: SHAPES[name] for name in ('pass list', 'pass list as written', 'one list of records', 'flat ints', 'nested to 60', 'many strings', 'one string', 'blanks')}
CONVERTED.update({
    'raw, one in each pass': lambda n: filled(STORED + '\n', n),
    'raw, one in ten passes': lambda n: filled((PASS + '\n') * 9 + STORED + '\n', n),
    'raw alone, one string': lambda n: filled('\x01', n, '"', '"'),
})


def measured(kind, text):
    with tempfile.NamedTemporaryFile() as f:
        f.write(text.encode())
        f.flush()
        said = subprocess.run([PROGRAM, kind, f.name], stdout=subprocess.PIPE, check=True).stdout.split()
    return int(said[-3]), int(said[-2]), float(said[-1])


for kind, title, shapes in ('ion', 'text read', SHAPES), ('convert', 'text converted', CONVERTED):
    print('%-24s %12s %12s %7s %10s' % (title, '100 KiB ns', '1 MiB ns', 'ratio', 'MB/s'))
    for name, make in shapes.items():
        small = large = 1e18
        for _ in range(ROUNDS):
            small = min(small, measured(kind, make(100 << 10))[2])
            answer, n, time = measured(kind, make(1 << 20))
            large = min(large, time)
        print('%-24s %12.0f %12.0f %7.2f %10.0f  answers %d' % (name, small, large, large / small, n / large * 1e3, answer))
if not JANSSON:
    sys.exit('there is no libjansson-dev: nothing to compare with')
ion = '[' + ',\n'.join([PASS] * 5000) + ']'
json = '[' + ',\n'.join([PASS_JSON] * 5000) + ']'
answer, _, ours = measured('ion', ion)
parsed, _, theirs = measured('json', json)
assert answer > 0 and parsed > 0, (answer, parsed)
print('5,000 records: ours %.0f ns, jansson %.0f ns, ratio %.2f' % (ours, theirs, ours / theirs))
