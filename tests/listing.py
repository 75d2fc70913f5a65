"""The lists that crates/vectors and crates/examples replay: how bytes are spelt, and the two files of a crate.

crates/vectors/README.md has the format.
"""
import os

ROOT = os.path.dirname(os.path.dirname(os.path.abspath(__file__)))
LONGEST = 16384


def escaped(text):
    """`%` and two hex digits for `%`, for bytes that do not show and for a blank at the end."""
    said = ''.join(chr(b) if 0x20 <= b <= 0x7E and b != 0x25 else '%%%02x' % b for b in text)
    return said[:-1] + '%20' if said.endswith(' ') else said


def write(crate, lines, sums):
    """Writes crates/CRATE/stdin and stdout; `sums` are the numbers of its last line."""
    assert max(map(len, lines)) < 65536
    folder = os.path.join(ROOT, 'crates', crate)
    said = '\n'.join(lines) + '\n'
    with open(os.path.join(folder, 'stdin'), 'w', encoding='ascii') as f:
        f.write(said)
    total = '%d tapes, %d texts, %d refusals; %d writes and lengths, %d reads; 0 differences' % tuple(
        sums[n] for n in ('tapes', 'texts', 'refusals', 'writes', 'reads'))
    with open(os.path.join(folder, 'stdout'), 'w') as f:
        f.write(total + '\n')
    print('%s; %d bytes' % (total, len(said)))
