"""Random accepted tapes, as lists of values (see tapes.py)."""
import calendar
import random

from tapes import UNKNOWN, whole

WORDS = ['', 'a', 'norad_id', 'true', 'false', 'nan', 'null', 'nulls', '$', '$7', '$07', '$7a', '$ion_1_0', '$ion_1_0_0', '$ion_', '_x', 'x y',
         "it's", 'q"q', 'back\\slash', 'tab\tLF\n', '\0\x01\x07\x08\x0b\x0c\r\x1f\x7f', 'é', '日本', '😀', '+', '7up', 'inf', 'Z']
IDS = [0, 1, 10, 12345, 2**32 - 1]
CHARACTERS = [chr(c) for c in range(128)] + ['é', 'ÿ', 'Ā', '日', '\ud7ff', '\ue000', '\uffff', '😀', '\U0010ffff']


def text(r):
    if r.random() < .5:
        return r.choice(WORDS).encode()
    return ''.join(r.choice(CHARACTERS) for _ in range(r.randrange(12))).encode()


def symbol(r, ids):
    """Text, or one of the identifiers."""
    if ids and r.random() < .2:
        return ('id', r.choice(ids))
    return ('sym', text(r))


def number(r, bits):
    return r.choice([r.randrange(2**bits), r.randrange(10**r.randrange(1, 20)) % 2**bits, 10**r.randrange(20) % 2**bits, 0, 2**bits - 1])


def decimal(r):
    m = number(r, 64)
    e = r.choice([r.randrange(-30, 31), -len(str(m)) + r.randrange(-8, 8), r.randrange(-2**31, 2**31), -2**31, 2**31 - 1])
    return ('dec', r.randrange(2), m, e)


def timestamp(r):
    p = r.randrange(5)
    year = r.choice([r.randrange(1, 10000), 2024, 1900, 2000])
    month = r.randrange(1, 13) if p >= 1 else 0
    day = r.randrange(1, calendar.monthrange(year, month)[1] + 1) if p >= 2 else 0
    hour, minute = (r.randrange(24), r.randrange(60)) if p >= 3 else (0, 0)
    offset = r.choice([UNKNOWN, 0, -5, 5, 1439, -1439, r.randrange(-1439, 1440)]) if p >= 3 else UNKNOWN
    second, digits = (r.randrange(60), r.randrange(10)) if p >= 4 else (0, 0)
    return ('ts', p, year, month, day, hour, minute, second, offset, digits, r.randrange(10**digits))


def float_(r):
    """NaN, an infinity, a zero, or a whole number up to 2^53: few digits or many, few zeros behind them or many."""
    if r.random() < .3:
        return ('float', r.choice([0x7FF8 << 48, 0x7FF0 << 48, 0xFFF0 << 48, 0, 1 << 63]))
    n = r.choice([r.randrange(10**r.randrange(1, 16)), r.randrange(1, 10) * 10**r.randrange(16), 2**r.randrange(54) + r.choice([-1, 0, 1]),
                  10**r.randrange(16) + r.choice([-1, 1]), 2**53 - r.randrange(3)])
    return whole(r.choice([-1, 1]) * min(n, 2**53))


def value(r, depth, ids, notes):
    if notes and r.random() < .15:
        return ('notes', [symbol(r, ids) for _ in range(r.choice([1, 1, 2, 16]))], value(r, depth, ids, False))
    kind = r.randrange(13 if depth else 10)
    if kind == 0:
        return ('null', r.randrange(13))
    if kind == 1:
        return ('bool', r.randrange(2))
    if kind == 2:
        return ('int', number(r, 64) - 2**63 if r.random() < .5 else r.choice([-1, 1]) * number(r, 63))
    if kind == 3:
        return float_(r)
    if kind == 4:
        return decimal(r)
    if kind == 5:
        return timestamp(r)
    if kind == 6:
        return symbol(r, ids)
    if kind in (7, 8):
        return ('str', text(r))
    if kind == 9:
        return (r.choice(['clob', 'blob']), bytes(r.randrange(256) for _ in range(r.randrange(20))))
    n = r.randrange(5)
    if kind == 12:
        return ('struct', [(symbol(r, ids), value(r, depth - 1, ids, notes)) for _ in range(n)])
    return (('list', 'sexp')[kind - 10], [value(r, depth - 1, ids, notes) for _ in range(n)])


def nested(r, depth, inner):
    for _ in range(depth):
        kind = r.choice(['list', 'sexp', 'struct'])
        inner = (kind, [(('sym', b'k'), inner)] if kind == 'struct' else [inner])
    return inner


def stream(r):
    """Values for the streaming writers: no annotations."""
    if r.random() < .01:
        return [nested(r, 64, value(r, 0, IDS, False))]
    return [('marker',) if r.random() < .1 else value(r, r.randrange(4), IDS, False) for _ in range(r.randrange(4))]


def tree(r):
    """One value for the tree text: annotations, no identifier but 0, no marker."""
    if r.random() < .01:
        return [nested(r, 64, value(r, 0, [0], True))]
    return [value(r, r.randrange(4), [0], True)]
