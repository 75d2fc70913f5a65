"""The order of two tapes (02, A11), modelled in Python: `compared` gives LESS, EQUAL or GREATER, or minus the refusal of the first tape that is refused.
`pairs` makes pairs of tapes to ask about: equal ones, ones that differ late, beginnings, extremes, and some that are refused.

No code is shared with our crates. tests/model.py judges a tape and says its values. Here these are compared by 02's words, by value and not by byte.
"""
import copy
import random
import struct

import model
import random_tapes
import tapes

LESS, EQUAL, GREATER = 1, 2, 3
NUMBERS = {'null': 0, 'bool': 1, 'int': 2, 'float': 3, 'dec': 4, 'ts': 5, 'sym': 6, 'id': 7, 'str': 8, 'clob': 9, 'list': 10, 'sexp': 11, 'struct': 12,
           'notes': 13, 'marker': 14, 'blob': 15}


def order(a, b):
    """-1, 0 or 1."""
    return (a > b) - (a < b)


def in_turn(one, a, b):
    """In turn, and a proper beginning is less."""
    for x, y in zip(a, b):
        found = one(x, y)
        if found:
            return found
    return order(len(a), len(b))


def exact(a, b):
    """Decimals (negative, magnitude, exponent) by exact value: by sign, then by the place of the first digit, then by the digits."""
    def sign(d):
        return 0 if d[1] == 0 else -1 if d[0] else 1

    def digits(d):
        return len(str(d[1])) + d[2], str(d[1]).rstrip('0')

    if sign(a) != sign(b) or sign(a) == 0:
        return order(sign(a), sign(b))
    return sign(a) * order(digits(a), digits(b))


def float_rank(bits):
    """-inf, finite by value with -0 before 0, +inf, nan."""
    x, = struct.unpack('<d', struct.pack('<Q', bits))
    if x != x:
        return (3,)
    if x in (float('-inf'), float('inf')):
        return (0,) if x < 0 else (2,)
    return (1, x, 0 if bits >> 63 else 1)


def values(a, b):
    """Two nodes: by kind number, then by contents."""
    if a[0] != b[0]:
        return order(NUMBERS[a[0]], NUMBERS[b[0]])
    kind = a[0]
    if kind == 'float':
        return order(float_rank(a[1]), float_rank(b[1]))
    if kind == 'dec':
        return exact(a[1:], b[1:]) or order(a[3], b[3]) or order(not a[1], not b[1])
    if kind in ('list', 'sexp'):
        return in_turn(values, a[1], b[1])
    if kind == 'struct':
        return in_turn(fields, a[1], b[1])
    if kind == 'notes':
        return in_turn(values, a[1], b[1]) or values(a[2], b[2])
    return order(a[1:], b[1:])


def fields(a, b):
    """A struct's name before its value."""
    return values(a[0], b[0]) or values(a[1], b[1])


def compared(a, b):
    """The answer for two tapes."""
    nodes = []
    for tape in (a, b):
        try:
            nodes.append(model.values(tape)[0])
        except model.Refused as why:
            return -why.args[0]
    return EQUAL + in_turn(values, *nodes)


# Pairs of tapes.

def neighbour(r, v):
    """A value much like v, and often just beside it."""
    kind = v[0]
    if kind == 'null':
        return (kind, r.randrange(13))
    if kind == 'bool':
        return (kind, 1 - v[1])
    if kind == 'int':
        return (kind, max(-2**63, min(2**63 - 1, r.choice([v[1] + 1, v[1] - 1, -v[1], -2**63, 2**63 - 1]))))
    if kind == 'float':
        return r.choice([random_tapes.float_(r), (kind, v[1] ^ 1 << 63) if v[1] >> 48 != 0x7FF8 else v, (kind, 0), (kind, 1 << 63)])
    if kind == 'dec':
        _, negative, m, e = v
        near = [(negative, m * 10 % 2**64, e - 1), (negative, m // 10, e + 1), (1 - negative, m, e), (negative, m, e + 1), (negative, m, e - 1), (negative, 0, e),
                (negative, (m + 1) % 2**64, e), (negative, 2**64 - 1, e), (negative, m, -2**31), (negative, m, 2**31 - 1)]
        negative, m, e = r.choice(near)
        return (kind, negative, m, max(-2**31, min(2**31 - 1, e)))
    if kind == 'ts':
        return random_tapes.timestamp(r)
    if kind in ('sym', 'id'):
        return r.choice([random_tapes.symbol(r, random_tapes.IDS), ('id', r.choice(random_tapes.IDS)), ('sym', v[1] + b'x') if kind == 'sym' else ('sym', b'')])
    if kind in ('str', 'clob', 'blob'):
        if not v[1].isascii():
            return (kind, b'')
        return (r.choice([kind, kind, 'clob']), r.choice([v[1] + b'a', v[1][:-1], b'', v[1] + b'\x7f']))
    return v


def places(v, path=()):
    """The paths to all values in a value, containers included."""
    yield path
    if v[0] in ('list', 'sexp'):
        for i, x in enumerate(v[1]):
            yield from places(x, path + ((1, i),))
    elif v[0] == 'struct':
        for i, (_, x) in enumerate(v[1]):
            yield from places(x, path + ((1, i, 1),))
    elif v[0] == 'notes':
        yield from places(v[2], path + ((2,),))


def changed(r, v, path):
    """v with another value at a path: its neighbour, one child more or less, an annotation more or less."""
    if not path:
        if v[0] in ('list', 'sexp', 'struct') and r.random() < .8:
            children = list(v[1])
            child = random_tapes.value(r, 0, random_tapes.IDS, True)
            extra = (random_tapes.symbol(r, random_tapes.IDS), child) if v[0] == 'struct' else child
            way = r.randrange(4)
            if way == 0 or not children:
                children.append(extra)
            elif way == 1:
                children.pop()
            elif way == 2:
                children.insert(0, extra)
            elif v[0] == 'struct':
                i = r.randrange(len(children))
                children[i] = (neighbour(r, children[i][0]), children[i][1])
            else:
                return ({'list': 'sexp', 'sexp': 'list'}[v[0]], children)
            return (v[0], children)
        if v[0] == 'notes':
            notes = list(v[1])
            way = r.randrange(4)
            if way == 0 and len(notes) < 16:
                notes.append(('sym', b'z'))
            elif way == 1 and len(notes) > 1:
                notes.pop()
            elif way == 2:
                return v[2]
            else:
                i = r.randrange(len(notes))
                notes[i] = neighbour(r, notes[i])
            return ('notes', notes, v[2])
        if r.random() < .15 and v[0] != 'marker':
            return ('notes', [random_tapes.symbol(r, random_tapes.IDS)], v)
        return neighbour(r, v)
    step, rest = path[0], path[1:]
    if step == (2,):
        inner = changed(r, v[2], rest)
        return ('notes', v[1], inner) if inner[0] != 'notes' else inner
    children = list(v[1])
    if len(step) == 3:
        children[step[1]] = (children[step[1]][0], changed(r, children[step[1]][1], rest))
    else:
        children[step[1]] = changed(r, children[step[1]], rest)
    return (v[0], children)


def some_values(r):
    """Top-level values, with markers, annotations, identifiers and now and then 64 levels."""
    if r.random() < .05:
        return [random_tapes.nested(r, 64, random_tapes.value(r, 0, random_tapes.IDS, True))]
    return [('marker',) if r.random() < .1 else random_tapes.value(r, r.randrange(4), random_tapes.IDS, True) for _ in range(r.randrange(6))]


def pair(r):
    """Two lists of values."""
    a = some_values(r)
    way = r.random()
    if way < .1:
        return a, copy.deepcopy(a)
    if way < .2:
        return a, a[:r.randrange(len(a) + 1)]
    if way < .3:
        return a, some_values(r)
    if way < .4:
        x = random_tapes.value(r, 0, random_tapes.IDS, True)
        return a + [x], a + [neighbour(r, x)]
    if way < .5:
        kind, front = r.choice(['sym', 'str', 'clob', 'blob']), b'abcdefg' * r.randrange(20)
        return a + [(kind, front + random_tapes.text(r))], a + [(kind, front + random_tapes.text(r))] + some_values(r)
    b = list(a)
    if b:
        i = r.choice([len(b) - 1, r.randrange(len(b))])
        b[i] = changed(r, b[i], r.choice(list(places(b[i]))))
        if b[i][0] == 'notes' and b[i][2][0] == 'marker':
            b[i] = ('marker',)
    return a, b


def damaged(r, tape):
    """A tape that is refused, most likely."""
    b = bytearray(tape)
    way = r.randrange(5)
    if way == 0 and len(b) > 8:
        b[r.randrange(len(b) - 8)] = r.choice([13, 16, 255])
    elif way == 1:
        b[-4] ^= 1
    elif way == 2:
        b = b[:-1]
    elif way == 3:
        return tapes.tape([random_tapes.nested(r, 65, ('null', 0))])
    else:
        return tapes.tape([('float', 0x3FE0 << 48)])
    return bytes(b)


def pairs(seed, count):
    """So many pairs of tapes, each in either order."""
    r = random.Random(seed)
    for _ in range(count):
        a, b = map(tapes.tape, pair(r))
        if r.random() < .03:
            a = damaged(r, a)
        if r.random() < .03:
            b = damaged(r, b)
        yield (a, b) if r.random() < .5 else (b, a)
