"""The writers of docs/FORMAT.md, modelled in Python: `stream` and `tree` give a tape's text or refusal, `answer` the answer and the whole
buffer, `expect` both for a layout. With `always` the texts are those of always-quoted symbols; the refusals are the same.

No code is shared with our crates or with the Rust: Python's own UTF-8 decoder, calendar and regular expressions judge the tape. The lone
digit of a decimal (`7.d-29`) is as the Rust writes it. Values are the tuples of tapes.py.
"""
import base64
import calendar
import re
import struct

LONGEST = 1048576
UNKNOWN = 32767
NAN = 0x7FF8 << 48
TYPES = b'null bool int float decimal timestamp symbol string clob blob list sexp struct'.split()
FLOATS = {NAN: b'nan', 0x7FF0 << 48: b'+inf', 0xFFF0 << 48: b'-inf', 0: b'0e0', 1 << 63: b'-0e0'}
MOST_WHOLE = 9_007_199_254_740_992


class Refused(Exception):
    """Carries the number of the refusal."""


# The tape, read in its order: each node's header (2), then 3, then 4.


def float_of(bits):
    return struct.unpack('<d', struct.pack('<Q', bits))[0]


def is_whole(x):
    return x.is_integer() and abs(x) <= MOST_WHOLE


def is_utf8(text):
    try:
        text.decode('utf-8')
    except UnicodeDecodeError:
        return False
    return True


def is_time(p, year, month, day, hour, minute, second, offset, digits, fraction):
    if p > 4 or not 1 <= year <= 9999:
        return False
    if not (1 <= month <= 12 if p >= 1 else month == 0):
        return False
    if not (1 <= day <= calendar.monthrange(year, month)[1] if p >= 2 else day == 0):
        return False
    if p < 3:
        return hour == minute == second == digits == fraction == 0 and offset == UNKNOWN
    if hour > 23 or minute > 59 or not (offset == UNKNOWN or -1439 <= offset <= 1439):
        return False
    if p < 4:
        return second == digits == fraction == 0
    return second <= 59 and digits <= 9 and fraction < 10**digits


class Nodes:
    """The nodes of a tape from `at` on; `noted` once a kind 13 was met, `numbered` once an identifier but 0 was."""

    def __init__(self, tape):
        self.tape, self.at, self.noted, self.numbered = tape, 0, False, False

    def take(self, n, end):
        if self.at + n > end:
            raise Refused(2)
        self.at += n
        return self.tape[self.at - n:self.at]

    def unpack(self, form, end):
        return struct.unpack(form, self.take(struct.calcsize(form), end))

    def sized(self, end):
        return self.take(self.unpack('<I', end)[0], end)

    def symbol(self, end, kind=None):
        kind = self.take(1, end)[0] if kind is None else kind
        if kind == 7:
            n, = self.unpack('<I', end)
            self.numbered = self.numbered or n != 0
            return ('id', n)
        if kind != 6:
            raise Refused(2)
        text = self.sized(end)
        if not is_utf8(text):
            raise Refused(2)
        return ('sym', text)

    def value(self, end, opened, top=False, annotated=False):
        kind = self.take(1, end)[0]
        if kind in (6, 7):
            return self.symbol(end, kind)
        if kind in (10, 11, 12):
            return self.container(kind, end, opened)
        if kind == 13 and not annotated:
            return self.notes(end, opened)
        if kind == 14 and top:
            return ('marker',)
        if kind > 9 and kind != 15:
            raise Refused(2)
        return self.scalar(kind, end)

    def scalar(self, kind, end):
        if kind in (0, 1):
            x = self.take(1, end)[0]
            if x > (12, 1)[kind]:
                raise Refused(2)
            return (('null', 'bool')[kind], x)
        if kind == 2:
            return ('int', *self.unpack('<q', end))
        if kind == 3:
            return self.float(end)
        if kind == 4:
            v = ('dec', *self.unpack('<BQi', end))
            if v[1] > 1:
                raise Refused(2)
            return v
        if kind == 5:
            v = ('ts', *self.unpack('<BHBBBBBhBI', end))
            if not is_time(*v[1:]):
                raise Refused(2)
            return v
        text = self.sized(end)
        if kind == 8 and not is_utf8(text):
            raise Refused(2)
        return ({8: 'str', 9: 'clob', 15: 'blob'}[kind], text)

    def float(self, end):
        bits, = self.unpack('<Q', end)
        exponent, mantissa = (bits >> 52) & 0x7FF, bits & ((1 << 52) - 1)
        if exponent == 0x7FF and mantissa and bits != NAN:
            raise Refused(2)
        if exponent != 0x7FF and not is_whole(float_of(bits)):
            raise Refused(4)
        return ('float', bits)

    def container(self, kind, end, opened):
        n, = self.unpack('<I', end)
        if self.at + n > end:
            raise Refused(2)
        if opened >= 64:
            raise Refused(3)
        end, children = self.at + n, []
        while self.at < end:
            name = [self.symbol(end)] if kind == 12 else []
            children.append((*name, self.value(end, opened + 1)))
        if kind == 12:
            return ('struct', children)
        return ('list' if kind == 10 else 'sexp', [v for v, in children])

    def notes(self, end, opened):
        n = self.take(1, end)[0]
        if not 1 <= n <= 16:
            raise Refused(2)
        self.noted = True
        symbols = [self.symbol(end) for _ in range(n)]
        return ('notes', symbols, self.value(end, opened, annotated=True))


def values(tape):
    """A tape's top-level values, and what was met in them; raises Refused with 1, 2, 3 or 4."""
    if not 8 <= len(tape) <= LONGEST:
        raise Refused(1)
    body, count = struct.unpack('<II', tape[-8:])
    if body + 8 != len(tape):
        raise Refused(1)
    nodes, found = Nodes(tape), []
    while nodes.at < body:
        found.append(nodes.value(body, 0, top=True))
    if len(found) != count:
        raise Refused(2)
    return found, nodes


# The text.

SHORT = {0: b'0', 7: b'a', 8: b'b', 9: b't', 10: b'n', 11: b'v', 12: b'f', 13: b'r', ord('\\'): b'\\', ord('"'): b'"', ord("'"): b"'"}
QUOTED_ONLY = re.compile(rb'true|false|nan|null|\$[0-9]+|\$ion_[0-9]+_[0-9]+')
IDENTIFIER = re.compile(rb'[$_A-Za-z][$_A-Za-z0-9]*')


def quoted(text, mark):
    """A character that has a letter is escaped by it, any other control character below U+0020 by hex digits (document 02, A5)."""
    def one(c):
        if c in SHORT:
            return b'\\' + SHORT[c]
        return b'\\x%02x' % c if c < 0x20 else bytes([c])
    return mark + b''.join(map(one, text)) + mark


def symbol_text(v, always=False):
    """With always-quoted symbols no text stands bare (document 02, A9)."""
    if v[0] == 'id':
        return b'$%d' % v[1]
    if IDENTIFIER.fullmatch(v[1]) and not QUOTED_ONLY.fullmatch(v[1]) and not always:
        return v[1]
    return quoted(v[1], b"'")


def clob_text(content):
    def one(c):
        if c in SHORT and c != ord("'"):
            return b'\\' + SHORT[c]
        return bytes([c]) if 0x20 <= c <= 0x7E else b'\\x%02x' % c
    return b'{{"' + b''.join(map(one, content)) + b'"}}'


def decimal_text(negative, magnitude, e):
    d = str(magnitude)
    p = len(d) + e

    def scientific(exponent):
        return d[0] + '.' + d[1:] + 'd' + str(exponent)
    if e == 0:
        text = scientific(len(d) - 1) if len(d) > 6 else d + '.'
    elif e > 0:
        text = d + 'd' + str(e)
    elif p > 0:
        text = d[:p] + '.' + d[p:]
    elif p >= -5:
        text = '0.' + '0' * -p + d
    else:
        text = scientific(p - 1)
    return (('-' if negative else '') + text).encode()


def whole_text(bits):
    """The float that is a whole number: a minus, the digits without trailing zeros, a point behind the first if more follow, `e`, the exponent."""
    x = float_of(bits)
    d = str(abs(int(x)))
    shown = d.rstrip('0')
    return (('-' if x < 0 else '') + '.'.join(filter(None, (shown[0], shown[1:]))) + 'e%d' % (len(d) - 1)).encode()


def time_text(p, year, month, day, hour, minute, second, offset, digits, fraction):
    if p < 3:
        return (('%04d', '%04d-%02d', '%04d-%02d-%02d')[p] % (year, month, day)[:p + 1]).encode() + b'T'
    text = '%04d-%02d-%02dT%02d:%02d' % (year, month, day, hour, minute)
    if p == 4:
        text += ':%02d' % second
        if digits:
            text += '.' + str(fraction).zfill(digits)
    if offset == UNKNOWN:
        return text.encode() + b'-00:00'
    return (text + ('-' if offset < 0 else '+') + '%02d:%02d' % divmod(abs(offset), 60)).encode()


def container_text(layout, v, level, always):
    """Pretty puts LF after the opening bracket and in the separators, and indents two blanks a level."""
    kind, pretty = v[0], layout == 2
    opening, closing = {'list': (b'[', b']'), 'sexp': (b'(', b')'), 'struct': (b'{', b'}')}[kind]
    separator = (b'' if kind == 'sexp' else b',') + (b'\n' if pretty else b' ')
    text = opening + (b'\n' if pretty else b'')
    for child in v[1]:
        if pretty:
            text += b'  ' * (level + 1)
        if kind == 'struct':
            text += symbol_text(child[0], always) + b': '
            child = child[1]
        text += value_text(layout, child, level + 1, always) + separator
    return text + (b'  ' * level if pretty else b'') + closing


def value_text(layout, v, level, always=False):
    kind = v[0]
    if kind == 'null':
        return b'null.' + TYPES[v[1]] if v[1] else b'null'
    if kind == 'bool':
        return b'true' if v[1] else b'false'
    if kind == 'int':
        return b'%d' % v[1]
    if kind == 'float':
        return FLOATS.get(v[1]) or whole_text(v[1])
    if kind == 'dec':
        return decimal_text(*v[1:])
    if kind == 'ts':
        return time_text(*v[1:])
    if kind in ('sym', 'id'):
        return symbol_text(v, always)
    if kind == 'str':
        return quoted(v[1], b'"')
    if kind == 'clob':
        return clob_text(v[1])
    if kind == 'blob':
        return b'{{' + base64.b64encode(v[1]) + b'}}'
    if kind == 'marker':
        return b'$ion_1_0'
    return container_text(layout, v, level, always)


def stream(layout, tape, always=False):
    """The text, or the number of the refusal."""
    if layout > 2:
        return 7
    try:
        found, met = values(tape)
    except Refused as why:
        return why.args[0]
    if met.noted:
        return 5
    return b''.join(value_text(layout, v, 0, always) + (b'\n' if layout else b' ') for v in found)


def tree_text(v, always=False):
    """No trailing separators; annotations end in `::`."""
    if v[0] == 'notes':
        return b''.join(symbol_text(s, always) + b'::' for s in v[1]) + tree_text(v[2], always)
    if v[0] == 'list':
        return b'[' + b', '.join(tree_text(x, always) for x in v[1]) + b']'
    if v[0] == 'sexp':
        return b'(' + b' '.join(tree_text(x, always) for x in v[1]) + b')'
    if v[0] == 'struct':
        return b'{' + b', '.join(symbol_text(name, always) + b': ' + tree_text(x, always) for name, x in v[1]) + b'}'
    return value_text(0, v, 0, always)


def tree(tape, always=False):
    """The tree text, or the number of the refusal."""
    try:
        found, met = values(tape)
    except Refused as why:
        return why.args[0]
    if len(found) != 1 or found[0] == ('marker',) or met.numbered:
        return 5
    return tree_text(found[0], always)


def answer(text, buffer):
    """The count or minus the refusal, and the whole buffer afterwards."""
    if isinstance(text, int):
        return -text, buffer
    if len(text) > len(buffer):
        return -6, text[:len(buffer)]
    return len(text), text + buffer[len(text):]


def expect(layout, tape, buffer, always=False):
    """The same for a layout."""
    return answer(stream(layout, tape, always), buffer)
