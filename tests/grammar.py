"""The reader and the converter of docs/FORMAT.md, modelled in Python: `read` gives a text's top-level values, `book` the calls of the line book,
`convert` the converter's answer and whole buffer.

No code is shared with our crates. The grammar was written without sight of crates/reader; the book after crates/line_reader had been read, the
converter after crates/converter, which goes by bytes: here it is the walk over the grammar that tells what is replaced.
Python's own UTF-8 decoder, calendar and regular expressions do the work. Values are the tuples of tapes.py. Held against the hand-made table
of tests/readings.py:

    python3 tests/grammar.py
"""
import base64
import calendar
import re
import struct

from tapes import UNKNOWN, tape

LONGEST = 1048576
TYPES = b'null bool int float decimal timestamp symbol string clob blob list sexp struct'.split()
FLOATS = {b'nan': 0x7FF8 << 48, b'+inf': 0x7FF0 << 48, b'-inf': 0xFFF0 << 48, b'0e0': 0, b'-0e0': 1 << 63}
# As printed: no trailing zero before `e`, no leading one behind it.
FLOAT = re.compile(rb'(-?)([1-9])(?:\.([0-9]*[1-9]))?e(0|[1-9][0-9]*)')
NULLS = {b'null': 0, **{b'null.' + t: i for i, t in enumerate(TYPES) if i}}
WORDS = {b'true': ('bool', 1), b'false': ('bool', 0), **{n: ('null', i) for n, i in NULLS.items()}, **{n: ('float', b) for n, b in FLOATS.items()}}
CLOSING = {'[': (b']', 'list'), '(': (b')', 'sexp'), '{': (b'}', 'struct')}

BLANKS = re.compile(rb'[ \t\n\x0b\x0c\r]*')
WORD = re.compile(rb'null\.[a-z]+|[$_A-Za-z][$_A-Za-z0-9]*')
QUOTED_ONLY = re.compile(rb'true|false|nan|null|\$[0-9]+|\$ion_[0-9]+_[0-9]+')
IDENTIFIER = re.compile(rb'\$(0|[1-9][0-9]*)')
NUMBER = re.compile(rb'[-+0-9][-+.:0-9A-Za-z]*')
INT = re.compile(rb'0|-?[1-9][0-9]*')
DECIMAL = re.compile(rb'(-?)(0|[1-9][0-9]*)(?:\.([0-9]*))?(?:d([-+]?[0-9]{1,10}))?')
DATE = rb'([0-9]{4})(?:-([0-9]{2})(?:-([0-9]{2}))?)?T'
CLOCK = rb'([0-9]{2}):([0-9]{2})(?::([0-9]{2})(?:\.([0-9]{1,9}))?)?(?:(Z)|([-+])([0-9]{2}):([0-9]{2}))'
TIME = re.compile(DATE + b'(?:' + CLOCK + b')?')
SHORT = {b'0': 0, b'a': 7, b'b': 8, b't': 9, b'n': 10, b'v': 11, b'f': 12, b'r': 13, **{c: ord(c) for c in (b'\\', b'"', b"'", b'/', b'?')}}
HEX = rb'[0-9a-fA-F]'
ESCAPE = rb'\\(?:([0abtnvfr\\"\'/?])|x(' + HEX + b'{2})'
WIDE = ESCAPE + b'|u(' + HEX + b'{4})|U(' + HEX + b'{8}))'
# What may not stand raw in quoted text: by Ion, as the readers have it, and by document 01, whose grammar is the old one.
STRICT, OLD = rb'\x00-\x08\n\r\x0e-\x1f', rb'\n\r'
PIECES = {(rule, mark): re.compile(WIDE + b'|([^' + rule + rb'\\' + mark + b']+)') for rule in (STRICT, OLD) for mark in (b'"', b"'")}
REPLACED = re.compile(b'[' + STRICT + b']')
LINE = re.compile(rb'[^\n]*\n|[^\n]+')
CLOB = re.compile(ESCAPE + rb')|([ !#-\[\]-~]+)')
SIX = rb'[A-Za-z0-9+/]'
BLOB = re.compile(b'((?:' + SIX + b'{4})*(?:' + SIX + b'{2}==|' + SIX + rb'{3}=)?)\}\}')


class Outside(Exception):
    """The text is outside the grammar."""


def need(condition):
    if not condition:
        raise Outside


def scalar_value(n):
    need(n < 0xD800 or 0xE000 <= n <= 0x10FFFF)
    return chr(n).encode()


def decimal(sign, whole, behind, written):
    need(behind is not None or written)
    behind = behind or b''
    magnitude, exponent = int(whole + behind), int(written or 0) - len(behind)
    need(magnitude < 2**64 and -2**31 <= exponent < 2**31)
    return ('dec', int(sign == b'-'), magnitude, exponent)


def time(year, month, day, hour, minute, second, fraction, z, sign, hours, minutes):
    precision = 4 if second else 3 if hour else 2 if day else 1 if month else 0
    y, m, d, h, n, s = (int(x or 0) for x in (year, month, day, hour, minute, second))
    need(y >= 1 and (not month or 1 <= m <= 12) and (not day or 1 <= d <= calendar.monthrange(y, m)[1]))
    need(h <= 23 and n <= 59 and s <= 59 and (precision < 3 or day))
    offset = UNKNOWN if precision < 3 else 0
    if sign:
        need(int(hours) <= 23 and int(minutes) <= 59)
        offset = int(hours) * 60 + int(minutes)
        if sign == b'-':
            offset = -offset if offset else UNKNOWN
    return ('ts', precision, y, m, d, h, n, s, offset, len(fraction or b''), int(fraction or 0))


def whole(sign, first, more, exponent):
    """The float that is a whole number of magnitude up to 2^53."""
    digits, zeros = first + (more or b''), int(exponent) - len(more or b'')
    need(zeros >= 0 and len(digits) + zeros <= 16 and int(digits) * 10**zeros <= 2**53)
    value = int(digits) * 10**zeros
    return ('float', *struct.unpack('<Q', struct.pack('<d', -value if sign else value)))


def number(token):
    """Ints, decimals, timestamps, and the floats that start like them."""
    if token in FLOATS:
        return ('float', FLOATS[token])
    found = FLOAT.fullmatch(token)
    if found:
        return whole(*found.groups())
    if INT.fullmatch(token):
        need(-2**63 <= int(token) < 2**63)
        return ('int', int(token))
    found = DECIMAL.fullmatch(token)
    if found:
        return decimal(*found.groups())
    found = TIME.fullmatch(token)
    need(found)
    return time(*found.groups())


def bare_symbol(word):
    """A bare word as symbol: an identifier or text."""
    found = IDENTIFIER.fullmatch(word)
    if found:
        need(int(found[1]) < 2**32)
        return ('id', int(found[1]))
    need(b'.' not in word and not QUOTED_ONLY.fullmatch(word))
    return ('sym', word)


class Text:
    """A text, read from `at` on by a raw rule; `replaced` has the places of raw characters of quoted text that the strict rule does not take."""

    def __init__(self, text, rule):
        self.text, self.rule, self.at, self.replaced = text, rule, 0, []

    def next(self, token=1):
        return self.text[self.at:self.at + token]

    def take(self, token):
        """Steps past these bytes if they come next."""
        found = self.text.startswith(token, self.at)
        self.at += found and len(token)
        return found

    def match(self, pattern):
        found = pattern.match(self.text, self.at)
        self.at = found.end() if found else self.at
        return found

    def blanks(self):
        return self.match(BLANKS)[0]

    def quoted(self, mark):
        """The bytes between two quote marks, behind the first; raw stretches are UTF-8 by themselves."""
        content = bytearray()
        while not self.take(mark):
            found = self.match(PIECES[self.rule, mark])
            need(found)
            short, x, u, long, raw = found.groups()
            if raw:
                try:
                    raw.decode()
                except UnicodeDecodeError:
                    raise Outside
                self.replaced += [c.start() for c in REPLACED.finditer(self.text, *found.span())]
            content += raw or scalar_value(SHORT[short] if short else int(x or u or long, 16))
        return bytes(content)

    def clob(self):
        content = b''
        while not self.take(b'"}}'):
            found = self.match(CLOB)
            need(found)
            short, x, raw = found.groups()
            content += raw or bytes([SHORT[short] if short else int(x, 16)])
        return content

    def blob(self):
        found = self.match(BLOB)
        need(found)
        content = base64.b64decode(found[1])
        need(base64.b64encode(content) == found[1])
        return content

    def symbol(self):
        """A symbol, where nothing else may stand."""
        if self.take(b"'"):
            return ('sym', self.quoted(b"'"))
        found = self.match(WORD)
        need(found)
        return bare_symbol(found[0])

    def word(self, top):
        """A value that starts as a symbol does: it may be an annotation, which only the `::` behind it tells."""
        if self.next() == b"'":
            return self.symbol()
        word = self.match(WORD)[0]
        if self.next(2) != b'::':
            if word in WORDS:
                return WORDS[word]
            if word == b'$ion_1_0' and top:
                return ('marker',)
        return bare_symbol(word)

    def value(self, opened, top=False):
        notes = []
        while True:
            first = self.next()
            if first and (first in b"'$_" or first.isalpha()):
                v = self.word(top and not notes)
                if self.take(b'::'):
                    notes.append(v)
                    need(len(notes) <= 16)
                    continue
            else:
                v = self.other(opened)
            return ('notes', notes, v) if notes else v

    def other(self, opened):
        if self.take(b'"'):
            return ('str', self.quoted(b'"'))
        if self.take(b'{{"'):
            return ('clob', self.clob())
        if self.take(b'{{'):
            return ('blob', self.blob())
        if self.next() in (b'[', b'(', b'{'):
            need(opened < 64)
            return self.container(opened + 1)
        found = self.match(NUMBER)
        need(found)
        return number(found[0])

    def container(self, opened):
        closing, kind = CLOSING[self.next().decode()]
        self.at += 1
        children = []
        self.blanks()
        while not self.take(closing):
            children.append(self.field(opened) if kind == 'struct' else self.value(opened))
            blanks = self.blanks()
            if kind == 'sexp':
                need(blanks or self.next() == closing)
            elif self.take(b','):
                self.blanks()
            else:
                need(self.next() == closing)
        return (kind, children)

    def field(self, opened):
        name = self.symbol()
        self.blanks()
        need(self.take(b':'))
        self.blanks()
        return name, self.value(opened)

    def values(self):
        """All top-level values; raises Outside."""
        found = []
        self.blanks()
        while self.at < len(self.text):
            found.append(self.value(0, top=True))
            need(self.blanks() or self.at == len(self.text))
        return found


def read(text, rule=STRICT):
    """A text's top-level values; raises Outside."""
    return Text(text, rule).values()


def expect(text, buffer, rule=STRICT):
    """The count or minus the refusal, and the tape."""
    try:
        made = tape(read(text, rule))
    except Outside:
        return -8, b''
    return (len(made), made) if len(made) <= min(buffer, LONGEST) else (-9, b'')


def line_tape(line):
    """The tape of a line that is one value or marker and LF, or None."""
    try:
        found = read(line[:-1]) if line.endswith(b'\n') else []
    except Outside:
        return None
    return tape(found) if len(found) == 1 else None


def book(text, buffer):
    """The line book's calls through the first end mark, each (answer, offset, whole buffer); the end mark's answer is None."""
    at = 0
    for line in LINE.findall(text):
        made = line_tape(line)
        at += len(line)
        if made is not None and len(made) <= min(len(buffer), LONGEST):
            buffer = made + buffer[len(made):]
            yield len(made), at, buffer
        else:
            buffer = bytes(len(buffer))
            yield -8 if made is None else -9, at, buffer
    yield None, at, buffer


def converted(text):
    """A text of the old grammar as one of the strict grammar; raises Outside."""
    t = Text(text, OLD)
    t.values()
    made, at = [], 0
    for place in t.replaced:
        made += [text[at:place], b'\\x%02x' % text[place]]
        at = place + 1
    return b''.join(made) + text[at:]


def convert(text, buffer):
    """The converter's count or minus the refusal, and the whole buffer afterwards."""
    try:
        made = converted(text)
    except Outside:
        return -13, buffer
    return (len(made), made + buffer[len(made):]) if len(made) <= len(buffer) else (-14, buffer)


def differs(text, due, said):
    """Whether something of a text is not as it must be, which is printed."""
    if due != said:
        print(text, 'expected', due, 'found', said)
    return due != said


def main():
    import readings
    wrong = 0
    rows = dict(readings.rows)
    for text, due in rows.items():
        answer, made = expect(text, readings.BUFFER)
        wrong += differs(text, due, made.hex() if answer >= 0 else 'refused %d' % -answer)
        clean, meant = readings.conversions.get(text, (text, b''))
        if meant:
            for said in expect(text, readings.BUFFER, OLD), expect(clean, readings.BUFFER):
                wrong += differs(text, (len(meant), meant), said)
        buffer = b'#' * (len(clean) + 1)
        outside = due == 'refused 8' and not meant
        wrong += differs(text, (-13, buffer) if outside else (len(clean), clean + b'#'), convert(text, buffer))
    print('%d texts of tests/readings.py, %d of them stored ones, %d differences' % (len(rows), len(readings.conversions), wrong))


if __name__ == '__main__':
    main()
