"""Tapes (docs/FORMAT.md), made from tuples; and the oracle (tests/oracle), asked for the Rust's texts of them, in which one escape is amended.

A value is ('null', type), ('bool', b), ('int', i), ('float', bits), ('dec', negative, magnitude, exponent),
('ts', precision, year, month, day, hour, minute, second, offset, digits, fraction), ('sym', bytes), ('id', n), ('str', bytes), ('clob', bytes),
('blob', bytes), ('list', values), ('sexp', values), ('struct', [(name, value), ..]), ('notes', [symbols], value) or ('marker',).
"""
import re
import struct
import subprocess

from builds import oracle

UNKNOWN = 32767
KINDS = {'list': 10, 'sexp': 11, 'struct': 12}
CONTROLS = re.compile(rb'[\x01-\x06\x0e-\x1f]')


def whole(n):
    """The float of a number, as a value."""
    return ('float', *struct.unpack('<Q', struct.pack('<d', n)))


def node(v):
    kind = v[0]
    if kind == 'null':
        return bytes([0, v[1]])
    if kind == 'bool':
        return bytes([1, int(v[1])])
    if kind == 'int':
        return b'\x02' + struct.pack('<q', v[1])
    if kind == 'float':
        return b'\x03' + struct.pack('<Q', v[1])
    if kind == 'dec':
        return b'\x04' + struct.pack('<BQi', int(v[1]), v[2], v[3])
    if kind == 'ts':
        return b'\x05' + struct.pack('<BHBBBBBhBI', *v[1:])
    if kind in ('sym', 'str', 'clob', 'blob'):
        return bytes([{'sym': 6, 'str': 8, 'clob': 9, 'blob': 15}[kind]]) + struct.pack('<I', len(v[1])) + v[1]
    if kind == 'id':
        return b'\x07' + struct.pack('<I', v[1])
    if kind == 'notes':
        return bytes([13, len(v[1])]) + b''.join(map(node, v[1])) + node(v[2])
    if kind == 'marker':
        return b'\x0e'
    if kind == 'struct':
        body = b''.join(node(n) + node(x) for n, x in v[1])
    else:
        body = b''.join(map(node, v[1]))
    return bytes([KINDS[kind]]) + struct.pack('<I', len(body)) + body


def tape(values):
    body = b''.join(map(node, values))
    return body + struct.pack('<II', len(body), len(values))


def amended(text):
    """The Rust's text as document 02, A5, has it: the control characters that the Rust writes raw are `\\x` and two lower-case hex digits. Such a byte
    stands in a text of the Rust's only as a character of a string or of a quoted symbol: clobs have it escaped, blobs are base64, no other
    character has it in UTF-8, and beside the quote marks there is nothing below a blank but LF."""
    return CONTROLS.sub(lambda found: b'\\x%02x' % found[0][0], text)


def by_rust(frames):
    """The Rust's own texts of (mode, tape) frames; mode 0, 1, 2 for the layouts, 3 for the tree text. None where it has none."""
    said = b''.join(bytes([m]) + struct.pack('<I', len(t)) + t for m, t in frames)
    out = subprocess.run([oracle(), 'batch'], input=said, stdout=subprocess.PIPE, check=True).stdout
    texts, at = [], 0
    for _ in frames:
        n = struct.unpack_from('<I', out, at)[0]
        at += 4
        if n == 0xFFFFFFFF:
            texts.append(None)
        else:
            texts.append(out[at:at + n])
            at += n
    return texts


def ask(frames):
    """The same, amended: what must be written."""
    return [text and amended(text) for text in by_rust(frames)]
