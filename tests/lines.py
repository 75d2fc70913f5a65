"""Runs the program `lines` on worked tapes; what it must print is written down here or the text of tests/model.py.

    (cd crates/lines && rt run < stdin) && python3 tests/lines.py
"""
import random
import struct
import subprocess
import sys
import time

import model
from random_tapes import nested, stream
from tapes import tape, whole

PROGRAM = 'crates/lines/out/lines'
MOST = 65536
TOO_LONG = b'input too long\n'
EXAMPLE = bytes.fromhex('0A 02 00 00 00 01 01 07 00 00 00 01 00 00 00')
runs = 0


def check(said, out, code, due):
    global runs
    runs += 1
    if (out, code) != (due, 0):
        print('given', len(said), 'bytes', said[:60].hex(), 'expected', due[:60], 'printed', out[:60], 'exit', code)
        sys.exit(1)


def prints(said, due):
    done = subprocess.run([PROGRAM], input=said, stdout=subprocess.PIPE)
    check(said, done.stdout, done.returncode, due)


def prints_text(said):
    """The model's Lines text, which must be one and fit."""
    text = model.stream(1, said)
    assert len(text) <= MOST
    prints(said, text)


def refuses(number, said):
    text = model.stream(1, said)
    assert len(text) > MOST if number == 6 else text == number
    prints(said, b'refused %d\n' % number)


def in_pieces(said, sizes, due):
    """The input in pieces of these sizes, with a pause behind each, and then what is left of it."""
    p = subprocess.Popen([PROGRAM], stdin=subprocess.PIPE, stdout=subprocess.PIPE, bufsize=0)
    at = 0
    for n in sizes:
        p.stdin.write(said[at:at + n])
        at += n
        time.sleep(.01)
    out, _ = p.communicate(said[at:])
    check(said, out, p.returncode, due)


def string_of(input_length):
    """A tape of that many bytes: one string of letters."""
    t = tape([('str', b'a' * (input_length - 13))])
    assert len(t) == input_length
    return t


def text_of(text_length):
    """A tape whose Lines text has that many bytes: one string of NULs, two bytes each in the text, so that the tape is short enough."""
    nuls, letters = divmod(text_length - 3, 2)
    t = tape([('str', b'\0' * nuls + b'a' * letters)])
    assert len(t) <= MOST and len(model.stream(1, t)) == text_length
    return t


def main():
    prints(EXAMPLE, b'[true, ]\n')
    prints(bytes(8), b'')
    prints(b'', b'refused 1\n')
    refuses(1, EXAMPLE[:-1])
    refuses(1, bytes(MOST))
    refuses(2, b'\x10' + struct.pack('<II', 1, 1))
    refuses(2, struct.pack('<II', 0, 1))
    r = random.Random(1)
    prints_text(tape([nested(r, 64, ('int', 1))]))
    refuses(3, tape([nested(r, 65, ('int', 1))]))
    refuses(4, tape([('float', 0x3FF8 << 48)]))
    prints_text(tape([whole(15), whole(-2**53)]))
    refuses(5, tape([('notes', [('sym', b'a')], ('int', 1))]))
    prints_text(text_of(MOST - 1))
    prints_text(text_of(MOST))
    refuses(6, text_of(MOST + 1))
    refuses(6, tape([('clob', b'\1' * 60000)]))
    controls = b'\1\x1f' * (MOST // 8 - 1)  # four bytes each in the text
    prints_text(tape([('str', controls + b'a' * 5)]))
    refuses(6, tape([('str', controls + b'a' * 6)]))
    prints_text(string_of(MOST - 1))
    prints_text(string_of(MOST))
    for too_long in string_of(MOST + 1), bytes(MOST + 1), string_of(4 * MOST), EXAMPLE + bytes(MOST):
        prints(too_long, TOO_LONG)
    for _ in range(100):
        prints_text(tape(stream(r)))
    in_pieces(EXAMPLE, [1] * 14, b'[true, ]\n')
    in_pieces(EXAMPLE, [1] * 15, b'[true, ]\n')
    in_pieces(text_of(MOST), [1, 5000, 1, 4096, 65], model.stream(1, text_of(MOST)))
    in_pieces(string_of(MOST), [4096] * 15 + [4095], model.stream(1, string_of(MOST)))
    in_pieces(string_of(MOST + 1), [30000, 30000, 5536], TOO_LONG)
    print('lines: %d runs, none different' % runs)


if __name__ == '__main__':
    main()
