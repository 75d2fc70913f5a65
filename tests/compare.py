"""Compares our streaming and tree texts with the Rust's (with control characters as document 02, A5, has them: `amended` of tests/tapes.py) over
random accepted tapes, in full and cut short by the room, and the lengths that ion_length and ion_tree_length tell of them. Reads each text back,
which must give the tape itself, and the lines of Lines texts one by one, which must give each value's tape, or what the line book gives where they
are damaged (tests/grammar.py). Converts the Rust's own texts, which must give ours; those with control characters raw must be refused by the reader.
Compares answer and buffer on damaged tapes with tests/model.py. The driver checks what it does not send: all of the
buffer that a call must leave alone or zero, and behind each call of a writer the length of its text.

    ION_RUST_FILES=folder tests/oracle/build
    python3 tests/compare.py [TAPES [SEED]]
    python3 tests/compare.py --minutes 10 [--seed SEED]

The first line builds the Rust's side, for whoever has its files; once is enough. Our side is the archive that `rt lib` in crates/ion_c makes, or
that of the folder LECHUQTA_LIB_DIR. The first form compares one batch of so many tapes. The second goes on with batches until the time is
over, each with the next seed, from SEED or a random one. Both start with the systematic tapes.
Prints what was compared; or the first difference, its tape or text in hex, both answers and the seed that makes it again, and exits 1.
"""
import argparse
import collections
import random
import struct
import subprocess
import sys
import time

import builds
import grammar
import model
from random_tapes import IDS, nested, stream, tree, value
from tapes import amended, by_rust, node, tape

READ, LINES, TREE, CONVERT = 16, 17, 18, 19
MODES = {0: 'Compact', 1: 'Lines', 2: 'Pretty', READ: 'reading', LINES: 'line calls', TREE: 'tree', CONVERT: 'converting'}
AMPLE = 1 << 16
done = collections.Counter()
driver = None  # the program of driver.c, once main has made it


class Difference(Exception):
    """What is printed of a difference, a line each."""


def differs(mode, room, given, due, found):
    return Difference('%s, room %d' % (MODES.get(mode, 'layout %d' % mode), room), 'given    ' + given.hex(), 'expected ' + due, 'found    ' + found)


def told(n, content):
    """An answer and its bytes."""
    return '%s %s' % (n if n >= 0 else 'refused %d' % -n, content.hex())


def told_calls(calls):
    return '; '.join('%s to %d' % (told(n, content), at) for n, at, content in calls)


def run(frames):
    """What the driver says to (mode, room, bytes) frames. It ends by itself where a buffer is not as it must be: then which frame it was."""
    said = [bytes([m]) + struct.pack('<II', room, len(t)) + t for m, room, t in frames]
    ran = subprocess.run([driver], input=b''.join(said), stdout=subprocess.PIPE)
    if ran.returncode:
        for frame, alone in zip(frames, said):
            code = subprocess.run([driver], input=alone, stdout=subprocess.PIPE).returncode
            if code:
                raise differs(*frame, 'a buffer, or a length, as docs/FORMAT.md has it', 'status %d of the driver (tests/driver.c)' % code)
        raise Difference('status %d of the driver, which no frame gives by itself' % ran.returncode)
    return ran.stdout


def ours(frames):
    """The answers to (mode, room, bytes) frames, each with the bytes that count: up to the count, or all of the room behind -6."""
    out = run(frames)
    answers, at = [], 0
    for _, room, _ in frames:
        n = struct.unpack_from('<q', out, at)[0]
        shown = room if n == -6 else max(n, 0)
        answers.append((n, out[at + 8:at + 8 + shown]))
        at += 8 + shown
    assert at == len(out)
    return answers


def same(frames, expected):
    for (mode, room, t), due, own in zip(frames, expected, ours(frames)):
        if due != own:
            raise differs(mode, room, t, told(*due), told(*own))


def lines(frames):
    """The calls of ion_read_line over (room, text) frames, from a fresh offset to the end mark: lists of (answer, offset, bytes)."""
    out = run([(LINES, room, t) for room, t in frames])
    at = 0
    for _ in frames:
        calls, n = [], 1
        while n:
            n, offset = struct.unpack_from('<qQ', out, at)
            calls.append((n, offset, out[at + 16:at + 16 + max(n, 0)]))
            at += 16 + max(n, 0)
        yield calls
    assert at == len(out)


def special():
    """Every byte in strings, symbols, clobs and blobs; blobs of many lengths; texts of many lengths with one byte that is otherwise, at the places
    where words of eight bytes start and end; many control characters; every decimal sum from -30 to 30; depth 64."""
    for b in range(128):
        yield [('str', bytes([b]))], [('sym', bytes([b]))]
    for b in range(256):
        yield [('clob', bytes([b]))], [('blob', bytes([b]))], [('blob', bytes([b, 255 - b]))], [('blob', bytes([b, b ^ 90, 255 - b]))]
    for n in range(100):
        yield [('blob', bytes(range(n)))], [('blob', bytes(range(255, 255 - n, -1)))]
    for n in (3071, 3072, 3073, 3074, 6144, 6145, 20000):
        yield ([('blob', (bytes(range(256)) * 79)[:n])],)
    for n in (1, 5, 7, 8, 9, 15, 16, 17, 24, 31, 32, 33, 40, 65):
        for at in sorted({0, 7, 8, n // 2, n - 1} & set(range(n))):
            for b in b'xZ_$7 \n"\'\\\x01\x06\x0e\x1f\x7f':
                for first in b'a$':
                    text = bytearray(b'%cbcdefgh' % first * 9)[:n]
                    text[at] = b
                    text = bytes(text)
                    yield [('sym', text)], [('str', text)], [('struct', [(('sym', text), ('str', text))])]
    for n in range(40):
        text = bytes([*range(1, 7), *range(14, 32)] * 2)[:n] + b'b'
        yield [('str', text)], [('sym', text)]
    for length in range(1, 21):
        for total in range(-30, 31):
            m = int('9876543210' * 2) // 10**(20 - length) if length < 20 else 2**64 - 1
            yield [('dec', 0, m, total - length)], [('dec', 1, 10**(length - 1), total - length)]
    for kind in ('list', 'sexp', 'struct'):
        deep = ('int', 1)
        for _ in range(64):
            deep = (kind, [(('sym', b'k'), deep)] if kind == 'struct' else [deep])
        yield ([deep],)


def against_rust(r, lists, modes):
    """Each text in full, and the start of it where the room is short."""
    pairs = [(y, tape(v)) for v in lists for y in modes]
    own = by_rust([(3 if y == TREE else y, t) for y, t in pairs])
    texts = [amended(s) for s in own]
    raw = [s for s, a in zip(own, texts) if s != a]
    same([(READ, AMPLE, s) for s in raw], [(-8, b'')] * len(raw))
    same([(CONVERT, AMPLE, s) for s in own], [(len(a), a) for a in texts])
    same([(CONVERT, len(a), s) for s, a in zip(own, texts)], [(len(a), a) for a in texts])
    same([(CONVERT, r.randrange(len(a)), s) for s, a in zip(own, texts) if a], [(-14, b'') for a in texts if a])
    done['texts with raw control characters, as the Rust has them, refused'] += len(raw)
    done['texts as the Rust has them, converted to ours, and refused by 14 where the room is short'] += len(own)
    same([(y, AMPLE, t) for y, t in pairs], [(len(s), s) for s in texts])
    cut = [(y, r.randrange(len(s)), t, s) for (y, t), s in zip(pairs, texts) if s]
    same([(y, room, t) for y, room, t, _ in cut], [(-6, s[:room]) for _, room, _, s in cut])
    done['tapes against the Rust, ' + ('tree texts' if modes == [TREE] else 'three layouts each')] += len(lists)
    done['texts in a room cut short'] += len(cut)
    return pairs, texts


def read_back(r, pairs, texts):
    """Every text gives its tape, in just the tape's room too; one byte less is refusal 9."""
    same([(READ, AMPLE, s) for s in texts], [(len(t), t) for _, t in pairs])
    same([(READ, len(t), s) for (_, t), s in zip(pairs, texts)], [(len(t), t) for _, t in pairs])
    same([(READ, r.randrange(len(t)), s) for (_, t), s in zip(pairs, texts)], [(-9, b'')] * len(pairs))
    done['texts read back, and refused by 9 where the room is short'] += len(texts)


def line_by_line(lists, pairs, texts):
    """Every line of a Lines text gives its value's own tape, and its length the next offset."""
    written = [s for (y, _), s in zip(pairs, texts) if y == 1]
    for values, text, calls in zip(lists, written, lines([(AMPLE, s) for s in written])):
        at, due = 0, []
        for v, line in zip(values, text.splitlines(True)):
            at += len(line)
            own = tape([v])
            due.append((len(own), at, own))
        due.append((0, at, b''))
        if due != calls:
            raise differs(LINES, AMPLE, text, told_calls(due), told_calls(calls))
    done['Lines texts read line by line'] += len(written)


def damaged_lines(r, pairs, texts):
    """A run of each Lines text replaced by anything, read line by line in some room: every answer, offset and tape is the book's, in
    Python over an independent reader (tests/grammar.py)."""
    frames, seen = [], collections.Counter()
    for (y, t), s in zip(pairs, texts):
        if y == 1 and s:
            start = r.randrange(len(s))
            end = start + r.choice([0, 1, 1, 2, 8, r.randrange(len(s))])
            new = bytes(r.choice([r.randrange(256), r.choice(b'\n"\'[]{}(),:\\ x1$-.')]) for _ in range(r.choice([0, 1, 1, 2, 9])))
            frames.append((r.choice([AMPLE, len(t), r.randrange(64)]), s[:start] + new + s[end:]))
    for (room, text), calls in zip(frames, lines(frames)):
        due = [(n or 0, at, buffer[:max(n or 0, 0)]) for n, at, buffer in grammar.book(text, b'\xa5' * room)]
        if due != calls:
            raise differs(LINES, room, text, told_calls(due), told_calls(calls))
        seen.update(min(n, 0) for n, _, _ in calls if n)
    done['damaged Lines texts read line by line'] += len(frames)
    for n, calls in seen.items():
        done['line calls of these with ' + ('refusal %d' % -n if n else 'a value')] += calls


# Nodes that one refusal or another waits for.
ODD = [b'\x10', b'\x0f', b'\x0e', b'\x0d\0', b'\x0d\x11', node(('notes', [('sym', b'a')], ('int', 1)))]
ODD += [node(('float', bits)) for bits in (0x3FF8 << 48, 1, 0x7FEFFFFFFFFFFFFF, 0x4340000000000001, 0x7FF8000000000001, 0xFFF8 << 48)]


def damaged(r, values):
    """A tape with a byte changed, cut out or put in, its trailer then made to fit or left alone; or a trailer that does not fit."""
    body, count = bytearray(tape(values)[:-8]), len(values)
    way = r.randrange(6)
    at = r.randrange(len(body) + 1)
    if way == 0 and at < len(body):
        body[at] = r.choice([r.randrange(256), r.randrange(16), (body[at] + r.choice([1, 255])) % 256])
    elif way == 1:
        del body[at:at + r.choice([1, 1, 2, 5])]
    elif way == 2:
        body[at:at] = bytes(r.choice([r.randrange(16), r.randrange(256)]) for _ in range(r.choice([1, 2, 5])))
    elif way == 3:
        body, count = r.choice([r.choice(ODD) + body, body + r.choice(ODD)]), count + r.choice([0, 1, 1])
    elif way == 4:
        count = r.choice([count + 1, 0, 2**32 - 1])
    else:
        t = bytearray(tape(values))
        at = r.randrange(len(t))
        change = r.randrange(3)
        t[at:at + (change != 2)] = [r.randrange(256)] * (change != 1)
        return bytes(t)
    return bytes(body) + struct.pack('<II', len(body), count)


def modelled(y, t):
    return model.tree(t) if y == TREE else model.stream(y, t)


def against_model(r, lists, modes):
    """Damaged tapes, annotated ones, depths around 64 and layouts past 2: answer and buffer."""
    frames = []
    for v in lists:
        if r.random() < .1:
            v = [nested(r, r.choice([63, 64, 65, 66]), value(r, r.randrange(2), IDS, True))]
        elif r.random() < .1:
            v = v + [value(r, 2, IDS, True)]
        t = damaged(r, v)
        y = r.choice(modes)
        text = modelled(y, t)
        length = 20 if isinstance(text, int) else len(text)
        frames.append((y, r.choice([0, length // 2, max(length - 1, 0), length, length + 1, length + 100]), t))
    expected = [model.answer(modelled(y, t), b'\xa5' * room) for y, room, t in frames]
    same(frames, [(n, buffer[:len(buffer) if n == -6 else max(n, 0)]) for n, buffer in expected])
    for n, calls in collections.Counter(min(n, 0) for n, _ in expected).items():
        done['damaged tapes%s against the model, %s' % (', tree text,' if modes == [TREE] else '', 'refusal %d' % -n if n else 'a text')] += calls


def streams(r, lists):
    """The streaming texts of the lists, read back as a whole, by lines, and damaged."""
    pairs, texts = against_rust(r, lists, [0, 1, 2])
    read_back(r, pairs, texts)
    line_by_line(lists, pairs, texts)
    damaged_lines(r, pairs, texts)


def trees(r, lists):
    """The tree texts of the lists, read back."""
    pairs, texts = against_rust(r, lists, [TREE])
    read_back(r, pairs, texts)


def no_tree():
    """Tapes that the tree text refuses: none or two nodes, markers, identifiers but 0."""
    refused = [[], [('marker',)], [('int', 1), ('int', 2)], [('id', 1)], [('notes', [('id', 4)], ('int', 1))]]
    refused += [[('list', [('struct', [(('id', 9), ('int', 1))])])], [('sexp', [('id', 2**32 - 1)])]]
    same([(TREE, AMPLE, tape(v)) for v in refused], [(-5, b'')] * len(refused))
    done['tapes without a tree text'] += len(refused)


def limits():
    """Tapes of 1,048,576 bytes and one more: 1 from the writer, 9 from the reader, however ample the room."""
    fits, over = (b'a' * (model.LONGEST + more - 13) for more in (0, 1))
    kept, refused = tape([('str', fits)]), tape([('str', over)])
    text = b'"' + fits + b'"\n'
    room = 2 * model.LONGEST
    same([(1, room, kept), (1, 9, kept), (1, room, refused)], [(len(text), text), (-6, text[:9]), (-1, b'')])
    same([(TREE, room, kept), (TREE, 9, kept), (TREE, room, refused)], [(len(text) - 1, text[:-1]), (-6, text[:9]), (-1, b'')])
    same([(READ, room, text), (READ, room, b'"' + over + b'"')], [(len(kept), kept), (-9, b'')])
    done['calls on tapes at and past 1,048,576 bytes'] += 8


def systematic():
    r = random.Random(0)
    lists = [v for vs in special() for v in vs]
    streams(r, lists)
    trees(r, lists)
    no_tree()
    limits()


def batch(seed, count):
    r = random.Random(seed)
    streams(r, [stream(r) for _ in range(count)])
    against_model(r, [stream(r) for _ in range(4 * count)], [0, 1, 2, 0, 1, 2, 3, 15])
    trees(r, [tree(r) for _ in range(count)])
    against_model(r, [r.choice([tree, tree, stream])(r) for _ in range(4 * count)], [TREE])


def main():
    global driver
    said = argparse.ArgumentParser()
    said.add_argument('tapes', nargs='?', type=int)
    said.add_argument('once', nargs='?', type=int, metavar='seed')
    said.add_argument('--minutes', type=float, default=0)
    said.add_argument('--seed', type=int)
    said = said.parse_args()
    seed = next((s for s in (said.once, said.seed) if s is not None), random.SystemRandom().randrange(10**9) if said.minutes else 1)
    tapes = said.tapes or (1000 if said.minutes else 10000)
    builds.oracle()
    driver = builds.c_program('driver')
    end = time.monotonic() + 60 * said.minutes
    batches = 0
    try:
        systematic()
        while batches == 0 or time.monotonic() < end:
            batch(seed + batches, tapes)
            batches += 1
            if said.minutes:
                print('seed %d: no difference in %d batches, %d comparisons' % (seed + batches - 1, batches, sum(done.values())), flush=True)
    except Difference as why:
        print('FIRST DIFFERENCE', *why.args, 'again: python3 tests/compare.py %d %d' % (tapes, seed + batches), sep='\n')
        sys.exit(1)
    for what, n in done.items():
        print('%9d %s' % (n, what))
    print('no difference')


if __name__ == '__main__':
    main()
