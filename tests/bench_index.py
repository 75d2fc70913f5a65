"""The time of indexing structs of 20 to 100,000 fields, which must grow about in line with their number, and of lookups in a record of twenty fields
beside a linear search.

    python3 tests/bench_index.py [ROUNDS]
    python3 tests/bench_index.py count

The archive is the one that `rt lib` in crates/ion_c makes, or that of the folder LECHUQTA_LIB_DIR. Names have three bytes and stand sorted, reversed, in any
order, or are all equal; values are bools, so that 100,000 fields fit a tape. Validation of the tape, with which each call starts, is timed by a call at
an offset past the tape, and told apart: the rest is finding the struct, making the entries and sorting them. The ratios are those to a tenth of the
fields; the goal is 16 at most.

Up to 100 tapes are indexed in turn, together of about 100,000 fields: random names have another order on each, the others are a few more or less on
each. With one tape again and again, the last columns, 1,000 fields take less time, perhaps by the branch predictor. Processor time, best of many. The
second form has valgrind count the instructions of one call, which do not wander.
"""
import itertools
import os
import random
import re
import subprocess
import sys
import tempfile

import builds
from tapes import UNKNOWN, tape

LETTERS = b'0123456789ABCDEFGHIJKLMNOPQRSTUVWXYZabcdefghijk'
SIZES = (20, 1000, 10000, 100000)
WORDS = [bytes(word) for word in itertools.product(LETTERS, repeat=3)][:SIZES[-1]]
ORDERS = {
    'sorted': lambda r, names: names,
    'reversed': lambda r, names: names[::-1],
    'equal': lambda r, names: [b'key'] * len(names),
    'random': lambda r, names: r.sample(names, len(names)),
}


def struct_of(fields):
    return tape([('struct', [(('sym', name), value) for name, value in fields])])


def pass_record():
    """A pass as a planner's screen shows it: twenty fields."""
    def when(minute, second):
        return ('ts', 4, 2026, 11, 15, 18, minute, second, 60, 3, 250)

    def angle(hundredths):
        return ('dec', 0, hundredths, -2)
    return struct_of([
        (b'name', ('str', b'ISS (ZARYA)')), (b'norad', ('int', 25544)), (b'rise', when(21, 3)), (b'rise_azimuth', angle(24512)),
        (b'culmination', when(26, 25)), (b'culmination_azimuth', angle(16430)), (b'highest', angle(6740)), (b'set', when(31, 47)),
        (b'set_azimuth', angle(8391)), (b'magnitude', ('dec', 1, 31, -1)), (b'distance', ('int', 431)), (b'sunlit', ('bool', 1)),
        (b'moon', angle(4150)), (b'site', ('sym', b'dome_2')), (b'filters', ('list', [('sym', b'g'), ('sym', b'r')])), (b'exposure', angle(250)),
        (b'priority', ('int', 3)), (b'observer', ('str', b'Ada')), (b'note', ('null', 7)), (b'day', ('ts', 2, 2026, 11, 15, 0, 0, 0, UNKNOWN, 0, 0))])


def said(*words):
    return subprocess.run(words, stdout=subprocess.PIPE, check=True).stdout.decode().splitlines()


def written(folder, tapes):
    """The tapes as files."""
    paths = []
    for i, content in enumerate(tapes):
        paths.append(os.path.join(folder, '%d.tape' % i))
        with open(paths[-1], 'wb') as f:
            f.write(content)
    return paths


def indexed(bench, rounds, paths):
    """The best times of a call and of its validation, in ns."""
    times = [[float(word) for word in said(bench, 'index', *paths)[0].split()] for _ in range(rounds)]
    return [min(column) for column in zip(*times)]


def counted(bench, path):
    """The instructions of a call, by callgrind."""
    out = path + '.counts'
    subprocess.run(['valgrind', '--tool=callgrind', '--collect-atstart=no', '--toggle-collect=ion_index', '--callgrind-out-file=' + out, bench, 'once',
                    path], check=True, stdout=subprocess.DEVNULL, stderr=subprocess.DEVNULL)
    with open(out) as f:
        return int(re.search(r'^(?:summary|totals): (\d+)', f.read(), re.M)[1])


def tapes_of(order, size):
    """Tapes of about `size` fields each; the first has just so many."""
    r = random.Random(1)
    count = min(100, SIZES[-1] // size)
    numbers = [size]
    for more in range(1, min(count, size // 5) // 2 + 1):
        numbers += [size + more, size - more]
    for i in range(count):
        n = size if order == 'random' else numbers[i % len(numbers)]
        step = len(WORDS) // n
        yield struct_of([(name, ('bool', 1)) for name in ORDERS[order](r, WORDS[:n * step:step])])


def print_counts(bench):
    print('%-9s %7s %13s %6s' % ('names', 'fields', 'instructions', 'ratio'))
    for order in ORDERS:
        last = {}
        for size in SIZES:
            with tempfile.TemporaryDirectory() as folder:
                last[size] = counted(bench, written(folder, itertools.islice(tapes_of(order, size), 1))[0])
            ratio = '%.1f' % (last[size] / last[size // 10]) if size // 10 in last else ''
            print('%-9s %7d %13s %6s' % (order, size, '{:,}'.format(last[size]), ratio), flush=True)


def print_times(bench, rounds):
    print('%-9s %7s %11s %14s %11s %9s %6s %6s %11s %6s' % (
        'names', 'fields', 'whole us', 'validation us', 'rest us', 'a field', 'whole', 'rest', 'same us', 'whole'))
    for order in ORDERS:
        last = {}
        for size in SIZES:
            with tempfile.TemporaryDirectory() as folder:
                paths = written(folder, tapes_of(order, size))
                whole, validation = indexed(bench, rounds, paths)
                same = indexed(bench, rounds, paths[:1])[0]
            rest = whole - validation
            ratios = ['%.1f' % (now / before) for now, before in zip((whole, rest, same), last[size // 10])] if size // 10 in last else [''] * 3
            print('%-9s %7d %11.2f %14.2f %11.2f %6.0f ns %6s %6s %11.2f %6s' % (
                order, size, whole / 1e3, validation / 1e3, rest / 1e3, rest / size, *ratios[:2], same / 1e3, ratios[2]), flush=True)
            last[size] = whole, rest, same


def print_lookups(bench, rounds):
    with tempfile.TemporaryDirectory() as folder:
        path, = written(folder, [pass_record()])
        whole, validation = indexed(bench, rounds, [path])
        print('a record of 20 fields, %d bytes: index %.0f ns, validation %.0f ns of it' % (len(pass_record()), whole, validation))
        runs = [[line.split() for line in said(bench, 'find', path)] for _ in range(rounds)]
        best = {lines[0][0]: [min(float(line[k]) for line in lines) for k in (1, 2)] for lines in zip(*runs)}
        for what, (ours, theirs) in best.items():
            print('a lookup, %-9s: ion_find %.1f ns, linear search %.1f ns, ratio %.2f' % (what.replace('-', ' '), ours, theirs, ours / theirs))
        ours, theirs = best['in-order']
        print('twenty lookups, validation apart: index and ion_find %.0f ns, linear search %.0f ns' % (whole - validation + 20 * ours, 20 * theirs))


def main():
    word = sys.argv[1] if len(sys.argv) > 1 else '3'
    bench = builds.c_program('bench_index')
    if word == 'count':
        print_counts(bench)
    else:
        print_times(bench, int(word))
        print_lookups(bench, int(word))


if __name__ == '__main__':
    main()
