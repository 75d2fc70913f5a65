"""Our time (validation and writing, from the tape) beside the Rust's writing time, on the sample tapes (tests/samples.py): the layouts, and
the tree text where a tape has one. Behind it the time in which the text's length is told (validation included), and that over our writing.

Then always-quoted symbols. The Rust has no such setting, so it is given tapes whose symbol texts it quotes by its own rule, since each has a digit
first. Beside its time on such a tape: ours on the same tape under the setting, which gives the same bytes; and ours, under the setting too, on the
tape without these digits, whose symbol texts have the same lengths and most of which could stand bare.

    ION_RUST_FILES=folder tests/oracle/build
    python3 tests/bench.py [quoted] [ROUNDS]

With `quoted` that second part alone.
The first line builds the Rust's side, for whoever has its files; once is enough. Our side is the archive that `rt lib` in crates/ion_c makes, or
that of the folder LECHUQTA_LIB_DIR. Processor time, best of many, both in one run.
"""
import os
import re
import subprocess
import sys
import tempfile

import builds
import model
import samples
from tapes import by_rust


def said(*words):
    return subprocess.run(words, stdout=subprocess.PIPE, check=True).stdout.decode()


def rust_time(oracle, layout, path):
    turns = max(500, 40_000_000 // (os.path.getsize(path) + 20))
    return float(re.search(r'best ([0-9.]+) ns', said(oracle, 'bench', layout, path, str(turns)))[1])


def beside_rust(oracle, bench, folder, rounds):
    print('%-16s %6s %12s %12s %7s %12s %7s' % ('sample', 'layout', 'Rust ns', 'ours ns', 'ratio', 'length ns', 'of ours'))
    for name, path, layouts in sorted(samples.write(folder)):
        for layout in layouts:
            rust = own = length = 1e18
            for _ in range(rounds):
                rust = min(rust, rust_time(oracle, layout, path))
                both = said(bench, layout, path).split()[2:4]
                own, length = min(own, float(both[0])), min(length, float(both[1]))
            print('%-16s %6s %12.0f %12.0f %7.2f %12.0f %7.2f' % (name, layout, rust, own, own / rust, length, length / own), flush=True)


def same_texts(layout, path, count):
    """Whether the Rust's text of a tape is the one of always-quoted symbols, and has as many bytes as we answered."""
    with open(path, 'rb') as f:
        t = f.read()
    tree = layout == 'tree'
    text = model.tree(t, True) if tree else model.stream(int(layout), t, True)
    return by_rust([(3 if tree else int(layout), t)]) == [text] and len(text) == count


def quoted(oracle, bench, folder, rounds):
    print('%-16s %6s %12s %12s %7s %14s %7s %12s %7s' % (
        'always quoted', 'layout', 'Rust ns', 'same tape ns', 'ratio', 'no digits ns', 'ratio', 'length ns', 'of that'))
    for name, path, digits, layouts in samples.write_quoted(folder):
        for layout in layouts:
            rust = same = own = length = 1e18
            for _ in range(rounds):
                rust = min(rust, rust_time(oracle, layout[1:], digits))
                _, count, write, _ = said(bench, layout, digits).split()
                if not same_texts(layout[1:], digits, int(count)):
                    sys.exit('%s, %s: the Rust has another text' % (name, layout))
                same = min(same, float(write))
                _, also, write, tell = said(bench, layout, path).split()
                if also != count:
                    sys.exit('%s, %s: the texts are of different lengths' % (name, layout))
                own, length = min(own, float(write)), min(length, float(tell))
            print('%-16s %6s %12.0f %12.0f %7.2f %14.0f %7.2f %12.0f %7.2f' % (
                name, layout, rust, same, same / rust, own, own / rust, length, length / own), flush=True)


def main():
    words = sys.argv[1:]
    alone = words[:1] == ['quoted']
    rounds = int(words[alone]) if len(words) > alone else 3
    oracle, bench = builds.oracle(), builds.c_program('bench')
    with tempfile.TemporaryDirectory() as folder:
        if not alone:
            beside_rust(oracle, bench, folder, rounds)
        quoted(oracle, bench, folder, rounds)


if __name__ == '__main__':
    main()
