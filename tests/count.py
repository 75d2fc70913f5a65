"""Instructions and taken branches of one call that writes a sample tape (tests/samples.py), and instructions of one that tells its text's
length; the same of the calls with always-quoted symbols; and the first two of one that reads or converts a sample text; by valgrind's callgrind on
our archive.

    python3 tests/count.py

The archive is the one that `rt lib` in crates/ion_c makes, or that of the folder LECHUQTA_LIB_DIR. The counts do not depend on the machine's
clock or on what else it does, so a small change of the code can be told from none. Taken branches are jumps, conditional jumps where
they jump, calls and returns.
"""
import os
import re
import subprocess
import tempfile

import builds
import samples

COLUMNS = [('0', name) for name in ('record', 'passlist', 'ints', 'symbols', 'decimals', 'strings', 'escapes', 'deep')]
COLUMNS += [('tree', name) for name in ('record', 'passlist', 'annotated')]
# The calls with always-quoted symbols.
QUOTED = [('q0', name) for name in ('identifiers', 'symbols', 'record', 'passlist')] + [('qtree', name) for name in ('passlist', 'annotated')]


def counted(bench, how, call, layout, path):
    """The instructions of the call, and the taken branches of it and of what is called before it. Callgrind has a line for each place that
    jumps or calls: `jump=times`, `jcnd=taken/times`, `calls=times`; each call also returns."""
    out = path + '.counts'
    subprocess.run(['valgrind', '--tool=callgrind', '--collect-atstart=no', '--toggle-collect=' + call, '--collect-jumps=yes', '--dump-instr=yes',
                    '--callgrind-out-file=' + out, bench, how, layout, path], check=True, stdout=subprocess.DEVNULL, stderr=subprocess.DEVNULL)
    with open(out) as f:
        said = f.read()

    def times(kind):
        return sum(map(int, re.findall('^%s=([0-9]+)' % kind, said, re.M)))
    return int(re.search(r'^(?:summary|totals): (\d+)', said, re.M)[1]), times('jump') + times('jcnd') + 2 * times('calls')


def main():
    bench = builds.c_program('bench')
    print('%-26s %14s %16s %14s' % ('sample', 'instructions', 'taken branches', 'of the length'))
    with tempfile.TemporaryDirectory() as folder:
        paths = {name: path for name, path, *_ in (*samples.write_quoted(folder), *samples.write(folder))}
        for layout, name in COLUMNS + QUOTED:
            tree, quoted = 'tree' in layout, layout[0] == 'q'
            write, tell = (call + '_quoted' * quoted for call in (('ion_write_tree', 'ion_tree_length') if tree else ('ion_write', 'ion_length')))
            counts = [*counted(bench, 'once', write, layout, paths[name]), counted(bench, 'both', tell, layout, paths[name])[0]]
            print('%-26s %14s %16s %14s' % (name + ', tree' * tree + ', quoted' * quoted, *map('{:,}'.format, counts)), flush=True)
        for name, path, calls in samples.write_texts(folder):
            for call in calls:
                counts = counted(bench, 'once', 'ion_' + call, call, path)
                print('%-26s %14s %16s' % ('%s, %s' % (name, call), *map('{:,}'.format, counts)), flush=True)


if __name__ == '__main__':
    main()
