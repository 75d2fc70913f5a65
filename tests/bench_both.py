"""Two archives beside each other, in one run: the second's writing time over the first's, on the sample tapes (tests/samples.py), and so of writing with
always-quoted symbols, of reading a pass list and of converting it, clean and with control characters raw, where both archives have the call.

    python3 tests/bench_both.py BEFORE.a NOW.a [ROUNDS]

Where the linker puts the archive alone makes up to a tenth, so each is linked four times, 16 bytes further each time, and the mean of the four best
times counts. Processor time, all in turn.
"""
import os
import subprocess
import sys
import tempfile

import builds
import samples

PLACES = (0, 16, 32, 48)


def linked(archive, place, folder):
    program = os.path.join(folder, 'bench%d-%d' % (hash(archive) % 1000003, place))
    pad = os.path.join(folder, 'pad%d.h' % place)
    with open(pad, 'w', encoding='ascii') as f:
        f.write('__asm__(".text\\n.skip %d\\n");\n' % (64 + place))
    subprocess.run(['gcc', '-O2', '-include', pad, '-o', program, os.path.join(builds.ROOT, 'tests/bench.c'), archive], check=True)
    return program


def time_of(program, layout, path):
    said = subprocess.run([program, layout, path], stdout=subprocess.PIPE, check=True).stdout.decode()
    return float(said.split()[2]) if said else 1e18


def main():
    rounds = int(sys.argv[3]) if len(sys.argv) > 3 else 3
    with tempfile.TemporaryDirectory() as folder:
        programs = [[linked(os.path.abspath(a), place, folder) for place in PLACES] for a in sys.argv[1:3]]
        print('%-16s %6s %12s %12s %7s' % ('sample', 'layout', 'before ns', 'now ns', 'ratio'))
        tapes = os.path.join(folder, 'tapes')
        os.mkdir(tapes)
        quoted = [(name, path, layouts) for name, path, _, layouts in samples.write_quoted(tapes)]
        for name, path, layouts in sorted(samples.write(tapes)) + quoted + list(samples.write_texts(tapes)):
            for layout in layouts:
                best = [[1e18] * len(PLACES), [1e18] * len(PLACES)]
                for _ in range(rounds):
                    for k, of in enumerate(programs):
                        for i, program in enumerate(of):
                            best[k][i] = min(best[k][i], time_of(program, layout, path))
                before, now = (sum(b) / len(b) for b in best)
                if before < 1e18:
                    print('%-16s %6s %12.0f %12.0f %7.3f' % (name, layout, before, now, now / before), flush=True)


if __name__ == '__main__':
    main()
