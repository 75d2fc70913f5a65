"""What the scripts that compare and measure run: our archive, and under target/ C programs of this folder over it, and the oracle."""
import os
import subprocess
import sys

ROOT = os.path.dirname(os.path.dirname(os.path.abspath(__file__)))
TARGET = os.path.join(ROOT, 'target')
LIBRARY = os.path.join(ROOT, 'crates/ion_c')
ORACLE = os.path.join(TARGET, 'oracle/release/oracle')


def archive():
    """libion_c.a in the folder LECHUQTA_LIB_DIR if that is set, else the one that `rt lib` in crates/ion_c makes."""
    if 'LECHUQTA_LIB_DIR' in os.environ:
        return os.path.join(os.environ['LECHUQTA_LIB_DIR'], 'libion_c.a')
    print('proving and building the library (rt lib in crates/ion_c), some minutes the first time', file=sys.stderr, flush=True)
    subprocess.run(['rt', 'lib'], cwd=LIBRARY, check=True, stdout=subprocess.DEVNULL)
    return os.path.join(LIBRARY, 'out/libion_c.a')


def c_program(name, *more):
    """The program of NAME.c over the archive."""
    os.makedirs(TARGET, exist_ok=True)
    made = os.path.join(TARGET, name)
    subprocess.run(['cc', '-O2', '-o', made, os.path.join(ROOT, 'tests', name + '.c'), archive(), *more], check=True)
    return made


def oracle():
    """The program that gives the Rust's texts (tests/oracle)."""
    if not os.path.exists(ORACLE):
        sys.exit('there is no oracle: ION_RUST_FILES=folder tests/oracle/build makes it, for whoever has the files of ion-rust')
    return ORACLE
