"""include/yuglasno.h, from C and from C++: tests/c/edges.c, tests/c/panel_side.c and tests/c/hours.c try what the header says; examples/pull.c pulls files of a
folder from the test panel over a pipe, compared with the files themselves; examples/push.c pushes to it in the hours of examples/workshop.hours, and not outside
them.

Over the static library in target/staticlib, or in the folder YUGLASNO_LIB. The last line is 'N passed, M failed'."""
import itertools
import os
import pathlib
import random
import re
import shutil
import subprocess
import tempfile

from counted import Count
from host import LIBRARY

ROOT = pathlib.Path(__file__).resolve().parent.parent
STRICT = ['-Wall', '-Wextra', '-Werror', '-pedantic', '-O2', '-I', str(ROOT / 'include')]
C, CPP = ['cc', '-std=c11', '-x', 'c'], ['c++', '-std=c++17', '-x', 'c++']
BANNERS = ['', 'features=stat_v2', 'device::features=ls_v2,stat_v2,sendrecv_v2']
LENGTHS = [0, 1, 13, 65536, 65537, 200000]
FAIL, ERRNO, BAD_HOURS, OUTSIDE_HOURS, USAGE, NOT_AS_SAID, NO_INPUT = 14, 16, 24, 25, 64, 65, 66
# 2024-01-01 07:00, a Monday, at which the hours of examples/workshop.hours begin
OPENS = 1704092400
# a panel that says so many bytes and a mode, and sends five
LYING = '''import struct, sys
mode, size = int(sys.argv[1], 8), int(sys.argv[2])
stat = b'STAT' + struct.pack('<III', mode, size, 5)
pull = b'DATA' + struct.pack('<I', 5) + b'bytes' + b'DONE' + bytes(4)
sys.stdout.buffer.write(stat + pull)
sys.stdout.flush()
sys.stdin.buffer.read()'''

count = Count('c')


def built(compiler, source, program):
    words = [*compiler, *STRICT, str(ROOT / source), '-x', 'none', str(LIBRARY), '-o', str(program)]
    done = subprocess.run(words, capture_output=True, text=True)
    count.check(done.returncode == 0, f'{" ".join(compiler)} {source}: {done.stderr}')
    return done.returncode == 0


def tried(folder, compiler, name):
    """The checks of a program of tests/c, each counted; under valgrind, where that is there, they are one more."""
    program = folder / name
    if not built(compiler, f'tests/c/{name}.c', program):
        return
    told = subprocess.run([program], capture_output=True, text=True).stdout
    verdict = re.search(r'^(\d+) passed, (\d+) failed$', told, re.M)
    count.check(verdict and int(verdict[1]) > 0, f'{name} has no verdict: {told}')
    if verdict:
        count.passed, count.failed = count.passed + int(verdict[1]), count.failed + int(verdict[2])
        print(told.rsplit('\n', 2)[0] if int(verdict[2]) else f'c: {name}, {compiler[1][5:]}: {verdict[0]}')
    if shutil.which('valgrind'):
        checked = subprocess.run(['valgrind', '-q', '--error-exitcode=1', program], capture_output=True)
        count.check(checked.returncode == 0, f'{name} under valgrind: {checked.stderr}')
    else:
        print('c: valgrind is not there: the run under it is left out')


def panel():
    subprocess.run(['cargo', 'build', '--offline', '-q', '-p', 'yuglasno', '--bin', 'panel'], cwd=ROOT / 'rust', check=True)
    return ROOT / 'rust' / 'target' / 'debug' / 'panel'


def pulls(folder):
    program, served = folder / 'pull', folder / 'served'
    if not built(C, 'examples/pull.c', program):
        return
    served.mkdir()
    for length in LENGTHS:
        (served / f'{length}.job').write_bytes(random.Random(length).randbytes(length))
        os.utime(served / f'{length}.job', (5, 892000000 + length))
    peer = [panel(), '--folder', served]
    for banner in BANNERS:
        for cut in ([], ['--cut', '777'], ['--cut', '1']):
            for file in sorted(served.iterdir()):
                one_pull([program, banner, '/' + file.name, *peer, *cut], file)
        missing = subprocess.run([program, banner, '/none.job', *peer], capture_output=True)
        count.check(missing.returncode == (ERRNO if 'stat_v2' in banner else FAIL), f'a missing job, {banner!r}: {missing}')
        count.check(missing.stdout == b'', f'a missing job, {banner!r}: bytes')
    for mode, size, expected in [('100644', 5, 0), ('100644', 6, NOT_AS_SAID), ('100644', 4, NOT_AS_SAID), ('120777', 9, 0)]:
        lying = subprocess.run([program, '', '/job', 'python3', '-c', LYING, mode, str(size)], capture_output=True, timeout=60)
        count.check(lying.returncode == expected and lying.stdout == b'bytes', f'5 bytes where {size} are said, mode {mode}: {lying}')


def one_pull(words, file):
    pulled, stat = subprocess.run(words, capture_output=True, timeout=60), file.stat()
    case = ' '.join(map(str, words[1:]))
    count.check(pulled.returncode == 0 and pulled.stdout == file.read_bytes(), f'{case}: not the file, status {pulled.returncode}')
    numbers = f'mode {stat.st_mode:o} size {stat.st_size} mtime {int(stat.st_mtime)}\n'
    count.check(pulled.stderr.decode() == numbers, f'{case}: {pulled.stderr!r} is not {numbers!r}')


def pushes(folder):
    program, served, hours = folder / 'push', folder / 'pushed', ROOT / 'examples' / 'workshop.hours'
    if not built(C, 'examples/push.c', program):
        return
    served.mkdir()
    job, bad = random.Random(1998).randbytes(70000), folder / 'bad.hours'
    bad.write_bytes(hours.read_bytes() + b'5,0,1\n')
    cases = [(hours, OPENS, 0), (hours, OPENS + 11 * 3600 - 1, 0), (hours, OPENS - 1, OUTSIDE_HOURS), (hours, OPENS + 11 * 3600, OUTSIDE_HOURS)]
    cases += [(bad, OPENS, BAD_HOURS), (folder / 'none', OPENS, NO_INPUT), (hours, -1, USAGE), (hours, 2 ** 32, USAGE), (hours, 'x', USAGE)]
    for banner in ('', 'features=sendrecv_v2'):
        for file, when, status in cases:
            words = [program, file, str(when), banner, '/new.job', panel(), '--folder', served]
            pushed = subprocess.run(words, input=job, capture_output=True, timeout=60)
            made = [(entry.read_bytes(), int(entry.stat().st_mtime)) for entry in served.iterdir()]
            count.check(pushed.returncode == status, f'a push at {when}, {banner!r}: {pushed}')
            count.check(made == ([] if status else [(job, when)]), f'a push at {when}, {banner!r}: {len(made)} files, or another')
            said = b'no push may start on Monday 2024-01-01 06:59 UTC' if when == OPENS - 1 else b''
            count.check(said in pushed.stderr, f'a push at {when}: {pushed.stderr}')
            (served / 'new.job').unlink(missing_ok=True)


def main():
    with tempfile.TemporaryDirectory() as name:
        folder = pathlib.Path(name)
        if not shutil.which(CPP[0]):
            print('c: no C++ compiler: the header as C++ is left out')
        for compiler, name in itertools.product([C, CPP] if shutil.which(CPP[0]) else [C], ('edges', 'panel_side', 'hours')):
            tried(folder, compiler, name)
        pulls(folder)
        pushes(folder)
    count.finish()


main()
