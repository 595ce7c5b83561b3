"""Where cargo finds the static library: an absolute YUGLASNO_LIB, one that is relative to where cargo is called or to the repository, none
at all; and one sentence where it isn't there. The last line is 'N passed, M failed'."""
import os
import pathlib
import subprocess
import tempfile

from counted import Count
from host import LIBRARY

ROOT = pathlib.Path(__file__).resolve().parent.parent
HELP = 'run `.ci/build library` in the repository, or set YUGLASNO_LIB to the folder that has it'


def checked(target, called_in, named):
    """`cargo check` in this folder, with this YUGLASNO_LIB."""
    words = ['cargo', 'check', '--offline', '-q', '-p', 'yuglasno', '--lib', '--target-dir', target, '--manifest-path', ROOT / 'rust' / 'Cargo.toml']
    environment = os.environ | {'YUGLASNO_LIB': str(named), 'PWD': str(called_in), 'RUST_BACKTRACE': '1'}
    return subprocess.run(words, cwd=called_in, env=environment, capture_output=True, text=True)


def main():
    count = Count('library')
    folder = LIBRARY.parent
    with tempfile.TemporaryDirectory() as name:
        target = pathlib.Path(name)
        places = [(ROOT, folder), (ROOT, os.path.relpath(folder, ROOT)), (ROOT / 'rust', os.path.relpath(folder, ROOT / 'rust'))]
        places += [(target, os.path.relpath(folder, ROOT)), (target, os.path.relpath(folder, target))]
        for called_in, named in places:
            done = checked(target, called_in, named)
            count.check(done.returncode == 0, f'{named} from {called_in}: {done.stderr}')
        for named in ('nowhere', '/nowhere'):
            done = checked(target, ROOT, named)
            said = [line for line in done.stderr.splitlines() if 'libexports.a' in line]
            count.check(done.returncode != 0 and said == [f'error: yuglasno@0.1.0: no libexports.a in {named}: {HELP}'], f'{named}: {done.stderr}')
            count.check('panicked' not in done.stderr and 'backtrace' not in done.stderr, f'{named}: {done.stderr}')
    count.finish()


main()
