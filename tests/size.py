"""The size of the static library: what the names of four features share with a fifth stands in it once; it asks for nothing from outside but two
functions of the C library; with the kit that docs/BENCHMARKS.md names, its code and read-only data are together no more than a note in docs/changes
says, and as that page has them. The last line is 'N passed, M failed'.

`size.py table` prints the table of docs/BENCHMARKS.md instead."""
import re
import shutil
import subprocess
import sys

from counted import Count
from host import LIBRARY, ROOT

# the first eight bytes of "sendrecv_v2", which the compiler keeps together in one number
SHARED = b'sendrecv'
# what a program that links the library has to bring
OUTSIDE = {'memcpy', 'memset'}
PARTS = ('code', 'read-only data', 'their sum', 'data that can change')


def sections():
    """The length of each section of each object in the library."""
    said = subprocess.run(['size', '-A', LIBRARY], check=True, capture_output=True, text=True).stdout
    return [(name, int(length)) for name, length in re.findall(r'^(\.\S+) +(\d+) +\d+$', said, re.M)]


def parts():
    def total(*begins):
        return sum(length for name, length in sections() if name.startswith(begins) and 'rel.ro' not in name)
    code, read_only, data = total('.text'), total('.rodata'), total('.data', '.bss')
    return dict(zip(PARTS, (code, read_only, code + read_only, data)))


def outside():
    """The names that the library takes from outside."""
    said = subprocess.run(['nm', '-u', LIBRARY], check=True, capture_output=True, text=True).stdout
    return set(re.findall(r'^ +U (\S+)$', said, re.M))


def number(text):
    return int(text.replace(',', ''))


def in_notes():
    """The greatest sum that a note says the library has after its request."""
    rows = [row for note in (ROOT / 'docs' / 'changes').glob('*.md') for row in re.findall(r'^\| their sum \|.*\| ([\d,]+) \|$', note.read_text(), re.M)]
    return max(map(number, rows), default=0)


def page():
    return (ROOT / 'docs' / 'BENCHMARKS.md').read_text()


def in_page():
    """The table of docs/BENCHMARKS.md."""
    return {name: number(length) for name, length in re.findall(r'^\| ([a-z -]+) \| ([\d,]+) \|$', page(), re.M) if name in PARTS}


def kit_of_page():
    """The kit whose compiler the sizes are of."""
    return re.search(r'^Measured with the kit (\S+ logic [0-9a-f]+)', page(), re.M)[1]


def kit_here():
    return subprocess.run(['rt', 'version'], capture_output=True, text=True).stdout.strip() if shutil.which('rt') else ''


def main():
    count, found = Count('size'), parts()
    times = LIBRARY.read_bytes().count(SHARED)
    count.check(times == 1, f'{SHARED.decode()} stands {times} times in the library, not once')
    count.check(outside() <= OUTSIDE, f'the library asks for {sorted(outside() - OUTSIDE)} from outside')
    count.check(set(in_page()) == set(PARTS), f'docs/BENCHMARKS.md has {in_page()}')
    if kit_here() == kit_of_page():
        count.check(found['their sum'] <= in_notes(), f"{found['their sum']} bytes of code and read-only data; the notes allow {in_notes()}")
        count.check(found == in_page(), f'{found}; docs/BENCHMARKS.md has {in_page()}: run rust/bench.sh')
    else:
        print(f'size: the sizes are of {kit_of_page()}, and this is {kit_here() or "no kit"}: they are LEFT OUT')
    count.finish()


if sys.argv[1:] == ['table']:
    print('| part | bytes |\n|---|---|')
    for name, length in parts().items():
        print(f'| {name} | {length} |')
else:
    main()
