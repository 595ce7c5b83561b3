"""A host over the exported functions in Python, by the numbers of include/yuglasno.h: calls over bytes that are given beforehand."""
import ctypes
import os
import pathlib
import subprocess
import sys

from tables import in_header

ROOT = pathlib.Path(__file__).resolve().parent.parent
LIBRARY = pathlib.Path(os.environ.get('YUGLASNO_LIB') or ROOT / 'target' / 'staticlib').resolve() / 'libexports.a'
TABLES = in_header.tables({path: (ROOT / path).read_text() for path in in_header.SOURCES})
CALL, WHAT, KIND, ANSWER, AT = (TABLES[name] for name in ('calls', 'what', 'kinds', 'answers', 'words'))
LENGTHS = TABLES['lengths']
RECEIVED, CONSUMED, WRITTEN, READS = (TABLES['record'][name] for name in ('RECEIVED', 'CONSUMED', 'WRITTEN', 'READS'))
# by how much the reads of a call may pass the bytes that it consumed, unless it ends in one of these
CEILING, BROKEN_OFF = 8, (ANSWER['CLOSED'], ANSWER['IO'])
STAT_WORDS = ('MODE', 'SIZE', 'MTIME')
V2_WORDS = ('ERROR', 'DEV', 'INO', 'MODE', 'NLINK', 'UID', 'GID', 'SIZE', 'ATIME', 'MTIME', 'CTIME')


if not LIBRARY.is_file():
    sys.exit(f'no {LIBRARY}: run `.ci/build library`, or set YUGLASNO_LIB to the folder that has it')


def loaded(folder):
    """The static library, linked as a shared one in this folder."""
    shared = folder / 'libyuglasno.so'
    subprocess.run(['cc', '-shared', '-o', shared, '-Wl,--whole-archive', LIBRARY, '-Wl,--no-whole-archive'], check=True)
    library = ctypes.CDLL(str(shared))
    kinds = {'mut u8': ctypes.POINTER(ctypes.c_char), 'const u8': ctypes.c_char_p, 'usize': ctypes.c_size_t, 'u32': ctypes.c_uint32}
    kinds['i64'] = ctypes.c_int64
    for name, parameters in TABLES['functions'].items():
        function = getattr(library, name)
        function.restype, function.argtypes = ctypes.c_uint32, [kinds[p.rsplit(' ', 1)[0]] for p in parameters]
    return library


class Link:
    """The incoming bytes, which come `cut` at a time and then end; the reads that brought some; what is written, and whether it is closed."""

    def __init__(self, incoming, cut):
        self.incoming, self.cut, self.at, self.reads, self.written, self.closed = incoming, cut, 0, 0, b'', False

    def read(self, most):
        part = self.incoming[self.at:self.at + min(self.cut, most)]
        self.at += len(part)
        self.reads += bool(part)
        return part


class Session:
    """A session under the published ids, or those of an ids file; with the hours of an hours file, or none."""

    def __init__(self, library, banner, capacity=LENGTHS['CAPACITY'], ids=None, hours=None):
        self.library, self.capacity, self.well_counted = library, capacity, True
        settings = ctypes.create_string_buffer(LENGTHS['SETTINGS'])
        assert library.yuglasno_settings(settings, len(settings)) == ANSWER['OK']
        assert ids is None or library.yuglasno_ids(settings, len(settings), ids, len(ids)) == ANSWER['OK']
        assert hours is None or library.yuglasno_hours(settings, len(settings), hours, len(hours)) == ANSWER['OK']
        self.rec, self.rx, self.msg, self.out = (
            ctypes.create_string_buffer(n) for n in (LENGTHS['RECORD'], capacity, capacity, LENGTHS['REPLY']))
        opened = library.yuglasno_open(self.rec, len(self.rec), settings, len(settings), banner, len(banner), capacity, capacity)
        assert opened == ANSWER['OK']

    def word(self, i, signed=False):
        return int.from_bytes(self.out[8 * i:8 * i + 8], 'little', signed=signed)

    def in_record(self, *numbers):
        return tuple(int.from_bytes(self.rec[8 * i:8 * i + 8], 'little') for i in numbers)

    def counts(self, link, unread=0):
        """Whether the totals are what came over the link, all of it but the bytes that are unread, and what was written to it; and the reads of
        each call were those of the link, and under the ceiling."""
        totals = self.in_record(RECEIVED, CONSUMED, WRITTEN)
        return totals == (link.at, link.at - unread, len(link.written)) and self.well_counted

    def counts_reads(self, number, brought, before):
        """Whether so many reads are told of a call and are in the record, under the ceiling; a refusal tells none, and leaves the record's."""
        (consumed, reads), told = self.in_record(CONSUMED, READS), self.word(AT['READS'])
        if 0 < number < ANSWER['CLOSED'] or number == ANSWER['OUTSIDE_HOURS']:
            return (told, reads) == (0, before[1])
        return told == reads == brought and (brought <= consumed - before[0] + CEILING or number in BROKEN_OFF)

    def step(self, name, lent, *numbers):
        """One crossing: what is asked, and an answer's number."""
        slices = (self.rec, len(self.rec), self.rx, self.capacity, self.msg, self.capacity, lent, len(lent))
        told = getattr(self.library, 'yuglasno_' + name)(*slices, *numbers, self.out, len(self.out))
        return told & 255, told >> 8

    def take(self, what, lent, link):
        """Does what is asked, and reports it."""
        if what == WHAT['READ']:
            start, part = self.word(0), link.read(self.word(1))
            ctypes.memmove(ctypes.addressof(self.rx) + start, part, len(part))
            return self.step('read', lent, len(part)) if part else self.step('fault', lent, 0, 0)
        if what == WHAT['CLOSE']:
            link.closed = True
        elif what == WHAT['WRITE_BYTES']:
            link.written += self.out[8:8 + self.word(0)]
        else:
            place = self.rx if what == WHAT['WRITE_RX'] else lent
            link.written += place[self.word(0):self.word(0) + self.word(1)]
        return self.step('wrote', lent)

    def call(self, link, name, lent=b'', a=0, b=0, moment=0):
        """A call to its answer: see `answered`."""
        reads, before = link.reads, self.in_record(CONSUMED, READS)
        what, number = self.step('start', lent, CALL[name], a, b, moment)
        while what != WHAT['TOLD']:
            what, number = self.take(what, lent, link)
        self.well_counted &= self.counts_reads(number, link.reads - reads, before)
        return self.answered(number)

    def answered(self, number):
        """Its kind's name with numbers and bytes; of an answer that is not OK its number, with its number or its text."""
        start, length = self.word(AT['START']), self.word(AT['LENGTH'])
        if number == ANSWER['FAIL']:
            return number, self.msg[start:start + length]
        if number != ANSWER['OK']:
            return number, self.word(AT['NUMBER']) if number in (ANSWER['UNEXPECTED'], ANSWER['ERRNO'], ANSWER['MISSING']) else None
        kind = {n: name for name, n in KIND.items()}[self.word(AT['KIND'])]
        names = {'STAT': STAT_WORDS, 'ENTRY': STAT_WORDS}.get(kind) or [w for w in V2_WORDS if kind in ('STAT_V2', 'ENTRY_V2')]
        words = [self.word(AT['V2_' * kind.endswith('_V2') + name], name.endswith('TIME')) for name in names]
        bytes_of = [self.rx[start:start + length]] if kind in ('ENTRY', 'ENTRY_V2', 'CHUNK') else []
        return kind, *words, *bytes_of
