"""Hours, over ctypes, beside a reader in Python (tests/week.py):

- hours files, good ones and damaged ones; what each leaves of the settings, and that ids stay;
- hours in settings with any byte altered, of `yuglasno_may_push` and of an opening, and the order of their answers;
- every minute of a week in the hours of many files, asked of settings and of a session, v1 and v2; the order of a push's refusals;
- pushes that begin in their hours and go on past them, byte for byte as without hours; pushes outside, of which nothing is left.

The last line is 'N passed, M failed'."""
import ctypes
import pathlib
import random
import tempfile

import host
from counted import Count
from week import HEADING, MINUTES, PLACE, any_spans, bytes_of, damaged, file_of, hours_in, lets, spans_of

ROOT = pathlib.Path(__file__).resolve().parent.parent
OK, SMALL_BUFFER, OTHER_LENGTH, BAD_IDS, BAD_HOURS, OUTSIDE = (
    host.ANSWER[name] for name in ('OK', 'SMALL_BUFFER', 'OTHER_LENGTH', 'BAD_IDS', 'BAD_HOURS', 'OUTSIDE_HOURS'))
SETTINGS, RECORD = (host.LENGTHS[name] for name in ('SETTINGS', 'RECORD'))
DAY, WEEK, LAST = 86400, 7 * 86400, 2 ** 32 - 1
MONDAY = 1704067200
BANNER = b'features=sendrecv_v2'
FILL = 0xEE


class Settings:
    """Settings of the library, whose bytes may be altered."""

    def __init__(self, library, length=SETTINGS):
        self.library, self.bytes = library, ctypes.create_string_buffer(bytes([FILL]) * length, length)
        library.yuglasno_settings(self.bytes, length)

    def load(self, file):
        return self.library.yuglasno_hours(self.bytes, len(self.bytes), file, len(file))

    def may_push(self, moment):
        return self.library.yuglasno_may_push(self.bytes, len(self.bytes), moment)

    def hours(self):
        return self.bytes.raw[PLACE['IN_SETTINGS']:PLACE['IN_SETTINGS'] + PLACE['SIZE']]

    def others(self):
        return self.bytes.raw[:PLACE['IN_SETTINGS']] + self.bytes.raw[PLACE['IN_SETTINGS'] + PLACE['SIZE']:]

    def opened(self, capacity=8):
        """The answer of an opening, and its record."""
        rec = ctypes.create_string_buffer(bytes([FILL]) * RECORD, RECORD)
        return self.library.yuglasno_open(rec, RECORD, self.bytes, len(self.bytes), b'', 0, capacity, capacity), rec.raw


def told_rows(count, library):
    """What document 02 says of one file, and of others."""
    settings = Settings(library)
    count.check(settings.may_push(0) == settings.may_push(LAST) == OK, 'without hours every moment will do')
    count.check(settings.load(HEADING + b'0,420,1080\n3,0,1440\n6,1439,1440\n') == OK, 'the file is taken')
    rows = {0: OK, 951782400: OUTSIDE, MONDAY + 25199: OUTSIDE, MONDAY + 25200: OK, MONDAY + 64799: OK, MONDAY + 64800: OUTSIDE, MONDAY - 61: OUTSIDE, MONDAY - 60: OK}
    for moment, answer in rows.items():
        count.check(settings.may_push(moment) == answer, f'a push at {moment}')
    before = settings.bytes.raw
    for lines in (b'0,60,60\n', b'00,0,1\n', b'+1,0,1\n', b'0,0,1', b'0,0,1\r\n', b'0,0,1\n0,2,3\n', b'7,0,1\n', b'0,0,1441\n', b'\n'):
        count.check(settings.load(HEADING + lines) == BAD_HOURS and settings.bytes.raw == before, f'{lines} is refused')
    for file in (b'', HEADING[:-1], HEADING.replace(b'\n', b'\r\n'), b'day,close,open\n'):
        count.check(settings.load(file) == BAD_HOURS and settings.bytes.raw == before, f'{file} is refused')
    count.check(settings.load(HEADING) == OK, 'the heading alone')
    count.check(all(settings.may_push(moment) == OUTSIDE for moment in range(0, WEEK, 60)), 'the heading alone: no moment will do')
    example = (ROOT / 'examples' / 'workshop.hours').read_bytes()
    count.check(settings.load(example) == OK and settings.hours() == bytes_of(hours_in(example)), 'examples/workshop.hours')


def files(count, library, chosen, many=20000):
    """Files good and damaged: the answer and every byte of the settings."""
    settings, taken, refused, wrong = Settings(library), 0, 0, []
    others = settings.others()
    for _ in range(many):
        file = file_of(any_spans(chosen))
        for _ in range(chosen.choice((0, 1, 1, 2))):
            file = damaged(chosen, file)
        spans, before = hours_in(file), settings.hours()
        expected = (BAD_HOURS, before) if spans is None else (OK, bytes_of(spans))
        taken, refused = taken + (spans is not None), refused + (spans is None)
        if (settings.load(file), settings.hours()) != expected or settings.others() != others:
            wrong.append(file)
    count.check(not wrong, f'{len(wrong)} hours files are read otherwise, such as {wrong[:3]}')
    count.check(min(taken, refused) > many // 4, f'{taken} files taken, {refused} refused')
    print(f'hours: {taken} files taken, {refused} refused')


def kept(count, library):
    """Ids and hours leave each other, and what is behind them, alone; settings of another length are left alone."""
    settings, file = Settings(library), file_of({0: (420, 1080)})
    ids = (ROOT / 'examples' / 'small-letters.ids').read_bytes()
    settings.bytes[SETTINGS - 1] = b'\x07'
    count.check(settings.load(file) == OK and settings.bytes.raw[-1] == 7, 'the room behind the hours stays')
    hours = settings.hours()
    count.check(library.yuglasno_ids(settings.bytes, SETTINGS, ids, len(ids)) == OK and settings.hours() == hours, 'ids keep the hours')
    count.check(settings.load(HEADING) == OK and settings.bytes.raw.startswith(b'statsta2'), 'hours keep the ids')
    for length in (0, 60, 92, SETTINGS - 1, SETTINGS + 1, 2 * SETTINGS):
        other = Settings(library, length)
        answers = other.load(file), other.load(b''), other.may_push(0)
        count.check(answers == (OTHER_LENGTH,) * 3 and other.bytes.raw == bytes([FILL]) * length, f'settings of {length} bytes')


def altered(count, library, chosen):
    """Hours in settings, byte by byte: an opening and `yuglasno_may_push` take those that a file puts there, and no others."""
    settings, wrong, met = Settings(library), [], {OK: 0, BAD_HOURS: 0}
    for _ in range(4000):
        hours = bytearray(bytes_of(chosen.choice((None, {}, any_spans(chosen), any_spans(chosen)))))
        for _ in range(chosen.choice((0, 1, 1, 2))):
            hours[chosen.choice((0, 0, 1, 2, 3, chosen.randrange(32)))] = chosen.choice((0, 1, 2, 5, 6, 160, 255))
        ctypes.memmove(ctypes.addressof(settings.bytes) + PLACE['IN_SETTINGS'], bytes(hours), len(hours))
        spans, moment = spans_of(bytes(hours)), chosen.randrange(2 ** 32)
        opened = BAD_HOURS if spans is False else OK
        push = opened or (OK if spans is None or lets(spans, moment) else OUTSIDE)
        answer, rec = settings.opened()
        well = rec[PLACE['IN_RECORD']:] == hours if opened == OK else rec == bytes([FILL]) * RECORD
        met[opened] += 1
        if (answer, settings.may_push(moment)) != (opened, push) or not well or settings.opened(7)[0] != SMALL_BUFFER:
            wrong.append(bytes(hours))
    count.check(not wrong, f'{len(wrong)} hours in settings are taken otherwise, such as {wrong[:2]}')
    count.check(min(met.values()) > 500, f'hours in settings: {met}')
    settings.bytes[3], settings.bytes[PLACE['IN_SETTINGS']] = b' ', b'\x02'
    count.check(settings.opened()[0] == BAD_IDS and settings.may_push(0) == BAD_HOURS, '22 is before 24, and of may_push only the hours count')


class Starts:
    """Starts of a push on copies of one session."""

    def __init__(self, library, spans):
        self.session = host.Session(library, BANNER, 32, hours=None if spans is None else file_of(spans))
        self.before = self.state()

    def state(self):
        return self.session.rec.raw, self.session.rx.raw, self.session.msg.raw

    def at(self, call, moment):
        """The answer to a start: 0 where it asks for a write, which is then forgotten. None where a refusal left something."""
        ctypes.memset(self.session.out, FILL, len(self.session.out))
        what, number = self.session.step('start', b'/a', host.CALL[call], 0o100644, 0, moment)
        if what == host.WHAT['TOLD']:
            words = tuple(self.session.word(i) for i in (0, 1, 2, host.AT['READS']))
            return number if self.state() == self.before and words == (host.KIND['OTHER'], 0, 0, 0) else None
        ctypes.memmove(self.session.rec, self.before[0], RECORD)
        ctypes.memmove(self.session.rx, self.before[1], len(self.before[1]))
        return OK


def weeks(count, library, chosen):
    """Every minute of a week, its first and its last second, in some year."""
    for spans in [{0: (420, 1080), 3: (0, 1440), 6: (1439, 1440)}, {}, {day: (0, MINUTES) for day in range(7)}, *(any_spans(chosen) for _ in range(4))]:
        settings, starts = Settings(library), Starts(library, spans)
        assert settings.load(file_of(spans)) == OK
        first = MONDAY + WEEK * chosen.randrange(-2800, 4200)
        wrong = []
        for minute in range(7 * MINUTES):
            opens, closes = spans.get(minute // MINUTES, (0, 0))
            expected = OK if opens <= minute % MINUTES < closes else OUTSIDE
            for moment in (first + 60 * minute, first + 60 * minute + 59):
                answers = settings.may_push(moment), starts.at('SEND', moment), starts.at('SEND_V2', moment)
                if answers != (expected,) * 3:
                    wrong.append((moment, answers))
        count.check(not wrong, f'{spans}: {len(wrong)} moments are answered otherwise, such as {wrong[:3]}')
    free = Starts(library, None)
    count.check(all(free.at('SEND', moment) == OK for moment in range(0, 2 ** 32, 9999991)), 'without hours every moment will do')


def order(count, library):
    """What is wrong with a push itself comes before its moment, and no other call has one."""
    link, packed = host.Link(b'', 1), 1
    session = host.Session(library, BANNER, 32, hours=HEADING)
    long = b'p' * (host.LENGTHS['PATH_MOST'] + 1)
    for path, flags, answer in ((b'a\0b', 3, 'NUL_IN_PATH'), (long + b'\0', 3, 'NUL_IN_PATH'), (long, 3, 'LONG_PATH'), (b'/a', 3, 'FLAGS'), (b'/a', packed, 'MISSING')):
        count.check(session.call(link, 'SEND_V2', path, 0, flags)[0] == host.ANSWER[answer], f'a push of {path[:4]} with flags {flags}, outside the hours')
    for path, answer in ((b'a\0b', 'NUL_IN_PATH'), (long, 'LONG_PATH'), (b'/a', 'OUTSIDE_HOURS')):
        count.check(session.call(link, 'SEND', path) == (host.ANSWER[answer], None), f'a push of {path[:4]}, outside the hours')
    for call, lent in (('RECV', b'/a'), ('LIST', b'/a'), ('DATA', b'x'), ('QUIT', b'')):
        count.check(session.call(link, call, lent) == ('DONE',), f'{call} has no hours')
    count.check(session.call(link, 'SEND', b'/a') == (host.ANSWER['ENDED'], None) and link.closed, 'a push after quit')


def pushes(count, library, chosen):
    """A push that begins in its hours is byte for byte that of a session without hours, whatever the later moments are; one outside leaves nothing."""
    data = chosen.randbytes(70000)
    for cut in (1, 3, 100):
        spans = any_spans(chosen) | {2: (600, 700)}
        inside, outside = MONDAY + 2 * DAY + 600 * 60, MONDAY + 2 * DAY + 700 * 60
        links = [host.Link(b'OKAY' + bytes(4), cut) for _ in range(2)]
        sessions = [host.Session(library, BANNER, hours=hours) for hours in (file_of(spans), None)]
        before = sessions[0].rec.raw
        refused = sessions[0].call(links[0], 'SEND', b'/a', 0o100644, 0, outside)
        count.check(refused == (OUTSIDE, None) and links[0].written == b'' and sessions[0].rec.raw == before, f'a push outside: {refused}')
        for session, link in zip(sessions, links):
            answers = [session.call(link, 'SEND_V2', b'/a', 0o100644, 0, inside), session.call(link, 'DATA', data, moment=outside)]
            answers.append(session.call(link, 'SEND_DONE', b'', 5, moment=outside))
            count.check(answers == [('DONE',)] * 3 and session.counts(link), f'a push that goes on, in reads of {cut}: {answers}')
        count.check(links[0].written == links[1].written and len(links[0].written) > len(data), 'the same bytes with hours and without')
        count.check(sessions[0].rec.raw[:PLACE['IN_RECORD']] == sessions[1].rec.raw[:PLACE['IN_RECORD']], 'the same record but for the hours')
        count.check(sessions[0].rec.raw[PLACE['IN_RECORD']:] == bytes_of(spans), 'the hours stay')


def main():
    count, chosen = Count('hours'), random.Random(1998)
    with tempfile.TemporaryDirectory() as folder:
        library = host.loaded(pathlib.Path(folder))
        told_rows(count, library)
        files(count, library, chosen)
        kept(count, library)
        altered(count, library, chosen)
        weeks(count, library, chosen)
        order(count, library)
        pushes(count, library, chosen)
    count.finish()


main()
