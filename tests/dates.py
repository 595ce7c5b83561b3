"""`yuglasno_date`, over ctypes, beside Python's datetime: every day from 1970 to 2106, every minute of some days, and random moments. The last line
is 'N passed, M failed'."""
import ctypes
import datetime
import pathlib
import random
import tempfile

import host
from counted import Count

OK, OTHER_LENGTH = (host.ANSWER[name] for name in ('OK', 'OTHER_LENGTH'))
DATE, REPLY = host.TABLES['words of a date'], host.LENGTHS['REPLY']
MINUTES, DAY, LAST = 1440, 86400, 2 ** 32 - 1
# 1970-01-01, 2000-02-29, 2024-01-01, and the last day
SOME_DAYS = (0, 951782400, 1704067200, DAY * (LAST // DAY))
FILL = 0xEE


def date(library, moment, room=REPLY):
    """The words of a date, or the answer; None where other bytes changed."""
    out = ctypes.create_string_buffer(bytes([FILL]) * room, room)
    answer = library.yuglasno_date(moment, out, room)
    behind = 8 * len(DATE) if answer == OK else 0
    if out.raw[behind:] != bytes([FILL]) * (room - behind):
        return None
    return tuple(int.from_bytes(out.raw[8 * i:8 * i + 8], 'little') for i in DATE.values()) if answer == OK else answer


def expected(moment):
    at = datetime.datetime(1970, 1, 1) + datetime.timedelta(seconds=moment)
    return at.year, at.month, at.day, at.weekday(), 60 * at.hour + at.minute


def dates(count, library, chosen):
    """Each day's first and last second, each minute's edges of some days, and random moments."""
    days = [moment for day in range(LAST // DAY + 1) for moment in (DAY * day, DAY * day + DAY - 1)]
    edges = [base + 60 * minute + second for base in SOME_DAYS for minute in range(MINUTES) for second in (-1, 0, 59)]
    some = [chosen.randrange(2 ** 32) for _ in range(50000)]
    for name, moments in {'every day': days, 'minutes': edges, 'random moments': some, 'the last and the first': [LAST, 0]}.items():
        asked = [moment for moment in moments if 0 <= moment <= LAST]
        wrong = [moment for moment in asked if date(library, moment) != expected(moment)]
        count.check(asked and not wrong, f'{name}: {len(wrong)} of {len(asked)} are others, such as {wrong[:3]}')
        print(f'dates: {name}: {len(asked)}')


def rooms(count, library):
    for room in (0, 8, 40, REPLY - 1):
        count.check(date(library, 0, room) == OTHER_LENGTH, f'a date into {room} bytes')
    count.check(date(library, 0, REPLY + 1) == (1970, 1, 1, 3, 0), 'a date into a byte more')


def main():
    count = Count('dates')
    with tempfile.TemporaryDirectory() as folder:
        library = host.loaded(pathlib.Path(folder))
        count.check(list(DATE) == ['YEAR', 'MONTH', 'DAY', 'WEEKDAY', 'MINUTE'], f'the words of a date: {DATE}')
        dates(count, library, random.Random(1998))
        rooms(count, library)
    count.finish()


main()
