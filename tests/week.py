"""Hours as Python reads and writes them, by `re`, `int`, `struct` and `datetime`: files, the 32 bytes of settings, and which moments they let in."""
import datetime
import re
import struct

from host import TABLES

PLACE = TABLES['hours']
HEADING = b'day,open,close\n'
MINUTES = 1440
NUMBER = rb'(0|[1-9][0-9]{0,9})'


def hours_in(file):
    """The spans of a file by their days; None where it is refused."""
    if not re.fullmatch(re.escape(HEADING) + rb'(?:' + rb','.join([NUMBER] * 3) + rb'\n)*', file):
        return None
    spans, before = {}, -1
    for line in file[len(HEADING):].split(b'\n')[:-1]:
        day, opens, closes = map(int, line.split(b','))
        if not (before < day <= 6 and 0 <= opens < closes <= MINUTES):
            return None
        spans[day] = opens, closes
        before = day
    return spans


def bytes_of(spans):
    """The 32 bytes of hours; None are no hours."""
    if spans is None:
        return bytes(PLACE['SIZE'])
    return struct.pack('<B3x14H', 1, *(minute for day in range(7) for minute in spans.get(day, (0, 0))))


def spans_of(hours):
    """The spans in 32 bytes; False where no file puts such bytes there."""
    flag, *minutes = struct.unpack('<I14H', hours)
    spans = {day: (minutes[2 * day], minutes[2 * day + 1]) for day in range(7) if minutes[2 * day:2 * day + 2] != [0, 0]}
    if flag == 0:
        return None if not any(minutes) else False
    well = flag == 1 and all(opens < closes <= MINUTES for opens, closes in spans.values())
    return spans if well else False


def lets(spans, moment):
    """Whether a push may start, by Python's own calendar."""
    at = datetime.datetime.fromtimestamp(moment, datetime.timezone.utc)
    opens, closes = spans.get(at.weekday(), (0, 0))
    return opens <= 60 * at.hour + at.minute < closes


def file_of(spans):
    return HEADING + b''.join(b'%d,%d,%d\n' % (day, *spans[day]) for day in sorted(spans))


def any_spans(chosen):
    spans = {}
    for day in range(7):
        if chosen.random() < 0.6:
            opens = chosen.choice((0, 420, MINUTES - 1, chosen.randrange(MINUTES)))
            spans[day] = opens, chosen.choice((opens + 1, MINUTES, chosen.randrange(opens + 1, MINUTES + 1)))
    return spans


def damaged(chosen, file):
    """The file with one thing altered, which may leave it a good one."""
    at = chosen.randrange(len(file) + 1)
    lines = file.split(b'\n')
    match chosen.randrange(8):
        case 0: return file[:at]
        case 1: return file[:at] + file[at + 1:]
        case 2: return file[:at] + bytes([chosen.choice(b'\n\r, 0123456789+-\0x')]) + file[at:]
        case 3: return file[:at] + bytes([chosen.choice(b'\n\r, 0123456789+-\0x')]) + file[at + 1:]
        case 4: return file + chosen.choice((b'\n', b'6,0,1\n', b'7,0,1\n', b'6,0,1441\n', b'06,0,1\n', b'6,1,1\n', b'6,0,4294967297\n', b'6,0,1', b' '))
        case 5: return file.replace(b'\n', b'\r\n')
        case 6: return b'\n'.join(chosen.sample(lines, len(lines)))
        case _: return b'\n'.join(lines[:1] + [chosen.choice(lines)] + lines[1:])
