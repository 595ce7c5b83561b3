"""`yuglasno_heard`, over ctypes, beside requests that are written here with Python's struct module by SYNC.TXT and file_sync_protocol.h:

- requests of every kind and length, with anything behind them and cut off anywhere, under three tables of ids; a SEND's mode in every text;
- what is no request, 18, at once where its header says so, with nothing written; and what is answered ahead of that;
- every request of the recording in tests/captures.jsonl that is our host's.

The last line is 'N passed, M failed'."""
import ctypes
import pathlib
import random
import struct
import tempfile

import exchanges
import host
from counted import Count
from modes import SEND_MOST, mode_of, mode_texts

STORED = pathlib.Path(__file__).resolve().parent / 'captures.jsonl'
PATH_MOST, DATA_MOST, REPLY = (host.LENGTHS[name] for name in ('PATH_MOST', 'DATA_MOST', 'REPLY'))
OK, OTHER_LENGTH, BAD_REQUEST, BAD_IDS, EQUAL_IDS = (
    host.ANSWER[name] for name in ('OK', 'OTHER_LENGTH', 'BAD_REQUEST', 'BAD_IDS', 'EQUAL_IDS'))
AT = host.TABLES['words of a request']
FILL = 0xEE
TABLES = {'published': {}, 'small letters': exchanges.SMALL, 'in another order': exchanges.ROTATED}
MORE = dict.fromkeys(AT, 0)
FLAGS = [0, 1, 2, 4, 0x80000000, 0x80000001, 0x80000002, 0x80000004]
NO_FLAGS = [3, 5, 6, 7, 8, 0x40000000, 0x80000003, 0x80000008, 0xFFFFFFFF]
PATH_ONLY = {b'STAT': 'STAT', b'STA2': 'STAT_V2', b'LIST': 'LIST', b'LIS2': 'LIST_V2', b'RECV': 'RECV'}


class Listener:
    """The library's reader under a table of ids."""

    def __init__(self, library, table):
        self.library, self.settings = library, ctypes.create_string_buffer(host.LENGTHS['SETTINGS'])
        self.table = {name: table.get(name, name) for name in exchanges.PUBLISHED}
        file = b','.join(exchanges.PUBLISHED) + b'\n' + b','.join(self.table.values()) + b'\n'
        assert library.yuglasno_settings(self.settings, len(self.settings)) == OK
        assert library.yuglasno_ids(self.settings, len(self.settings), file, len(file)) == OK

    def heard(self, stream, settings=None, room=REPLY):
        """The words of what is told, by their names, or the answer; None where other bytes changed."""
        settings = self.settings if settings is None else settings
        out = ctypes.create_string_buffer(bytes([FILL]) * (room + 8), room + 8)
        answer = self.library.yuglasno_heard(settings, len(settings), stream, len(stream), out, room)
        told = 8 * len(AT) if answer == OK else 0
        if out.raw[told:] != bytes([FILL]) * (room + 8 - told):
            return None
        return {name: int.from_bytes(out.raw[8 * i:8 * i + 8], 'little') for name, i in AT.items()} if answer == OK else answer

    def message(self, name, body, behind=b''):
        return self.table[name] + struct.pack('<I', len(body)) + body + behind


def told(call, lent=0, first=0, flags=0, size=8):
    return {'CALL': host.CALL[call], 'START': 8, 'LENGTH': lent, 'FIRST': first, 'FLAGS': flags, 'SIZE': size}


def requests(listener, path, data):
    """Requests of every kind, each with what is to be told of it."""
    n = len(path)
    for name, call in PATH_ONLY.items():
        yield listener.message(name, path), told(call, n, size=8 + n)
    for flags in FLAGS[:4]:
        yield listener.message(b'RCV2', path, listener.table[b'RCV2'] + struct.pack('<I', flags)), told('RECV_V2', n, 0, flags, 16 + n)
    for flags in FLAGS:
        mode = random.Random(flags + n).randrange(2 ** 32)
        behind = listener.table[b'SND2'] + struct.pack('<II', mode, flags)
        yield listener.message(b'SND2', path, behind), told('SEND_V2', n, mode, flags, 20 + n)
    for text in (b'33188', b'0100644', b'0', b'4294967295', b'037777777777'):
        yield listener.message(b'SEND', path + b',' + text), told('SEND', n, mode_of(text), 0, 9 + n + len(text))
    yield listener.message(b'DATA', data), told('DATA', len(data), size=8 + len(data))
    for time in (0, 5, 2 ** 32 - 1):
        yield listener.table[b'DONE'] + struct.pack('<I', time), told('SEND_DONE', 0, time)
    yield listener.table[b'QUIT'] + bytes(4), told('QUIT')


def kinds(count, library, chosen):
    """Whole, with bytes behind, and cut off: at every byte, or where it is long at some."""
    paths = [b'', b'/a', b'/a,b,', bytes(range(1, 256)), b'p' * (PATH_MOST - 1), b'p' * PATH_MOST]
    for name, table in TABLES.items():
        listener = Listener(library, table)
        for path, data in zip(paths, (b'', b'\0', b'heights', bytes(300), bytes(DATA_MOST - 1), bytes(DATA_MOST)), strict=True):
            for message, expected in requests(listener, path, data):
                for behind in (b'', b'\0', chosen.randbytes(20)):
                    count.check(listener.heard(message + behind) == expected, f'{message[:40]} .., ids {name}')
                cuts = range(len(message)) if len(message) < 400 else [0, 7, 8, 9, len(message) // 2, len(message) - 1]
                count.check(all(listener.heard(message[:cut]) == MORE for cut in cuts), f'{message[:40]} .. cut off, ids {name}')


def modes(count, library):
    listener = Listener(library, {})
    for text in mode_texts():
        message, mode = listener.message(b'SEND', b'/j,' + text), mode_of(text)
        expected = BAD_REQUEST if mode is None else told('SEND', 2, mode, 0, len(message))
        count.check(listener.heard(message) == expected, f'the mode {text}')
        count.check(listener.heard(message[:-1]) == MORE, f'the mode {text}, but for its last byte')


def limits(count, library):
    """The args of headers at their limits: what is over one is refused at once."""
    for name, table in TABLES.items():
        listener = Listener(library, table)
        most = {b'SEND': SEND_MOST, b'DATA': DATA_MOST} | {each: PATH_MOST for each in (*PATH_ONLY, b'RCV2', b'SND2')}
        for each, limit in most.items():
            for arg in (limit - 1, limit, limit + 1, 2 ** 31, 2 ** 32 - 1):
                expected = BAD_REQUEST if arg > limit else MORE
                count.check(listener.heard(listener.table[each] + struct.pack('<I', arg)) == expected, f'{each} with arg {arg}, ids {name}')
        for length in range(PATH_MOST + 1, SEND_MOST - 1):
            count.check(listener.heard(listener.message(b'SEND', b'p' * length + b',0')) == BAD_REQUEST, f'a SEND of a path of {length}, ids {name}')


def none(listener):
    """What is no request."""
    for name in (b'OKAY', b'FAIL', b'DENT', b'DNT2'):
        yield listener.table[name] + bytes(4)
    for id_ in (b'LST2', b'\0\0\0\0', b'STAU', b'\xff\xff\xff\xff'):
        yield id_ + bytes(4)
    for arg in (1, 256, 2 ** 31):
        yield listener.table[b'QUIT'] + struct.pack('<I', arg)
    for at in (0, 5, PATH_MOST - 1):
        path = b'p' * at + b'\0' + b'p' * (PATH_MOST - 1 - at)
        yield from (listener.message(name, path) for name in PATH_ONLY)
        yield listener.message(b'SEND', path + b',0')
        yield listener.message(b'RCV2', path, listener.table[b'RCV2'] + bytes(4))
        yield listener.message(b'SND2', path, listener.table[b'SND2'] + bytes(8))
    for flags in [*NO_FLAGS, *FLAGS[4:]]:
        yield listener.message(b'RCV2', b'/a', listener.table[b'RCV2'] + struct.pack('<I', flags))
    for flags in NO_FLAGS:
        yield listener.message(b'SND2', b'/a', listener.table[b'SND2'] + struct.pack('<II', 33188, flags))
    yield listener.message(b'RCV2', b'/a', listener.table[b'RECV'] + bytes(4))
    yield listener.message(b'SND2', b'/a', listener.table[b'RCV2'] + bytes(8))
    yield from (listener.message(b'SEND', text) for text in (b'', b'/a', b'/a33188', b'/a,', b',', b'/a,33188,'))


def refused(count, library):
    for name, table in TABLES.items():
        listener = Listener(library, table)
        for message in none(listener):
            count.check(listener.heard(message) == listener.heard(message + b'\0') == BAD_REQUEST, f'{message[:60]}, ids {name}')


def ahead(count, library):
    """What is answered before the bytes are looked at: the slice for the reply, then the settings."""
    listener = Listener(library, {})
    good, streams = listener.settings.raw, (b'OKAY' + bytes(4), b'STAT' + bytes(4), b'')
    equal, bad = good[:56] + b'STAT' + good[60:], good[:59] + b' ' + good[60:]
    for stream in streams:
        for room in (0, 8, 48, REPLY - 1):
            for settings in (good, equal, bad, good[:-1]):
                count.check(listener.heard(stream, settings, room) == OTHER_LENGTH, f'{stream}, {room} bytes for the reply')
        for settings, expected in ((equal, EQUAL_IDS), (bad, BAD_IDS), (good[:-1], OTHER_LENGTH), (good + b'\0', OTHER_LENGTH), (b'', OTHER_LENGTH)):
            count.check(listener.heard(stream, settings) == expected, f'{stream}, settings answered {expected}')


def recorded(count, library):
    """What our host would have written of the recording, heard as the calls that write it."""
    listener, calls = Listener(library, {}), 0
    for line in STORED.read_text().splitlines():
        exchange = exchanges.Exchange(line)
        stream = exchange.asked
        for name, *lent in exchange.calls or ():
            words, path, numbers = listener.heard(stream), lent[0] if lent else b'', [*lent[1:], 0, 0]
            expected = told(name, len(path), *numbers[:2], exchanges.request(stream)[1])
            count.check(words == expected and stream[8:8 + len(path)] == path, f'{exchange.label}: {name} is heard as {words}')
            stream, calls = stream[expected['SIZE']:], calls + 1
    count.check(calls > 100, f'{calls} requests of the recording')


def main():
    count, chosen = Count('listen'), random.Random(1998)
    with tempfile.TemporaryDirectory() as folder:
        library = host.loaded(pathlib.Path(folder))
        kinds(count, library, chosen)
        modes(count, library)
        limits(count, library)
        refused(count, library)
        ahead(count, library)
        recorded(count, library)
    count.finish()


main()
