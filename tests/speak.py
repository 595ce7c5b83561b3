"""`yuglasno_speak`, over ctypes, beside a writer in Python (tests/replies.py):

- every kind of reply, with fields of every bit pattern and names, data and texts of any bytes, byte for byte, under three tables of ids;
- buffers to the last byte, and what is answered 3 or 20, with nothing written; the limits of data, and of a name and a text of 2^32 bytes;
- every reply of AOSP's own service in tests/captures.jsonl, said again byte for byte;
- lists of replies that a fresh session with all seven features reads back, in reads of 1, 3, 7 and of all bytes; its totals and reads.

The last line is 'N passed, M failed'."""
import collections
import ctypes
import mmap
import pathlib
import random
import struct
import tempfile

import exchanges
import host
import replies
from counted import Count

STORED = pathlib.Path(__file__).resolve().parent / 'captures.jsonl'
PACKINGS = b'sendrecv_v2_brotli,sendrecv_v2_lz4,sendrecv_v2_zstd,sendrecv_v2_dry_run_send'
BANNER = b'features=stat_v2,ls_v2,sendrecv_v2,' + PACKINGS
SAY, SPOKEN = host.TABLES['kinds of a reply'], host.TABLES['words of a reply']
DATA_MOST, REPLY = host.LENGTHS['DATA_MOST'], host.LENGTHS['REPLY']
OK, OTHER_LENGTH, LONG_REPLY = (host.ANSWER[name] for name in ('OK', 'OTHER_LENGTH', 'LONG_REPLY'))
FILL = 0xEE
TABLES = {'published': {}, 'small letters': exchanges.SMALL, 'in another order': exchanges.ROTATED}
# the replies of AOSP's service in the recording
RECORDED = {
    'STAT': 9, 'STAT_V2': 9, 'ENTRY': 18, 'LISTING_END': 5, 'ENTRY_V2': 21, 'LISTING_END_V2': 5, 'OKAY': 23, 'FAIL': 31, 'CHUNK': 21, 'END': 17,
}


class Speaker:
    """The library's writer under a table of ids."""

    def __init__(self, library, table):
        self.library, self.settings = library, ctypes.create_string_buffer(host.LENGTHS['SETTINGS'])
        file = ids_file(table)
        assert library.yuglasno_settings(self.settings, len(self.settings)) == OK
        assert library.yuglasno_ids(self.settings, len(self.settings), file, len(file)) == OK

    def crossed(self, kind, numbers, lent, room, told_len=REPLY):
        """The answer, the buffer and what is told, all of which were filled before."""
        out, told = (ctypes.create_string_buffer(bytes([FILL]) * n, n) if n else ctypes.create_string_buffer(1) for n in (room, told_len))
        slices = self.settings, len(self.settings), kind, numbers, len(numbers), lent, len(lent), out, room, told, told_len
        return self.library.yuglasno_speak(*slices), out.raw[:room], told.raw[:told_len]

    def said(self, reply, room=None):
        """The bytes of a reply; its answer where it is refused; None where other bytes changed."""
        kind, numbers, lent = reply
        room = len(replies.written(reply)) if room is None else room
        answer, out, told = self.crossed(SAY[kind], words(numbers), lent, room)
        if answer != OK:
            return answer
        at = 8 * SPOKEN['LENGTH']
        length = int.from_bytes(told[at:at + 8], 'little')
        as_it_was = told[8:] == bytes([FILL]) * (REPLY - 8) and out[length:] == bytes([FILL]) * max(room - length, 0)
        return out[:length] if as_it_was else None


def ids_file(table):
    return b','.join(exchanges.PUBLISHED) + b'\n' + b','.join(table.get(name, name) for name in exchanges.PUBLISHED) + b'\n'


def words(numbers):
    return b''.join((number % 2 ** 64).to_bytes(8, 'little') for number in numbers)


def bits(chosen, letter):
    """A number of any bit pattern of its field, often one at an edge."""
    width = struct.calcsize('<' + letter)
    pattern = chosen.choice((bytes(width), b'\xff' * width, b'\1' + bytes(width - 1), bytes(width - 1) + b'\x80', chosen.randbytes(width)))
    return struct.unpack('<' + letter, pattern)[0]


def any_reply(chosen, kind, most=300):
    layout, behind = replies.LAYOUTS[kind][1:]
    lent = b'' if behind is not None else chosen.choice((b'', b'T98', chosen.randbytes(chosen.randrange(most)), bytes(chosen.randrange(most))))
    return kind, tuple(bits(chosen, letter) for letter in layout[1:]), lent


# ---- byte for byte


def kinds(count, library, chosen):
    """Any fields and any bytes, under each table."""
    for name, table in TABLES.items():
        speaker = Speaker(library, table)
        for kind in replies.LAYOUTS:
            for _ in range(150):
                reply = any_reply(chosen, kind)
                count.check(speaker.said(reply) == replies.written(reply, table), f'{str(reply)[:300]}, ids {name}')


def rooms(count, library, chosen):
    """A buffer that just holds the reply, one with bytes to spare, and each shorter one."""
    speaker = Speaker(library, {})
    for kind in replies.LAYOUTS:
        reply = any_reply(chosen, kind, 30)
        whole = replies.written(reply)
        for spare in (1, 7, 1000):
            count.check(speaker.said(reply, len(whole) + spare) == whole, f'{reply}, {spare} bytes to spare')
        for room in range(len(whole)):
            answer, out, told = speaker.crossed(SAY[kind], words(reply[1]), reply[2], room)
            untouched = out == bytes([FILL]) * room and told == bytes([FILL]) * REPLY
            count.check(answer == LONG_REPLY and untouched, f'{kind} of {len(whole)} bytes into {room}: {answer}')


def sizes(count, library):
    speaker = Speaker(library, {})
    for kind in ('CHUNK', 'FAIL', 'ENTRY', 'ENTRY_V2'):
        numbers = (0,) * (len(replies.LAYOUTS[kind][1]) - 1)
        for length in (DATA_MOST - 1, DATA_MOST, DATA_MOST + 1, 2 * DATA_MOST):
            reply = kind, numbers, random.Random(length).randbytes(length)
            refused = kind == 'CHUNK' and length > DATA_MOST
            expected = LONG_REPLY if refused else replies.written(reply)
            count.check(speaker.said(reply) == expected, f'{kind} of {length} bytes')
    longest(count, speaker)


def longest(count, speaker):
    """A name or text of 2^32 bytes, in a buffer that would hold it: pages that nobody reads or writes take no memory."""
    length, room = 2 ** 32, 2 ** 32 + 4096
    with mmap.mmap(-1, length) as lent, mmap.mmap(-1, room) as out:
        source, target = ctypes.c_char.from_buffer(lent), ctypes.c_char.from_buffer(out)
        told = ctypes.create_string_buffer(bytes([FILL]) * REPLY, REPLY)
        for kind in ('FAIL', 'ENTRY', 'ENTRY_V2', 'CHUNK'):
            slices = ctypes.cast(ctypes.byref(source), ctypes.c_char_p), length, ctypes.pointer(target), room, told, REPLY
            answer = speaker.library.yuglasno_speak(speaker.settings, len(speaker.settings), SAY[kind], bytes(88), 88, *slices)
            untouched = told.raw == bytes([FILL]) * REPLY and out[:4096] == bytes(4096)
            count.check(answer == LONG_REPLY and untouched, f'{kind} of 2^32 bytes: {answer}')
        del source, target, slices


def misplaced(count, library):
    """Kinds that are none, numbers that are short, too wide for their field or in front of others, a slice that is too short."""
    speaker = Speaker(library, {})

    def refused(kind, numbers, what, room=1000, told_len=REPLY):
        answer, out, told = speaker.crossed(kind, numbers, b'T98', room, told_len)
        untouched = out == bytes([FILL]) * room and told == bytes([FILL]) * told_len
        count.check(answer == OTHER_LENGTH and untouched, f'{what}: {answer}')

    for kind in (10, 11, 14, 255, 256, 2 ** 31, 2 ** 32 - 1):
        refused(kind, bytes(88), f'kind {kind}')
        refused(kind, bytes(88), f'kind {kind}, no room', 0)
    for name, kind in SAY.items():
        layout = replies.LAYOUTS[name][1][1:]
        for length in range(8 * len(layout)):
            refused(kind, bytes(length), f'{name} with {length} bytes of numbers')
        for i, letter in enumerate(layout):
            for wide in (2 ** 32, 2 ** 63, 2 ** 64 - 1) if letter == 'I' else ():
                refused(kind, bytes(8 * i) + words([wide]) + bytes(88), f'{name}, number {i} is {wide}')
        for told_len in (0, 7, 8, REPLY - 1):
            refused(kind, bytes(88), f'{name}, {told_len} bytes for its length', told_len=told_len)
        answer, out, _ = speaker.crossed(kind, bytes(8 * len(layout)) + bytes([FILL]) * 9, b'', 1000)
        whole = replies.written((name, (0,) * len(layout), b''))
        count.check(answer == OK and out.startswith(whole), f'{name}, bytes behind its numbers: {answer}')


# ---- what was said, again


def again(count, library):
    """Every reply of the recording by itself, and all that the service said in an exchange. DONE of a listing is compared with all its bytes."""
    speaker, met, foreign = Speaker(library, {}), collections.Counter(), []
    for line in STORED.read_text().splitlines():
        exchange = exchanges.Exchange(line)
        made, left = replies.taken_apart(exchange.said, exchange.calls or exchange.reading)
        for reply, recorded in made:
            met[reply[0]] += 1
            count.check(speaker.said(reply) == recorded, f'{exchange.label}: {reply[0]} is {recorded[:80].hex(" ")} in the recording')
        count.check(b''.join(recorded for _, recorded in made) + left == exchange.said, f'{exchange.label}: not taken apart')
        foreign += [(exchange.label, left[:4])] * bool(left)
    count.check(met == RECORDED, f'the recording has {dict(met)}')
    count.check(all(id_ == b'LST2' for _, id_ in foreign) and len(foreign) == 3, f'not to be said: {foreign}')
    print(f'speak: {sum(met.values())} replies of the recording said again; LST2, which no call of ours asks for, is not: {len(foreign)}')


# ---- read back


def answer_to(reply):
    """What a session is to answer to a reply."""
    kind, numbers, lent = reply
    if kind == 'FAIL':
        return host.ANSWER['FAIL'], lent
    if kind == 'STAT_V2' and numbers[0]:
        return host.ANSWER['ERRNO'], numbers[0]
    if kind in ('END', 'LISTING_END', 'LISTING_END_V2'):
        return ('END',)
    return ('DONE',) if kind == 'OKAY' else (kind, *numbers, *([lent] if kind in ('ENTRY', 'ENTRY_V2', 'CHUNK') else []))


CALLS = {
    'STAT': 'STAT', 'STAT_V2': 'STAT_V2', 'ENTRY': 'NEXT_ENTRY', 'LISTING_END': 'NEXT_ENTRY', 'ENTRY_V2': 'NEXT_ENTRY_V2',
    'LISTING_END_V2': 'NEXT_ENTRY_V2', 'CHUNK': 'RECV_NEXT', 'END': 'RECV_NEXT', 'OKAY': 'SEND_DONE',
}
READING = sorted(set(CALLS.values()))


def least(reply):
    """The smallest receive buffer that holds its record, its name or text, or its DATA message."""
    whole, lent = len(replies.written(reply)), len(reply[2])
    return whole if reply[0] == 'CHUNK' else max(whole - lent, lent)


def read_back(count, library, chosen):
    """Any list of replies, each read by the call it belongs to, a FAIL by any that reads."""
    for name, table in TABLES.items():
        speaker = Speaker(library, table)
        for _ in range(100):
            listed = [any_reply(chosen, chosen.choice(list(SAY))) for _ in range(chosen.randrange(12))]
            made = [(reply, CALLS.get(reply[0]) or chosen.choice(READING)) for reply in listed]
            stream = b''.join(speaker.said(reply) for reply, _ in made)
            capacity = max([8, *map(least, listed)])
            for cut in (1, 3, 7, len(stream) + 1):
                session, link = host.Session(library, BANNER, capacity, ids_file(table)), host.Link(stream, cut)
                answers = [session.call(link, call, b'/a' if call in ('STAT', 'STAT_V2') else b'') for _, call in made]
                well = answers == [answer_to(reply) for reply, _ in made] and link.at == len(stream)
                count.check(well, f'in reads of {cut}, ids {name}: answered {str(answers)[:300]} to {str(made)[:300]}')
                count.check(session.counts(link), f'in reads of {cut}, ids {name}: other totals or reads, of {str(made)[:300]}')


def main():
    count, chosen = Count('speak'), random.Random(1998)
    with tempfile.TemporaryDirectory() as folder:
        library = host.loaded(pathlib.Path(folder))
        kinds(count, library, chosen)
        rooms(count, library, chosen)
        sizes(count, library)
        misplaced(count, library)
        again(count, library)
        read_back(count, library, chosen)
    count.finish()


main()
