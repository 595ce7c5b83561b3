"""The exchanges of tests/captures.jsonl: the requests that were written as calls of our host, by the public documents and with none of the
library's code; what the replies mean, as answers; whether the service read, refused or missed a request; and the same under other ids."""
import copy
import itertools
import json
import re
import stat
import struct

import host

PATH_ONLY = {b'STAT': 'STAT', b'STA2': 'STAT_V2', b'LIST': 'LIST', b'LIS2': 'LIST_V2', b'RECV': 'RECV'}
V2 = {b'RCV2': ('RECV_V2', 8), b'SND2': ('SEND_V2', 12)}
IDS = {name: id_.decode() for id_, name in PATH_ONLY.items()} | {'RECV_V2': 'RCV2', 'SEND': 'SEND', 'SEND_V2': 'SND2', 'DATA': 'DATA'}
ONE_PACKING, DRY_RUN, KNOWN = (0, 1, 2, 4), 0x80000000, 0x80000007
PATH_MOST, DATA_MOST = 1024, 65536
FAIL, UNEXPECTED, ERRNO = (host.ANSWER[name] for name in ('FAIL', 'UNEXPECTED', 'ERRNO'))
LST2 = int.from_bytes(b'LST2', 'little')
# the FAILs that say that a request is not well formed, and those that say that it did not come whole
OF_FORM = r'path too long|missing , in ID_SEND_V1|bad mode|unknown command|multiple compression|unknown flags|invalid data|oversize data'
OF_THE_END = r'command read failure|filename read failure'


class Exchange:
    """What was asked and said, and the data in it; the calls that ask it, where they are ours, and those that read the reply; the modes of
    the regular files that were there afterwards; an ids file, where the ids are not the published ones."""

    def __init__(self, line):
        entry = json.loads(line)
        self.label, self.meaning = entry['label'], entry['meaning']
        wrote = {'client': [], 'server': []}
        for part in entry['traffic']:
            wrote[part['from']].append(bytes.fromhex(part['hex']))
        self.asked, self.said = b''.join(wrote['client']), b''.join(wrote['server'])
        # the service writes a DATA's header and its data apart
        self.data = b''.join(data for header, data in itertools.pairwise(wrote['server']) if header[:4] == b'DATA' and len(header) == 8)
        self.calls, self.ids = ours(self.asked), None
        self.reading = self.calls or list(reading(self.meaning))
        modes = {file['path'].encode(): int(file['mode'], 0) for file in entry.get('after', []) if file['exists']}
        self.files = {path: mode for path, mode in modes.items() if stat.S_ISREG(mode)}


# ---- requests


def second_packet(name, packet):
    """Mode and flags behind an RCV2's or SND2's path; None where our host writes no such packet."""
    if len(packet) < V2[name][1] or packet[:4] != name:
        return None
    mode, flags = (0, *struct.unpack('<I', packet[4:])) if name == b'RCV2' else struct.unpack('<II', packet[4:])
    wrong = flags & ~KNOWN or flags & 7 not in ONE_PACKING or name == b'RCV2' and flags & DRY_RUN
    return None if wrong else (mode, flags)


def with_path(name, n, body):
    """The call with a path that a header and what follows are, and the bytes behind the header; None where it is none of ours."""
    path = body[:n]
    if name in PATH_ONLY:
        return PATH_ONLY[name], (path,), n
    if name in V2:
        call, extra = V2[name]
        packet = second_packet(name, body[n:n + extra])
        return packet and (call, (path, *packet), n + extra)
    path, comma, mode = path.rpartition(b',')
    if name != b'SEND' or not comma or not re.fullmatch(rb'0|[1-9][0-9]{0,9}', mode) or int(mode) >= 2 ** 32:
        return None
    return 'SEND', (path, int(mode)), n


def request(stream):
    """The call of the first request, and its length; None where our host writes no such request, or it is not all there."""
    if len(stream) < 8:
        return None
    name, n, body = stream[:4], struct.unpack('<I', stream[4:8])[0], stream[8:]
    if name == b'DONE':
        return ('SEND_DONE', b'', n), 8
    if name == b'QUIT':
        return (('QUIT',), 8) if n == 0 else None
    if name == b'DATA':
        return (('DATA', body[:n]), 8 + n) if 0 < n <= min(DATA_MOST, len(body)) else None
    read = with_path(name, n, body)
    if read is None or read[2] > len(body) or b'\0' in read[1][0] or len(read[1][0]) > PATH_MOST:
        return None
    return (read[0], *read[1]), 8 + read[2]


def ours(stream):
    """The calls that write this stream; None where our host does not write it. Nothing is written behind QUIT."""
    calls = []
    while stream:
        read = request(stream)
        if read is None or calls and calls[-1] == ('QUIT',):
            return None
        calls.append(read[0])
        stream = stream[read[1]:]
    return calls


def fields(call):
    """A call as `heard_requests` prints its request."""
    name, lent, *numbers = *call, *[b''] * (len(call) == 1)
    if name in ('QUIT', 'SEND_DONE'):
        return ['QUIT'] if name == 'QUIT' else ['DONE', str(numbers[0])]
    return [IDS[name], lent.hex().upper(), *map(str, numbers[name == 'RECV_V2':])]


# ---- replies


def reading(meaning):
    """A call that reads the reply, where the request is none of ours."""
    if meaning is not None and 'answer' not in meaning:
        kind = meaning.get('id')
        yield ('STAT', b'/') if kind == 'STAT' else ('STAT_V2', b'/') if kind in ('STA2', 'LST2') else ('SEND_DONE',)


def stat_of(meaning, v1, v2):
    name, words = (v1, host.STAT_WORDS) if meaning['id'] in ('STAT', 'DENT') else (v2, host.V2_WORDS)
    return name, *(int(meaning['mode'], 0) if word == 'MODE' else meaning[word.lower()] for word in words)


def answers(meaning):
    """The answers of the calls that read the reply; a chunk is its length."""
    if isinstance(meaning, list):
        return [answer for one in meaning for answer in answers(one)]
    if meaning is None or 'answer' in meaning:
        return []
    if 'first' in meaning:
        return answers(meaning['first']) + answers(meaning['second'])
    if 'entries' in meaning:
        return [(*stat_of(entry, 'ENTRY', 'ENTRY_V2'), entry['name'].encode()) for entry in meaning['entries']] + [('END',)]
    if 'data_sizes' in meaning:
        return [('CHUNK', size) for size in meaning['data_sizes']] + answers(meaning['last'])
    if meaning['id'] == 'FAIL':
        return [(FAIL, meaning['text'].encode())]
    if meaning['id'] in ('STAT', 'STA2'):
        return [(ERRNO, meaning['error'])] if meaning.get('error') else [stat_of(meaning, 'STAT', 'STAT_V2')]
    return [{'OKAY': ('DONE',), 'DONE': ('END',), 'LST2': (UNEXPECTED, LST2)}[meaning['id']]]


# ---- other ids


PUBLISHED = b'STAT STA2 LIST LIS2 SEND SND2 RECV RCV2 DATA DONE OKAY FAIL DENT DNT2 QUIT'.split()
SMALL = {name: name.lower() for name in PUBLISHED}
# each published id put for the one before it
ROTATED = dict(zip(PUBLISHED, PUBLISHED[1:] + PUBLISHED[:1]))
# the bytes of a reply up to what its last number counts, or of all of it
RECORDS = {b'STAT': 16, b'STA2': 72, b'DENT': 20, b'DNT2': 76, b'DATA': 8, b'FAIL': 8, b'OKAY': 8}
COUNTED = (b'DENT', b'DNT2', b'DATA', b'FAIL')


def under(table, exchange):
    """An exchange of our host's as a panel of another table would have had it."""
    other = copy.copy(exchange)
    other.asked, other.said = asked_under(table, exchange.asked), said_under(table, exchange.said, exchange.calls)
    other.ids = b','.join(PUBLISHED) + b'\n' + b','.join(table[name] for name in PUBLISHED) + b'\n'
    return other


def asked_under(table, stream):
    """The requests of our host, the inner id of a v2 transfer too."""
    made = b''
    while stream:
        name, (n,), length = stream[:4], struct.unpack('<I', stream[4:8]), request(stream)[1]
        inner = table[name] if name in V2 else b''
        made += table[name] + stream[4:8 + n * bool(inner)] + inner + stream[8 + n + 4 if inner else 8:length]
        stream = stream[length:]
    return made


def said_under(table, stream, calls):
    """The replies to these calls. A listing ends with DONE as long as its entries are, all else with one of 8 bytes."""
    ends = iter([{'LIST': 20, 'LIST_V2': 76}.get(call[0], 8) for call in calls if call[0] in ('LIST', 'LIST_V2', 'RECV', 'RECV_V2')])
    made = b''
    while stream:
        name = stream[:4]
        length = RECORDS.get(name) or (next(ends) if name == b'DONE' else len(stream))
        if name in COUNTED:
            length += struct.unpack('<I', stream[length - 4:length])[0]
        made += table.get(name, name) + stream[4:length]
        stream = stream[length:]
    return made


def judged(meaning):
    """Whether the service read the requests, refused one for its form, or found one unfinished."""
    last = meaning.get('last', meaning) if isinstance(meaning, dict) else {}
    text = last.get('text', '')
    return 'refused' if re.match(OF_FORM, text) else 'unfinished' if re.match(OF_THE_END, text) else 'read'
