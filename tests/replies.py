"""The replies of a panel, written with Python's struct module by SYNC.TXT and file_sync_protocol.h and with none of the library's code; and bytes of
a panel taken apart into them. A reply is a kind's name, its numbers, and its name, data or text."""
import struct

# id, the layout of the numbers, and what stands behind them: so many zeros, or a length and as many bytes
V1, V2 = '<III', '<IQQIIIIQqqq'
LAYOUTS = {
    'OKAY': (b'OKAY', '<', 4), 'END': (b'DONE', '<', 4), 'STAT': (b'STAT', V1, 0), 'STAT_V2': (b'STA2', V2, 0),
    'ENTRY': (b'DENT', V1, None), 'ENTRY_V2': (b'DNT2', V2, None), 'CHUNK': (b'DATA', '<', None), 'FAIL': (b'FAIL', '<', None),
    'LISTING_END': (b'DONE', '<', 16), 'LISTING_END_V2': (b'DONE', '<', 72),
}
KINDS = {id_: kind for kind, (id_, _, _) in LAYOUTS.items() if id_ != b'DONE'}
# the DONE that ends what a call asks for
ENDS = {'LIST': 'LISTING_END', 'LIST_V2': 'LISTING_END_V2', 'RECV': 'END', 'RECV_V2': 'END'}


def written(reply, table=None):
    """The bytes of a reply, under the published ids or those of a table."""
    kind, numbers, lent = reply
    id_, layout, zeros = LAYOUTS[kind]
    behind = struct.pack('<I', len(lent)) + lent if zeros is None else bytes(zeros)
    return (table or {}).get(id_, id_) + struct.pack(layout, *numbers) + behind


def first(stream, end):
    """The first reply of a stream and its length, of which a DONE is this kind; None where it is none of those above."""
    kind = end if stream[:4] == b'DONE' else KINDS.get(stream[:4])
    if kind is None:
        return None
    _, layout, zeros = LAYOUTS[kind]
    at = 4 + struct.calcsize(layout)
    numbers = struct.unpack(layout, stream[4:at])
    if zeros is not None:
        return (kind, numbers, b''), at + zeros
    length, = struct.unpack('<I', stream[at:at + 4])
    return (kind, numbers, stream[at + 4:at + 4 + length]), at + 4 + length


def taken_apart(stream, calls):
    """The replies to these calls with their bytes; and what is left, which begins with an id that no reply above has."""
    ends, made = iter([ENDS[call[0]] for call in calls if call[0] in ENDS]), []
    while stream:
        read = first(stream, next(ends) if stream[:4] == b'DONE' else None)
        if read is None:
            break
        made.append((read[0], stream[:read[1]]))
        stream = stream[read[1]:]
    return made, stream
