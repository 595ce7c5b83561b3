"""What AOSP's own service was asked and said: the 108 exchanges of tests/captures.jsonl, recorded with the file_sync_service of Android
platform tools 34.0.5 (Apache-2.0; bytes on the wire and what they mean, none of its source). A line is an exchange: who wrote which bytes,
the reply's meaning, and whether the service went on.

- What our host writes is written byte for byte as the client of the recording wrote it.
- Every reply is read by the session as it is meant, whole and in reads of one byte; its totals are the bytes that came and went, and the reads
  of each call those that brought some of them.
- Both hold of what our host writes with other ids put for the published ones, on both sides: in small letters, and in another order.
- The request reader (the program `heard_requests`) judges every request as the service did, but for those that docs/DIFFERENCES.md names,
  and reads the mode of every push that it takes as the service did, as far as the file shows it that the service made.

The last line is 'N passed, M failed'."""
import copy
import ctypes
import itertools
import pathlib
import re
import subprocess
import tempfile

import exchanges
import host
from counted import Count

ROOT = pathlib.Path(__file__).resolve().parent.parent
STORED = ROOT / 'tests' / 'captures.jsonl'
ORIGINAL = ROOT.parent / 'shared' / 'docs' / 'aosp' / 'captures.jsonl'
DIFFERENCES = ROOT / 'docs' / 'DIFFERENCES.md'
HEARD = ROOT / 'target' / 'bin' / 'heard_requests'
PACKINGS = b'sendrecv_v2_brotli,sendrecv_v2_lz4,sendrecv_v2_zstd,sendrecv_v2_dry_run_send'
BANNER = b'features=stat_v2,ls_v2,sendrecv_v2,' + PACKINGS
NEXT = {'LIST': 'NEXT_ENTRY', 'LIST_V2': 'NEXT_ENTRY_V2', 'RECV': 'RECV_NEXT', 'RECV_V2': 'RECV_NEXT'}
CLOSED = host.ANSWER['CLOSED'], None
# the only request that is read here and has a mode in a text that our host does not write: "/w/b,0755"
OCTAL = 'SEND-octal-mode', '0,SEND,2F772F62,493'


# ---- the session


def steps(session, link, following):
    """The steps of a listing or a pull, to its end."""
    while True:
        answer = session.call(link, following)
        yield answer
        if answer[0] not in ('ENTRY', 'ENTRY_V2', 'CHUNK'):
            return


def driven(session, link, calls):
    """What the calls answer, with the steps of listings and pulls, but for the DONE of a call that only writes."""
    for call in calls:
        answer = session.call(link, *call)
        if answer != ('DONE',) or call[0] == 'SEND_DONE':
            yield answer
        elif call[0] in NEXT:
            yield from steps(session, link, NEXT[call[0]])


def replayed(library, exchange, cut):
    """The session and the link after the exchange's calls, what they answered, and what they should."""
    link, session = host.Link(exchange.said, cut), host.Session(library, BANNER, ids=exchange.ids)
    told, meant = list(driven(session, link, exchange.reading)), exchanges.answers(exchange.meaning)
    # behind the last reply comes the channel's end
    while len(told) > len(meant) and told[-1] == CLOSED:
        told.pop()
    return session, link, told, meant


def read_as_meant(told, meant):
    return [('CHUNK', len(answer[1])) if answer[0] == 'CHUNK' else answer for answer in told] == meant


def compared(count, library, exchange, cut):
    case = f'{exchange.label}, in reads of {cut}, ids {exchange.ids}'
    session, link, told, meant = replayed(library, exchange, cut)
    count.check(read_as_meant(told, meant), f'{case}: answered {told}, not {meant}')
    foreign = (exchanges.UNEXPECTED, exchanges.LST2) in told
    count.check(link.at == len(exchange.said) or foreign, f'{case}: {len(exchange.said) - link.at} bytes are left')
    # a reply that does not belong there is left unread
    count.check(session.counts(link, link.at - exchange.said.index(b'LST2') if foreign else 0), f'{case}: other totals or reads')
    count.check(b''.join(answer[1] for answer in told if answer[0] == 'CHUNK') == exchange.data, f'{case}: other data')
    if exchange.calls:
        count.check(link.written == exchange.asked, f'{case}: written {link.written[:60]}, not {exchange.asked[:60]}')
        count.check(link.closed == (('QUIT',) in exchange.calls), f'{case}: closed')


def altered(count, library, exchange):
    """Each byte of a stat's reply counts: one that is altered is not read as it was meant."""
    for at in range(len(exchange.said)):
        other = copy.copy(exchange)
        other.said = exchange.said[:at] + bytes([exchange.said[at] ^ 1]) + exchange.said[at + 1:]
        count.check(not read_as_meant(*replayed(library, other, 1)[2:]), f'{exchange.label}: byte {at} altered, and read alike')


# ---- the request reader


def heard(stream):
    """The lines of `heard_requests`, and whether the requests were read, one was refused, or one is unfinished."""
    lines = subprocess.run([HEARD], input=stream, capture_output=True, check=True).stdout.decode().splitlines()
    last = lines[-1] if lines else ',more,0'
    return lines, 'refused' if last.endswith(',18') else 'unfinished' if ',more,' in last else 'read'


def documented(heading):
    """The cells of each row of the table under a heading of docs/DIFFERENCES.md, by the first of them."""
    table = DIFFERENCES.read_text().partition(f'\n## {heading}\n')[2].partition('\n## ')[0]
    rows = [[cell.strip() for cell in line.split('|')[1:-1]] for line in table.splitlines() if line.startswith('|')]
    return {first: row for first, *row in rows[2:]}


def named(count, exchange, row, here, there):
    """A row of the table: the bytes of the recording, as far as they are given, and both judgements."""
    given, dots, _ = row[0].partition(' ..')
    recorded = exchange.asked.hex(' ').upper()
    count.check(recorded.startswith(given) and bool(dots) == (recorded != given), f'{exchange.label}: the table has {row[0]}')
    count.check(row[1].startswith(here) and row[2].startswith(there), f'{exchange.label}: {here} here, {there} by the service')


def modes(count, exchange, lines):
    """The modes that are read of pushes, beside the files that the service made: it copies the owner's bits to group and others. The number of
    those files."""
    pushes = [(*line.split(',')[2:], '0') for line in lines if line.split(',')[1] in ('SEND', 'SND2')]
    kept = [(bytes.fromhex(path), int(mode)) for path, mode, flags, *_ in pushes if int(flags) < exchanges.DRY_RUN]
    made = [(exchange.files[path], mode) for path, mode in kept if path in exchange.files]
    for file, mode in made:
        count.check(file & 0o777 == 0o111 * (mode >> 6 & 7), f'{exchange.label}: mode {mode:o} here, and a file of {file:o} there')
    if exchange.label == OCTAL[0]:
        count.check(lines[0] == OCTAL[1], f'{exchange.label}: heard as {lines}')
    return len(made)


def reader(count, exchange, table):
    """How the request reader and the service judge the requests; the number of files whose modes were compared."""
    lines, here = heard(exchange.asked)
    there, row = exchanges.judged(exchange.meaning), table.pop(exchange.label, None)
    if exchange.calls:
        read = [line.split(',')[1:] for line in lines]
        count.check(read == [exchanges.fields(call) for call in exchange.calls], f'{exchange.label}: heard as {lines}')
    count.check((here == there) == (row is None), f'{exchange.label}: {here} here, {there} by the service; a row of its own: {row}')
    if row is not None:
        named(count, exchange, row, here, there)
    return modes(count, exchange, lines)


def by_service(recorded, message, there):
    """Whether a row says what the service did: of a recorded exchange by its bytes, its file or its FAIL; of a conclusion by C's own `strtoul`."""
    kind, said = re.fullmatch('(recorded|concluded|not known)[,:] (.*)', there).groups()
    if kind == 'recorded':
        exchange = recorded[said.partition(':')[0]]
        shown = [f'{mode:o}' for mode in exchange.files.values()] or [f"`{exchange.meaning['text']}`"]
        return exchange.asked.startswith(message) and all(text in said for text in shown)
    return kind == 'not known' or int(re.match('[0-9]+', said)[0]) == ctypes.CDLL(None).strtoul(message.rpartition(b',')[2], None, 0)


def texts(count, recorded):
    """The table of modes: each text in its bytes, what is read of them here, and what the service does."""
    table, recorded = documented("The mode in a SEND's text"), {exchange.label: exchange for exchange in recorded}
    for text, (given, here, there) in table.items():
        message = bytes.fromhex(given)
        count.check(message.rpartition(b',')[2] == text.strip('"').encode(), f'the mode {text} is not in {given}')
        lines, _ = heard(message)
        count.check(len(lines) == 1 and lines[0].split(',')[-1] == here.strip('*'), f'the mode {text}: heard as {lines}')
        count.check(by_service(recorded, message, there), f'the mode {text}: {there}')
    count.check(len(table) == 14, f'{len(table)} texts of modes')


def main():
    count = Count('captures')
    if ORIGINAL.is_file():
        count.check(STORED.read_bytes() == ORIGINAL.read_bytes(), 'the stored exchanges are not those of ../shared/docs/aosp')
    else:
        print('captures: ../shared/docs/aosp is not at hand: the comparison of the stored exchanges with it is LEFT OUT')
    recorded, table, files = [exchanges.Exchange(line) for line in STORED.read_text().splitlines()], documented("Beside AOSP's own service"), 0
    with tempfile.TemporaryDirectory() as folder:
        library = host.loaded(pathlib.Path(folder))
        for exchange in recorded:
            others = [exchanges.under(table, exchange) for table in (exchanges.SMALL, exchanges.ROTATED) if exchange.calls]
            for each, cut in itertools.product([exchange, *others], (host.LENGTHS['CAPACITY'], 1)):
                compared(count, library, each, cut)
            files += reader(count, exchange, table)
            if exchange.label in ('STAT-file', 'STA2-file'):
                altered(count, library, exchange)
    texts(count, recorded)
    count.check(not table, f'docs/DIFFERENCES.md names what was not recorded: {list(table)}')
    ours = sum(bool(exchange.calls) for exchange in recorded)
    count.check((len(recorded), ours, files) == (108, 73, 13), f'{len(recorded)} exchanges, {ours} of them ours; {files} files')
    print(f'captures: {len(recorded)} exchanges; of {ours} our host writes every request')
    count.finish()


main()
