"""The program `heard_requests` on streams of requests made here from SYNC.TXT and file_sync_protocol.h, with Python's struct module and none of the
library's code: requests of every kind and length, modes in every text, streams longer than its buffer, in pieces of every size, cut off anywhere
and damaged. `heard.py --write` stores the program's example.

The last line is 'N passed, M failed'."""
import contextlib
import fcntl
import itertools
import os
import pathlib
import random
import socket
import struct
import subprocess
import sys
import termios
import threading
import time

from counted import Count
from modes import MODES, SEND_MOST, mode_of, mode_texts

ROOT = pathlib.Path(__file__).resolve().parent.parent
CRATE = ROOT / 'crates' / 'heard_requests'
PROGRAM = ROOT / 'target' / 'bin' / 'heard_requests'
PATH_MOST, DATA_MOST = 1024, 65536
BUFFER = 131072


def path_only(name, path):
    return name + struct.pack('<I', len(path)) + path, [name.decode(), path.hex().upper()]


def rcv2(path, flags):
    return b'RCV2' + struct.pack('<I', len(path)) + path + b'RCV2' + struct.pack('<I', flags), ['RCV2', path.hex().upper(), str(flags)]


def send(path, mode, text=None):
    """The mode in decimal, or in a text of its own."""
    body = path + b',' + (str(mode).encode() if text is None else text)
    return b'SEND' + struct.pack('<I', len(body)) + body, ['SEND', path.hex().upper(), str(mode)]


def snd2(path, mode, flags):
    body = path + b'SND2' + struct.pack('<II', mode, flags)
    return b'SND2' + struct.pack('<I', len(path)) + body, ['SND2', path.hex().upper(), str(mode), str(flags)]


def data(part):
    return b'DATA' + struct.pack('<I', len(part)) + part, ['DATA', part.hex().upper()]


def done(mtime):
    return b'DONE' + struct.pack('<I', mtime), ['DONE', str(mtime)]


def quit_():
    return b'QUIT' + struct.pack('<I', 0), ['QUIT']


REQUESTS = [
    path_only(b'STAT', b'/a'),
    path_only(b'STA2', b'/sdcard/T98'),
    path_only(b'LIST', b'/jobs'),
    path_only(b'LIS2', b''),
    path_only(b'RECV', bytes([0xC3, 0xA4, 0x2C, 0xFF])),
    rcv2(b'/a', 4),
    send(b'/j', 33188),
    send(b'/a,b,c', 0),
    send(b'/max', 4294967295),
    send(b'/j', 33188, b'0100644'),
    snd2(b'/a', 33188, 0x80000001),
    data(b''),
    data(bytes(range(1, 40))),
    done(4026531845),
    quit_(),
]

# the longest of each form
LONGEST = [
    path_only(b'STAT', b'p' * PATH_MOST),
    rcv2(b'q' * PATH_MOST, 0),
    send(b'r' * PATH_MOST, 4294967295),
    send(b'r' * PATH_MOST, 4294967295, b'037777777777'),
    snd2(b's' * PATH_MOST, 4294967295, 4),
    data(bytes(range(256)) * (DATA_MOST // 256)),
]

# headers at the limits: id, arg, and whether it is 18 by them
HEADERS = [
    *((name, PATH_MOST + over, over > 0) for name in (b'STAT', b'STA2', b'LIST', b'LIS2', b'RECV', b'RCV2', b'SND2') for over in (0, 1, 11, 13)),
    *((b'SEND', PATH_MOST + over, PATH_MOST + over > SEND_MOST) for over in (0, 1, 10, 11, 12, 13, 14)),
    *((b'DATA', length, length > DATA_MOST) for length in (PATH_MOST + 1, SEND_MOST + 1, DATA_MOST, DATA_MOST + 1)),
]

# the mode of a SEND that is neither: an 8 is no octal digit, and decimal has no leading zero
DAMAGED = b'SEND' + struct.pack('<I', 8) + b'/j,03318'


def stream(requests):
    return b''.join(message for message, _ in requests)


def lines(requests, length=None, damaged=False):
    """What is printed of the first `length` bytes: whole requests, then `more` where one is cut off, or 18."""
    at, length = 0, len(stream(requests)) if length is None else length
    for message, fields in requests:
        if at + len(message) > length:
            break
        yield ','.join([str(at)] + fields)
        at += len(message)
    if damaged:
        yield f'{at},18'
    elif at < length:
        yield f'{at},more,{length - at}'


def printed(*args):
    return ''.join(line + '\n' for line in lines(*args)).encode()


def run(content):
    return subprocess.run([PROGRAM], input=content, capture_output=True, check=True).stdout


def unread(link):
    """Whether bytes that were sent are not all read yet."""
    return any(fcntl.ioctl(link, termios.TIOCOUTQ, bytes(4)))


def run_in_pieces(content, sizes):
    """A piece is sent once the one before is read, so that no read brings bytes of two."""
    ours, theirs = socket.socketpair()
    with subprocess.Popen([PROGRAM], stdin=theirs, stdout=subprocess.PIPE) as program:
        theirs.close()
        told = []
        reader = threading.Thread(target=lambda: told.append(program.stdout.read()))
        reader.start()
        at = 0
        with contextlib.suppress(BrokenPipeError, ConnectionResetError):
            while at < len(content):
                size = next(sizes)
                ours.sendall(content[at:at + size])
                at += size
                while unread(ours) and program.poll() is None:
                    time.sleep(0)
        ours.close()
        reader.join()
    return told[0]


def example(count):
    made = {'stdin': stream(REQUESTS) + DAMAGED, 'stdout': printed(REQUESTS, None, True)}
    for name, content in made.items():
        if '--write' in sys.argv:
            (CRATE / name).write_bytes(content)
        count.check((CRATE / name).read_bytes() == content, f'the stored {name} is not the example')


def cut_off(count):
    whole = stream(REQUESTS)
    for length in range(len(whole) + 1):
        count.check(run(whole[:length]) == printed(REQUESTS, length), f'cut off at {length}')
    for requests in ([q] for q in LONGEST):
        whole = stream(requests)
        lengths = {7, 8, PATH_MOST, DATA_MOST - 1, DATA_MOST, DATA_MOST + 1, len(whole) - 1, len(whole)}
        for length in sorted(n for n in lengths if n <= len(whole)):
            count.check(run(whole[:length]) == printed(requests, length), f'{whole[:4]} cut off at {length}')


def limits(count):
    """The limits of paths and of DATA: on the header alone, and of a SEND's path on the whole message."""
    for name, arg, refused in HEADERS:
        header = name + struct.pack('<I', arg)
        count.check(run(header) == (b'0,18\n' if refused else b'0,more,8\n'), f'{name} with arg {arg}')
    for length in range(PATH_MOST - 2, PATH_MOST + 13):
        for text in (b'0', b'33188', b'4294967295', b'00', b'0100644', b'03777777777', b'037777777777'):
            message, fields = send(b'p' * length, mode_of(text), text)
            refused = length > PATH_MOST
            expected = f"0,{'18' if refused else ','.join(fields)}\n".encode()
            count.check(run(message) == expected, f'a SEND of {length} bytes, mode {text}')
            early = len(message) - 8 > SEND_MOST
            cut = f"0,{'18' if early else f'more,{len(message) - 1}'}\n".encode()
            count.check(run(message[:-1]) == cut, f'a SEND of {length} bytes, mode {text}, but for its last byte')


def modes(count):
    """The table of texts, and others at random; a request behind each shows how many bytes were taken."""
    for text, mode in MODES.items():
        count.check(mode_of(text) == mode, f'the table has {mode} for {text}, and Python reads {mode_of(text)}')
    for text in mode_texts():
        request = send(b'/j', mode_of(text), text)
        message, refused = request[0], mode_of(text) is None
        expected = printed([], None, True) if refused else printed([request, quit_()])
        count.check(run(stream([request, quit_()])) == expected, f'the mode {text}: not {expected}')
        count.check(run(message[:-1]) == f'0,more,{len(message) - 1}\n'.encode(), f'the mode {text}, but for its last byte')


def long_streams(count):
    chosen = random.Random(1998)
    every = [*REQUESTS[:-1], *LONGEST]
    cases = {'the longest': LONGEST * 4, 'many small ones': REQUESTS * 4000, 'at random': [chosen.choice(every) for _ in range(120)]}
    for name, requests in cases.items():
        whole = stream(requests)
        count.check(len(whole) > 2 * BUFFER, f'{name}: {len(whole)} bytes are too few')
        expected = printed(requests)
        count.check(run(whole) == expected, f'{name}: whole')
        count.check(run(whole + DAMAGED) == printed(requests, None, True), f'{name}, then a damaged one')
        for size in (4096, 65535, 65536, 65537, 100000):
            count.check(run_in_pieces(whole, itertools.repeat(size)) == expected, f'{name}, in pieces of {size}')
        for i in range(5):
            sizes = iter(lambda: chosen.choice((1, 7, 8, 999, 20000, 65536, 131072)), None)
            length = chosen.randrange(len(whole))
            count.check(run_in_pieces(whole[:length], sizes) == printed(requests, length), f'{name}, {length} bytes in odd pieces')
    edges(count)


def edges(count):
    """Requests that end where the buffer ends, and one byte before and behind; and single bytes."""
    for more in range(-2, 3):
        requests = [data(b'x' * (DATA_MOST - 8)), data(b'y' * (DATA_MOST - 8 + more)), *REQUESTS, *LONGEST]
        count.check(run(stream(requests)) == printed(requests), f'the second request ends {more} behind the buffer')
    requests = [data(b'z' * 3000), *REQUESTS * 3]
    count.check(run_in_pieces(stream(requests), itertools.repeat(1)) == printed(requests), 'byte by byte')


def unreadable(count):
    folder = os.open('/', os.O_RDONLY)
    told = subprocess.run([PROGRAM], stdin=folder, capture_output=True).stdout
    os.close(folder)
    count.check(told == b'0,13\n', f'a folder for standard input: {told}')


def main():
    count = Count('heard')
    example(count)
    cut_off(count)
    limits(count)
    modes(count)
    long_streams(count)
    unreadable(count)
    count.finish()


main()
