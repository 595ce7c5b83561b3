"""The program `panel` and the modes of SENDs: of each text it does what the request reader does, which tests/heard.py holds to the same texts. What
was read is seen in the panel's own STAT of the file. And SENDs about the largest arg.

The last line is 'N passed, M failed'."""
import pathlib
import struct
import subprocess

from counted import Count
from modes import SEND_MOST, mode_of, mode_texts

RUST = pathlib.Path(__file__).resolve().parent.parent / 'rust'
PROGRAM = RUST / 'target' / 'debug' / 'panel'
BUILD = ['cargo', 'build', '--offline', '-q', '-p', 'yuglasno', '--bin', 'panel', '--target-dir', RUST / 'target']
PATH_MOST, DATA = 1024, b'heights'


def message(name, body):
    return name + struct.pack('<I', len(body)) + body


# what the panel says to what is no request
REFUSED = message(b'FAIL', b'bad request')


def pushed(path, text):
    """What the panel says to a push, and to a STAT behind it."""
    push = [message(b'SEND', path + b',' + text), message(b'DATA', DATA), b'DONE' + struct.pack('<I', 5), message(b'STAT', path)]
    return subprocess.run([PROGRAM], input=b''.join(push), capture_output=True).stdout


def taken(mode):
    return b'OKAY' + bytes(4) + b'STAT' + struct.pack('<III', mode, len(DATA), 5)


def texts(count):
    for text in mode_texts():
        mode, told = mode_of(text), pushed(b'/j', text)
        count.check(told == (REFUSED if mode is None else taken(mode)), f'the mode {text}: {told}')


def limits(count):
    """A path of any length with each mode; where the arg is over its limit, the header is enough to refuse it."""
    for length in range(PATH_MOST - 2, PATH_MOST + 14):
        for text in (b'0', b'4294967295', b'00', b'0100644', b'037777777777'):
            told = pushed(b'/' + b'p' * (length - 1), text)
            expected = REFUSED if length > PATH_MOST else taken(mode_of(text))
            count.check(told == expected, f'a path of {length} bytes, mode {text}: {told}')
    for arg in (PATH_MOST, SEND_MOST, SEND_MOST + 1):
        told = subprocess.run([PROGRAM], input=b'SEND' + struct.pack('<I', arg), capture_output=True).stdout
        count.check(told == (REFUSED if arg > SEND_MOST else b''), f'a SEND with arg {arg}: {told}')


def main():
    count = Count('panel')
    subprocess.run(BUILD, cwd=RUST, check=True)
    texts(count)
    limits(count)
    count.finish()


main()
