"""The program `listing`, run on replies made here and compared with what an independent reader prints: document 01's plain reader of a v1
listing, written with Python's struct module and none of the library's code. `listing.py --write` stores the program's example.

The last line is 'N passed, M failed'."""
import pathlib
import random
import struct
import subprocess
import sys

ROOT = pathlib.Path(__file__).resolve().parent.parent
CRATE = ROOT / 'crates' / 'listing'
PROGRAM = ROOT / 'target' / 'bin' / 'listing'
CAPACITY = 4096
LINK, FAIL, UNEXPECTED, TOO_LARGE = 13, 14, 15, 17


def dent(mode, size, mtime, name):
    return b'DENT' + struct.pack('<IIII', mode, size, mtime, len(name)) + name


DONE = b'DONE' + bytes(16)


class Stop(Exception):
    """The answer that ends a listing."""


class Reader:
    """The unread bytes, with a capacity of 4,096 and end error 13."""

    def __init__(self, data):
        self.data = data[:CAPACITY]

    def need(self, n):
        if n > CAPACITY:
            raise Stop(TOO_LARGE)
        if len(self.data) < n:
            raise Stop(LINK)
        return self.data[:n]

    def drop(self, n):
        self.data = self.data[n:]

    def take(self, n):
        part = self.need(n)
        self.drop(n)
        return part

    def fail(self, length):
        self.drop(8)
        self.take(min(length, CAPACITY))
        left = length - min(length, CAPACITY)
        while left:
            step = min(left, CAPACITY)
            self.take(step)
            left -= step
        raise Stop(FAIL)

    def entry(self):
        """An entry's fields, or None for the end of the listing."""
        kind, arg = struct.unpack('<4sI', self.need(8))
        if kind == b'FAIL':
            self.fail(arg)
        if kind not in (b'DENT', b'DONE'):
            raise Stop(UNEXPECTED)
        _, mode, size, mtime, length = struct.unpack('<4sIIII', self.take(20))
        if kind == b'DONE':
            return None
        return mode, size, mtime, self.take(length)


def printed(data):
    reader = Reader(data)
    lines = ['mode,size,mtime,name']
    try:
        while (entry := reader.entry()) is not None:
            mode, size, mtime, name = entry
            lines.append(f'{mode:o},{size},{mtime},{name.hex().upper()}')
        lines.append('end,0')
    except Stop as stop:
        lines.append(f'end,{stop.args[0]}')
    return ''.join(line + '\n' for line in lines).encode()


EXAMPLE = dent(33188, 1998, 5, b'T98') + DONE


def cases():
    yield 'the example', EXAMPLE
    yield 'nothing', b''
    two = dent(0, 0, 0, b'') + dent(0xFFFFFFFF, 0xFFFFFFFF, 0xFFFFFFFF, b'a,b') + EXAMPLE
    for n in range(len(two) + 1):
        yield f'cut at {n}', two[:n]
    for b in range(256):
        yield f'a name of byte {b}', dent(16877, b, 256 * b, bytes([b])) + DONE
    yield 'every byte in a name', dent(33188, 1, 2, bytes(range(256))) + DONE
    for mode in (0, 7, 8, 63, 64, 511, 512, 33188, 2 ** 31, 2 ** 32 - 1):
        yield f'mode {mode}', dent(mode, mode, mode, b'x') + DONE
    yield 'bytes behind DONE', EXAMPLE + b'DENT' + bytes(range(40))
    yield 'DONE with a name length', b'DONE' + struct.pack('<IIII', 1, 2, 3, 99) + b'rest'
    yield 'DONE of 8 bytes', dent(1, 2, 3, b'x') + b'DONE' + bytes(4)
    yield 'FAIL at once', b'FAIL' + struct.pack('<I', 4) + b'gone'
    yield 'FAIL after an entry', dent(1, 2, 3, b'x') + b'FAIL' + struct.pack('<I', 0)
    yield 'FAIL cut short', b'FAIL' + struct.pack('<I', 5) + b'gone'
    yield 'FAIL as long as the buffer', b'FAIL' + struct.pack('<I', CAPACITY - 8) + bytes(CAPACITY - 8)
    yield 'FAIL longer than the input', b'FAIL' + struct.pack('<I', CAPACITY + 1) + bytes(CAPACITY + 1)
    for kind in (b'DATA', b'STAT', b'DNT2', b'OKAY', b'dent', bytes(4), b'\xff\xff\xff\xff'):
        yield f'id {kind!r}', dent(1, 2, 3, b'x') + kind + bytes(16)
    yield 'an id of 7 bytes', b'DATA' + bytes(3)
    for length in (4075, 4076, 4077, 4096, 4097, 65536, 2 ** 32 - 1):
        data = b'DENT' + struct.pack('<IIII', 1, 2, 3, length) + bytes(min(length, 5000))
        yield f'a name of {length}', data + DONE
    many = dent(33188, 1, 2, b'')
    for count in (203, 204, 205, 300):
        yield f'{count} empty names', many * count + DONE
    for size in (4095, 4096, 4097, 70000):
        yield f'{size} bytes of entries', (dent(16877, 7, 9, b'n' * 44) * 1200)[:size]
    yield 'DONE ends at 4,096', (many * 203)[:4060] + dent(1, 2, 3, b'')[:16] + DONE
    yield 'DONE behind 4,096', many * 204 + bytes(16) + DONE
    chosen = random.Random(98)
    for i in range(200):
        parts = [dent(*(chosen.getrandbits(32) for _ in range(3)), chosen.randbytes(chosen.choice((0, 1, 9, 255, 900)))) for _ in range(chosen.randrange(9))]
        data = bytearray(b''.join(parts) + chosen.choice((DONE, b'', b'FAIL\x03\0\0\0abc')))
        if data and i % 2:
            data[chosen.randrange(len(data))] = chosen.randrange(256)
        yield f'random {i}', bytes(data)


def run(data):
    return subprocess.run([PROGRAM], input=data, capture_output=True, check=True).stdout


def main():
    stored = {'stdin': EXAMPLE, 'stdout': printed(EXAMPLE)}
    if '--write' in sys.argv:
        for name, content in stored.items():
            (CRATE / name).write_bytes(content)
    passed = failed = 0
    for name, content in stored.items():
        if (CRATE / name).read_bytes() == content:
            passed += 1
        else:
            failed += 1
            print(f'listing.py: the stored {name} is not the example')
    for name, data in cases():
        if run(data) == printed(data):
            passed += 1
        else:
            failed += 1
            print(f'listing.py: {name}: printed {run(data)[-80:]!r}, expected {printed(data)[-80:]!r}')
    print(f'{passed} passed, {failed} failed')
    sys.exit(1 if failed else 0)


main()
