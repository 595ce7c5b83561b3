"""What the program `replay` is to print for the records of its stdin: every answer and every count of held bytes as they were recorded of
000, read here with none of the library's code. `replay.py` compares it with the stored stdout, and the stored stdin with the sample beside
the recorder where that is there; `replay.py --write` stores the output.

A record's bytes: 06, an answer's number and kind, how many numbers of eight bytes follow, those, then its bytes in parts; 07, the bytes held.
The other records only say what happened between, which the program compares itself: it prints `otherwise` where the session differs."""
import pathlib
import sys

ROOT = pathlib.Path(__file__).resolve().parent.parent
CRATE = ROOT / 'crates' / 'replay'
SAMPLE = ROOT / 'rust' / 'oracle' / 'recorded.txt'


def number(part):
    return int.from_bytes(part, 'little')


def unpacked(record):
    """Bytes in parts: how many parts, then each its length of four bytes and the bytes, or with the top bit set one byte to repeat."""
    count, record, whole = record[0], record[1:], b''
    for _ in range(count):
        length, record = number(record[:4]), record[4:]
        if length >> 31:
            whole += record[:1] * (length & 0x7FFFFFFF)
            record = record[1:]
        else:
            whole += record[:length]
            record = record[length:]
    return whole


def lines(text):
    for line in text.split():
        record = bytes.fromhex(line)
        if record[0] == 6:
            end = 4 + 8 * record[3]
            numbers = [number(record[i:i + 8]) for i in range(4, end, 8)]
            yield ','.join(map(str, [record[1], record[2]] + numbers)) + ',' + unpacked(record[end:]).hex().upper()
        elif record[0] == 7:
            yield f'held,{number(record[1:5])}'


def main():
    text = (CRATE / 'stdin').read_text()
    if SAMPLE.exists() and SAMPLE.read_text() != text:
        sys.exit('replay.py: the stored stdin is not the recorded sample')
    printed = list(lines(text))
    content = ''.join(line + '\n' for line in printed)
    if '--write' in sys.argv:
        (CRATE / 'stdout').write_text(content)
    elif (CRATE / 'stdout').read_text() != content:
        sys.exit('replay.py: the stored stdout is not what was recorded')
    held = sum(line.startswith('held') for line in printed)
    print(f'replay: {len(printed) - held} answers of {held} lists, as they were recorded')


main()
