"""Texts of a SEND's mode, and what is read of each: the number, or None for one that is refused. By the words of document 02, [5], and Python's own
numbers, with none of the library's code."""
import random
import re

# the largest arg of a SEND: a path of 1,024 bytes, a comma, a 0 and eleven octal digits
SEND_MOST = 1024 + 13

MODES = {
    # decimal without a leading zero
    b'0': 0, b'7': 7, b'10': 10, b'644': 644, b'33188': 33188, b'100644': 100644, b'4294967295': 4294967295,
    # a 0 and one to eleven octal digits
    b'00': 0, b'07': 7, b'007': 7, b'010': 8, b'0644': 420, b'0755': 493, b'0100644': 33188, b'000000100644': 33188,
    b'000000000000': 0, b'000000000001': 1, b'020000000000': 2147483648, b'037777777777': 4294967295,
    # over 32 bits
    b'4294967296': None, b'9999999999': None, b'10000000000': None, b'99999999999999999999999999999': None,
    b'040000000000': None, b'077777777777': None,
    # twelve digits behind the 0
    b'0000000000000': None, b'0000000000007': None, b'0000000100644': None, b'0037777777777': None,
    # not octal behind a 0
    b'08': None, b'09': None, b'008': None, b'03318': None, b'0100648': None, b'037777777778': None, b'09999999999': None,
    # other bases, signs, spaces, other text
    b'': None, b'0x1ff': None, b'0X1FF': None, b'0x': None, b'0o7': None, b'0b1': None, b'+7': None, b'+0': None, b'-0': None, b'-1': None,
    b'+07': None, b'0+7': None, b'0-7': None, b' 7': None, b'7 ': None, b' 07': None, b'07 ': None, b'0 7': None, b'07\n': None, b'7\0': None,
    b'07\0': None, b'0_7': None, b'6_44': None, b'rw': None, b'644rw': None, b'0/': None, b'0:': None, b'/': None, b':': None, b'\xff': None,
    b'0\xff': None, b'0\xb7': None, b'0\x87': None, '\u0660\u0667'.encode(): None,
}


def mode_of(text):
    octal, decimal = re.fullmatch(rb'0[0-7]{1,11}', text), re.fullmatch(rb'0|[1-9][0-9]*', text)
    mode = int(text, 8) if octal else int(text) if decimal else 2 ** 32
    return mode if mode < 2 ** 32 else None


def random_texts(chosen):
    """Numbers about 32 bits in several bases, the same with a byte put in, left out or altered, and digits of any count."""
    for _ in range(60):
        mode = chosen.randrange(2 ** chosen.randrange(1, 35))
        made = chosen.choice((f'{mode}', f'0{mode}', f'0{mode:o}', f'0{mode:011o}', f'{mode:#o}', f'{mode:#x}')).encode()
        at, byte = chosen.randrange(len(made)), bytes([chosen.choice((*b'089x+- /:_\0', chosen.randrange(256)))])
        yield from (made, made[:at] + byte + made[at:], made[:at] + made[at + 1:], made[:at] + byte + made[at + 1:])
        digits = bytes(chosen.choices(chosen.choice((b'07', b'01234567', b'0123456789')), k=chosen.randrange(14)))
        yield from (digits, b'0' + digits)


def mode_texts():
    """The table's texts, and others at random, none of them with a comma."""
    others = {text for text in random_texts(random.Random(1998)) if b',' not in text}
    return [*MODES, *sorted(others - set(MODES))]
