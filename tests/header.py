"""The numbers of the boundary, in include/yuglasno.h, in the Rust crate and in the definitions: the same in all three, name by name; those of
the answers, and their order, in docs/ANSWERS.md too. Then each number of each of them is altered by itself, in a copy, and must be reported.

The last line is 'N passed, M failed'."""
import itertools
import pathlib
import re

from counted import Count
from tables import in_definitions, in_header, in_page, in_rust

ROOT = pathlib.Path(__file__).resolve().parent.parent
OTHERS = {'rust': in_rust, 'definitions': in_definitions, 'page of answers': in_page}
# the page has these alone; the others have every table of the header
ON_PAGE = {'answers', 'order', 'order of a report', 'order of a table', 'order of an index'}
# what a table has no name for: the crate's errors are not 0; what a host asks itself for is no request; the definitions have no buffer of that length and
# no name for no flags, and to them a fault of any kind but 0 is an error; where a host reads an answer, a refusal is any other number, and
# the close any other what; the crate asks for no rank that is not there
REFUSED = set(in_definitions.REFUSALS)
WITHOUT = {
    ('rust', 'answers'): {'OK'},
    ('rust', 'calls, heard'): {'NEXT_ENTRY', 'NEXT_ENTRY_V2', 'RECV_NEXT'},
    ('rust', 'kinds'): {'OTHER'},
    ('rust', 'words of an item'): {'THERE'},
    ('definitions', 'lengths'): {'CAPACITY'},
    ('definitions', 'flags'): {'NONE'},
    ('definitions', 'faults'): {'ERROR'},
    ('definitions', 'answers, of the plain reader'): REFUSED,
    ('definitions', 'answers, read'): REFUSED,
    ('definitions', 'kinds, read'): {'OTHER'},
    ('definitions', 'what, read'): {'CLOSE'},
}
# what is numbered by its place in a list: feature names, requests, what is told of a request, the words of a date
LISTED = r'ascii "\w+"|some Q\.\w+|some \(Q\.\w+(?: \w| \(record \{ 0 = \w \}\))+\)'
LISTED += r'|(?:call_number|(?:first|flag)_number nothing) \(call q\)|header_size(?= ∷)|length \(lent_of nothing \(call q\)\)|\bn(?= ∷ \[\])'
LISTED += r'|d\.(?:year|month|day)(?= )|(?<=d\.day )w(?= n\n)|(?<=d\.day w )n(?=\n)'
# of what is no number: the header's remark on a call, a parameter's type
EDITS = [
    ('header', '/* path   mode         moment */', '/* path                moment */'),
    ('header', '/* path   mode  flags  moment */', '/* path   mode  flags         */'),
    ('header', 'const uint8_t *banner', 'uint8_t *banner'),
    ('rust', 'Self::SendDone(time) => (10, time, 0)', 'Self::SendDone(time) => (10, 0, 0)'),
    ('rust', 'count: usize, out: *mut u8', 'count: u32, out: *mut u8'),
    ('rust', 'Self::Send(.., moment) | Self::SendV2(.., moment) => moment', 'Self::Send(.., moment) => moment'),
    ('rust', 'b: u32, moment: u32, out: *mut u8', 'b: u32, out: *mut u8'),
    ('definitions', 'is_push (call (chunk x)) = false', 'is_push (call (chunk x)) = true'),
    ('definitions', 'flag_number z (call (rcv2 p f)) = f', 'flag_number z (call (rcv2 p f)) = z.second'),
    ('definitions', 'lent_of z (call (done t)) = z.lent', 'lent_of z (call (done t)) = t'),
    ('definitions', 'kind: u32,\n    code: u32,', 'code: u32,\n    kind: u32,'),
    # the order of the answers
    ('header', '5, 8, 7, 9, 10, 25 is', '5, 7, 8, 9, 10, 25 is'),
    ('rust', '5, 8, 7, 9, 10, 25 is', '5, 7, 8, 9, 10, 25 is'),
    ('page of answers', '5, 8, 7, 9, 10, 25 is', '5, 7, 8, 9, 10, 25 is'),
    ('header', '9, 10, 25 is', '9, 25, 10 is'),
    ('rust', '9, 10, 25 is', '9, 25, 10 is'),
    ('page of answers', '9, 10, 25 is', '9, 25, 10 is'),
    ('definitions', 'refusal_at h g m = or_else (refusal g m.call) (refuse (outside h m) (refused closed_hours))',
     'refusal_at h g m = or_else (refuse (outside h m) (refused closed_hours)) (refusal g m.call)'),
    ('definitions', 'or_else (refuse (has 0 p) (refused 8)) (refuse (ltb d.longest (length p)) (refused 7))',
     'or_else (refuse (ltb d.longest (length p)) (refused 7)) (refuse (has 0 p) (refused 8))'),
    ('header', '6, 5, 11, 21', '6, 5, 21, 11'),
    ('rust', '6, 5, 11, 21', '6, 5, 21, 11'),
    ('page of answers', '6, 5, 11, 21', '6, 5, 21, 11'),
    ('header', 'it is 22, then 23', 'it is 23, then 22'),
    ('page of answers', 'it is 22, then 23', 'it is 23, then 22'),
    ('definitions', '(pick (two_equal vs) (refused equal_values) (ids vs)) (refused bad_form)',
     '(pick (two_equal vs) (refused bad_form) (ids vs)) (refused equal_values)'),
    ('definitions', 'number (Err Refused) = 18', 'number (Err Refused) = 19'),
    ('header', 'hours 24 behind them', 'hours 22 behind them'),
    ('rust', 'hours 24 behind them', 'hours 22 behind them'),
    ('page of answers', 'hours 24 behind them', 'hours 22 behind them'),
    ('header', 'it is 3, then 19', 'it is 19, then 3'),
    ('rust', 'it is 3, then 19', 'it is 19, then 3'),
    ('page of answers', 'it is 3, then 19', 'it is 19, then 3'),
    # a reply is written to out, and read from no other slice
    ('header', 'uint8_t *out, size_t out_len, uint8_t *told', 'const uint8_t *out, size_t out_len, uint8_t *told'),
    ('rust', 'bytes: *const u8, bytes_len', 'bytes: *mut u8, bytes_len'),
    # a time has a sign
    ('header', 'int64_t from, int64_t to', 'uint32_t from, int64_t to'),
    ('rust', 'from: i64, to: i64, out: *mut u8', 'from: i64, to: u32, out: *mut u8'),
]


def texts(module):
    return {path: (ROOT / path).read_text() for path in module.SOURCES}


def differences(header, side, tables):
    """Table and name of each entry that is not the header's."""
    for table, entries in tables.items():
        expected = {name: value for name, value in header[table.split(',')[0]].items() if name not in WITHOUT.get((side, table), ())}
        for name in sorted(expected.keys() | entries.keys()):
            if expected.get(name) != entries.get(name):
                yield table, name


def entries(tables):
    return {(table, name) for table, listed in tables.items() for name, value in listed.items() if isinstance(value, int)}


def copies(text):
    """The text with one number one more, or with two neighbours of a list exchanged."""
    for number in re.finditer(r'(?<![\w.])(?:0x[0-9a-f_]+|[\d_]*\d)(?!\w)', text.replace('u\n', ' \n')):
        more = hex(int(number[0], 16) + 1) if 'x' in number[0] else str(int(number[0]) + 1)
        yield text[:number.start()] + more + text[number.end():]
    for one, next_one in itertools.pairwise(re.finditer(LISTED, text)):
        yield text[:one.start()] + next_one[0] + text[one.end():next_one.start()] + one[0] + text[next_one.end():]


def altered(module):
    """The tables of each altered copy of one source."""
    own = texts(module)
    for path, text in own.items():
        for copy in copies(text):
            yield module.tables({**own, path: copy})


def compared(count, header, read):
    for side, tables in read.items():
        wrong = set(differences(header, side, tables))
        for table, name in sorted(entries(tables) | wrong):
            count.check((table, name) not in wrong, f'{table}: {name} is not the same in the header and in the {side}')
        there = {table.split(',')[0] for table in tables}
        count.check(there == (ON_PAGE if OTHERS[side] is in_page else header.keys()), f'the {side}: a table is not there')


def reports(count, header, read):
    """Each number, altered in one of the three by itself, is reported."""
    reported = {side: set() for side in ('header', *OTHERS)}
    for tables in altered(in_header):
        for side in OTHERS:
            reported['header'].update(differences(tables, side, read[side]))
    for side, module in OTHERS.items():
        for tables in altered(module):
            reported[side].update(differences(header, side, tables))
    for side, tables in {'header': header, **read}.items():
        for table, name in sorted(entries(tables)):
            count.check((table, name) in reported[side], f'{table}: {name} altered in the {side}: not reported')


def edits(count, header, read):
    for side, old, new in EDITS:
        module = OTHERS.get(side, in_header)
        own = texts(module)
        places = [path for path, text in own.items() if text.count(old) == 1]
        count.check(len(places) == 1, f'{old!r} stands {len(places)} times in the {side}')
        made = module.tables({**own, **{path: own[path].replace(old, new) for path in places}})
        pairs = [(header, side, made)] if side in OTHERS else [(made, other, tables) for other, tables in read.items()]
        count.check(any(any(differences(*pair)) for pair in pairs), f'{old!r} altered to {new!r}: not reported')


def main():
    count = Count('header')
    header = in_header.tables(texts(in_header))
    read = {side: module.tables(texts(module)) for side, module in OTHERS.items()}
    compared(count, header, read)
    reports(count, header, read)
    edits(count, header, read)
    count.finish()


main()
