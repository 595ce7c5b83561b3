"""The tables of the crate `yuglasno`."""
import re

from . import found, order, section, snake

CRATE = 'rust/yuglasno/src/'
RAW, CALL, REPLY, ANSWER, ERROR = (CRATE + name for name in ('raw.rs', 'call.rs', 'reply.rs', 'answer.rs', 'error.rs'))
SESSION, FEATURE, NUMBERS, LIB, INDEX = (CRATE + name for name in ('session.rs', 'feature.rs', 'numbers.rs', 'lib.rs', 'index.rs'))
SPEAK, HEARD, MOMENT = (CRATE + name for name in ('speak.rs', 'heard.rs', 'moment.rs'))
SOURCES = [RAW, CALL, REPLY, ANSWER, ERROR, SESSION, FEATURE, NUMBERS, LIB, INDEX, SPEAK, HEARD, MOMENT]
# an arm of a reply's kind
SAID = r'Self::(?P<name>\w+)(?:\(\w+\))? => (?:put_\w+\(numbers, [^,]+, )?(?P<number>\d+)'
FIELD = r'(?P<name>\w+): (?:FileMode\()?word\(out, (?P<number>\d+)\)'


def uses(text):
    """What of lent, a, b and moment each call uses: the arms of `lent`, of `numbers` and of `moment`."""
    lent = set(re.findall(r'Self::(\w+)\((?:path|data)', section(text, 'pub fn lent(', '=> &[]')))
    timed = set(re.findall(r'Self::(\w+)\(\.\., moment\)', section(text, 'pub fn moment(', '=> moment')))
    for arm in re.finditer(r'Self::(\w+)(?:\([^)]*\))? => \(\d+, ([\w.]+), ([\w.]+)\)', text):
        yield snake(arm[1]), (arm[1] in lent, arm[2] != '0', arm[3] != '0', arm[1] in timed)


def what(text):
    heard = section(text, 'fn heard(', '\n}\n')
    made = found(r'(?P<number>\d+) => (?:return Reply|Ask)::(?P<name>\w+)', heard)
    made |= found(r'(?P<number>\d+) => \{\s*let len[^;]*;\s*Ask::(?P<name>\w+)', heard)
    # any other number is the close
    return made | ({'CLOSE': max(made.values()) + 1} if '_ => Ask::Close' in heard else {})


def kinds(text):
    made = found(r'(?P<number>\d+) => Answer::(?P<name>\w+)', text)
    # any other kind of an answer that is 0 is a chunk; an answer that is not 0 has no use of its kind
    return made | ({'CHUNK': max(made.values()) + 1} if '_ => Answer::Chunk(held)' in text else {})


def only(pattern, text):
    """The number of the pattern where all its matches have the same; none otherwise."""
    numbers = {int(n) for n in re.findall(pattern, text)}
    return numbers.pop() if len(numbers) == 1 else None


def words(answer, session, error, raw):
    """The words of a reply, each by the name of the field that it goes to."""
    made = {'V2_' + name: number for name, number in found(FIELD, section(answer, 'fn stat_v2(', '\n}\n')).items()}
    made |= found(FIELD, section(answer, 'fn stat(', '\n}\n'))
    made['KIND'] = only(r'match word\(out, (\d+)\)', answer)
    made['START'] = only(r'part\(&self\.reply, (\d+)\)', session)
    made['LENGTH'] = made['START'] and made['START'] + 1
    made['NUMBER'] = only(r'word\(out, (\d+)\)', error)
    made['READS'] = only(r'number\(out, (\d+)\)', section(raw, 'pub fn told_reads(', '\n}\n'))
    return made


def functions(text):
    for declared in re.finditer(r'pub fn (yuglasno_\w+)\(([^)]*)\) -> u32;', text):
        pairs = re.findall(r'(\w+): (\*mut u8|\*const u8|usize|u32|i64)', declared[2])
        yield declared[1], [kind.lstrip('*') + ' ' + name for name, kind in pairs]


def tables(texts):
    lengths = found(r'pub const (?P<name>RECORD|SETTINGS|REPLY|SLOTS): usize = (?P<number>\d+);', texts[RAW])
    lengths |= found(r'pub const (?P<name>PATH_MOST|DATA_MOST): usize = (?P<number>[\d_]+);', texts[LIB])
    lengths |= found(r'pub const (?P<name>INDEX_\w+): usize = (?P<number>[\d_]+);', texts[INDEX])
    header = re.search(r'pub const CAPACITY: usize = (\d+) \+ DATA_MOST;', texts[LIB])
    return order(texts[ERROR]) | {
        'lengths': lengths | ({'CAPACITY': int(header[1]) + lengths['DATA_MOST']} if header else {}),
        'calls': found(r'Self::(?P<name>\w+)(?:\([^)]*\))? => \((?P<number>\d+),', texts[CALL]),
        'uses': dict(uses(texts[CALL])),
        'what': what(texts[REPLY]),
        'kinds': kinds(texts[ANSWER]),
        'answers': found(r'Self::(?P<name>\w+)(?:\(_\)| \{ \.\. \})? => (?P<number>\d+),', section(texts[ERROR], 'fn number', '\n    }\n')),
        'words': words(texts[ANSWER], texts[SESSION], texts[ERROR], texts[RAW]),
        'faults': found(r'Report::(?P<name>Closed|Error)(?:\(code\))? => raw::fault\(rec, rx, msg, lent, (?P<number>\d+),', texts[SESSION]),
        'features': found(r'(?P<name>\w+) = (?P<number>\d+),', section(texts[FEATURE], 'pub enum Feature', '\n}\n')),
        'flags': found(r'pub const (?P<name>\w+): Self = Self\((?P<number>\w+)\);', texts[NUMBERS]),
        'record': record(texts[RAW]),
        'words of a span': span(texts[INDEX]),
        'words of an item': item(texts[INDEX]),
        'kinds of a reply': found(SAID, section(texts[SPEAK], 'fn put(&self', '\n    }\n')),
        'hours': found(r'pub const HOURS_(?P<name>SIZE|IN_SETTINGS|IN_RECORD): usize = (?P<number>\d+);', texts[RAW]),
        'words of a date': date(texts[MOMENT]),
        'words of a reply': {'LENGTH': only(r'word\(&told, (\d+)\)', texts[SPEAK])},
        'words of a request': request(texts[HEARD]),
        'calls, heard': found(r'(?P<number>\d+) => Call::(?P<name>\w+)', texts[HEARD]),
        'functions': dict(functions(texts[RAW])),
    }


def record(text):
    """The record's numbers that the crate reads."""
    made = found(r'(?P<name>received|consumed|written): number\(rec, (?P<number>\d+)\)', text)
    made |= found(r'pub fn (?P<name>reads)\([^{]*\{\s*number\(rec, (?P<number>\d+)\)', text)
    wanted = re.search(r'number\((\d+)\)\.saturating_sub\(number\((\d+)\)\)', text)
    return made | ({'UNTIL': int(wanted[1]), 'TAIL': int(wanted[2])} if wanted else {})


def date(text):
    """The words of a date, each by the field that it goes to."""
    return found(r'(?P<name>year|month|day|weekday|minute): (?:Weekday::ALL\[)?word\(&out, (?P<number>\d+)\)', text)


def span(text):
    read = re.search(r'\(word\(&out, (\d+)\) as usize, word\(&out, (\d+)\) as usize\)', text)
    return {'MANY': int(read[1]), 'FIRST': int(read[2])} if read else {}


def item(text):
    made = found(r'(?P<name>mtime|number): word\(&out, (?P<number>\d+)\)', text)
    start = only(r'part\(&out, (\d+)\)', text)
    return made | ({'START': start, 'LENGTH': start + 1} if start is not None else {})


def request(text):
    """The words of a request that is heard, each by what it goes to."""
    made = {'CALL': only(r'match word\(out, (\d+)\)', text), 'SIZE': only(r'\(call, word\(&out, (\d+)\)', text)}
    made |= {'FIRST': only(r'\(word\(out, (\d+)\) as u32, SyncFlags', text), 'FLAGS': only(r'SyncFlags\(word\(out, (\d+)\)', text)}
    start = only(r'part\(out, (\d+)\)', text)
    return made | ({'START': start, 'LENGTH': start + 1} if start is not None else {})
