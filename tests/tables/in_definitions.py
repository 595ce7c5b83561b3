"""The tables of the definitions (crates/*/specs), and of the exported functions' own heads."""
import re

from . import crossed, found, placed, section, snake


def specs(crate, names):
    return [f'crates/{crate}/specs/{name}.antt' for name in names.split()]


TOLD, CROSSING, BOUNDARY, HEARD = specs('boundary', 'Told Crossing Boundary Heard')
ANSWERS, REFUSAL, IDS, MESSAGES, FEATURES, FLAGS = specs('protocol', 'Answers Refusal Ids Messages Features Flags')
OPENING, REPORTS, HOST = specs('session', 'Calls Reports Host')
FIELDS, = specs('record', 'Fields')
READER = 'crates/request_reader/specs/Meaning.antt'
MISUSE, = specs('boundary_misuse', 'Misuse')
IDS_FILE, SETTINGS = specs('id_table', 'IdsFile Settings')
INDEX, SLOTS, INDEX_CROSSING, INDEX_CLAIM = specs('time_index', 'Index Slots Crossing Claim')
PANEL, = specs('panel_side', 'Crossing')
TOTALS, CARD = specs('totals', 'Crossing Card')
HOURS, = specs('hours', 'Settings')
TIMED, = specs('hours_totals', 'Crossing')
CALENDAR, = specs('calendar', 'Crossing')
EXPORTS = 'crates/exports_c/src/lib.rt'
SOURCES = [TOLD, CROSSING, BOUNDARY, HEARD, ANSWERS, REFUSAL, IDS, MESSAGES, FEATURES, FLAGS, OPENING, REPORTS, HOST, FIELDS, READER]
SOURCES += [EXPORTS, MISUSE, IDS_FILE, SETTINGS, INDEX, SLOTS, INDEX_CROSSING, INDEX_CLAIM, PANEL, TOTALS, CARD, HOURS, TIMED, CALENDAR]

# the definitions' words for the calls, and for some answers and kinds
CALLED = {
    'stat': 'STAT', 'sta2': 'STAT_V2', 'list': 'LIST', 'lis2': 'LIST_V2', 'recv': 'RECV', 'rcv2': 'RECV_V2',
    'send': 'SEND', 'snd2': 'SEND_V2', 'chunk': 'DATA', 'data': 'DATA', 'done': 'SEND_DONE', 'quit': 'QUIT',
    'next_entry v1': 'NEXT_ENTRY', 'next_entry v2': 'NEXT_ENTRY_V2', 'next_chunk': 'RECV_NEXT',
    'entry_call s V1': 'NEXT_ENTRY', 'entry_call s V2': 'NEXT_ENTRY_V2', 'chunk_call s': 'RECV_NEXT',
}
SAME = {'STAT_V1': 'STAT', 'ENTRY_V1': 'ENTRY', 'STAT2': 'STAT_V2', 'ENTRY2': 'ENTRY_V2', 'ERROR': 'IO', 'DONE': 'OK'}
THROUGH = ('DONE', 'END', 'STAT_V1', 'STAT_V2', 'ENTRY_V1', 'ENTRY_V2', 'CHUNK')
# the definitions' words for the replies of a panel, and for what is told of a request
SAID = {
    'okay': 'OKAY', 'transfer_end': 'END', 'stat': 'STAT', 'stat2': 'STAT_V2', 'entry': 'ENTRY', 'entry2': 'ENTRY_V2', 'chunk': 'CHUNK',
    'fail': 'FAIL', 'listing_end v1': 'LISTING_END', 'listing_end v2': 'LISTING_END_V2',
}
TOLD_OF_REQUEST = {
    'call_number': 'CALL', 'header_size': 'START', 'length': 'LENGTH', 'first_number': 'FIRST', 'flag_number': 'FLAGS', 'n': 'SIZE',
}
# each refusal by the words before its number
REFUSALS = {
    'SMALL_BUFFER': (OPENING, r'pick \(ltb capacity 8\) (\d+)'),
    'SHORT_MESSAGE_BUFFER': (OPENING, r'pick \(ltb message capacity\) (\d+)'),
    'OTHER_LENGTH': (OPENING, r'call_refusal s x m = pick \(misfit s x m\) (\d+)'),
    'PENDING': (OPENING, r'pick \(is_idle s\.pending\) 0 (\d+)'),
    'NOT_AWAITED': (REPORTS, r'read_at Idle s k = refused_out s (\d+)'),
    'ENDED': (REFUSAL, r'refuse g\.ended \(refused (\d+)\)'),
    'LONG_PATH': (REFUSAL, r'refuse \(ltb d\.longest \(length p\)\) \(refused (\d+)\)'),
    'NUL_IN_PATH': (REFUSAL, r'refuse \(has 0 p\) \(refused (\d+)\)'),
    'FLAGS': (REFUSAL, r'refuse \(refused_flags pull f\) \(refused (\d+)\)'),
    'COUNT': (REPORTS, r'pick \(ltb \(s\.ses\.capacity - s\.ses\.buf\.tail\) k\) \(refused_out s (\d+)\)'),
    'BAD_IDS': (IDS_FILE, r'bad_form = (\d+)'),
    'EQUAL_IDS': (IDS_FILE, r'equal_values = (\d+)'),
    'INDEX_FULL': (INDEX, r'index_full = (\d+)'),
    'BAD_REQUEST': (PANEL, r'bad_request = (\d+)'),
    'LONG_REPLY': (PANEL, r'long_reply = (\d+)'),
    'OVERFLOW': (TOTALS, r'overflowed = (\d+)'),
    'BAD_HOURS': (HOURS, r'bad_hours = (\d+)'),
    'OUTSIDE_HOURS': (REFUSAL, r'closed_hours = (\d+)'),
}
# a refusal whose number stands a second time, for the code: where the two differ it has none
AGAIN = {'BAD_REQUEST': (READER, r'number \(Err Refused\) = (\d+)')}


def calls(text):
    made = {CALLED[m[1]]: int(m[2]) for m in re.finditer(r'ask_number (\w+) = (\d+)', text)}
    for m in re.finditer(r'call_number \(?(?:call \(?)?(next_entry v\d|\w+)[^=\n]* = (\d+)', text):
        made[CALLED[m[1]]] = int(m[2])
    return made


def arms(name, text, besides='z '):
    """The right-hand side of each call's arm of a function over what a host lends besides, and calls."""
    made = {}
    for m in re.finditer(rf'^{name} {besides}\(?(?:call \(?)?(\w+)[^=\n]* = (.+)$', text, re.M):
        named = {'ask': ['stat', 'sta2', 'list', 'lis2', 'recv'], 'next_entry': ['next_entry v1', 'next_entry v2']}.get(m[1], [m[1]])
        made |= {CALLED[word]: m[2] for word in named}
    return made


def uses(boundary, host, refusal):
    lent, first, flags = arms('lent_of', host), arms('first_number', boundary), arms('flag_number', boundary)
    timed = arms('is_push', refusal, '')
    return {call: (lent[call] != 'z.lent', first[call] != 'z.first', flags[call] != 'z.second', timed.get(call) == 'true') for call in lent}


def numbered(crossing):
    """The calls again, as yuglasno_start tells them apart."""
    requests = re.findall(r'some \(?Q\.(\w+)', section(crossing, 'request_numbered n a b =', 'none\n'))
    made = {CALLED[q.lower()]: i for i, q in enumerate(requests, 1)}
    steps = re.findall(r'eqb n (\d+)\) \((entry_call s V1|entry_call s V2|chunk_call s)', crossing)
    return made | {CALLED[step]: int(n) for n, step in steps}


def answers(texts):
    def refusals(places):
        return {name: int(m[1]) for name, (path, pattern) in places.items() if (m := re.search(pattern, texts[path]))}
    made, again = refusals(REFUSALS), refusals(AGAIN)
    made = {name: number for name, number in made.items() if name not in AGAIN or again.get(name) == number}
    return made | not_refused(found(r'answer_number \(?A\.(?P<name>\w+)[^=\n]*= (?P<number>\d+)', texts[TOLD]))


def plain(text):
    """The answers of the plain reader."""
    lines = section(text, 'abbrev pub number', '\n\n')
    return not_refused(found(r'\nnumber \(?(?:broken \(?)?(?P<name>\w+)[^=\n]*= (?P<number>\d+)', lines))


def not_refused(made):
    """The answers but for those that went through, of which `done` is left."""
    return {SAME.get(name, name): number for name, number in made.items() if number or name == 'DONE'}


def words(heard):
    fields = r'(?P<name>\w+) = (?:signed \()?at out (?P<number>\d+)'
    made = {'V2_' + name: number for name, number in found(fields, section(heard, 'stat2_heard out =', '\n\n')).items()}
    made |= found(fields, section(heard, 'stat_heard out =', '\n\n'))
    part = set(re.findall(r'part_of \w+ \(at out (\d+)\) \(at out (\d+)\)', heard))
    kind = set(re.findall(r'\(done_heard \(at out (\d+)\)', heard))
    number = {a or b for a, b in re.findall(r'P\.(?:missing|error|errno) \(at out (\d+)\)|bytes_of 4 \(at out (\d+)\)', heard)}
    if not len(kind) == len(part) == len(number) == 1:
        return made
    start, length = part.pop()
    return made | {'KIND': int(kind.pop()), 'START': int(start), 'LENGTH': int(length), 'NUMBER': int(number.pop())}


def flags(refusal_text, flags_text, features):
    """Each packing by the bit that asks for its feature, and the bit of a dry run."""
    by_number = {number: name for name, number in features.items()}
    made = {by_number.get(int(m[2])): 1 << int(m[1]) for m in re.finditer(r'eqb \(bit (\d+) f\) 1\) (\d+)', refusal_text)}
    dry = re.search(r'dry_run f = eqb \(bit (\d+) f\) 1', flags_text)
    return made | ({'DRY_RUN': 1 << int(dry[1])} if dry else {})


def features(text):
    """Numbered from 1, in their order; the names without the `sendrecv_v2_` of the last four."""
    named = re.findall(r'ascii "(\w+)"', section(text, 'names =', '[]'))
    return {snake(name.removeprefix('sendrecv_v2_')): i for i, name in enumerate(named, 1)}


def kinds(told):
    made = found(r'answer_words \(?A\.(?P<name>\w+)[^=\n]*= (?P<number>\d+)', told)
    other = {made.pop(name) for name in set(made) - set(THROUGH)}
    made = {SAME.get(name, name) if name != 'DONE' else name: number for name, number in made.items()}
    return made | {'OTHER': other.pop()} if len(other) == 1 else made


def read(heard):
    """Kinds, answers and what is asked, as the host reads them."""
    kind = {snake(m[2]): int(m[1]) for m in re.finditer(r'eqb kind (\d+)\) \(?(?:part_of[^P]*)?P\.(\w+)', heard)}
    answer = {snake(m[2]): int(m[1]) for m in re.finditer(r'eqb n (\d+)\) \(?(?:part_of[^P]*)?(?:P\.broken \(?)?P\.(\w+)', heard)}
    kind |= {'CHUNK': int(m[1])} if (m := re.search(r'eqb kind (\d+)\) \(part_of[^P]*P\.chunk\)', heard)) else {}
    answer |= {'OK': int(m[1])} if (m := re.search(r'eqb n (\d+)\) \(done_heard', heard)) else {}
    return {
        'kinds, read': {SAME.get(name, name) if name != 'DONE' else name: number for name, number in kind.items()},
        'answers, read': {SAME.get(name, name): number for name, number in answer.items()},
        'what, read': found(r'eqb \(n % 256\) (?P<number>\d+)\) \((?P<name>\w+)', heard),
    }


def index_order(crossing, index):
    """Of an add to an index: the answer of its outer test, then that of the inner one."""
    outer = re.search(r'\(added s area [^\n]*\) \(indexed s area (\w+)\)\n', crossing)
    inner = re.search(r'\(indexed s area (\w+)\)\nadded s area nothing', crossing)
    numbers = [re.search(rf'\n{tested[1]} = (\d+)', crossing + index) for tested in (outer, inner) if tested]
    return [number[1] for number in numbers if number]


def order(misuse, refusal, answers, ids_file, of_hours, of_an_index, overflowed):
    """The numbers in the order of their tests: of the opening, of a call (then of its number, its path, its flags, its features, its moment),
    of a report, of the settings of an opening, of an index."""
    def refused(text, start):
        return re.findall(r'\(refused (\d+)\)', section(text, start, '\n\n'))
    opening = refused(misuse, 'open_refused takes rec settings rx msg =')[:2]
    call, report = (re.findall(r'\(refused (\d+)\)', part) for part in section(misuse, 'refused_at s e (start', '\n\n').split('refused_at s e (report'))
    of_request = refused(misuse, 'numbered s none =') + refused(refusal, 'path_refusal d p =') + refused(refusal, 'flag_refusal pull f =')
    tests = re.search(r'are_values vs\) \(pick \(two_equal vs\) \(refused (\w+)\) \(ids vs\)\) \(refused (\w+)\)', ids_file)
    table = [re.search(rf'\n{name} = (\d+)', ids_file)[1] for name in reversed(tests.groups())] if tests else []
    of_request += re.findall(r'\nnumber \(missing \w+\) = (\d+)', answers)
    return placed(opening + call + of_request + outside(refusal), report + overflowed, table + of_hours, of_an_index)


def outside(refusal):
    """25, where it stands behind all other refusals of a call."""
    behind = re.search(r'refusal_at h g m = or_else \(refusal g m\.call\) \(refuse \(outside h m\) \(refused closed_hours\)\)\n', refusal)
    return re.findall(REFUSALS['OUTSIDE_HOURS'][1], refusal) if behind else []


def bad_hours(timed, hours):
    """24, where an opening looks at the hours behind all else."""
    behind = re.search(r'pick \(eqb o\.number 0\)\s+\(pick \(is_hours \(hours_bytes_in settings\)\) [^\n]* \(record \{ rec = rec; number = bad_hours \}\)\)\n', timed)
    return re.findall(REFUSALS['BAD_HOURS'][1], hours) if behind else []


def places(hours, settings, totals):
    """Where hours stand, and how long they are."""
    made = found(r'\nhours_(?P<name>size) = (?P<number>\d+)', hours)
    named = re.search(r'\nhours_place = (\w+)', hours)
    place = named and re.search(rf'\n{named[1]} = (\d+)', settings)
    made |= {'IN_SETTINGS': int(place[1])} if place else {}
    return made | {'IN_RECORD': int(m[1]) for m in [re.search(r'\nrecord_size = (\d+)', totals)] if m}


def date(calendar):
    """The words of a date, each by its place."""
    told = re.search(r'\ndate_bytes d w n = five (.*)\n', calendar)
    names = {'w': 'WEEKDAY', 'n': 'MINUTE'}
    words = re.findall(r'd\.\w+|\w', told[1]) if told else []
    return {names.get(word, word.removeprefix('d.').upper()): i for i, word in enumerate(words)}


def tables(texts):
    listed = features(texts[FEATURES])
    told = texts[TOLD].replace('= 256 * answer_number a', '= 0')
    limits = {'RECORD': (TIMED, 'timed_size'), 'REPLY': (TOLD, 'out_size'), 'DATA_MOST': (MESSAGES, 'data_most'), 'PATH_MOST': (IDS, 'longest')}
    limits |= {'SETTINGS': (SETTINGS, 'settings_size'), 'SLOTS': (SLOTS, 'slots_size')}
    limits |= {'INDEX_ENTRIES': (INDEX, 'most_entries'), 'INDEX_NAMES': (INDEX, 'most_names')}
    of_an_index = index_order(texts[INDEX_CROSSING], texts[INDEX])
    behind = re.search(r'refused_by h s t e = or_else \(refusal s e\) \(or_else \(closed_to [^\n]*\) \(refuse [^\n]* \(refused overflowed\)\)\)\n', texts[CARD])
    overflowed = re.findall(REFUSALS['OVERFLOW'][1], texts[TOTALS]) if behind else []
    of_hours = bad_hours(texts[TIMED], texts[HOURS])
    return read(texts[HEARD]) | order(texts[MISUSE], texts[REFUSAL], texts[ANSWERS], texts[IDS_FILE], of_hours, of_an_index, overflowed) | {
        'lengths': {name: int(m[1]) for name, (path, word) in limits.items() if (m := re.search(rf'{word} = (\d+)', texts[path]))},
        'calls': calls(texts[BOUNDARY]),
        'calls, at the start': numbered(texts[CROSSING]),
        'uses': uses(texts[BOUNDARY], texts[HOST], texts[REFUSAL]),
        'what': found(r'reply_number \(?R\.(?P<name>\w+)[^=\n]*= (?P<number>\d+)', told),
        'kinds': kinds(texts[TOLD]),
        'answers': answers(texts),
        'answers, of the plain reader': plain(texts[ANSWERS]),
        'words': words(texts[HEARD]) | told_reads(texts[TOTALS]),
        'faults': found(r'end_kind z \(?(?P<name>\w+)[^=\n]*= (?P<number>\d+)', texts[BOUNDARY]),
        'features': listed,
        'flags': flags(texts[REFUSAL], texts[FLAGS], listed),
        'record': record(texts[FIELDS], texts[TOTALS]),
        'words of a span': span(texts[INDEX_CLAIM]),
        'words of an item': item(texts[INDEX_CLAIM]),
        'kinds of a reply': said(texts[PANEL]),
        'words of a reply': spoken(texts[PANEL]),
        'words of a request': request(texts[PANEL]),
        'hours': places(texts[HOURS], texts[SETTINGS], texts[TOTALS]),
        'words of a date': date(texts[CALENDAR]),
        'functions': dict(functions(texts[EXPORTS])),
    }


def record(fields, totals):
    """The record's numbers that a host may read: those of a session, and its totals."""
    made = found(r'(?P<number>\d+) (?P<name>tail|until)\b', section(fields, '--  0 capacity', '--\n'))
    return made | found(r'\b(?P<name>received|consumed|written|reads)_at = (?P<number>\d+)', totals)


def told_reads(totals):
    """The word of a reply that tells the reads, by its byte."""
    at = re.search(r'\ncount_at = (\d+)', totals)
    return {'READS': int(at[1]) // 8} if at and int(at[1]) % 8 == 0 else {}


def span(claim):
    read = re.search(r'items_from \(at o (\d+)\) \(at o (\d+)\)', claim)
    return {'FIRST': int(read[1]), 'MANY': int(read[2])} if read else {}


def item(claim):
    read = re.search(r'eqb \(at o (\d+)\) 1\) \(some \(item \(at o (\d+)\) \(signed \(at o (\d+)\)\) \(take \(at o (\d+)\) \(drop \(at o (\d+)\)', claim)
    return {name: int(n) for name, n in zip(('THERE', 'NUMBER', 'MTIME', 'LENGTH', 'START'), read.groups())} if read else {}


def said(panel):
    """The replies of a panel by their numbers."""
    arms = re.finditer(r'^say_kind \(?(listing_end v\d|\w+)[^=\n]*= (\d+)', panel, re.M)
    return {SAID[m[1]]: int(m[2]) for m in arms}


def spoken(panel):
    told = re.search(r'put told (\d+) \(words \(length \(bytes_of_reply', panel)
    return {'LENGTH': int(told[1])} if told else {}


def request(panel):
    """What is told of a request, each by its place."""
    told = re.search(r'^request_words q n = (.*) ∷ \[\]$', panel, re.M)
    return {TOLD_OF_REQUEST[word.split()[0]]: i for i, word in enumerate(told[1].split(' ∷ '))} if told else {}


def functions(text):
    for declared in re.finditer(r'pub extern "C" fn (yuglasno_\w+)\(([^)]*)\) -> u32', text):
        yield declared[1], list(crossed(re.findall(r'(\w+): (&mut \[u8\]|&\[u8\]|usize|u32|i64)', declared[2])))
