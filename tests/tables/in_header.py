"""The tables of include/yuglasno.h."""
import re

from . import found, order

SOURCES = ['include/yuglasno.h']
GROUPS = {'calls': 'CALL', 'what': 'WHAT', 'faults': 'FAULT', 'answers': 'ANSWER', 'features': 'FEATURE', 'kinds': 'KIND', 'words': 'AT'}
GROUPS |= {'flags': 'FLAG', 'words of a span': 'SPAN', 'words of an item': 'ITEM', 'kinds of a reply': 'SAY', 'words of a request': 'HEARD'}
GROUPS |= {'words of a reply': 'SPOKEN', 'words of a date': 'DATE', 'hours': 'HOURS'}
KINDS = {'uint8_t *': 'mut u8 ', 'const uint8_t *': 'const u8 ', 'size_t ': 'usize ', 'uint32_t ': 'u32 ', 'int64_t ': 'i64 '}
LENGTHS = 'RECORD|SETTINGS|REPLY|DATA_MOST|CAPACITY|PATH_MOST|SLOTS|INDEX_ENTRIES|INDEX_NAMES'


def uses(text):
    """What of lent, a, b and moment each call uses, by the words of its remark."""
    for call in re.finditer(r'YUGLASNO_CALL_(\w+) = \d+,?\s*(?:/\*(.*?)\*/)?', text):
        remark = set((call[2] or '').split())
        yield call[1], (bool(remark & {'path', 'data'}), bool(remark & {'mode', 'time'}), 'flags' in remark, 'moment' in remark)


def functions(text):
    for declared in re.finditer(r'uint32_t (yuglasno_\w+)\(([^)]*)\);', text):
        parameters = [re.fullmatch(r'(.*?[ *])(\w+)', p.strip()) for p in declared[2].replace('\n', ' ').split(',')]
        yield declared[1], [KINDS[p[1]] + p[2] for p in parameters]


def tables(texts):
    text = texts[SOURCES[0]]
    made = {name: found(rf'YUGLASNO_{group}_(?P<name>\w+)(?: =)? (?P<number>0x\w+?|\d+)(?=u?\b)', text) for name, group in GROUPS.items()}
    made['lengths'] = found(rf'#define YUGLASNO_(?P<name>{LENGTHS}) (?P<number>\d+)', text)
    made['record'] = found(r'(?P<name>until|tail) = yuglasno_word\(rec, (?P<number>\d+)\)', text)
    made['record'] |= found(r'YUGLASNO_(?P<name>RECEIVED|CONSUMED|WRITTEN|READS) = (?P<number>\d+)', text)
    made['uses'] = dict(uses(text))
    made['functions'] = dict(functions(text))
    return made | order(text)
