"""The boundary's numbers as tables: those of the header, of the Rust crate and of the definitions. Each table is a dict by name."""
import re


def snake(name):
    """The name as the header has it: SmallBuffer, smallBuffer and small_buffer are SMALL_BUFFER, StatV2 is STAT_V2, Lz4 is LZ4."""
    return re.sub(r'(?<=[a-z0-9])(?=[A-Z])', '_', name).upper()


def section(text, start, end):
    """The text from the first `start` to the next `end`; empty where it is not there."""
    at = text.find(start)
    return '' if at < 0 else text[at:text.find(end, at + len(start))]


def found(pattern, text):
    """Name and number of each match: the pattern's groups `name` and `number`."""
    return {snake(m['name']): int(m['number'], 0) for m in re.finditer(pattern, text)}


def order(text):
    """The order of the answers as it is written for readers: each number by its place, of a call, of a report, of the settings of an opening
    (a table of ids, and hours) and of an index."""
    plain = re.sub(r'\s+(?:\*|///)?\s*', ' ', text)
    said = re.search(r'the first of ([\d, ]+), then ([\d, ]+) is answered; of a report ([\d, ]+\d)', plain)
    of_a_table = re.search(r"Of a table(?: of ids)? it is (\d+), then (\d+), behind [^.]*, and of an opening's hours (\d+) behind them", plain)
    of_an_index = re.search(r'Of an index it is (\d+), then (\d+)', plain)
    if not (said and of_a_table and of_an_index):
        return {}
    return placed(said[1].split(', ') + said[2].split(', '), said[3].split(', '), of_a_table.groups(), of_an_index.groups())


def placed(of_a_call, of_a_report, of_a_table, of_an_index):
    """Each number by its place, in each order."""
    orders = {'order': of_a_call, 'order of a report': of_a_report, 'order of a table': of_a_table, 'order of an index': of_an_index}
    return {name: {f'{int(n)}': i for i, n in enumerate(numbers, 1)} for name, numbers in orders.items()}


def crossed(parameters):
    """Parameters as they cross, of pairs of name and type: a slice is an address and a length."""
    for name, kind in parameters:
        if kind in ('&mut [u8]', '&[u8]'):
            yield f'{"mut" if "mut" in kind else "const"} u8 {name}'
            yield f'usize {name}_len'
        else:
            yield f'{kind} {name}'
