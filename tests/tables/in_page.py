"""The tables of docs/ANSWERS.md: the answers, each with the name that the crate gives it, and their order."""
from . import found, order

SOURCES = ['docs/ANSWERS.md']


def tables(texts):
    return {'answers': found(r'\| (?P<number>\d+) \| `(?P<name>\w+)` \|', texts[SOURCES[0]])} | order(texts[SOURCES[0]])
