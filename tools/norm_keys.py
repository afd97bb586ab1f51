"""The keys of a profile, read from the one table that the program is proved by (crates/norm_base/specs/Keys.antt)."""
from __future__ import annotations

import functools
import os
import re
from dataclasses import dataclass

import norm_wire as wire
from norm_wire import ToolFault

HERE = os.path.dirname(os.path.abspath(__file__))
ROOT = os.path.join(HERE, '..')
# `make install` puts the table beside the tools, which then need no checkout.
INSTALLED = os.path.join(HERE, 'Keys.antt')
TABLE = INSTALLED if os.path.isfile(INSTALLED) else os.path.join(ROOT, 'crates', 'norm_base', 'specs', 'Keys.antt')
NUMBERS = re.compile(r'^row_of key\.\w+ = number_row (\d+) \(codes "(\w+)"\) (\d+) (\d+) (\d+)$', re.M)
WORDS = re.compile(r'^row_of key\.\w+ = word_row (\d+) \(codes "(\w+)"\) \((.*)\)$', re.M)
ROWS = re.compile(r'^row_of key\.', re.M)
MOST_BUFFERED = 16_777_216


@dataclass(frozen=True)
class Key:
    """A key: its name, its least and greatest value and its default; of a key of words, its words, from 0."""
    name: str
    least: int
    greatest: int
    default: int
    words: tuple[str, ...] = ()


@functools.cache
def keys() -> list[Key]:
    """All keys in their order."""
    text = wire.text_of(TABLE, wire.read_file(TABLE))
    rows = {int(at): Key(name, int(least), int(greatest), int(default)) for at, name, least, greatest, default in NUMBERS.findall(text)}
    for at, name, listed in WORDS.findall(text):
        words = tuple(re.findall(r'codes "(\w+)"', listed))
        rows[int(at)] = Key(name, 0, len(words) - 1, 0, words)
    if not rows or sorted(rows) != list(range(len(ROWS.findall(text)))):
        raise ToolFault(f'{TABLE} is no table of keys as this tool reads it.')
    return [rows[at] for at in sorted(rows)]


def defaults() -> dict[str, int]:
    """Each key's default, with max_n's for the default b."""
    return {key.name: key.default for key in keys()}


def default_max_n(b: int) -> int:
    """The default of max_n goes by b."""
    return min(255, b + b // 2)


def fault_of(given: dict[str, int]) -> str | None:
    """Why the keys that are given are no profile with the defaults of all others, or None where they are one."""
    for key in keys():
        value = given.get(key.name, key.default)
        if not key.least <= value <= key.greatest:
            return f'{key.name} is {value}, and has to be {key.least} to {key.greatest}'
    whole = {**defaults(), 'max_n': default_max_n(given.get('b', defaults()['b'])), **given}
    if whole['max_n'] < whole['b']:
        return f'max_n is {whole["max_n"]}, below b, which is {whole["b"]}'
    buffered = whole['blocks'] * whole['b'] * whole['e']
    if buffered > MOST_BUFFERED and 'blocks' in given:
        return f'blocks * b * e is {buffered}, above {MOST_BUFFERED}'
    return None
