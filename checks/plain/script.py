"""Scripts: lines that set keys, and then commands."""
from __future__ import annotations

from dataclasses import dataclass

from .keys import NUMBERS, WORDS, Profile, number, value_of

MOST_LINE = 16500
MOST_LINES = 8192
MOST_COMMANDS = 4096
MOST_DIGITS = 16384
NAME = frozenset(b'abcdefghijklmnopqrstuvwxyzABCDEFGHIJKLMNOPQRSTUVWXYZ0123456789._-')
DIGITS = frozenset(b'0123456789abcdefABCDEF')


class NoMeaning(Exception):
    """Line N is the first without meaning."""

    def __init__(self, line: int):
        super().__init__(line)
        self.line = line


@dataclass(frozen=True)
class Command:
    """A producer's command: its number among that producer's, its verb and what that is given."""
    producer: int
    number: int
    verb: str
    words: tuple


class Bad(Exception):
    """A line has no meaning."""


def contents(word: bytes) -> bytes:
    """Returns the octets that hexadecimal digits stand for."""
    if not 2 <= len(word) <= MOST_DIGITS or len(word) % 2 or not DIGITS.issuperset(word):
        raise Bad
    return bytes.fromhex(word.decode())


def name(word: bytes) -> str:
    if not 1 <= len(word) <= 64 or not NAME.issuperset(word) or word[:1] == b'.':
        raise Bad
    return word.decode()


def ranged(word: bytes, least: int, greatest: int) -> int:
    value = number(word, least, greatest)
    if value is None:
        raise Bad
    return value


def verb_of(text: bytes) -> tuple[str, tuple]:
    """Returns a command's verb and what it is given."""
    if text in (b'open', b'close'):
        return text.decode(), ()
    if text == b'mark':
        return 'mark', (None,)
    verb, space, rest = text.partition(b' ')
    if not space:
        raise Bad
    if verb == b'data':
        octets, space, info = rest.partition(b' ')
        return 'data', (contents(octets), contents(info) if space else None)
    if verb == b'file':
        return 'file', (name(rest),)
    if verb == b'write':
        return 'write', (contents(rest),)
    if verb == b'restart':
        return 'restart', (ranged(rest, 0, 65535),)
    if verb == b'mark':
        return 'mark', (ranged(rest, 1, 16),)
    if verb == b'strike':
        return 'strike', (ranged(rest, 1, 4294967294),)
    raise Bad


def meaning(line: bytes) -> tuple | None:
    """Returns what a line means: nothing, ('set', KEY, VALUE), or ('command', P, VERB, WORDS)."""
    if len(line) > MOST_LINE:
        raise Bad
    if not line or line[:1] == b'#':
        return None
    first, space, rest = line.partition(b' ')
    if not space:
        raise Bad
    if first == b'set':
        key, space, word = rest.partition(b' ')
        key = key.decode('latin-1')
        value = value_of(key, word) if space and (key in NUMBERS or key in WORDS) else None
        if value is None:
            raise Bad
        return 'set', key, value
    return 'command', ranged(first, 1, 4294967295), *verb_of(rest)


def lines_of(text: bytes) -> list[bytes]:
    """Returns the lines of a text; the last one may lack its line feed."""
    lines = text.split(b'\n')
    return lines[:-1] if not lines[-1] else lines


def read_head(lines: list[bytes]) -> tuple[Profile, int]:
    """Reads the lines before the first command. Returns the profile and how many lines these are.

    The first bad line counts, or the last one that set a key, if the keys do not go together: whichever is earlier."""
    given, last, bad, count = {}, 0, [], 0
    for n, line in enumerate(lines[:MOST_LINES], 1):
        try:
            said = meaning(line)
            if said and said[0] == 'command':
                break
            if said:
                if said[1] in given:
                    raise Bad
                given[said[1]], last = said[2], n
        except Bad:
            bad.append(n)
        count = n
    profile = Profile(given)
    if not profile.meets_rules():
        bad.append(last)
    if bad:
        raise NoMeaning(min(bad))
    return profile, count


def read_script(text: bytes) -> tuple[Profile, list[Command]]:
    """Reads a script. Raises NoMeaning for the first line that has none."""
    lines = lines_of(text)
    profile, count = read_head(lines)
    commands, numbers = [], [0] * (profile.producers + 1)
    for n, line in enumerate(lines[count:], count + 1):
        try:
            said = meaning(line) if n <= MOST_LINES else None
            if n > MOST_LINES or said and (said[0] == 'set' or len(commands) == MOST_COMMANDS or said[1] > profile.producers):
                raise Bad
        except Bad:
            raise NoMeaning(n) from None
        if said:
            numbers[said[1]] += 1
            commands.append(Command(said[1], numbers[said[1]], said[2], said[3]))
    return profile, commands
