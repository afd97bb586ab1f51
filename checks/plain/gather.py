"""Receivers of several senders: each line of the input is a datagram, and what each receiver hands up and sends is printed."""
from __future__ import annotations

import os
import tomllib

from .draws import Words
from .journal import Journal
from .keys import NUMBERS, WORDS, Profile, number
from .octets import read, written
from .receiver import Receiver
from .script import DIGITS, lines_of

MOST_PAIRS = 8
MOST_DIGITS = 3000
LINE_TIME = 1000                                # microseconds from line to line
LAST_MOMENT = 2 ** 64 - 1


class Stop(Exception):
    """The command ends with this status, and with this last line."""

    def __init__(self, status: int, line: str):
        super().__init__(line)
        self.status, self.line = status, line


def pairs_of(words: list[str]) -> list[tuple[str, int]] | None:
    """Returns paths and nodes, or None if the words are no such pairs."""
    nodes = [number(word.encode(), 1, 4294967294) for word in words[1::2]]
    if len(words) % 2 or not 1 <= len(nodes) <= MOST_PAIRS or None in nodes:
        return None
    return list(zip(words[0::2], nodes))


def is_value(key: str, value: object) -> bool:
    if key in WORDS:
        return value in WORDS[key]
    return key in NUMBERS and type(value) is int and NUMBERS[key][0] <= value <= NUMBERS[key][1]


def profile_of(document: bytes) -> Profile | None:
    """Returns the profile of a document, or None if it is refused."""
    try:
        given = tomllib.loads(document.decode())
    except (UnicodeDecodeError, tomllib.TOMLDecodeError):
        return None
    profile = Profile(given) if all(is_value(*item) for item in given.items()) else None
    return profile if profile and profile.meets_rules() else None


def load(folder: str, path: str) -> Profile:
    try:
        with open(os.path.join(folder, path), 'rb') as file:
            profile = profile_of(file.read())
    except FileNotFoundError:
        raise Stop(7, f'absent {path}') from None
    except OSError:
        raise Stop(7, 'fault files') from None
    if profile is None:
        raise Stop(3, 'refused profile')
    return profile


def datagram_in(line: bytes) -> bytes | None:
    is_datagram = len(line) % 2 == 0 and len(line) <= MOST_DIGITS and DIGITS.issuperset(line)
    return bytes.fromhex(line.decode()) if is_datagram else None


class Gathering:
    def __init__(self, members: list[tuple[Profile, int]]):
        ids = [id_ for p, node in members for id_ in (p.sender, node)]
        if not all(node in p.nodes() for p, node in members) or len(set(ids)) < len(ids):
            raise Stop(3, 'refused profile')
        self.receivers = {p.sender: Receiver(p, node) for p, node in members}
        self.sent = dict.fromkeys(self.receivers, 0)
        self.draws = Words(members[0][0].chance + 1)
        self.draw = self.draws.next()           # the next one
        self.journal = Journal()
        self.lines = 0                          # that are not empty

    def take(self, n: int, line: bytes) -> None:
        """Takes line n. An empty one lets time pass."""
        if not line:
            return
        octets = datagram_in(line)
        if octets is None:
            raise Stop(3, f'refused line {n}')
        self.lines += 1
        now = min(n * LINE_TIME, LAST_MOMENT)
        owner, message = read(octets)
        if owner in self.receivers:
            self.receivers[owner].deliver(message, now, self.draw)
            self.draw = self.draws.next()
        for sender, receiver in self.receivers.items():
            self._answer(sender, receiver, now)

    def _answer(self, sender: int, receiver: Receiver, now: int) -> None:
        """A receiver hands up, and then ticks."""
        for up in receiver.take_ups():
            self.journal.up(receiver.node, receiver.instance, up)
            self.journal.say(f'of {sender} {self.journal.lines.pop()}')
        message = receiver.tick(now)
        if message is not None:
            self.journal.say(f'send {sender} {written(receiver.p, message, self.sent[sender]).hex()}')
            self.sent[sender] += 1

    def end(self) -> None:
        self.journal.say(f'end lines {self.lines} handed {self.journal.handed}')


def gather(pairs: list[tuple[str, int]], text: bytes, folder: str) -> tuple[int, list[str]]:
    """Returns the status, and the lines that are printed."""
    printed: list[str] = []
    try:
        members = [(load(folder, path), node) for path, node in pairs]
        gathering = Gathering(members)
        printed = gathering.journal.lines
        for n, line in enumerate(lines_of(text), 1):
            gathering.take(n, line)
        gathering.end()
    except Stop as stop:
        return stop.status, [*printed, stop.line]
    return 0, printed
