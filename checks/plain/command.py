"""The commands: read words and an input, and print lines."""
from __future__ import annotations

import hashlib
import sys

from .gather import gather, pairs_of
from .keys import NUMBERS, number
from .mirror import mirror
from .relay import relay, relay_words
from .script import NoMeaning, read_script
from .session import Fault, Session
from .tail import run_tails

USAGE = 'usage: normd session | show'
OPTIONS = {'--chance': NUMBERS['chance'][:2], '--turns': NUMBERS['turns'][:2], '--tail': (1, 4000000)}

# statuses
DONE, NO_COMMAND, NO_MEANING, NO_FILE, SPENT, NO_TAIL = 0, 2, 3, 7, 8, 12


def options_of(words: list[str]) -> dict[str, int] | None:
    """Returns the options of the words after `session`, or None if they are not such words."""
    given, left = {}, list(words)
    while left:
        name, equals, value = left.pop(0).partition('=')
        if name not in OPTIONS or name in given or not (equals or left):
            return None
        value = value if equals else left.pop(0)
        given[name] = number(value.encode(), *OPTIONS[name])
        if given[name] is None:
            return None
    return given


def ended(session: Session, tail: int | None) -> int:
    """Runs a session to its end, and returns its status."""
    journal = session.journal
    try:
        session.run(session.p.turns if tail is None else min(tail, session.p.turns))
    except Fault as fault:
        journal.say(str(fault))
        return NO_FILE
    whole = session.is_whole()
    if whole or tail is None:
        journal.end()
        if not whole:
            journal.say('turns spent')
        return DONE if whole else SPENT
    last = run_tails(session)
    journal.end()
    journal.say(last)
    return NO_TAIL if last.startswith('tail refused') else DONE


def run_datagrams(words: list[str], text: bytes, folder: str) -> tuple[int, list[str]] | None:
    """Runs a command on lines of datagrams. Returns None if these are the words of no such command."""
    pairs = pairs_of(words[1:]) if words[:1] == ['gather'] else None
    if pairs is not None:
        return gather(pairs, text, folder)
    relayed = relay_words(words[1:]) if words[:1] == ['relay'] else None
    return None if relayed is None else relay(*relayed, text, folder)


def run(words: list[str], text: bytes, folder: str) -> tuple[int, str]:
    """Runs the program on words and an input, in a folder with files. Returns the status and what it prints."""
    done = run_datagrams(words, text, folder)
    if done is not None:
        return done[0], ''.join(line + '\n' for line in done[1])
    if words == ['mirror']:
        status, lines, put = mirror(text, folder)
        # The copies stand at the end, so that whoever compares the two programs sees them too.
        digests = sorted(f'{name} {hashlib.sha256(octets).hexdigest()}' for name, octets in put.items())
        return status, ''.join(line + '\n' for line in [*lines, *digests])
    options = options_of(words[1:]) if words[:1] == ['session'] else None
    if options is None:
        return NO_COMMAND, USAGE + '\n'
    try:
        profile, commands = read_script(text)
    except NoMeaning as why:
        return NO_MEANING, f'refused line {why.line}\n'
    profile.chance = options.get('--chance', profile.chance)
    profile.turns = options.get('--turns', profile.turns)
    session = Session(profile, commands, folder)
    status = ended(session, options.get('--tail'))
    return status, ''.join(line + '\n' for line in session.journal.lines)


def main(words: list[str]) -> int:
    status, printed = run(words, sys.stdin.buffer.read(), '.')
    sys.stdout.write(printed)
    sys.stdout.flush()
    return status
