"""A folder: its manifest and its files go out in a session, what each receiver handed up is checked, and copies are put."""
from __future__ import annotations

import hashlib
import os

from .keys import NUMBERS, WORDS, Profile, value_of
from .script import MOST_LINE, MOST_LINES, NAME, Command, NoMeaning, lines_of
from .session import Fault, Session

MOST_OCTETS = 16777216
MOST_FILES = 1024

# statuses
DONE, NO_MEANING, NO_FILE, SPENT, UNLIKE, UNSATISFIED, UNACCEPTED = 0, 3, 7, 8, 10, 11, 14


def is_name(line: bytes) -> bool:
    """Returns whether a line names a file of a folder, whose copies begin with `n` and a digit."""
    if not 1 <= len(line) <= 64 or not NAME.issuperset(line) or line[:1] == b'.':
        return False
    return not (line[:1] == b'n' and line[1:2].isdigit())


def setting_of(line: bytes) -> tuple | None:
    """Returns the key and the value that a line sets, or None if it has no meaning."""
    key, space, word = line[4:].partition(b' ')
    key = key.decode('latin-1')
    value = value_of(key, word) if space and (key in NUMBERS or key in WORDS) else None
    if value is None or key == 'producers' or value == 'drop':
        return None
    return key, value


def read_names(text: bytes) -> tuple[Profile, list[str]]:
    """Reads the keys and then the names. Raises NoMeaning for the first line that has none."""
    given, names, bad, last = {}, [], [], 0
    lines = lines_of(text)
    for n, line in enumerate(lines, 1):
        if n > MOST_LINES or len(line) > MOST_LINE:
            bad.append(n)
        elif not line or line[:1] == b'#':
            continue
        elif line[:4] == b'set ':
            setting = setting_of(line)
            if names or setting is None or setting[0] in given:
                bad.append(n)
            else:
                given[setting[0]], last = setting[1], n
        elif not is_name(line) or line.decode() in names or len(names) == MOST_FILES:
            bad.append(n)
        else:
            names.append(line.decode())
    profile = Profile(given)
    if not profile.meets_rules():
        bad.append(last)
    if not names:
        bad.append(len(lines) + 1)
    if bad:
        raise NoMeaning(min(bad))
    return profile, sorted(names)


def octets_of(folder: str, name: str) -> bytes:
    path = os.path.join(folder, name)
    if not os.path.exists(path):
        raise Fault(f'absent {name}')
    try:
        with open(path, 'rb') as file:
            return file.read()
    except OSError:
        raise Fault('fault files') from None


def commands_of(manifest: bytes, names: list[str]) -> list[Command]:
    """Returns the commands of a folder: a mark stands behind each object."""
    objects = [('data', (manifest, None)), *(('file', (name,)) for name in names)]
    verbs = [verb for each in objects for verb in (each, ('mark', (None,)))]
    return [Command(1, number, verb, words) for number, (verb, words) in enumerate(verbs, 1)]


def is_folder(ups: list[tuple], manifest: bytes, files: dict[str, bytes]) -> bool:
    """Returns whether hand-ups are a manifest and then exactly its files. Nothing changes while it is sent here."""
    objects = [('data', None, manifest), *(('file', name.encode(), octets) for name, octets in files.items())]
    return [up[2:] for up in ups] == objects and all(up[0] == 'object' for up in ups)


def sent(session: Session) -> int | None:
    """Runs a folder's session. Returns the status if it was not whole."""
    try:
        session.run(session.p.turns)
    except Fault as fault:
        session.journal.say(str(fault))
        return NO_FILE
    whole = session.is_whole()
    session.journal.end()
    if not whole:
        session.journal.say('turns spent')
    return None if whole else SPENT


def mirrored(session: Session, ups: dict[int, list], manifest: bytes, files: dict[str, bytes]) -> int:
    """Checks what was handed up after a whole session. Returns the status."""
    journal = session.journal
    if any(line.startswith('no ') for line in journal.lines):
        journal.say('not accepted')
        return UNACCEPTED
    if journal.outcomes['expired']:
        journal.say('not satisfied')
        return UNSATISFIED
    for node in session.receivers:
        if not is_folder(ups[node], manifest, files):
            journal.say(f'refused node {node}')
            return UNLIKE
    return DONE


def put_copies(session: Session, files: dict[str, bytes], put: dict[str, bytes]) -> int:
    """Puts the copies, up to the first whose place is a folder. Returns the status."""
    for node in session.receivers:
        for name, octets in files.items():
            copy = f'n{node}-{name}'
            if os.path.isdir(os.path.join(session.folder, copy)):
                session.journal.say('fault files')
                return NO_FILE
            put[copy] = octets
    session.journal.say(f'mirrored {len(files)} files to {len(session.receivers)} receivers')
    return DONE


def mirror(text: bytes, folder: str) -> tuple[int, list[str], dict[str, bytes]]:
    """Returns the status, the lines, and the files that are put."""
    try:
        profile, names = read_names(text)
        files = {}
        for name in names:
            files[name] = octets_of(folder, name)
            if not 1 <= len(files[name]) <= MOST_OCTETS:
                return UNACCEPTED, [f'not accepted {name}'], {}
    except NoMeaning as why:
        return NO_MEANING, [f'refused line {why.line}'], {}
    except Fault as fault:
        return NO_FILE, [str(fault)], {}
    lines = (f'{name} {len(octets)} {hashlib.sha256(octets).hexdigest()}\n' for name, octets in files.items())
    manifest = ''.join(lines).encode()
    session = Session(profile, commands_of(manifest, names), folder)
    ups = {node: [] for node in session.receivers}
    say_up = session.journal.up

    def up(node: int, instance: int, handed: tuple) -> None:
        ups[node].append(handed)
        say_up(node, instance, handed)

    session.journal.up = up
    status = sent(session)
    if status is None:
        status = mirrored(session, ups, manifest, files)
    put: dict[str, bytes] = {}
    if status == DONE:
        status = put_copies(session, files, put)
    return status, session.journal.lines, put
