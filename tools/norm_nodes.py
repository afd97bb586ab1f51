"""What the tools that run nodes have in common: the profile of a session, where its members are, the program, and the manifest of what is sent."""
from __future__ import annotations

import hashlib
import json
import os
import re
import shutil
import subprocess
import sys
import tomllib
from dataclasses import asdict, dataclass, fields
from pathlib import Path, PurePosixPath

import norm_keys
import norm_wire as wire
from norm_wire import ToolFault

LOOPBACK, MOST_PROFILE = '127.0.0.1', 65_536
# What chooses the program of a checkout, and where `make install` puts it as seen from share/normd/tools.
CHOOSER = os.path.join(norm_keys.ROOT, 'tools', 'program')
BESIDE = os.path.normpath(os.path.join(norm_keys.HERE, '..', '..', '..', 'bin', 'normd'))
MANIFEST, PIECE = 'manifest', re.compile(r'p(\d{1,6})')
NOT_ALL = 4  # the status where not everyone has everything
REPAIR_PART = 4  # one datagram in this many is allowed for repair on top


@dataclass(frozen=True)
class Session:
    """The keys of a profile that the tools go by, with their defaults."""
    port: int
    sender: int
    receivers: int
    octets: int
    window: int
    gap: int
    grtt: int
    k: int
    e: int
    b: int
    max_n: int
    auto: int
    turns: int
    mode: str

    def nodes(self) -> list[int]:
        """All members: the sender, then the receivers."""
        return [self.sender + at for at in range(self.receivers + 1)]

    def address(self, node: int) -> tuple[str, int]:
        """Where a member is: the hub has the first port, and the members have those behind it."""
        return LOOPBACK, self.port + 1 + self.nodes().index(node)

    def last_symbol(self, octets: int) -> tuple[int, int]:
        """The last block of a file and its last source symbol (RFC 5052 section 9.1: the longer blocks come first)."""
        symbols = -(-octets // self.e)
        blocks = -(-symbols // self.b)
        return blocks - 1, symbols // blocks - 1

    def unasked(self, octets: int) -> int:
        """The datagrams that the sender sends unasked of a file: its info, its source symbols, and `auto` parity symbols of each block, or all that the block has."""
        symbols = -(-octets // self.e)
        blocks = -(-symbols // self.b)
        shorter, longer_blocks = divmod(symbols, blocks)

        def parity(k: int) -> int:
            return min(self.auto, k * self.max_n // self.b - k)

        return 1 + symbols + longer_blocks * parity(shorter + 1) + (blocks - longer_blocks) * parity(shorter)

    def asks_within(self, octets: int) -> float:
        """The seconds within which a sender of this many octets asks the last time whether a receiver has them all. Before, it may send what it keeps
        once more, to others."""
        return (2 * wire.FLUSHES * self.grtt + self.unasked(max(1, min(octets, self.octets))) * self.gap) / 1e6 + 1

    def warning(self) -> str | None:
        """What is amiss if a block takes longer to send than a receiver waits until it asks again, at most."""
        block, again = self.b * self.gap, (2 * self.k + 2) * self.grtt
        if block <= again:
            return None
        return (f'a block of {self.b} symbols takes {block:,} microseconds to send, and a receiver asks again after {again:,} at most: if no fresh parity is '
                f'left, its symbols are asked for without end. Give the profile a grtt of {-(-block // (self.k + 1)):,} or more.')

    def check_turns(self, datagrams: int, octets: int) -> None:
        """Refuses what the sender's turns are too few for. It sends one datagram a turn at most, and some are lost and go again."""
        needed = datagrams + -(-datagrams // REPAIR_PART)
        if needed > self.turns:
            most = next(key.greatest for key in norm_keys.keys() if key.name == 'turns')
            raise ToolFault(f'{octets:,} octets need some {needed:,} datagrams, with a quarter for repair, and the profile\'s turns are {self.turns:,}, each for one at most: '
                            f'send less at a time, or give the profile more turns (at most {most:,}).')


def keys_of(path: str) -> dict[str, int | str]:
    """The keys that a profile gives, as far as a tool looks at it: the program itself refuses a profile that is none."""
    octets = wire.read_file(path)
    if len(octets) > MOST_PROFILE:
        raise ToolFault(f'{path} has {len(octets)} octets, and a profile has at most {MOST_PROFILE}.')
    try:
        given = tomllib.loads(wire.text_of(path, octets))
    except tomllib.TOMLDecodeError as error:
        raise ToolFault(f'{path} is no TOML document: {error}.') from None
    words = words_of_keys()
    for name, value in given.items():
        if name not in words:
            raise ToolFault(f'{path}: {name} is no key.')
        if words[name] and value not in words[name] or not words[name] and type(value) is not int:
            raise ToolFault(f'{path}: {name} has a value of another kind.')
    return given


def words_of_keys() -> dict[str, tuple[str, ...]]:
    return {key.name: key.words for key in norm_keys.keys()}


def document(keys: dict[str, int | str]) -> str:
    """The profile that gives these keys."""
    return ''.join(f'{name} = "{value}"\n' if isinstance(value, str) else f'{name} = {value}\n' for name, value in keys.items())


def session_of(path: str) -> Session:
    """The session of a profile."""
    given, words = keys_of(path), words_of_keys()
    numbers = {name: words[name].index(value) if words[name] else value for name, value in given.items()}
    if why := norm_keys.fault_of(numbers):
        raise ToolFault(f'{path}: {why}.')
    if given.get('fabric') != 'udp':
        raise ToolFault(f'{path}: the nodes meet over sockets, so it has to say fabric = "udp".')
    whole = {**norm_keys.defaults(), **numbers}
    whole['max_n'] = numbers.get('max_n', norm_keys.default_max_n(whole['b']))
    mode = words['mode'][whole['mode']]
    return Session(mode=mode, **{it.name: whole[it.name] for it in fields(Session) if it.name != 'mode'})


def warn(tool: str, session: Session) -> None:
    if why := session.warning():
        print(f'{tool}: {why}', file=sys.stderr)


def program_of(given: str | None) -> str:
    """The program that is run: the one that was asked for, the one that was installed with the tools or that `program` chooses in this checkout, or
    the one on the PATH."""
    found = given or own_program() or shutil.which('normd')
    if not found or not os.access(found, os.X_OK):
        why = "'./build --unproved' makes one in a minute or two, and './build' proves one" if os.access(CHOOSER, os.X_OK) else '--program says where it is'
        raise ToolFault(f'no program is there that is newer than its sources: {why}.', wire.FAILED)
    return os.path.abspath(found)


def own_program() -> str | None:
    """The program of this checkout, or of this installation, or None if it is not there."""
    if os.access(CHOOSER, os.X_OK):
        return subprocess.run([CHOOSER], stdout=subprocess.PIPE, text=True).stdout.strip() or None
    return BESIDE if os.access(BESIDE, os.X_OK) else None


def in_group(group: str | None) -> list[str]:
    """The words that have a node join a group, if one is given."""
    return [] if group is None else ['--group', group]


@dataclass(frozen=True)
class Entry:
    """A file of a manifest: where it goes below the folder, its octets, and their digest."""
    path: str
    octets: int
    sha256: str

    def fault(self) -> str | None:
        """Why this is no file that a receiver may write, or None."""
        parts = PurePosixPath(self.path).parts
        if not parts or self.path.startswith('/') or '..' in parts or '\0' in self.path or parts[0].startswith('.normd-'):
            return f'{self.path!r} is no path below a folder'
        if self.octets < 0 or not re.fullmatch('[0-9a-f]{64}', self.sha256):
            return f'{self.path!r} has no length or no digest'
        return None


@dataclass(frozen=True)
class Manifest:
    """What is sent: the files one after the other, cut into pieces of one length, the last of which may be shorter."""
    piece: int
    files: tuple[Entry, ...]

    def octets(self) -> int:
        return sum(it.octets for it in self.files)

    def pieces(self) -> int:
        return -(-self.octets() // self.piece)

    def text(self) -> bytes:
        return json.dumps({'piece': self.piece, 'files': [asdict(it) for it in self.files]}, indent=0).encode()


def manifest_of(octets: bytes) -> Manifest:
    """The manifest that these octets are, or the fault that says why they are none."""
    try:
        said = json.loads(octets)
        found = Manifest(int(said['piece']), tuple(Entry(str(it['path']), int(it['octets']), str(it['sha256'])) for it in said['files']))
    except (ValueError, KeyError, TypeError) as error:
        raise ToolFault(f'the manifest is none: {error!r}.') from None
    faults = [why for it in found.files if (why := it.fault())]
    if found.piece < 1 or len({it.path for it in found.files}) < len(found.files):
        faults.append('it has no length of pieces, or a path twice')
    if faults:
        raise ToolFault(f'the manifest is refused: {faults[0]}.')
    return found


def digest_of(path: Path) -> str:
    with path.open('rb') as file:
        return hashlib.file_digest(file, 'sha256').hexdigest()
