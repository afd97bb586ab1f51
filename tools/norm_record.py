"""Records: what nodes noted with NORMD_LOG=record, a file NODE.record for each, and how a record is read as a run that can be drawn.

A line is `T offer NODE HEX`, `T take NODE HEX`, or `T LINE` with a line of a journal without contents; T is in microseconds of a clock that all
processes of a machine share. Before the lines stand two that say of which machine the clock is, and what the profile has:

    # machine ID NAME
    # profile KEY=VALUE .."""
from __future__ import annotations

import re
import socket
from collections.abc import Callable, Iterator
from dataclasses import dataclass
from pathlib import Path
from typing import Any

import norm_keys
import norm_wire as wire
from norm_wire import Run, Step, ToolFault

SUFFIX, BOOT = '.record', '/proc/sys/kernel/random/boot_id'
NOTED = re.compile(rb'\d+ [a-z]')
LINE = re.compile(r'(\d{1,19}) ([a-z]+)((?: [^ ]+)*)')
HEX = re.compile('(?:[0-9a-f]{2})*')
# So many microseconds may pass from an offer until another process takes it in, and between signs that share a row.
USUAL_DELAY = 2000


def head_of(keys: dict[str, Any]) -> str:
    """The lines before those of a node, by the keys of its profile."""
    try:
        machine = Path(BOOT).read_text().strip()
    except OSError:
        machine = 'unknown'
    whole = {**norm_keys.defaults(), **keys}
    return f'# machine {machine} {socket.gethostname()}\n# profile ' + ' '.join(f'{key}={whole[key]}' for key in wire.PROFILE) + '\n'


def check_new(folder: str | None) -> None:
    """A record, if one is asked for, goes into a new folder. Call it before anything that takes long."""
    if folder and Path(folder).exists():
        raise ToolFault(f'{folder} is there already.')


def made(folder: str) -> Path:
    """The folder for a record."""
    check_new(folder)
    try:
        Path(folder).mkdir(parents=True)
    except OSError as error:
        raise ToolFault(f'{folder} cannot be made: {error.strerror}.', wire.FAILED) from None
    return Path(folder)


class Recorder:
    """The record of a node as it grows. If it cannot be written any more, that is said once, and the node goes on."""

    def __init__(self, folder: Path, node: int, keys: dict[str, Any], say: Callable[[str], None]):
        self.path, self.say, self.file = folder / f'{node}{SUFFIX}', say, None
        self.lines, self.fault = 0, False
        self.write(head_of(keys).encode())

    def write(self, octets: bytes) -> None:
        try:
            if not self.fault:
                self.file = self.file or self.path.open('wb')
                self.file.write(octets)
        except OSError as error:
            self.fault = True
            self.say(f'{self.path} cannot be written: {error.strerror}. The record ends here.')

    def is_noted(self, line: bytes) -> bool:
        """Takes a line that is one of a record, and says whether it is one."""
        if not NOTED.match(line):
            return False
        self.lines += 1
        self.write(line)
        return True

    def close(self) -> None:
        """Call once, at the end."""
        try:
            if self.file:
                self.file.close()
        except OSError as error:
            if not self.fault:
                self.say(f'{self.path} cannot be written: {error.strerror}.')
        if not self.lines:
            self.say('the program recorded nothing: it is older than this tool.')


@dataclass
class Noted:
    """What a file of a record says: its machine, the keys of its profile, and its events in order."""
    path: Path
    machine: str
    keys: dict[str, int]
    events: list[Step]


def read(path: Path, say: Callable[[str], None]) -> Noted:
    """A file of a record, as far as it goes."""
    noted = Noted(path, '', {}, [])
    with path.open(encoding='utf-8', errors='replace') as file:
        for number, line in enumerate(file, 1):
            whole = LINE.fullmatch(line[:-1]) if line.endswith('\n') else None
            if line.startswith('# '):
                read_head(noted, line.split()[1:])
            elif whole and (read_line := LINES.get(whole[2])):
                try:
                    noted.events.append(read_line(int(whole[1]), whole[3].split()))
                except KeyError:
                    pass  # of a kind that is not known
                except (IndexError, ValueError):
                    whole = None
            if not whole and line[:1].isdigit():
                say(f'{path} is cut or damaged in line {number}, and is read up to there.')
                break
    return noted


def read_head(noted: Noted, words: list[str]) -> None:
    if words[:1] == ['machine']:
        noted.machine = ' '.join(words[1:])
    if words[:1] == ['profile']:
        noted.keys = {key: int(value) for key, _, value in (it.partition('=') for it in words[1:]) if key in wire.PROFILE and value.isdigit()}


def datagram(what: str) -> Callable[[int, list[str]], Step]:
    """What reads a line of a datagram, as an event of a recorded run."""
    def read_words(moment: int, words: list[str]) -> Step:
        octets = words[1] if len(words) > 1 else ''
        if not HEX.fullmatch(octets):
            raise ValueError
        return Step(what, moment, {what: int(words[0]), 'bytes': octets})
    return read_words


def job(gave: Callable[[list[str]], dict[str, Any]]) -> Callable[[int, list[str]], Step]:
    def read_words(moment: int, words: list[str]) -> Step:
        quorum = int(words[7]) if len(words) > 7 else None
        return Step('job', moment, {'job': {'quorum': quorum}, 'gave': gave(words)})
    return read_words


def enqueued(words: list[str]) -> dict[str, Any]:
    index, what = int(words[3]), words[4]
    if what in ('data', 'file'):
        return {'object': {'index': index, 'len': int(words[5])}}
    if what == 'write':
        return {'wrote': {'index': index, 'len': int(words[5]), 'offset': int(words[6])}}
    return {{'open': 'opened', 'close': 'closed'}[what]: {'index': index}}


def hand_up(moment: int, words: list[str]) -> Step:
    index, what = int(words[2]), words[3]
    sign = {'data': 'object', 'file': 'object', 'open': 'open', 'bytes': 'bytes', 'end': 'end', 'lost': 'lost'}[what]
    return Step('up', moment, {'up': {sign: {'index': index, **({'offset': int(words[4])} if what == 'bytes' else {})}}, 'node': int(words[0])})


def listed(moment: int, words: list[str]) -> Step:
    return Step('news', moment, {'news': {'past': {'node': int(words[0]), 'at': [int(it) for it in words[2:5]]}}})


def ended(moment: int, words: list[str]) -> Step:
    return Step('news', moment, {'news': {'done': {'mark': int(words[0]), 'outcome': words[1], 'left': [int(it) for it in words[2:]]}}})


# Of each first word what reads the others. Words that are not known say nothing that is drawn.
LINES: dict[str, Callable[[int, list[str]], Step]] = {
    'offer': datagram('offer'), 'take': datagram('took'), 'up': hand_up, 'past': listed, 'done': ended,
    'enq': job(enqueued),
    'mark': job(lambda words: {'mark': {'mark': int(words[3]), 'at': [int(it) for it in words[4:7]]}}),
    'restart': job(lambda words: {'restarted': {'instance': int(words[2])}}),
    'strike': job(lambda words: {'struck': {'node': int(words[2])}}),
    'no': job(lambda words: {'refused': {'reason': words[2], 'args': words[3:]}}),
}


def chosen(files: list[Noted], say: Callable[[str], None]) -> list[Noted]:
    """The files of one machine, that with most of them: clocks of several machines say nothing of what came first."""
    machines = {it.machine for it in files}

    def size(machine: str) -> tuple[int, int]:
        own = [len(it.events) for it in files if it.machine == machine]
        return len(own), sum(own)

    most = max(machines, key=size)
    if len(machines) > 1:
        others = ', '.join(sorted(str(it.path) for it in files if it.machine != most))
        say(f'the record has the clocks of {len(machines)} machines, and only that of {most.rpartition(" ")[2]} is drawn: {others} left out.')
    return [it for it in files if it.machine == most]


def run_of(folder: str, say: Callable[[str], None]) -> Run:
    """The record that a folder has, also in folders below it, as a run."""
    try:
        files = [read(path, say) for path in sorted(Path(folder).rglob(f'*{SUFFIX}'))]
    except OSError as error:
        raise ToolFault(f'{error.filename} cannot be read: {error.strerror}.', wire.FAILED) from None
    files = chosen([it for it in files if it.events], say) if any(it.events for it in files) else []
    if not files:
        raise ToolFault(f'{folder} has no record: no file *{SUFFIX} with a line of one.')
    steps = merged([it.events for it in files])
    return Run(profile_of(files, steps), steps, False, '', USUAL_DELAY)


def profile_of(files: list[Noted], steps: tuple[Step, ...]) -> dict[str, Any]:
    """What the tools need of the profile. Of a record without its head it is guessed by the nodes in it."""
    nodes = [step.event[what] for step in steps for what in ('offer', 'took', 'node') if what in step.event] or [1, 2]
    guessed = {'sender': min(nodes), 'receivers': max(1, max(nodes) - min(nodes))}
    found = {**norm_keys.defaults(), **guessed, **next((it.keys for it in files if it.keys), {})}
    return {**found, 'step': max(found['step'] or found['gap'], USUAL_DELAY)}


def merged(files: list[list[Step]]) -> tuple[Step, ...]:
    """The events of all files in one order, from the first one's moment on. Each file's order stays. A process may note an offer after another
    noted that it took that in: then the one that took it in waits."""
    known = {step.event['bytes'] for steps in files for step in steps if step.what == 'offer'}
    places, offered, made_steps = [0] * len(files), set(), []
    while heads := [(steps[at].now, which) for which, (steps, at) in enumerate(zip(files, places)) if at < len(steps)]:
        ready = [(now, which) for now, which in heads if may_come(files[which][places[which]], known, offered)]
        now, which = min(ready or heads)
        step = files[which][places[which]]
        places[which] += 1
        if step.what == 'offer':
            offered.add(step.event['bytes'])
        made_steps.append(Step(step.what, max(now, made_steps[-1].now if made_steps else 0), step.event))
    return tuple(Step(step.what, step.now - made_steps[0].now, step.event) for step in made_steps)


def may_come(step: Step, known: set[str], offered: set[str]) -> bool:
    """Whether it is no datagram that is still to be offered."""
    return step.what != 'took' or step.event['bytes'] in offered or step.event['bytes'] not in known


def split(lines: Iterator[bytes], sender: int) -> Iterator[tuple[int, bytes]]:
    """The lines of a record of all members, each with the node that it is of."""
    for line in lines:
        words = line.split(b' ', 3)
        if NOTED.match(line):
            is_named = words[1] in (b'offer', b'take', b'up') and len(words) > 2 and words[2].strip().isdigit()
            yield int(words[2]) if is_named else sender, line

