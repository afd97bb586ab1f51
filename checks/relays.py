#!/usr/bin/env python3
"""Relays beside the program `replay`: their calls in any order, and the sender that is in one.

    checks/relays.py [--seed N] [--count N] [--program FILE] [--replay FILE]

Rows: the answers to the rows of relays in crates/replay are those of the plain relay (checks/plain), and not ours.
Calls: random lists of calls of a relay, in any order, strikes too, are given to `replay` and to the plain relay, and each answer is compared.
Senders: what a relay hears (checks/alike --relay) is given to `normd relay`. The plain relay says which jobs its sender got at which line. A sender
that `replay` begins gets these jobs, and the datagrams from below, at the same moments: it sends what the run printed as sent below.

COUNT is of the lists and of the runs. List or run N is a function of N; N counts on from the seed. Exit status: 0 if nothing differs, 1 if
something does, 2 if a program is not there."""
from __future__ import annotations

import argparse
import os
import subprocess
import sys
import tempfile

sys.dont_write_bytecode = True
HERE = os.path.dirname(os.path.abspath(__file__))
sys.path.insert(0, HERE)
from plain import relay as plain  # noqa: E402
from plain.calls import answers, random_calls  # noqa: E402
from plain.gather import Stop, load  # noqa: E402
from plain.relays import random_relay  # noqa: E402
from plain.script import lines_of  # noqa: E402
from plain.sender import Sender  # noqa: E402

CRATES = os.path.join(HERE, '..', 'crates')
MOST_LINES = 20000                              # that one call of `replay` gets
SHOWN = 200                                     # characters of a line that differs
PATIENCE = 300                                  # seconds that a program has


def replayed(program: str, lines: list[str]) -> list[str]:
    done = subprocess.run([program], input='\n'.join(lines) + '\n', capture_output=True, text=True, timeout=PATIENCE, check=False)
    return done.stdout.splitlines()


def compare(name: str, lines: list[str], wanted: list[str], came: list[str]) -> int:
    """Says where the answers to lines differ first. Returns how many do."""
    at = next((i for i in range(len(lines)) if wanted[i:i + 1] != came[i:i + 1]), None)
    if at is None:
        return 0
    print(f'relays: {name}, line {at + 1}, {lines[at][:SHOWN]}\n  wanted {wanted[at][:SHOWN]}\n  came   {" ".join(came[at:at + 1])[:SHOWN]}', flush=True)
    return 1


# ---- rows, and calls

def rows() -> int:
    """Compares the rows of relays with the plain one."""
    texts = []
    for name in ('stdin', 'stdout'):
        with open(os.path.join(CRATES, 'replay', name), encoding='ascii') as file:
            texts.append(file.read().splitlines())
    first = next(i for i, line in enumerate(texts[0]) if line.startswith('row relay:'))
    asked, wanted = texts[0][first:], texts[1][first:]
    print(f'relays: {sum(line.startswith("row ") for line in asked)} rows')
    return compare('rows', asked, answers(asked), wanted)


def calls(program: str, numbers: range) -> int:
    """Compares random lists of calls, some with one call of the program."""
    differ, lines, names = 0, [], []
    for n in numbers:
        made = random_calls(n)
        lines += made
        names += [f'calls {n}'] * len(made)
        if len(lines) > MOST_LINES or n == numbers[-1]:
            wanted, came = answers(lines), replayed(program, lines)
            first = next((i for i in range(len(lines)) if wanted[i:i + 1] != came[i:i + 1]), 0)
            differ += compare(names[first], lines, wanted, came)
            lines, names = [], []
    print(f'relays: {len(numbers)} lists of calls, {differ} differ')
    return differ


# ---- the sender of a run

class Recorded(Sender):
    """A sender that keeps the jobs that it takes, as commands of `replay`."""
    now = 0

    def __init__(self, p):
        self.kept: list[str] = []
        super().__init__(p)

    def keep(self, words: str, job, *given):
        gave = job(*given)
        self.kept.append(f'command 1 {len(self.kept) + 1} {self.now} {words}')
        return gave

    def enqueue(self, kind, info, octets):
        words = f'file {info.hex()} {octets.hex()}' if kind == 'file' else f'data {octets.hex()}' + ('' if info is None else f' {info.hex() or "-"}')
        return self.keep(words, super().enqueue, kind, info, octets)

    def open(self):
        return self.keep('open', super().open)

    def write(self, octets):
        return self.keep(f'write {octets.hex()}', super().write, octets)

    def close(self):
        return self.keep('close', super().close)

    def mark(self, quorum):
        return self.keep('mark', super().mark, quorum)

    def restart(self, instance):
        return self.keep(f'restart {instance}', super().restart, instance)


def events_of(words: list[str], text: bytes, room: str) -> list[str] | None:
    """Returns the events of the sender below in a run, or None if it is refused."""
    up_path, node, down_path, instance = plain.relay_words(words[1:])
    try:
        up, down = load(room, up_path), load(room, down_path)
        down.instance = down.instance if instance is None else instance
        relaying = plain.Relaying(up, node, down)
    except Stop:
        return None
    sender = relaying.relay.sender = Recorded(down)
    keys = {key: value for key, value in down.__dict__.items() if key not in ('port', 'fabric')}
    events = [f'set {key} {value}' for key, value in keys.items()] + [f'sender {down.instance}']
    for n, octets in enumerate(lines_of(text), 1):
        try:
            line = plain.Line(n, octets)
        except Stop:
            break
        if line.side == 'down':
            events.append(f'deliver {line.now} 0 {line.octets.hex()}')
        sender.now, before = line.now, len(sender.kept)
        relaying.take(line)
        events += [*sender.kept[before:], f'tick {line.now}']
    return events


def senders(program: str, replay: str, numbers: range) -> int:
    """Compares what runs send below with what a sender alone sends."""
    differ = done = 0
    for n in numbers:
        words, text, files = random_relay(n)
        with tempfile.TemporaryDirectory() as room:
            for name, octets in files.items():
                with open(os.path.join(room, name), 'wb') as file:
                    file.write(octets)
            events = events_of(words, text.encode(), room) if plain.relay_words(words[1:]) else None
            if events is None:
                continue
            run = subprocess.run([program, *words], input=text.encode(), capture_output=True, cwd=room, timeout=PATIENCE, check=False)
        wanted = [line.removeprefix('down ') for line in run.stdout.decode().splitlines() if line.startswith('down ')]
        came = [line.removeprefix('sent ') for line in replayed(replay, events) if line.startswith('sent ')]
        longest = max(len(wanted), len(came))
        differ += compare(f'sender {n}', [f'datagram {i}' for i in range(longest)], wanted + ['none'] * longest, came + ['none'] * longest)
        done += 1
    print(f'relays: {done} senders, {differ} differ')
    return differ


def main() -> int:
    parser = argparse.ArgumentParser(description=__doc__, formatter_class=argparse.RawDescriptionHelpFormatter)
    parser.add_argument('--seed', type=int, default=1)
    parser.add_argument('--count', type=int, default=100)
    parser.add_argument('--program', default=os.path.join(CRATES, 'normd', 'out', 'normd'))
    parser.add_argument('--replay', default=os.path.join(CRATES, 'replay', 'out', 'replay'))
    a = parser.parse_args()
    program, replay = os.path.abspath(a.program), os.path.abspath(a.replay)
    for path in (program, replay):
        if not os.access(path, os.X_OK):
            print(f'relays: {path} is not there')
            return 2
    numbers = range(a.seed, a.seed + a.count)
    return 1 if rows() + calls(replay, numbers) + senders(program, replay, numbers) else 0


if __name__ == '__main__':
    sys.exit(main())
