"""What each receiver confirmed of the files that are sent, by the lines that the sender prints; and that as a table for people and programs.

docs/scripts.md has the lines. They are read by their first word, and words that are not known are passed over."""
from __future__ import annotations

import csv
import io
import time
from dataclasses import dataclass

import norm_journal
import norm_wire as wire
from norm_nodes import Manifest, Session
from norm_wire import ToolFault

OWN = '0'  # the producer of the commands that the sender makes by itself
EVERYTHING, GIVEN_UP, STRUCK, LACKING = 'everything', 'given up', 'struck', 'not all'
CONFIRMED_WIDTH = 13  # with this many letters the columns of a transfer below ten thousand million octets stay where they are


@dataclass
class Receiver:
    """What a receiver confirmed: the first of the objects, so many of them."""
    node: int
    machine: str
    objects: int = 0
    struck_by: str | None = None

    def named(self) -> str:
        return f'node {self.node}' + (f' ({self.machine})' if self.machine else '')


class Reached:
    """What was reached so far. The first object is the manifest, and those after it are the pieces."""

    def __init__(self, session: Session, manifest: Manifest, names: dict[int, str]):
        self.session, self.manifest = session, manifest
        self.total, self.objects, self.first = manifest.octets(), 1 + manifest.pieces(), len(manifest.text())
        self.ends = self.ends_of_files()
        self.receivers = {node: Receiver(node, names.get(node, '')) for node in session.nodes()[1:]}
        self.accepted, self.refused, self.marks, self.is_given_up = 0, self.objects, [], False
        self.began = self.ended = time.monotonic()

    def ends_of_files(self) -> list[tuple[str, int]]:
        """Each file with the octets up to its end. An empty one comes with the manifest."""
        ends, end = [], 0
        for entry in self.manifest.files:
            end += entry.octets
            ends.append((entry.path, end if entry.octets else 0))
        return ends

    def length(self, index: int) -> int:
        """The octets of an object."""
        return self.first if index == 0 else min(self.manifest.piece, self.total - (index - 1) * self.manifest.piece)

    def octets(self, objects: int) -> int:
        """The octets of files that stand in the first objects."""
        return min(max(objects - 1, 0) * self.manifest.piece, self.total)

    def read(self, line: str) -> None:
        """Takes in a line of the sender."""
        words = line.split()
        reads = {'enq': self.read_enq, 'no': self.read_no, 'past': self.read_past, 'done': self.read_done, 'strike': self.read_strike}
        if words and words[0] in reads:
            reads[words[0]](words)

    def seconds(self) -> float:
        """From when the first object was accepted until the last listing came."""
        return self.ended - self.began

    def read_enq(self, words: list[str]) -> None:
        if not self.accepted:
            self.began = time.monotonic()
        self.accepted += 1

    def read_no(self, words: list[str]) -> None:
        """A file that was refused is never sent, so nobody has more than those before it."""
        if words[1] != OWN:
            self.refused = min(self.refused, self.accepted)

    def read_past(self, words: list[str]) -> None:
        receiver, (index, block, symbol) = self.receivers.get(int(words[1])), map(int, words[3:6])
        if receiver and index < self.objects:
            is_whole = (block, symbol) >= self.session.last_symbol(self.length(index))
            receiver.objects = max(receiver.objects, index + is_whole)
            self.ended = time.monotonic()

    def read_done(self, words: list[str]) -> None:
        self.marks.append(' '.join(words[1:]))

    def read_strike(self, words: list[str]) -> None:
        if int(words[3]) in self.receivers:
            self.receivers[int(words[3])].struck_by = words[1]

    def confirmed(self, receiver: Receiver) -> int:
        """The octets of files that a receiver confirmed."""
        return self.octets(min(receiver.objects, self.refused))

    def has_all(self, receiver: Receiver) -> bool:
        return min(receiver.objects, self.refused) == self.objects

    def lacking(self) -> list[Receiver]:
        return [it for it in self.receivers.values() if not self.has_all(it)]

    def everybody(self) -> int:
        """The octets that everybody confirmed who is still waited for."""
        waited = [self.confirmed(it) for it in self.receivers.values() if it.struck_by is None]
        return min(waited, default=self.total)

    def state(self, receiver: Receiver) -> str:
        if self.has_all(receiver):
            return EVERYTHING
        if receiver.struck_by == OWN or self.is_given_up and receiver.struck_by is None:
            return GIVEN_UP
        return STRUCK if receiver.struck_by else LACKING

    def missing(self, receiver: Receiver) -> list[str]:
        """The files that a receiver lacks."""
        confirmed, has_manifest = self.confirmed(receiver), receiver.objects > 0
        return [] if self.has_all(receiver) else [path for path, end in self.ends if end > confirmed or not has_manifest]

    def table(self) -> str:
        """A row for each receiver."""
        rows = [['node', 'machine', 'state', 'confirmed'.ljust(CONFIRMED_WIDTH), 'first file that it lacks']]
        for receiver in self.receivers.values():
            missing = self.missing(receiver)
            more = f' (and {len(missing) - 1} more)' if len(missing) > 1 else ''
            first = printable(missing[0]) + more if missing else ''
            rows.append([str(receiver.node), receiver.machine or '-', self.state(receiver), f'{self.confirmed(receiver):,}', first])
        return norm_journal.aligned(rows)

    def report(self) -> bytes:
        """The same for programs, a line for each receiver with commas."""
        out = io.StringIO()
        writer = csv.writer(out, lineterminator='\n')
        writer.writerow(['node', 'machine', 'state', 'confirmed', 'octets', 'files_lacking', 'first_lacking'])
        for receiver in self.receivers.values():
            missing = self.missing(receiver)
            first = missing[0] if missing else ''
            writer.writerow([receiver.node, receiver.machine, self.state(receiver), self.confirmed(receiver), self.total, len(missing), first])
        return out.getvalue().encode(errors='surrogateescape')

    def whole(self) -> str:
        """The last line: who confirmed what is sent."""
        have = len(self.receivers) - len(self.lacking())
        return f'{files(len(self.manifest.files))}, {self.total:,} octets: {have} of {receivers(len(self.receivers))} confirmed them'

    def said(self) -> str:
        """What was reached, in a sentence."""
        lacking = self.lacking()
        if not lacking:
            return self.whole()
        least = min(lacking, key=self.confirmed)
        return f'{self.whole()}, and {least.named()} has {self.confirmed(least):,}'


def printable(path: str) -> str:
    """A path as it can stand in a line."""
    return path if path.isprintable() else repr(path)[1:-1]


def files(count: int) -> str:
    return f'{count:,} file' + ('s' if count != 1 else '')


def receivers(count: int) -> str:
    return f'{count} receiver' + ('s' if count != 1 else '')


def names_of(path: str | None, session: Session) -> dict[int, str]:
    """The machines by node, of a file with lines `3 lab3`. Empty lines, and those that begin with #, say nothing."""
    names: dict[int, str] = {}
    for number, line in enumerate(wire.text_of(path, wire.read_file(path)).splitlines() if path else (), 1):
        words = line.split()
        if not words or words[0].startswith('#'):
            continue
        if len(words) != 2 or not (words[0].isascii() and words[0].isdigit()):
            raise ToolFault(f'{path}: line {number} is no node and the name of its machine.')
        node = int(words[0])
        if node not in session.nodes()[1:] or node in names:
            raise ToolFault(f'{path}: line {number}: {node} is {"named twice" if node in names else "no receiver of the profile"}.')
        names[node] = words[1]
    return names
