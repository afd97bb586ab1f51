"""Printed journals: their lines, what they say of receivers and watermarks, and that as tables.

docs/scripts.md has the lines. A journal is read whole, and its summary is compared with its lines, before a table is made."""
from __future__ import annotations

import csv
import io
import re
from dataclasses import dataclass, field

from norm_wire import ToolFault

NUMBER, HEX = '[0-9]+', '(?:[0-9a-f]{2})*'
PLACE = rf'{NUMBER} {NUMBER} {NUMBER}'
ORIGIN = rf'{NUMBER} {NUMBER} {NUMBER}'
REASONS = ('empty|no-stream|ids-spent|nothing-enqueued|'
           rf'(?:too-big|info-too-big|stream-open|spent|id-used|quorum|not-member|last-member) {NUMBER}')
# The lines of a journal: of each its first word and what follows it.
LINES = {
    'enq': re.compile(rf'enq {ORIGIN} {NUMBER} (?:(?:data|file) {NUMBER}|open|write {NUMBER} {NUMBER}|close)'),
    'mark': re.compile(rf'mark {ORIGIN} {NUMBER} {PLACE}(?: {NUMBER})?'),
    'restart': re.compile(rf'restart {ORIGIN}'),
    'strike': re.compile(rf'strike {ORIGIN}'),
    'no': re.compile(rf'no {NUMBER} {NUMBER} (?:{REASONS})'),
    'up': re.compile(rf'up {NUMBER} {NUMBER} {NUMBER} (?:(?:data|file) {NUMBER} (?:-|{HEX}) {HEX}|open|bytes {NUMBER} {NUMBER} {HEX}|end|lost)'),
    'past': re.compile(rf'past {NUMBER} {NUMBER} {PLACE}'),
    'done': re.compile(rf'done {NUMBER} (?:satisfied|cut|expired(?: {NUMBER})*)'),
    'end': re.compile(rf'end objects {NUMBER} octets {NUMBER} handed {NUMBER} lost {NUMBER} satisfied {NUMBER} expired {NUMBER} cut {NUMBER}'),
}
COUNTS = ('objects', 'octets', 'handed', 'lost', 'satisfied', 'expired', 'cut')
# After the summary of a run that persists: a receiver that lacks something, and what it confirmed.
LACKS = re.compile(rf'lacks ({NUMBER}) {NUMBER} (?:{PLACE}|-)')
# What may stand behind the summary, or in its place where a fault came.
LAST = re.compile(rf'turns spent|tail {NUMBER} {NUMBER}|tail refused [a-z-]+|fault (?:read|fabric|files)|absent \S+')
REFUSED = re.compile('refused (?:line [0-9]+|profile)|usage: .*')

Position = tuple[int, int, int]


@dataclass
class Watermark:
    """A watermark: where it stands, who has to be past it, and what became of it."""
    number: int
    instance: int
    at: Position
    quorum: int | None
    outcome: str = 'open'
    left: tuple[int, ...] = ()
    states: dict[int, str] = field(default_factory=dict)

    def is_open(self) -> bool:
        return self.outcome == 'open'


@dataclass
class Receiver:
    """What a journal says of a receiver."""
    node: int
    objects: int = 0
    octets: int = 0
    lost: int = 0
    instance: int | None = None
    past: Position | None = None
    is_struck: bool = False


class Journal:
    """What was read of a printed journal so far, line by line."""

    def __init__(self) -> None:
        self.marks: dict[int, Watermark] = {}
        self.receivers: dict[int, Receiver] = {}
        self.counts = dict.fromkeys(COUNTS, 0)
        self.said: dict[str, int] | None = None
        self.lacking: list[str] = []
        self.last: str | None = None

    def receiver(self, node: str) -> Receiver:
        return self.receivers.setdefault(int(node), Receiver(int(node)))

    def read(self, line: str) -> None:
        """Takes in a line that is one of a journal."""
        words = line.split(' ')
        getattr(self, 'read_' + words[0])(words)

    def read_enq(self, words: list[str]) -> None:
        self.counts['objects'] += words[5] in ('data', 'file', 'open')
        self.counts['octets'] += int(words[6]) if words[5] in ('data', 'file', 'write') else 0

    def read_mark(self, words: list[str]) -> None:
        number = int(words[4])
        mark = Watermark(number, int(words[3]), position(words[5:8]), int(words[8]) if len(words) > 8 else None)
        self.marks[number] = mark
        for receiver in self.receivers.values():
            if receiver.is_struck:
                mark.states[receiver.node] = 'struck'
            self.see(mark, receiver)

    def read_strike(self, words: list[str]) -> None:
        receiver = self.receiver(words[3])
        receiver.is_struck, receiver.past = True, None
        for mark in self.marks.values():
            if mark.is_open():
                mark.states.setdefault(receiver.node, 'struck')

    def read_no(self, words: list[str]) -> None:
        """A refused command, and a restart, change nothing that a table says: listings are of their instance."""

    read_restart = read_no

    def read_up(self, words: list[str]) -> None:
        receiver, what = self.receiver(words[1]), words[4]
        receiver.objects += what in ('data', 'file', 'end')
        receiver.octets += int(words[5]) if what in ('data', 'file') else int(words[6]) if what == 'bytes' else 0
        receiver.lost += what == 'lost'
        self.counts['handed'] += what in ('data', 'file', 'end')
        self.counts['lost'] += what == 'lost'

    def read_past(self, words: list[str]) -> None:
        receiver = self.receiver(words[1])
        receiver.instance, receiver.past = int(words[2]), position(words[3:6])
        for mark in self.marks.values():
            self.see(mark, receiver)

    def read_done(self, words: list[str]) -> None:
        mark = self.marks.get(int(words[1]))
        if mark is None or not mark.is_open():
            raise ToolFault(f'watermark {words[1]} ends, and was not open.')
        mark.outcome, mark.left = words[2], tuple(map(int, words[3:]))
        self.counts[words[2]] += 1
        for node in mark.left:
            self.receiver(str(node))

    def read_end(self, words: list[str]) -> None:
        self.said = dict(zip(COUNTS, map(int, words[2::2])))

    def see(self, mark: Watermark, receiver: Receiver) -> None:
        """Notes a receiver that is listed past a watermark, in its instance."""
        if receiver.instance == mark.instance and receiver.past is not None and receiver.past >= mark.at:
            mark.states.setdefault(receiver.node, 'yes' if mark.is_open() else 'later')

    def state(self, mark: Watermark, receiver: Receiver) -> str:
        """Whether a receiver is listed past a watermark: yes, later (it had ended), struck (before it was), or no."""
        return mark.states.get(receiver.node, 'no')


def position(words: list[str]) -> Position:
    """An index, a block and a symbol."""
    index, block, symbol = map(int, words)
    return index, block, symbol


def check_end(path: str, journal: Journal, so_far: bool) -> None:
    """A journal ends with its summary, which says what its lines say, or with a fault."""
    if journal.said is None and journal.last is None and not so_far:
        raise ToolFault(f'{path} has no last line, so it is cut: --so-far makes a table of what is there.')
    if journal.said is not None and journal.said != journal.counts:
        wrong = next(name for name in COUNTS if journal.said[name] != journal.counts[name])
        raise ToolFault(f'{path}: the summary says {wrong} {journal.said[wrong]}, and the lines {journal.counts[wrong]}: lines are missing.')


def journal_of(path: str, text: str, so_far: bool) -> Journal:
    """The journal that a text is. A line that is none, or stands behind the last one, refuses it."""
    journal, lines = Journal(), text.split('\n')
    if lines.pop() and not so_far:
        raise ToolFault(f'{path} is cut: its last line has no line feed.')
    for number, line in enumerate(lines, 1):
        if REFUSED.fullmatch(line):
            raise ToolFault(f'{path} is no journal: the program answered "{line}".')
        if (lacks := LACKS.fullmatch(line)) and journal.said is not None and journal.last is None:
            journal.lacking.append(lacks[1])
            continue
        shape = LINES.get(line.split(' ')[0])
        if journal.last or journal.said and shape or not (shape and shape.fullmatch(line) or LAST.fullmatch(line)):
            raise ToolFault(f'{path}: line {number} is none of a journal.')
        try:
            journal.read(line) if shape else setattr(journal, 'last', line)
        except ToolFault as fault:
            raise ToolFault(f'{path}: line {number}: {fault}') from None
    check_end(path, journal, so_far)
    return journal


def place(at: Position | None) -> str:
    return '.'.join(map(str, at)) if at else '-'


def aligned(rows: list[list[str]]) -> str:
    """Rows in columns, two spaces apart."""
    widths = [max(len(row[i]) for row in rows) for i in range(len(rows[0]))]
    return ''.join('  '.join(cell.ljust(width) for cell, width in zip(row, widths)).rstrip() + '\n' for row in rows)


def known(journal: Journal, nodes: list[int]) -> list[Receiver]:
    """The receivers that the journal names, and those of a list."""
    for node in nodes:
        journal.receiver(str(node))
    return [journal.receivers[node] for node in sorted(journal.receivers)]


def marks_table(journal: Journal, receivers: list[Receiver]) -> str:
    """A row for each watermark, a column for each receiver."""
    rows = [['watermark', 'instance', 'past', 'quorum', 'outcome'] + [str(r.node) for r in receivers]]
    for mark in journal.marks.values():
        quorum = 'all' if mark.quorum is None else str(mark.quorum)
        rows.append([str(mark.number), str(mark.instance), place(mark.at), quorum, mark.outcome]
                    + [journal.state(mark, r) for r in receivers])
    return aligned(rows)


def receivers_table(receivers: list[Receiver]) -> str:
    """A row for each receiver: what it handed up, and how far it is listed."""
    rows = [['receiver', 'objects', 'octets', 'lost', 'listed past']]
    for r in receivers:
        listed = 'struck' if r.is_struck else f'{place(r.past)} of {r.instance}' if r.past else '-'
        rows.append([str(r.node), str(r.objects), str(r.octets), str(r.lost), listed])
    return aligned(rows)


def table(journal: Journal, nodes: list[int]) -> str:
    """The tables of a journal for people."""
    receivers = known(journal, nodes)
    counts = ' '.join(f'{name} {journal.counts[name]}' for name in COUNTS)
    parts = [marks_table(journal, receivers)] if journal.marks else []
    parts += [receivers_table(receivers)] if receivers else []
    ended = journal.last or ('whole' if journal.said else 'not at its end')
    ended += f'\nlacking something: {", ".join(journal.lacking)}' if journal.lacking else ''
    return '\n'.join(parts + [f'{counts}\n{ended}\n'])


def separated(journal: Journal, nodes: list[int]) -> str:
    """A line for each watermark and receiver, for programs."""
    out = io.StringIO()
    writer = csv.writer(out, lineterminator='\n')
    writer.writerow(['watermark', 'instance', 'index', 'block', 'symbol', 'quorum', 'outcome', 'receiver', 'listed'])
    for mark in journal.marks.values():
        for receiver in known(journal, nodes):
            writer.writerow([mark.number, mark.instance, *mark.at, mark.quorum or 'all', mark.outcome, receiver.node, journal.state(mark, receiver)])
    return out.getvalue()
