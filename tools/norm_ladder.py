"""A recorded run as a ladder diagram in SVG: time goes downward, each member has a line, and each datagram a row.

`ladder(run)` makes the picture: the run's events become rows (`Chart`), and the rows are drawn (`Drawing`)."""
from __future__ import annotations

from dataclasses import dataclass, field
from html import escape
from typing import Any

import norm_wire as wire
from norm_wire import Run, Step, ToolFault

MOST_ROWS = 3000
WAITING = ('window-full', 'stream-full', 'too-many')

# How a picture is measured, in pixels.
TOP, LEFT, BOTTOM, ROW, BREAK = 74, 78, 26, 16, 10
LANES, LEAST_LANE, MOST_LANE, TEXT, LEAST_WIDTH, LETTER = 900, 44, 150, 340, 720, 5.6
HEADING_EVERY = 50

# The colours of datagrams, which also those tell apart who see few colours.
COLOURS = {'DATA': '#0072b2', 'INFO': '#3fa3d8', 'repair': '#008a5e', 'FLUSH': '#d98200', 'SQUELCH': '#8a5a2b', 'NACK': '#c2488f',
           'ACK': '#6a3d9a', 'other': '#6b6b6b'}
STYLE = '''text { font: 10px "DejaVu Sans", Verdana, sans-serif; fill: #222 }
.head { font-weight: bold; text-anchor: middle } .moment { text-anchor: end; fill: #555 } .index { font-size: 8.5px }
.note { fill: #555 } .life { stroke: #b5b5b5 } .rule { stroke: #ededed } .pause { stroke: #b5b5b5; stroke-dasharray: 1 4 }
.way { stroke-width: 1.3; fill: none } .gone { stroke-dasharray: 3 3; opacity: .55 } .late { stroke-width: 1; fill: none }
.twice { stroke-dasharray: 1.5 2 } .lost { stroke: #d00000; stroke-width: 1.5; fill: none } .drop { fill: #d00000 }
.up { fill: #222 } .listed { fill: #ffd23f; stroke: #222; stroke-width: .8 } .command { fill: #fff; stroke: #222 }
.alien { fill: none; stroke: #6b6b6b }'''


@dataclass
class Arrival:
    """A member was given a datagram: in which row, whether after the turn that follows the offer, and whether it had come before."""
    node: int
    row: int
    is_late: bool
    is_repeat: bool


@dataclass
class Offer:
    """A datagram on its way, its kind and what it says."""
    source: int
    kind: str
    words: str
    arrivals: list[Arrival] = field(default_factory=list)

    def lost_to(self, members: list[int]) -> list[int]:
        came = {arrival.node for arrival in self.arrivals}
        return [node for node in members if node != self.source and node not in came]


@dataclass
class Mark:
    """A sign on a member's line, with a few letters beside it."""
    node: int
    sign: str
    label: str


@dataclass
class Row:
    """What stands on one level of the picture."""
    moment: int
    offer: Offer | None = None
    marks: list[Mark] = field(default_factory=list)
    says: dict[str, dict[str, list[int]]] = field(default_factory=dict)

    def add(self, mark: Mark, says: str, what: str = '') -> None:
        """A sign, with what is said of it, and of what."""
        self.marks.append(mark)
        self.says.setdefault(says, {}).setdefault(what, []).append(mark.node)

    def sentences(self, silent: int) -> list[str]:
        """What is said of the signs: `0, 1 handed up at 2, 3`, or `2, 3 listed past 1.0.0`. The sender's stand without it."""
        made = []
        for says, whats in self.says.items():
            by_nodes: dict[tuple[int, ...], list[str]] = {}
            for what, at in whats.items():
                by_nodes.setdefault(tuple(at), []).append(what)
            for same, named in by_nodes.items():
                where = nodes([n for n in same if n != silent])
                of = ', '.join(filter(None, named))
                made.append(f'{of} {says} at {where}' if of else f'{where} {says}'.strip())
        return made

    def is_of_marks(self) -> bool:
        return self.offer is None and bool(self.marks)


def nodes(ids: list[int]) -> str:
    """Node ids in few words: `2, 4–7`."""
    parts: list[list[int]] = []
    for node in sorted(set(ids)):
        if parts and parts[-1][-1] == node - 1:
            parts[-1].append(node)
        else:
            parts.append([node])
    return ', '.join(str(p[0]) if len(p) == 1 else f'{p[0]}, {p[1]}' if len(p) == 2 else f'{p[0]}–{p[-1]}' for p in parts)


def between(labels: list[str]) -> str:
    """The letters beside a sign that stands for several: the last of one object's, or the first and the last object."""
    first, last = (label.rstrip('+.') for label in (labels[0], labels[-1]))
    return labels[-1] if first == last else f'{first}–{last}'


def ask(request: wire.Request, index: Any) -> str:
    """What a repair request asks for."""
    flags, form = request.flags, wire.FORMS[request.form]
    if form == 'ERASURES':
        return ', '.join(f'{i.symbol} of {index(i)}.{i.block}' for i in request.items)
    if form == 'RANGES':
        ends = list(zip(request.items[::2], request.items[1::2]))
        return ', '.join(f'from {index(a)}.{a.block} on' if b.block == 0xFFFFFF else f'{index(a)}.{a.block} to {index(b)}.{b.block}' for a, b in ends)
    if flags & wire.ASKS['OBJECT']:
        return 'all of ' + ', '.join(index(i) for i in request.items)
    if flags & wire.ASKS['INFO']:
        return 'info of ' + ', '.join(index(i) for i in request.items)
    return ', '.join(f'{index(i)}.{i.block}.{i.symbol}' for i in request.items)


def kind_and_words(octets: bytes, first: int) -> tuple[str, str]:
    """A datagram's kind, for its colour, and what it says. Objects are named by their index."""
    def index(item: Any) -> str:
        return str((item.object - first) % 65536)

    try:
        m = wire.decode(octets)
    except wire.Refused as refusal:
        return 'other', f'refused: {refusal}'
    name = {'adv': 'REPAIR_ADV', 'ackreq': 'ACK_REQ'}.get(m.kind, m.kind.upper())
    kind = 'repair' if name in ('DATA', 'INFO') and m.has('REPAIR') else name if name in COLOURS else 'other'
    says = {
        'INFO': lambda: [index(m)],
        'DATA': lambda: [f'{index(m)}.{m.block}.{m.symbol}'] + (['parity'] if wire.is_parity(m) else []),
        'FLUSH': lambda: [f'{index(m)}.{m.block}.{m.symbol}', 'for ' + nodes(m.numbers(4)) if m.content else 'for nobody'],
        'SQUELCH': lambda: [f'from {index(m)}.{m.block} on'],
        'NACK': lambda: ['wants', '; '.join(ask(request, index) for request in m.requests) or 'nothing'],
        'ACK': lambda: [f'{index(m.mark)}.{m.mark.block}.{m.mark.symbol}' if m.mark else ''],
    }.get(name, lambda: [])()
    again = ['again'] if kind == 'repair' and 'parity' not in says else []
    return kind, ' '.join([name] + says + again)


def answer_words(gave: dict[str, Any], quorum: int | None) -> str:
    """What became of a command, which gave this quorum if it gave one."""
    (what, given), = gave.items()
    of = f' for {quorum} of the members' if quorum else ''
    return {
        'object': lambda: f'object {given["index"]} accepted, {given["len"]} octets',
        'opened': lambda: f'stream {given["index"]} opened',
        'wrote': lambda: f'stream {given["index"]}: {given["len"]} octets accepted at {given["offset"]}',
        'closed': lambda: f'stream {given["index"]} closed',
        'mark': lambda: f'watermark {given["mark"]} at {".".join(map(str, given["at"]))}{of}',
        'restarted': lambda: f'instance {given["instance"]} begins',
        'struck': lambda: f'receiver {given["node"]} is struck',
        'refused': lambda: ' '.join(['refused:', given['reason']] + [str(a) for a in given.get('args', [])]),
    }[what]()


def up_words(up: dict[str, Any]) -> tuple[str, str, str]:
    """A hand-up: its sign, the letters beside it, and of what it is."""
    (what, given), = up.items()
    index = given['index']
    return {
        'object': lambda: ('up', f'{index}', f'{index}'),
        'open': lambda: ('up', f'{index}+', f'beginning of {index}'),
        'bytes': lambda: ('up', f'{index}+', f'{index} from {given.get("offset")} on'),
        'end': lambda: ('up', f'{index}.', f'end of {index}'),
        'lost': lambda: ('drop', f'{index}', f'{index}'),
    }[what]()


class Chart:
    """The rows of a run, made event by event."""

    def __init__(self, run: Run):
        self.run = run
        self.rows: list[Row] = []
        self.under_way: dict[bytes, Offer] = {}
        self.offered_at: dict[int, int] = {}
        for place, step in enumerate(run.steps):
            try:
                getattr(self, 'see_' + step.what, lambda step: None)(step)
            except (AttributeError, KeyError, TypeError, ValueError):
                raise ToolFault(f'event {place} says nothing of what it gave that a recorded run says.') from None

    def row(self, moment: int, fresh: bool) -> Row:
        """The row for what happens now: a fresh one, or the last where it is of this moment."""
        last = self.rows[-1] if self.rows else None
        is_empty = last is not None and last.offer is None and not last.marks and last.moment == moment
        if last is None or last.moment != moment or fresh and not is_empty:
            self.rows.append(Row(moment))
        return self.rows[-1]

    def marks_row(self, moment: int) -> Row:
        """The row for a sign: that of the signs before it at this moment, or so shortly before that they belong together."""
        last = self.rows[-1] if self.rows else None
        if last and last.is_of_marks() and moment - last.moment <= self.run.apart:
            return last
        return self.row(moment, not (last and last.is_of_marks()))

    def see_offer(self, step: Step) -> None:
        row = self.row(step.now, True)
        row.offer = Offer(step.event['offer'], *kind_and_words(step.octets(), self.run.profile['first']))
        self.under_way[step.octets()] = row.offer
        self.offered_at[id(row.offer)] = step.now

    def see_took(self, step: Step) -> None:
        node, offer = step.event[step.what], self.under_way.get(step.octets())
        if offer is None or offer.source == node:
            words = kind_and_words(step.octets(), self.run.profile['first'])[1]
            self.marks_row(step.now).add(Mark(node, 'alien', '?'), f'nobody offered {words}')
            return
        is_late = step.now - self.offered_at[id(offer)] > (self.run.profile['step'] or self.run.profile['gap'])
        is_repeat = any(arrival.node == node for arrival in offer.arrivals)
        if is_late or is_repeat:
            self.row(step.now, False)
        offer.arrivals.append(Arrival(node, len(self.rows) - 1, is_late, is_repeat))

    see_deliver = see_took

    def see_job(self, step: Step) -> None:
        refused = step.event['gave'].get('refused')
        if not refused or refused['reason'] not in WAITING:
            self.row(step.now, True).add(Mark(self.run.profile['sender'], 'command', ''), answer_words(step.event['gave'], self.run.quorum(step.event)))

    def see_up(self, step: Step) -> None:
        node = step.event['node'] if step.what == 'up' else step.event['take']
        if step.event['up']:
            sign, label, what = up_words(step.event['up'])
            self.marks_row(step.now).add(Mark(node, sign, label), 'lost' if sign == 'drop' else 'handed up', what)

    see_take = see_up

    def see_news(self, step: Step) -> None:
        news = step.event['news'] or {}
        for what, told in news.items():
            if what == 'past':
                says = 'listed past ' + '.'.join(map(str, told['at']))
                self.marks_row(step.now).add(Mark(told['node'], 'listed', ''), says)
            else:
                left = ', without ' + nodes(told['left']) if told['left'] else ''
                says = f'watermark {told["mark"]} {told["outcome"]}{left}'
                self.row(step.now, True).add(Mark(self.run.profile['sender'], 'listed', str(told['mark'])), says)


@dataclass
class Part:
    """The part of a run that is drawn: from one moment to another, both included."""
    since: int
    until: int


class Drawing:
    """The picture of rows."""

    def __init__(self, run: Run, rows: list[Row], part: Part):
        self.members, self.sender = run.members(), run.profile['sender']
        self.rows = {place: row for place, row in enumerate(rows) if part.since <= row.moment <= part.until}
        self.parts: list[str] = []
        receivers = len(self.members) - 1
        self.lane = max(LEAST_LANE, min(MOST_LANE, LANES // max(receivers, 1)))
        self.x = {node: LEFT + 24 + i * self.lane for i, node in enumerate(self.members)}
        self.edge = max(self.x.values()) + 38
        self.width = max(self.edge + TEXT, LEAST_WIDTH)
        self.y: dict[int, float] = {}
        self.pauses: list[float] = []
        self.named: list[float] = []
        self.step = run.profile['step'] or run.profile['gap']
        self.lay_out()

    def lay_out(self) -> None:
        """Each row's height. Where much time passes between two, there is room and a dotted line."""
        y, before = TOP + 30, None
        for count, (place, row) in enumerate(self.rows.items()):
            if count and count % HEADING_EVERY == 0:
                self.named.append(y + 2)
                y += 2 * BREAK
            if before is not None and row.moment - before > 4 * self.step:
                self.pauses.append(y + BREAK / 2 - ROW / 2)
                y += BREAK
            self.y[place] = y
            y, before = y + ROW, row.moment
        self.end = y

    def add(self, element: str) -> None:
        self.parts.append(element)

    def line(self, x1: float, y1: float, x2: float, y2: float, kind: str, colour: str = '') -> None:
        stroke = f' stroke="{colour}"' if colour else ''
        self.add(f'<line x1="{x1:g}" y1="{y1:g}" x2="{x2:g}" y2="{y2:g}" class="{kind}"{stroke}/>')

    def text(self, x: float, y: float, words: str, kind: str = '', colour: str = '') -> None:
        attributes = (f' class="{kind}"' if kind else '') + (f' style="fill:{colour}"' if colour else '')
        self.add(f'<text x="{x:g}" y="{y:g}"{attributes}>{escape(words)}</text>')

    def head(self, x: float, y: float, way: int, colour: str) -> None:
        """An arrow's head at a member's line, for an arrow to the right (1) or to the left (-1)."""
        self.add(f'<path d="M{x:g} {y:g}l{-6 * way} -3.2v6.4z" fill="{colour}"/>')

    def headings(self) -> None:
        """The members' names, at the top and again where the picture is long, and their lines."""
        for node, x in self.x.items():
            self.line(x, TOP + 8, x, self.end, 'life')
            self.text(x, TOP, 'sender' if node == self.sender else 'receiver' if self.lane > 60 else 'rcv', 'head')
            for y in [TOP + 12] + self.named:
                self.text(x, y, str(node), 'head')
        for y in self.pauses:
            self.line(LEFT, y, self.edge, y, 'pause')

    def legend(self) -> None:
        """What the colours and signs mean, in two lines."""
        x = 10.0
        for kind, colour in COLOURS.items():
            self.line(x, 14, x + 18, 14, 'way', colour)
            self.head(x + 20, 14, 1, colour)
            self.text(x + 24, 17.5, kind)
            x += 36 + LETTER * len(kind) + 6
        x = 10.0
        for sign, words in (('up', 'handed up (its index)'), ('drop', 'lost for good'), ('listed', 'listed, or a watermark that ended'),
                            ('command', 'a command')):
            self.sign(x + 6, 32, sign)
            self.text(x + 16, 35.5, words)
            x += 26 + LETTER * len(words) + 8
        self.broken(x + 16, 29, 1)
        self.text(x + 18, 35.5, 'a datagram that never came')

    def sign(self, x: float, y: float, sign: str) -> None:
        """A sign on a member's line."""
        shape = {'up': f'M{x - 4.5:g} {y - 4:g}h9l-4.5 8z', 'drop': f'M{x - 4.5:g} {y - 4:g}h9l-4.5 8z',
                 'listed': f'M{x:g} {y - 5:g}l5 5l-5 5l-5 -5z', 'command': f'M{x - 3.5:g} {y - 3.5:g}h7v7h-7z',
                 'alien': f'M{x - 4:g} {y - 4:g}l8 8m0 -8l-8 8'}[sign]
        self.add(f'<path d="{shape}" class="{sign}"/>')

    def broken(self, x: float, y: float, way: int) -> None:
        """A broken arrow before a member's line, which it does not reach."""
        a, b = x - 15 * way, x - 7 * way
        self.add(f'<path d="M{a:g} {y:g}L{b:g} {y + 4:g}m-3 -3l6 6m0 -6l-6 6" class="lost"/>')

    def way(self, offer: Offer, y: float, side: list[int], way: int) -> None:
        """An offer's line to the members on one side of its source: whole as far as somebody was given it."""
        came = [self.x[a.node] for a in offer.arrivals if a.node in side]
        start, colour = self.x[offer.source], COLOURS[offer.kind]
        reach = max(came, key=lambda x: x * way) if came else start
        end = self.x[side[-1]] - 15 * way
        if came:
            self.line(start, y, reach, y, 'way', colour)
        if (end - reach) * way > 0:
            self.line(reach, y, end, y, 'way gone', colour)

    def arrivals(self, offer: Offer, y: float) -> None:
        """The heads of an offer's arrows. What came late goes down to the row in which it came."""
        colour = COLOURS[offer.kind]
        for arrival in offer.arrivals:
            x = self.x[arrival.node]
            way = 1 if x > self.x[offer.source] else -1
            if not (arrival.is_late or arrival.is_repeat):
                self.head(x, y, way, colour)
                continue
            down = self.y.get(arrival.row, self.end)
            self.line(x - 14 * way, y, x - 4 * way, down - 1, 'late twice' if arrival.is_repeat else 'late', colour)
            self.head(x, down, way, colour)

    def draw_offer(self, offer: Offer, y: float) -> None:
        if offer.source not in self.x:
            return
        here = self.members.index(offer.source)
        for side, way in ((self.members[here + 1:], 1), (self.members[:here][::-1], -1)):
            if side:
                self.way(offer, y, side, way)
        self.add(f'<circle cx="{self.x[offer.source]:g}" cy="{y:g}" r="3" fill="{COLOURS[offer.kind]}"/>')
        self.arrivals(offer, y)
        for node in offer.lost_to(self.members):
            self.broken(self.x[node], y, 1 if self.x[node] > self.x[offer.source] else -1)

    def draw_marks(self, row: Row, y: float) -> None:
        """The signs of a row. Those of one kind at one member share a place."""
        for node in dict.fromkeys(mark.node for mark in row.marks):
            if node not in self.x:
                continue
            x = self.x[node]
            for sign in dict.fromkeys(mark.sign for mark in row.marks if mark.node == node):
                labels = list(dict.fromkeys(m.label for m in row.marks if (m.node, m.sign) == (node, sign)))
                label = between(labels)
                self.sign(x, y, sign)
                self.text(x + 7, y + 3.5, label, 'index')
                x += 12 + 5 * len(label)

    def says(self, row: Row) -> tuple[str, str]:
        """What stands beside a row, and its colour."""
        if row.offer:
            lost = row.offer.lost_to(self.members)
            of = f'{row.offer.source}: ' if row.offer.source != self.sender else ''
            return of + row.offer.words + (f' · lost to {nodes(lost)}' if lost else ''), COLOURS[row.offer.kind]
        return ' · '.join(row.sentences(self.sender)), ''

    def beside(self, row: Row, y: float) -> None:
        words, colour = self.says(row)
        most = int((TEXT - 8) / LETTER)
        self.text(self.edge, y + 3.5, words if len(words) <= most else words[:most - 1] + '…', '' if colour else 'note', colour)

    def draw(self) -> str:
        """The whole picture."""
        before = None
        for place, row in self.rows.items():
            self.line(LEFT, self.y[place], self.edge - 6, self.y[place], 'rule')
        self.legend()
        self.headings()
        for place, row in self.rows.items():
            y = self.y[place]
            if row.moment != before:
                self.text(LEFT - 6, y + 3.5, f'{row.moment / 1000:,.1f} ms', 'moment')
            before = row.moment
            if row.offer:
                self.draw_offer(row.offer, y)
            self.beside(row, y)
        for place, row in self.rows.items():
            self.draw_marks(row, self.y[place])
        width, height = self.width, self.end + BOTTOM
        return '\n'.join([f'<svg xmlns="http://www.w3.org/2000/svg" width="{width:g}" height="{height:g}" viewBox="0 0 {width:g} {height:g}">',
                          f'<style>{STYLE}</style>', '<rect width="100%" height="100%" fill="#fff"/>', *self.parts, '</svg>', ''])


def ladder(run: Run, part: Part) -> str:
    """The ladder diagram of a part of a run."""
    drawing = Drawing(run, Chart(run).rows, part)
    if not drawing.rows:
        raise ToolFault('nothing happened in that part of the run.')
    if len(drawing.rows) > MOST_ROWS:
        raise ToolFault(f'the picture would have {len(drawing.rows)} rows, and {MOST_ROWS} at most are drawn: choose a part by --from and --to.')
    return drawing.draw()
