"""A relay: the receiver of one session as the sender of another. Each line of the input is a datagram from above or from below, or lets time pass."""
from __future__ import annotations

from . import wire
from .draws import Words
from .gather import LAST_MOMENT, LINE_TIME, Stop, datagram_in, load
from .keys import NUMBERS, Profile, number
from .octets import read, written
from .receiver import Receiver
from .script import lines_of
from .sender import Refused, Sender, Waits

INSTANCE = '--instance'
NO_MEANING, JOB_REFUSED = 3, 13                 # statuses
SAME_KEYS = ('e', 'b', 'blocks', 'octets')


def can_relay(up: Profile, node: int, down: Profile) -> bool:
    is_same = all(getattr(up, key) == getattr(down, key) for key in SAME_KEYS)
    return is_same and down.mode == 'hold' and node in up.nodes() and not set(up.members()) & set(down.members())


class Relay:
    def __init__(self, up: Profile, node: int, down: Profile):
        self.receiver, self.sender = Receiver(up, node), Sender(down)
        self.sequences = {'up': 0, 'down': 0}   # of the next datagram to each side
        self.anew = False                       # a restart below waits
        self.waiting: list[tuple] = []          # hand-ups that were not enqueued, in order
        self.opened = False                     # what was enqueued leaves a stream open
        self.unmarked: bytes | None = None      # an acknowledgement without a watermark
        self.pledge: tuple[bytes, tuple] | None = None      # one with the position of its watermark

    def deliver_up(self, octets: bytes, now: int, draw: int) -> bool:
        """A datagram comes from above. Returns false if a hand-up waits: then it counts as lost."""
        if self.waiting:
            return False
        before = self.receiver.instance
        self.receiver.deliver(read(octets)[1], now, draw)
        if before is not None and self.receiver.instance != before:
            self.unmarked = self.pledge = None
            self.anew = True
        self.waiting = self.receiver.take_ups()
        return True

    def deliver_down(self, octets: bytes, now: int) -> None:
        self.sender.deliver(read(octets)[1], now)

    def tick_up(self, now: int) -> bytes | None:
        """Returns the datagram that goes up. An acknowledgement waits until each member below confirmed as much."""
        if self.pledge is not None and self._is_met():
            ack, self.pledge = self.pledge[0], None
            return ack
        message = self.receiver.tick(now)
        octets = self._octets('up', self.receiver.p, message)
        if isinstance(message, wire.Ack):
            self.unmarked = octets
            return None
        return octets

    def pump(self) -> int:
        """Enqueues what waits, as far as there is room, and asks below for what is to be confirmed. Returns how many jobs hand-ups became."""
        if self.anew:
            self.sender.restart((self.sender.instance + 1) % wire.IDS)
            self.anew = self.opened = False
        count, crowded = self._enqueue()
        if self.sender.book.oldest() is None:
            self._mark(crowded)
        return count

    def tick_down(self, now: int) -> bytes | None:
        return self._octets('down', self.sender.p, self.sender.tick(now))

    def _is_met(self) -> bool:
        return self.sender.book.all_past(self.pledge[1])

    def _octets(self, side: str, p: Profile, message) -> bytes | None:
        if message is None:
            return None
        self.sequences[side] += 1
        return written(p, message, self.sequences[side] - 1)

    def _enqueue(self) -> tuple[int, bool]:
        """Returns how many jobs hand-ups became, and whether there was no room for one."""
        count = 0
        while self.waiting:
            try:
                count += self._hand_on(*self.waiting[0])
            except Waits:
                return count, True
            del self.waiting[0]
        return count, False

    def _hand_on(self, what: str, index: int, *rest) -> bool:
        """Makes the job of a hand-up. Returns whether it has one."""
        sender = self.sender
        if what == 'object':
            kind, info, octets = rest
            sender.enqueue('data' if info is None else kind, info, octets)
        elif what == 'open':
            sender.open()
        elif what == 'bytes':
            sender.write(rest[1])
        elif what == 'end' or self.opened:
            sender.close()
        else:
            return False
        self.opened = what in ('open', 'bytes')
        return True

    def _mark(self, crowded: bool) -> None:
        """Makes a watermark for room, for an acknowledgement without one, or for one whose watermark expired."""
        if crowded:
            self.sender.mark(None)
        elif self.unmarked is not None:
            self.pledge = self.unmarked, self.sender.mark(None).at
            self.unmarked = None
        elif self.pledge is not None and not self._is_met():
            self.pledge = self.pledge[0], self.sender.mark(None).at


# ---- the command

def relay_words(words: list[str]) -> tuple[str, int, str, int | None] | None:
    """Returns the paths and the node, and the instance below if one is given; None if the words are not such words."""
    plain, given, left = [], [], list(words)
    while left:
        name, equals, value = left.pop(0).partition('=')
        if name == INSTANCE and (equals or left):
            given.append(number((value if equals else left.pop(0)).encode(), *NUMBERS['instance'][:2]))
        elif name.startswith('-'):
            return None
        else:
            plain.append(name + equals + value)
    if len(plain) != 3 or len(given) > 1 or None in given:
        return None
    node = number(plain[1].encode(), 1, 4294967294)
    return None if node is None else (plain[0], node, plain[2], given[0] if given else None)


class Line:
    """A line of the input: its side, and the datagram; of a tick none."""

    def __init__(self, n: int, text: bytes):
        self.now = min(n * LINE_TIME, LAST_MOMENT)
        side, space, digits = text.partition(b' ')
        self.side = side.decode('latin-1')
        self.octets = datagram_in(digits) if side in (b'up', b'down') and digits else None
        if text != b'tick' and self.octets is None:
            raise Stop(NO_MEANING, f'refused line {n}')


class Relaying:
    """A run of the command: what it printed, and its counts."""

    def __init__(self, up: Profile, node: int, down: Profile):
        if not can_relay(up, node, down):
            raise Stop(NO_MEANING, 'refused profile')
        self.relay = Relay(up, node, down)
        self.draws = Words(up.chance + 1)
        self.draw = self.draws.next()           # the next one
        self.printed: list[str] = []
        self.lines = self.enqueued = self.acknowledged = 0

    def take(self, line: Line) -> None:
        self.lines += 1
        if line.side == 'up':
            self._deliver_up(line)
        elif line.side == 'down':
            self.relay.deliver_down(line.octets, line.now)
        pledged = self.relay.pledge
        self._say('up', self.relay.tick_up(line.now))
        self.acknowledged += pledged is not None and self.relay.pledge is None
        try:
            self.enqueued += self.relay.pump()
        except Refused:
            raise Stop(JOB_REFUSED, 'refused command') from None
        self._say('down', self.relay.tick_down(line.now))
        self.relay.sender.book.news()           # nobody asks for them

    def end(self) -> None:
        self.printed.append(f'end lines {self.lines} enqueued {self.enqueued} acknowledged {self.acknowledged}')

    def _deliver_up(self, line: Line) -> None:
        """Uses a draw, if the datagram is taken."""
        if self.relay.deliver_up(line.octets, line.now, self.draw):
            self.draw = self.draws.next()
        else:
            self.printed.append('busy')

    def _say(self, side: str, octets: bytes | None) -> None:
        if octets is not None:
            self.printed.append(f'{side} {octets.hex()}')


def relay(up_path: str, node: int, down_path: str, instance: int | None, text: bytes, folder: str) -> tuple[int, list[str]]:
    """Returns the status, and the lines that are printed."""
    printed: list[str] = []
    try:
        up, down = load(folder, up_path), load(folder, down_path)
        if instance is not None:
            down.instance = instance
        relaying = Relaying(up, node, down)
        printed = relaying.printed
        for n, line in enumerate(lines_of(text), 1):
            relaying.take(Line(n, line))
        relaying.end()
    except Stop as stop:
        return stop.status, [*printed, stop.line]
    return 0, printed
