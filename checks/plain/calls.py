"""Calls of a relay as lines of the program `replay` (crates/replay/README.md), and what the plain relay answers. Random lists of calls, in any order."""
from __future__ import annotations

from .keys import Profile, value_of
from .relay import Relay
from .relays import RelayMaker
from .sender import Refused

LENGTHS = (10, 50, 100, 200)                    # of a random list
VERBS = ('deliver', 'below', 'tick', 'pump', 'tick-below', 'news', 'tell', 'strike')
OFTEN = (28, 20, 16, 16, 16, 6, 3, 0.3)         # how often each is called
STEPS = (0, 1, 500, 1000, 1000, 5000)           # microseconds from call to call


def told(book) -> str:
    """Returns the next news, one at a time: listings that rose come before watermarks that ended."""
    if book.risen:
        node = min(book.risen)
        book.risen.discard(node)
        return ' '.join(map(str, ['past', node, *book.past[node]]))
    if not book.ended:
        return 'none'
    mark = min(book.ended, key=lambda ended: ended.number)
    book.ended.remove(mark)
    left = f' {len(book.pending(mark.at))}' if mark.outcome == 'expired' else ''
    return f'done {mark.number} {mark.outcome}{left}'


def sent(octets: bytes | None) -> str:
    return 'nothing' if octets is None else f'sent {octets.hex()}'


class Calls:
    """A relay that lines call."""

    def __init__(self, relay: Relay):
        self.relay = relay

    def answer(self, line: str) -> str:
        """Returns the answer to a call."""
        verb, *words = line.split()
        try:
            return getattr(self, '_' + verb.replace('-', '_'))(*words)
        except Refused as reason:
            return f'refused {reason}'

    def _deliver(self, now: str, draw: str, digits: str) -> str:
        return 'taken' if self.relay.deliver_up(octets_of(digits), int(now), int(draw)) else 'busy'

    def _below(self, now: str, digits: str) -> str:
        self.relay.deliver_down(octets_of(digits), int(now))
        return 'done'

    def _tick(self, now: str) -> str:
        return sent(self.relay.tick_up(int(now)))

    def _pump(self, now: str) -> str:
        return f'pumped {self.relay.pump()}'

    def _tick_below(self, now: str) -> str:
        return sent(self.relay.tick_down(int(now)))

    def _strike(self, now: str, node: str) -> str:
        self.relay.sender.strike(int(node))
        return f'struck {node}'

    def _news(self) -> str:
        return told(self.relay.sender.book)

    def _tell(self) -> str:
        return f'relay {"yes" if self.relay.waiting else "no"}'


def octets_of(digits: str) -> bytes:
    return b'' if digits == '-' else bytes.fromhex(digits)


def answers(lines: list[str]) -> list[str]:
    """Returns the answers to the lines of one or more rows of relays."""
    told_by, given, above, calls = [], {}, None, None
    for line in lines:
        verb, *words = line.split()
        if verb == 'row':
            told_by.append(line)
        elif verb == 'set':
            given = given if calls is None else {}
            calls = None
            given[words[0]] = value_of(words[0], words[1].encode())
            told_by.append('set')
        elif verb == 'above':
            above, given = Profile(given), {}
            told_by.append('above')
        elif verb == 'relay':
            calls = Calls(Relay(above, int(words[0]), Profile(given)))
            told_by.append('begun')
        else:
            told_by.append(calls.answer(line))
    return told_by


# ---- random lists

class CallMaker(RelayMaker):
    """Makes one list of calls."""

    def __init__(self, n: int):
        super().__init__(n)
        self.length = self.draw.choice(LENGTHS)

    def begin(self) -> list[str]:
        above, below = ([f'set {key} {value}' for key, value in keys.items()] for keys in (self.above, self.below))
        return [f'row calls-{self.draw.randrange(1000)}', *above, 'above', *below, f'relay {self.node}']

    def call(self, n: int, now: int) -> str:
        verb = self.draw.choices(VERBS, OFTEN)[0]
        if verb == 'deliver':
            return f'deliver {now} {self.draw.randrange(2 ** 32)} {self.datagram("up", self.node, n)}'
        if verb == 'below':
            return f'below {now} {self.datagram("down", self.below["sender"], n)}'
        if verb == 'strike':
            return f'strike {now} {self.below["sender"] + self.draw.choice((0, 1, 1, 2, 2, 3, 9))}'
        return verb if verb in ('news', 'tell') else f'{verb} {now}'

    def datagram(self, name: str, node: int, n: int) -> str:
        for octets in self.sides[name].arrived(node, n, 1):
            return octets.hex() or '-'
        return self.draw.choice(('-', '00', self.draw.randbytes(20).hex()))

    def calls(self) -> list[str]:
        """The lines. What the relay sends comes into both sessions."""
        lines, now, calls = self.begin(), 0, Calls(self.relaying.relay)
        for n in range(1, self.length + 1):
            self.others(n)
            now += self.draw.choice(STEPS)
            lines.append(self.call(n, now))
            word, _, digits = calls.answer(lines[-1]).partition(' ')
            if word == 'sent':
                name = 'up' if lines[-1].startswith('tick ') else 'down'
                self.sides[name].pass_on(self.node if name == 'up' else self.below['sender'], bytes.fromhex(digits), n)
        return lines


def random_calls(n: int) -> list[str]:
    """Returns the lines of a number."""
    return CallMaker(n).calls()
