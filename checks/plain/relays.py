"""Random inputs of `relay`, each a function of a number, for checks/alike: what a relay between a sender and lower receivers hears, over bad
networks. Its own datagrams come back into both sessions, so that there is something to repair, to confirm and to wait for."""
from __future__ import annotations

from . import wire
from .gather import Stop
from .keys import Profile
from .mixes import BAD_LINES as BAD_HEX, Mixer
from .octets import read
from .receiver import Receiver
from .relay import Line, Relaying
from .sender import Refused, Sender, Waits

LENGTHS = (3, 10, 40, 40, 100, 100, 200, 400)   # of an input, in lines
SIZES = ((64, 1), (64, 1), (64, 2), (64, 2), (64, 3), (64, 4), (100, 2), (1400, 1))                 # e and b
LATEST = 6                                      # lines by which a datagram may be late
BAD_LINES = ('', ' tick', 'tick ', 'TICK', 'up', 'up ', 'down ', 'up  00', 'side 00', 'up\t00', 'tick 00', *(f'down {bad}' for bad in BAD_HEX))
STRANGE = {                                     # keys of the session below with which it is refused
    'e': 65, 'b': 5, 'blocks': 7, 'octets': 16777215, 'mode': 'drop', 'colour': 1, 'window': 0, 'instance': 65536, 'gap': '1000',
}


class Side:
    """One of the two sessions: the datagrams that are on their way to its nodes."""

    def __init__(self, maker: RelayMaker, p: Profile, loss: int):
        self.maker, self.p, self.loss = maker, p, loss
        self.on_their_way: list[tuple[int, int, bytes]] = []          # (the line at which it comes, node, octets)

    def offer(self, source: int, message, n: int) -> None:
        """A node offers a message at line n."""
        if message is not None:
            for octets in self.maker.disturbed(self.p, source, message):
                self.pass_on(source, octets, n)

    def pass_on(self, source: int, octets: bytes, n: int) -> None:
        for node in self.p.members():
            if node != source and not self.maker.may(self.loss):
                late = self.maker.draw.choice((0, 0, 0, 1, self.maker.draw.randrange(LATEST)))
                self.on_their_way.append((n + late, node, octets))

    def arrived(self, node: int, n: int, most: int) -> list[bytes]:
        """Takes the datagrams that came to a node by line n, this many at most."""
        come = [one for one in self.on_their_way if one[0] <= n and one[1] == node][:most]
        for one in come:
            self.on_their_way.remove(one)
        return [octets for _, _, octets in come]


class RelayMaker(Mixer):
    """Makes one input."""

    def __init__(self, n: int):
        super().__init__(n, '')
        self.length = self.draw.choice(LENGTHS)
        self.eager = self.draw.choice((30, 60, 90))                   # percent of the lines that bring something
        sizes = self.sizes()
        self.above = self.session_keys(sizes, self.draw.choice((1, 1, 40)), self.draw.choice(('hold', 'drop')))
        self.below = self.session_keys(sizes, self.draw.choice((60, 100, 4294967000)), 'hold')
        up, down = Profile(self.above), Profile(self.below)
        self.node = self.draw.choice(up.nodes())
        self.sides = {'up': Side(self, up, self.draw.choice((0, 0, 10, 30))), 'down': Side(self, down, self.draw.choice((0, 0, 10, 30)))}
        self.sender, self.command_left = Sender(up), None
        self.receivers = {'up': [Receiver(up, node) for node in up.nodes() if node != self.node],
                          'down': [Receiver(down, node) for node in down.nodes()]}
        self.silent = self.draw.choice((0, 0, 0, 1))                  # how many lower receivers say nothing
        self.bad_line = self.draw.randrange(self.length) + 1 if self.may(5) else None
        self.option: list[str] = []
        if self.may(10):
            down.instance = self.draw.choice((5, 65535))
            self.option = self.draw.choice(([f'--instance={down.instance}'], ['--instance', str(down.instance)]))
        self.relaying = Relaying(up, self.node, down)

    def sizes(self) -> dict[str, int]:
        """The keys that both sessions share."""
        e, b = self.draw.choice(SIZES)
        blocks = self.draw.choice((2, 2, 3, 16))
        buffer = blocks * b * e
        octets = 16777216 if self.may(3) else self.draw.choice((buffer, buffer, buffer + 100, 3 * buffer, 50 * buffer))
        return {'e': e, 'b': b, 'blocks': blocks, 'octets': octets}

    def session_keys(self, sizes: dict[str, int], sender: int, mode: str) -> dict[str, int | str]:
        draw, b = self.draw, sizes['b']
        return {
            **sizes, 'max_n': b + draw.choice((0, 1, 2, b)), 'auto': draw.choice((0, 0, 1)), 'window': draw.choice((1, 1, 2, 3, 256)),
            'mode': mode, 'sender': sender, 'receivers': draw.choice((1, 1, 2, 3)),
            'instance': draw.choice((0, 1, 7, 65534, 65535)), 'first': draw.choice((0, 0, 65533)),
            'gap': draw.choice((1, 500, 1000, 1000, 2500)), 'grtt': draw.choice((1, 500, 1000, 1000, 5000, 10000)),
            'k': draw.choice((0, 0, 1, 4)), 'chance': draw.randrange(2 ** 32),
        }

    # ---- the sender above

    def offer_command(self) -> None:
        """The sender above gets a command: the one that waits, or a new one."""
        verb, *words = self.command_left or self.new_command()
        self.command_left = None
        try:
            getattr(self.sender, verb)(*words)
        except Waits:
            self.command_left = (verb, *words) if self.may(90) else None
        except Refused:
            pass

    def new_command(self) -> tuple:
        draw, p = self.draw, self.sender.p
        verb = draw.choices(('data', 'info', 'file', 'open', 'write', 'close', 'mark', 'restart', 'strike'), (18, 5, 5, 10, 30, 12, 25, 2, 1))[0]
        octets = draw.randbytes(draw.choice((1, 1, p.e - 1, p.e, p.e + 1, 3 * p.e, self.near(2 * p.b * p.e))))
        if verb in ('data', 'info'):
            return 'enqueue', 'data', None if verb == 'data' else draw.randbytes(draw.choice((1, p.e))), octets
        if verb == 'file':
            return 'enqueue', 'file', b'f%d' % draw.randrange(100), octets
        if verb == 'write':
            return 'write', octets
        if verb == 'mark':
            return 'mark', None
        if verb == 'restart':
            return 'restart', (self.sender.instance + draw.choice((1, 1, 1, 2, 40000))) % wire.IDS
        return ('strike', draw.choice(p.nodes())) if verb == 'strike' else (verb,)

    # ---- a line

    def others(self, n: int) -> None:
        """What the other nodes do before line n."""
        now = 1000 * n
        if self.may(40):
            self.offer_command()
        up = self.sides['up']
        for octets in up.arrived(up.p.sender, n, 3):
            self.sender.deliver(read(octets)[1], now)
        up.offer(up.p.sender, self.sender.tick(now), n)
        self.sender.book.news()
        for name, side in self.sides.items():
            for receiver in self.receivers[name][self.silent if name == 'down' else 0:]:
                for octets in side.arrived(receiver.node, n, 3):
                    receiver.deliver(read(octets)[1], now, self.draw.randrange(2 ** 32))
                receiver.take_ups()
                side.offer(receiver.node, receiver.tick(now), n)

    def next_line(self, n: int) -> str:
        """Returns line n: a datagram that came to the relay, or a tick."""
        if not self.may(self.eager):
            return 'tick'
        names = ['up', 'down']
        self.draw.shuffle(names)
        for name in names:
            side = self.sides[name]
            for octets in side.arrived(self.node if name == 'up' else side.p.sender, n, 1):
                return f'{name if not self.may(1) else names[0]} {octets.hex().upper() if self.may(1) else octets.hex()}'
        return 'tick'

    def answer(self, n: int, line: str) -> None:
        """The relay takes a line, and what it sends comes into both sessions."""
        before = len(self.relaying.printed)
        self.relaying.take(Line(n, line.encode()))
        for printed in self.relaying.printed[before:]:
            name, _, digits = printed.partition(' ')
            if digits:
                self.sides[name].pass_on(self.node if name == 'up' else self.sides['down'].p.sender, bytes.fromhex(digits), n)

    def lines(self) -> list[str]:
        lines = []
        for n in range(1, self.length + 1):
            self.others(n)
            lines.append(self.draw.choice(BAD_LINES) if n == self.bad_line else self.next_line(n))
            try:
                self.answer(n, lines[-1])
            except Stop:
                return lines + ['tick']
        return lines

    # ---- words and files

    def words(self) -> tuple[list[str], dict[str, bytes]]:
        draw, node, paths = self.draw, self.node, ['up.toml', 'down.toml']
        option = self.option if not self.may(1) else draw.choice((['--instance'], ['--instance=65536'], ['--instance', '05'], ['--other=1']))
        if self.may(3):
            key = draw.choice(list(STRANGE))
            self.below[key] = STRANGE[key]
        if self.may(2):
            self.below['sender'] = self.above['sender'] + draw.choice((0, 1))
        if self.may(1):
            self.above['e'] = self.below['e'] = draw.choice((63, 1401))
        if self.may(1):
            node = draw.choice((0, self.above['sender'], self.node + 100))
        if self.may(1):
            paths[draw.randrange(2)] = 'none.toml'
        words = [paths[0], str(node), paths[1]]
        at = draw.randrange(4)
        files = {name: self.document(keys) for name, keys in (('up.toml', self.above), ('down.toml', self.below))}
        return ['relay', *words[:at], *option, *words[at:]], files

    def document(self, keys: dict[str, int | str]) -> bytes:
        items = list(keys.items())
        self.draw.shuffle(items)
        return ''.join(f'{key} = {self.value(key, value)}\n' for key, value in items).encode()

    @staticmethod
    def value(key: str, value) -> str:
        return f'"{value}"' if isinstance(value, str) else str(value)


def random_relay(n: int) -> tuple[list[str], str, dict[str, bytes]]:
    """Returns the words and the input of a number, and the files that the words name."""
    maker = RelayMaker(n)
    lines = maker.lines()
    words, files = maker.words()
    return words, '\n'.join(lines) + maker.draw.choice(('\n', '\n', '')), files
