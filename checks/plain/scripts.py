"""Random scripts, each a function of a number, for checks/alike."""
from __future__ import annotations

import random

RECEIVERS = (1, 1, 2, 2, 3, 4, 6, 16)
SENDERS = (1, 1, 1, 7, 4294967278)
SYMBOLS = (64, 64, 64, 65, 100, 256, 1024, 1400)
BLOCKS = (1, 1, 2, 2, 3, 4, 5, 8, 16, 64, 200)
NAMED = ('a', 'b.txt', 'c-1', 'd_2.bin', 'empty')
MOST_STEPS = 3000                               # turns of a round trip in a tail, so that none lasts for minutes
BAD_LINES = ('set e 63', '1 mark 0', '2 mark', 'set k 1', '1 data 0', '1 file .a', '1 write', ' ', '1 strike 0', '1 restart 65536', '1  open')


def octets_of(seed: int, length: int) -> bytes:
    return random.Random(seed).randbytes(length)


FILES = {'a': octets_of(1, 1), 'b.txt': octets_of(2, 700), 'c-1': octets_of(3, 5000), 'd_2.bin': octets_of(4, 20000), 'empty': b''}


# how often the commands of a script are of each kind
KINDS = ('data', 'info', 'file', 'open', 'write', 'close', 'mark', 'quorum', 'restart', 'strike', 'absent')
OF_ALL = (26, 10, 8, 10, 16, 6, 18, 6, 2, 2, 0.1)
OF_STREAMS = (8, 2, 2, 10, 60, 14, 8, 2, 1, 1, 0)
OF_OBJECTS = (60, 10, 6, 0, 0, 0, 10, 3, 1, 1, 0)
OF_MEMBERS = (22, 10, 4, 4, 10, 4, 20, 10, 9, 7, 0)


class Maker:
    """Makes one script. `keys` are the values that are set."""

    def __init__(self, n: int, tails: bool):
        self.draw = random.Random(f'{n} {tails}')
        self.keys: dict[str, int | str] = {}
        self.commands: list[str] = []
        self.weights = self.draw.choice((OF_ALL, OF_STREAMS, OF_OBJECTS, OF_MEMBERS))
        self.is_open = False

    def may(self, percent: int) -> bool:
        return self.draw.randrange(100) < percent

    def near(self, most: int) -> int:
        """A number from 1 on, mostly small."""
        return max(1, min(most, int(2 ** self.draw.uniform(0, most.bit_length()))))

    # ---- keys

    def set_keys(self) -> None:
        k, draw = self.keys, self.draw
        k['receivers'], k['sender'] = draw.choice(RECEIVERS), draw.choice(SENDERS)
        k['instance'] = draw.choice((0, 1, 7, 65535, draw.randrange(65536)))
        k['first'] = draw.choice((0, 65533, draw.randrange(65536)))
        k['e'], k['b'] = draw.choice(SYMBOLS), draw.choice(BLOCKS)
        k['blocks'] = draw.choice((2, 2, 3, 4, 16))
        if self.may(80):
            k['max_n'] = min(255, k['b'] + draw.choice((0, 1, 1, 2, 4, k['b'], draw.randrange(256))))
        k['auto'] = draw.choice((0, 0, 0, 1, 2, 255))
        k['window'] = draw.choice((1, 2, 3, 5, 256, 256))
        buffer = k['blocks'] * k['b'] * k['e']
        k['octets'] = min(16777216, draw.choice((draw.choice((1, 40, buffer - 1)), buffer, buffer + 300, 5000, 3 * buffer, *[16777216] * 5)))
        k['mode'] = draw.choice(('hold', 'hold', 'drop'))
        self.set_times()
        self.set_network()
        if self.weights is OF_STREAMS and self.may(60):
            k.update(e=64, b=draw.choice((1, 2, 3)), blocks=2, octets=draw.choice((384, 1000, 16777216)))
            k.update(max_n=k['b'] + draw.choice((0, 1, 3)))

    def set_times(self) -> None:
        k, draw = self.keys, self.draw
        k['step'] = draw.choice((1, 10, 500, 1000, 1000, 1000, 7001))
        k['gap'] = max(1, min(1000000, draw.choice((k['step'], k['step'], k['step'] - 1, k['step'] * 3, k['step'] // 4, self.near(1000000)))))
        many = k['step'] * draw.choice((1, 2, 3, 5, 10, 20, 50))
        k['grtt'] = max(1, min(10000000, draw.choice((1, many, many, many, many + 1, self.near(10000000)))))
        k['k'] = draw.choice((0, 0, 1, 2, 4, 4, 7, 15, draw.randrange(16)))
        k['turns'] = draw.choice((1, self.near(100), 300, 2000, 2000, 3000, 6000))

    def set_network(self) -> None:
        k, draw = self.keys, self.draw
        k['fabric'] = draw.choice(('direct', 'chance', 'chance', 'chance'))
        k['chance'] = draw.randrange(2 ** 32)
        k['loss'] = draw.choice((0, 50, 200, 200, 400, 600, 900))
        k['repeat'] = draw.choice((0, 0, 100, 900))
        k['late'] = draw.choice((0, 0, 1, 3, 20, 64))

    # ---- commands

    def hex_of(self, most: int) -> str:
        """Contents: often of a few symbols, seldom long."""
        e = self.keys['e']
        length = self.draw.choice((1, self.near(most), e - 1, e, e + 1, self.draw.randrange(1, 6 * e), self.near(12 * e)))
        text = self.draw.randbytes(max(1, min(most, length))).hex()
        return text.upper() if self.may(3) else text

    def command(self) -> str:
        draw, k = self.draw, self.keys
        kind = draw.choices(KINDS, self.weights)[0]
        if kind == 'open' and self.is_open and self.may(90):
            kind = 'write'
        if kind in ('write', 'close') and not self.is_open and self.may(80):
            kind = 'open'
        if kind in ('data', 'info', 'file') and self.is_open and self.may(85):
            kind = draw.choice(('write', 'close'))
        if kind == 'data':
            return f'data {self.hex_of(8192)}'
        if kind == 'info':
            return f'data {self.hex_of(4000)} {draw.randbytes(draw.choice((1, 1, 20, k["e"], k["e"] + 1))).hex()}'
        if kind == 'file':
            return f'file {draw.choice(NAMED)}'
        if kind == 'write':
            return f'write {self.hex_of(8192)}'
        if kind == 'quorum':
            return f'mark {draw.choice((1, 1, 2, k["receivers"], draw.randrange(1, 17)))}'
        if kind == 'restart':
            self.is_open = False
            now = k['instance'] = (k['instance'] + draw.choice((*[1] * 12, 2, 2, 100, 9000, 0, 32767, 40000, 65535))) % 65536
            return f'restart {now}'
        if kind == 'strike':
            return f'strike {max(1, min(4294967294, k["sender"] + draw.choice((0, 1, 1, 2, 2, 3, 4, 17))))}'
        if kind == 'absent':
            return 'file not-there'
        self.is_open = kind == 'open' or self.is_open and kind != 'close'
        return kind

    def add_commands(self) -> None:
        count = self.draw.choice((0, 1, 3, 8, 12, 20, 30))
        instance = self.keys['instance']
        self.commands = [self.command() for _ in range(count)]
        self.keys['instance'] = instance
        if self.is_open and self.may(80):
            self.commands.append('close')
        if self.may(5):
            self.commands += ['mark'] * self.draw.randrange(10, 20)
        if self.may(80):
            self.commands.append('mark')

    # ---- tails

    def fit_for_tail(self) -> None:
        """Keys and commands with which a tail may often begin: few objects that all go out twice within a round trip."""
        k, draw = self.keys, self.draw
        k['mode'], k['turns'] = 'hold', 1000000
        k['b'], k['e'], k['octets'], k['window'] = draw.choice((1, 2, 3, 4, 8)), 64, 16777216, 256
        k['max_n'] = k['b'] + draw.choice((0, 1, 2, k['b']))
        self.commands = []
        for _ in range(draw.choice((1, 1, 2, 3, 5))):
            info = f' {draw.randbytes(draw.choice((1, 64))).hex()}' if self.may(25) else ''
            self.commands.append(f'data {draw.randbytes(draw.choice((1, 64, 65, 200, self.near(1500)))).hex()}{info}')
            if self.may(30):
                self.commands.append(draw.choice(('mark', 'mark', 'mark 1', 'mark 2', f'strike {k["sender"] + 1}')))
            if self.may(10):
                self.commands += ['mark', f'restart {(k["instance"] + len(self.commands)) % 65536}', 'data 61']
        self.commands.append('mark')
        k['gap'] = draw.choice((1, 50, 100, 250, 1000))
        k['step'] = max(1, draw.choice((k['gap'], k['gap'], k['gap'] // 2, k['gap'] // 7)))
        symbols = sum(len(line) // 128 + 2 for line in self.commands) * 2
        k['grtt'] = 2 * (symbols + 1) * (k['gap'] + k['step']) * draw.choice((1, 1, 2)) + draw.choice((0, 1))
        k['k'] = draw.choice((0, 0, 1, 2, 3, 4, 5, 6, 7, 7, 8))

    def tail(self) -> int:
        """After which turn the tail begins."""
        count = len(self.commands)
        return max(1, min(4000000, self.draw.choice((self.draw.randrange(1, 201), count, count + 1, count + self.near(60), count + self.near(2000)))))

    # ---- the script

    def text(self) -> str:
        keys = list(self.keys.items())
        self.draw.shuffle(keys)
        lines = [f'set {key} {value}' for key, value in keys] + [f'1 {command}' for command in self.commands]
        if self.may(3):
            lines.insert(self.draw.randrange(len(lines) + 1), self.draw.choice(BAD_LINES))
        if self.may(5):
            lines.insert(self.draw.randrange(len(lines) + 1), self.draw.choice(('', '# a comment')))
        return '\n'.join(lines) + self.draw.choice(('\n', '\n', '\n', ''))


def random_script(n: int, tails: bool) -> tuple[list[str], str]:
    """Returns the words and the script of a number."""
    maker = Maker(n, tails)
    maker.set_keys()
    maker.add_commands()
    if tails and maker.may(60):
        maker.fit_for_tail()
    if tails:
        maker.keys['grtt'] = min(maker.keys['grtt'], MOST_STEPS * maker.keys['step'])
    words = ['session']
    if tails:
        words += ['--tail', str(maker.tail())] if maker.may(80) else [f'--tail={maker.tail()}']
    if maker.may(5):
        words += [f'--chance={maker.draw.randrange(2 ** 32)}']
    if maker.may(5):
        words += ['--turns', str(maker.near(5000))]
    return words, maker.text()
