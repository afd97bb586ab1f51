"""Random inputs of `gather`, each a function of a number, for checks/alike: sessions of several senders, mixed line by line and disturbed."""
from __future__ import annotations

from . import wire
from .keys import WORDS
from .octets import written
from .script import NoMeaning, read_script
from .scripts import Maker
from .session import Fault, Session

SENDERS = (1, 1, 2, 2, 2, 3, 4, 8)
FIRST_SENDERS = (1, 100, 4294967000)
APART = 20                                      # from sender to sender: more than a session has nodes
TURNS = (10, 40, 100, 200)
BAD_LINES = ('0', '0g', '00 ', '00' * 1501)
# what spells nothing, two reports, and of node 1 an EOT with and without content, a CC and an ACK_REQ
OTHERS = ('00', '1602000000000001', '16029abb00002010', '1304000000000001000740410200000000', '13040000000000010007404102000000',
          '13040000000000010007404104000000', '1304000000000001000740410600020000000002')


class Recorded(Session):
    """A session that keeps what each node offers, in octets."""

    def __init__(self, p, commands, folder: str):
        super().__init__(p, commands, folder)
        self.offered: list[tuple] = []          # (node, message)

    def _offer(self, node: int, message) -> None:
        if message is not None:
            self.offered.append((node, message))
        super()._offer(node, message)


class Mixer(Maker):
    """Makes one input."""

    def __init__(self, n: int, folder: str):
        super().__init__(n, False)
        self.folder = folder
        self.profiles: list = []                # each with the keys that are set in it
        self.wild = self.draw.choice((0, 5, 5, 25))     # how many of a hundred messages are changed

    def session(self, sender: int) -> list[bytes]:
        """Runs a session of this sender, and returns what was offered in it, some of it damaged."""
        while True:
            self.keys, self.commands, self.is_open = {}, [], False
            self.set_keys()
            self.keys.update(sender=sender, turns=self.draw.choice(TURNS), step=1000)
            self.keys['gap'], self.keys['grtt'] = self.draw.choice((1, 1000, 1000, 3000)), self.draw.choice((1, 1000, 4000, 10000, 25000))
            self.add_commands()
            commands = [command for command in self.commands if command != 'file not-there']
            text = '\n'.join([f'set {key} {value}' for key, value in self.keys.items()] + [f'1 {command}' for command in commands])
            try:
                profile, commands = read_script(text.encode())
                break
            except NoMeaning:
                pass
        self.profiles.append((profile, dict(self.keys)))
        session = Recorded(profile, commands, self.folder)
        try:
            session.run(profile.turns)
        except Fault:
            pass
        return [octets for message in session.offered for octets in self.disturbed(profile, *message)]

    # ---- what comes of a message

    def disturbed(self, p, node: int, message) -> list[bytes]:
        """Returns the datagrams that come of one, mostly itself."""
        changed = self.changed(p, message) if self.may(self.wild) else message
        octets = written(p, changed, self.draw.randrange(65536))
        if self.may(3):
            octets = self.damaged(octets)
        many = [octets] if self.may(88) else [octets] * self.draw.choice((0, 0, 2))
        if self.may(4):
            many.append(written(p, self.made(p, message), 0))
        return many

    def changed(self, p, message):
        draw = self.draw
        if isinstance(message, wire.Object):
            length, e, b, max_n = message.fti
            return draw.choice((
                message._replace(fti=None),
                message._replace(fti=(draw.choice((0, 1, length - 1, length + 1, length * 2, 16777216, 16777217)), e, b, max_n)),
                message._replace(fti=(length, e + draw.choice((-1, 1)), b, max_n)),
                message._replace(fti=(length, e, b, max(0, max_n - 1))),
                message._replace(flags=message.flags ^ draw.choice((wire.HAS_INFO, wire.IS_FILE, wire.IS_STREAM))),
                message._replace(object=(message.object + draw.choice((1, 2, 255, 256, 32767, 32768, 65535))) % 65536),
                message._replace(instance=(message.instance + draw.choice((1, 2, 32767, 32768, 65535))) % 65536),
                message._replace(payload=message.payload + b'\0'), message._replace(payload=message.payload[:-1]),
                message._replace(payload=draw.randbytes(len(message.payload))), message._replace(payload=bytes(e + 1)),
                message._replace(block=min(wire.LAST_BLOCK, message.block + self.near(300))),
                message._replace(symbol=None if message.symbol is not None else 0, block=0)))
        if isinstance(message, wire.Flush):
            nodes = tuple(draw.choice(p.members()) for _ in range(draw.randrange(4)))
            changes = {'nodes': nodes, 'symbol': draw.randrange(256), 'block': message.block + 1}
            key = draw.choice(list(changes))
            return message._replace(**{key: changes[key]})
        if isinstance(message, wire.Squelch):
            return message._replace(block=draw.choice((0, 1, message.block + 1)))
        if isinstance(message, wire.Nack) and self.may(40):
            return wire.Adv(p.sender, message.instance, message.requests)
        node = draw.choice((p.sender, p.sender + 1, p.sender + 2, p.sender + APART))
        return draw.choice((message._replace(source=node), message._replace(sender=node), message._replace(instance=message.instance + 1 & 65535)))

    def made(self, p, message):
        """A message about what another one names: somebody asks for it, or the sender says that somebody did."""
        draw = self.draw
        object_, block, symbol = message.item if isinstance(message, wire.Ack) else (getattr(message, 'object', 0), getattr(message, 'block', 0), 0)
        if isinstance(message, wire.Nack):
            asked = message.requests
        else:
            asked = [self.request(object_, block, symbol) for _ in range(draw.choice((0, 1, 1, 2)))]
        if self.may(30):
            return wire.Squelch(p.sender, message.instance, (object_ + draw.choice((0, 0, 1, 2))) % 65536, draw.choice((0, 0, 1, block)))
        if self.may(40):
            return wire.Adv(p.sender, message.instance, asked)
        return wire.Nack(draw.choice(p.nodes() + [p.sender + APART]), p.sender, message.instance, asked)

    def request(self, object_: int, block: int, symbol: int) -> wire.Request:
        draw = self.draw
        form = draw.choice((wire.ITEMS, wire.RANGES, wire.ERASURES))
        near = []
        for _ in range(4):
            id_ = (object_ + draw.choice((0, 0, 0, 1, 65535))) % 65536
            near.append((id_, block + draw.choice((0, 0, 1)), draw.choice((0, symbol, draw.randrange(256)))))
        if form == wire.RANGES and self.may(40):
            near = [(object_, 0, 0), (object_, wire.LAST_BLOCK, 255)]
        return wire.Request(form, draw.choice((1, 1, 2, 4, 8, 12, draw.randrange(16))), near[:draw.choice((0, 2, 2, 4))])

    def damaged(self, octets: bytes) -> bytes:
        """One octet is another, or the end is lacking or too long."""
        draw, at = self.draw, self.draw.randrange(min(len(octets), 48))
        before, octet, rest = octets[:at], octets[at], octets[at + 1:]
        turned = bytes([octet ^ 1 << draw.randrange(8)])
        return draw.choice((before + turned + rest, before + draw.randbytes(1) + rest, before, octets + bytes(self.near(8))))

    # ---- the input

    def mixed(self, sessions: list[list[bytes]]) -> list[str]:
        """The lines of some sessions: the next is of any, and now and then time passes, or something else comes."""
        left, lines = [session[::-1] for session in sessions if session], []
        pauses = self.draw.choice((0, 0, 10, 40))
        while left:
            session = self.draw.choice(left)
            text = session.pop().hex()
            lines.append(text.upper() if self.may(1) else text)
            if not session:
                left.remove(session)
            if self.may(pauses):
                lines += [''] * self.near(20)
            if self.may(2):
                lines.append(self.draw.choice(OTHERS))
        if self.may(70):
            lines += ([''] * self.near(200) + ['00']) * self.draw.choice((1, 2, 5))
        if self.may(3):
            lines.insert(self.draw.randrange(len(lines) + 1), self.draw.choice(BAD_LINES))
        return lines

    def words(self) -> tuple[list[str], dict[str, bytes]]:
        """The words after `gather`, and the files that they name."""
        files, pairs = {}, []
        for i, (profile, keys) in enumerate(self.profiles):
            if self.may(1):
                keys['e'] = 63
            name = f'{i}.toml'
            files[name] = ''.join(f'{key} = {self.value(key, value)}\n' for key, value in keys.items()).encode()
            pairs.append((name, self.draw.choice(profile.nodes())))
        self.draw.shuffle(pairs)
        if self.may(2):
            pairs.append(self.draw.choice((pairs[0], ('none.toml', 2), (pairs[0][0], 4294967294))))
        return [word for name, node in pairs for word in (name, str(node))], files

    @staticmethod
    def value(key: str, value) -> str:
        return f'"{value}"' if key in WORDS else str(value)


def random_gather(n: int, folder: str) -> tuple[list[str], str, dict[str, bytes]]:
    """Returns the words and the input of a number, and the files that the words name. Files of the sessions are in the folder."""
    mixer = Mixer(n, folder)
    first = mixer.draw.choice(FIRST_SENDERS)
    sessions = [mixer.session(first + APART * i) for i in range(mixer.draw.choice(SENDERS))]
    words, files = mixer.words()
    return ['gather', *words], '\n'.join(mixer.mixed(sessions)) + mixer.draw.choice(('\n', '\n', '')), files
