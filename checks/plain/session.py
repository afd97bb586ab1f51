"""A session: a sender and its receivers run a script, turn by turn."""
from __future__ import annotations

import os
import time

from .draws import Words
from .journal import Journal, number_words
from .keys import Profile
from .network import Network
from .receiver import Receiver
from .script import Command
from .sender import Refused, Sender, Waits

MOST_TAKES = 512                                # in a turn


class Fault(Exception):
    """A fault of the files ends a run, with this last line."""


class Session:
    def __init__(self, p: Profile, commands: list[Command], folder: str):
        self.p, self.folder = p, folder
        self.left = commands[::-1]              # the next one last
        self.waiting: Command | None = None
        self.sender = Sender(p)
        self.receivers = {node: Receiver(p, node) for node in p.nodes()}
        self.network = Network(p)
        self.draws = Words(p.chance + 1)
        self.journal = Journal()
        self.turn = self.now = 0
        self.began: int | None = None           # when the clock was first asked, if turns go by it

    def run(self, until: int) -> None:
        """Does turns up to this one, or to the first that leaves the run whole."""
        while self.turn < until and not (self.turn and self.is_whole()):
            self.turn += 1
            self.now = self.turn * self.p.step if self.p.step else self._clock()
            self._command()
            self._offer(self.p.sender, self.tick_sender())
            self._take()
            for node in self.receivers:
                self._offer(node, self.tick_receiver(node))

    def is_whole(self) -> bool:
        return not self.has_commands() and not self.sender.book.open and self.sender.is_idle()

    def has_commands(self) -> bool:
        """Returns whether a command waits, or was not pulled."""
        return self.waiting is not None or bool(self.left)

    def _clock(self) -> int:
        now = time.monotonic_ns() // 1000
        self.began = now if self.began is None else self.began
        return max(self.now, now - self.began)

    # ---- the parts of a turn

    def _command(self) -> None:
        """Offers the command that waits, or else the next one, and tells the news that it makes."""
        command = self.waiting or (self.left.pop() if self.left else None)
        self.waiting = None
        if command is None:
            return
        origin = f'{command.producer} {command.number}'
        try:
            self.journal.say(self._offer_command(origin, command.verb, *command.words))
        except Waits:
            self.waiting = command
        except Refused as reason:
            self.journal.say(f'no {origin} {reason}')
        self.tell()

    def _offer_command(self, origin: str, verb: str, *words) -> str:
        """Returns the line of a command that is accepted."""
        sender = self.sender
        enqueued = f'enq {origin} {sender.instance}'
        if verb in ('data', 'file'):
            octets, info = words if verb == 'data' else (self._read(words[0]), words[0].encode())
            index = sender.enqueue(verb, info, octets)
            self.journal.accepted(len(octets))
            return f'{enqueued} {index} {verb} {len(octets)}'
        if verb == 'open':
            index = sender.open()
            self.journal.accepted(0)
            return f'{enqueued} {index} open'
        if verb == 'write':
            index, offset = sender.write(words[0])
            self.journal.accepted(len(words[0]), objects=0)
            return f'{enqueued} {index} write {len(words[0])} {offset}'
        if verb == 'close':
            return f'{enqueued} {sender.close()} close'
        if verb == 'mark':
            mark = sender.mark(words[0])
            quorum = '' if mark.quorum is None else f' {mark.quorum}'
            return f'mark {origin} {sender.instance} {mark.number} {number_words(mark.at)}{quorum}'
        if verb == 'restart':
            sender.restart(words[0])
            return f'restart {origin} {words[0]}'
        sender.strike(words[0])
        return f'strike {origin} {words[0]}'

    def _read(self, name: str) -> bytes:
        path = os.path.join(self.folder, name)
        if not os.path.exists(path):
            raise Fault(f'absent {name}')
        try:
            with open(path, 'rb') as file:
                return file.read()
        except OSError:
            raise Fault('fault files') from None

    def _take(self) -> None:
        for _ in range(MOST_TAKES):
            taken = self.network.take()
            if taken is None:
                return
            self.deliver(*taken)

    def _offer(self, node: int, message) -> None:
        if message is not None:
            self.network.offer(node, message)

    # ---- what a tail does too

    def tell(self) -> None:
        """Tells the sender's news."""
        for news in self.sender.book.news():
            self.journal.news(self.sender.instance, self.sender.book, news)

    def deliver(self, node: int, message) -> None:
        """A message comes to a node: to a receiver with the next draw; the sender then tells its news."""
        if node == self.p.sender:
            self.sender.deliver(message, self.now)
            self.tell()
        else:
            self.receivers[node].deliver(message, self.now, self.draws.next())

    def tick_sender(self):
        message = self.sender.tick(self.now)
        self.tell()
        return message

    def tick_receiver(self, node: int):
        """A receiver hands up, and then ticks."""
        receiver = self.receivers[node]
        for up in receiver.take_ups():
            self.journal.up(node, receiver.instance, up)
        return receiver.tick(self.now)
