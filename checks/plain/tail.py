"""A tail: the nodes of a session go on over a network that loses nothing, without commands, until no watermark is open."""
from __future__ import annotations

from .session import Session

MOST_COUNTED = 15                               # flushes, and two for each round trip of the back-off


def time_of(session: Session) -> int:
    """Returns the microseconds that a tail may take."""
    p = session.p
    return (session.sender.repairable() + 1) * (4 * p.k + 10) * p.grtt


def refusal(session: Session) -> str | None:
    """Returns the word for why no tail may begin, the first that applies."""
    p, sender = session.p, session.sender
    if session.has_commands():
        return 'waiting'
    if not sender.book.open:
        return 'no-request'
    if p.mode == 'drop':
        return 'mode'
    if sender.streams():
        return 'streams'
    if not 1 <= p.step <= p.gap:
        return 'step'
    if 2 * (sender.repairable() + 1) * (p.gap + p.step) > p.grtt:
        return 'pace'
    if sender.book.flushes + 2 * p.k > MOST_COUNTED:
        return 'flushes'
    return None


class Tail:
    """The tail of the oldest watermark."""

    def __init__(self, session: Session):
        self.session = session
        self.mark = session.sender.book.oldest()
        self.bound = -(-time_of(session) // session.p.step)
        self.turns = 0

    def run(self) -> None:
        while self.mark.outcome is None and self.turns < self.bound:
            self.turns += 1
            self._turn()

    def _turn(self) -> None:
        """The sender's datagram comes to all. Each receiver's comes to all others before the next one ticks.

        If the sender's tick ends the watermark, the turn ends with it."""
        session = self.session
        session.now += session.p.step
        sent = session.tick_sender()
        if self.mark.outcome is not None:
            return
        self._pass_on(session.p.sender, sent)
        for node in session.receivers:
            self._pass_on(node, session.tick_receiver(node))

    def _pass_on(self, source: int, message) -> None:
        if message is not None:
            for node in self.session.p.members():
                if node != source:
                    self.session.deliver(node, message)


def run_tails(session: Session) -> str:
    """Makes tails, as many as watermarks are open at most, and returns the last line."""
    turns = bound = 0
    for _ in range(max(1, len(session.sender.book.open))):
        word = refusal(session)
        if word is not None:
            return f'tail refused {word}'
        tail = Tail(session)
        tail.run()
        turns, bound = turns + tail.turns, bound + tail.bound
        if not session.sender.book.open:
            break
    return f'tail {turns} {bound}'
