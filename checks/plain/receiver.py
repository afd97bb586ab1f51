"""A receiver (RFC 5740 sections 5.2 and 5.3)."""
from __future__ import annotations

from . import wire
from .holding import Holding
from .keys import Profile
from .needs import Heard, fitting, needs, requests


class Receiver:
    def __init__(self, p: Profile, node: int):
        self.p, self.node = p, node
        self.instance: int | None = None
        self._know_nothing()

    def _know_nothing(self) -> None:
        self.holding = Holding(self.p)
        self.known = 0                          # the greatest index that a message named
        self.farthest: tuple | None = None      # the farthest point seen
        self.flush: tuple | None = None         # the greatest flush position
        self.heard = Heard()
        self.back_off: int | None = None        # when it ends
        self.hold_off = 0                       # before this no back-off begins
        self.due: tuple | None = None           # the acknowledgement that the next tick sends

    def deliver(self, message, now: int, draw: int) -> None:
        if isinstance(message, (wire.Nack, wire.Adv)):
            self._overhear(message)
        elif isinstance(message, (wire.Object, wire.Flush, wire.Squelch)) and message.source == self.p.sender:
            self._receive(message, now, draw)

    def _receive(self, message, now: int, draw: int) -> None:
        """An INFO, DATA, flush or squelch comes. What names no index changes nothing, and begins no instance."""
        enters = message.instance != self.instance
        if enters and self.instance is not None and not wire.is_above(self.instance, message.instance):
            return
        index = wire.index_named(self.p, 0 if enters else self.known, message.object)
        if index is None:
            return
        if enters:
            self.instance = message.instance
            self._know_nothing()
        self.known = max(self.known, index)
        if isinstance(message, wire.Object):
            self.holding.take_in(index, message)
            self.farthest = max(self.farthest or (0, 0), (index, message.block))
        elif isinstance(message, wire.Flush):
            self._receive_flush((index, message.block, message.symbol), message.nodes)
        else:
            self.holding.squelch(index, message.block)
        self._may_back_off(now, draw)

    def _receive_flush(self, at: tuple, nodes: tuple[int, ...]) -> None:
        """An acknowledgement is due if this node is named, all through the position was handed up, and nothing was lost in this instance."""
        self.flush = max(self.flush or at, at)
        if self.node in nodes and at < self.holding.point and not self.holding.has_lost:
            self.due = max(self.due or at, at)

    def _may_back_off(self, now: int, draw: int) -> None:
        if self.back_off is None and now >= self.hold_off and self._needs_something():
            self.back_off = now + draw % (self.p.k * self.p.grtt + 1)
            self.heard = Heard()

    def _needs(self):
        return needs(self.holding, self.farthest, self.flush)

    def _needs_something(self) -> bool:
        return next(self._needs(), None) is not None

    def _overhear(self, message: wire.Nack | wire.Adv) -> None:
        """While a back-off runs, another node's NACK to this sender and instance is heard, and the sender's word of what it was asked for."""
        sender = message.sender if isinstance(message, wire.Nack) else message.source
        is_other = message.source != self.node and sender == self.p.sender and message.instance == self.instance
        if is_other and self.back_off is not None:
            self.heard.hear([wire.Named(self.p, self.known, request) for request in message.requests])

    def tick(self, now: int):
        """Returns the acknowledgement or NACK that is sent, if one is."""
        if self.due is not None:
            at, self.due = self.due, None
            return wire.Ack(self.node, self.p.sender, self.instance, (wire.object_id(self.p, at[0]), *at[1:]))
        if self.back_off is None or now < self.back_off:
            return None
        self.back_off = None
        if not self._needs_something():
            return None
        self.hold_off = now + (self.p.k + 2) * self.p.grtt
        wanted = fitting(self._needs(), self.p.e)
        if all(self.heard.asks_for(need, self.holding) for need in wanted):
            return None
        return wire.Nack(self.node, self.p.sender, self.instance, requests(self.p, wanted))

    def take_ups(self) -> list[tuple]:
        ups, self.holding.ups = self.holding.ups, []
        return ups
