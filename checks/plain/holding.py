"""What a receiver holds of an instance, and hands up of it (RFC 5740 section 5.2)."""
from __future__ import annotations

from . import field, wire
from .keys import Profile
from .order import SEGMENT_HEAD, ObjectCut, StreamCut

MOST_AHEAD = 256                                # objects from the hand-up point on


def length_said(p: Profile, message: wire.Object) -> int:
    """Returns how many octets an object takes, by a message of it: a stream its buffer."""
    return p.blocks * p.b * p.e if message.flags & wire.IS_STREAM else message.fti[0]


def length_of(segment: bytes) -> int:
    """Returns how many octets a segment says that it has."""
    return int.from_bytes(segment[:2], 'big')


def shape(p: Profile) -> tuple[int, int, int]:
    return p.e, p.b, p.max_n


class Plan:
    """What is known and held of an object: its cut, its flags, of a stream the greatest block seen and the end, and the symbols of its blocks."""

    def __init__(self, p: Profile, index: int, message: wire.Object):
        self.index = index
        self.is_stream = bool(message.flags & wire.IS_STREAM)
        self.is_file = bool(message.flags & wire.IS_FILE)
        self.has_info = bool(message.flags & wire.HAS_INFO)
        self.length = length_said(p, message)
        self.cut = StreamCut(p) if self.is_stream else ObjectCut(p, self.length)
        self.info: bytes | None = None
        self.seen = 0
        self.end: tuple[int, int] | None = None
        self.held: dict[int, dict[int, bytes]] = {}
        self.done: dict[int, list[bytes]] = {}  # the source symbols of each block of which k symbols are held
        self.first_short = 0                    # each block before this one is done

    def is_same(self, p: Profile, message: wire.Object) -> bool:
        """Returns whether a message says this plan too."""
        return message.fti[1:] == shape(p) and bool(message.flags & wire.IS_STREAM) == self.is_stream and length_said(p, message) == self.length

    def fits(self, block: int, symbol: int, payload: bytes) -> bool:
        """Returns whether this is a symbol of the object, at its length."""
        if block >= self.cut.blocks or symbol >= self.cut.encoded(block):
            return False
        e, is_source = self.cut.p.e, symbol < self.cut.sources(block)
        if not self.is_stream:
            return len(payload) == (min(e, self.length - self.cut.number(block, symbol) * e) if is_source else e)
        if not is_source:
            return len(payload) == e + SEGMENT_HEAD
        return SEGMENT_HEAD <= len(payload) == SEGMENT_HEAD + length_of(payload) <= SEGMENT_HEAD + e

    def lacks_info(self) -> bool:
        return self.has_info and self.info is None

    def lacking(self, block: int) -> int:
        """Returns how many symbols a block lacks to as many as it has source symbols."""
        return 0 if block in self.done else self.cut.sources(block) - len(self.held.get(block, ()))

    def holds(self, block: int, symbol: int) -> bool:
        return symbol in self.held.get(block, ())

    def value(self, block: int, symbol: int) -> bytes | None:
        """Returns a source symbol that the symbols held of its block give; of a stream also one that is held."""
        if block in self.done:
            return self.done[block][symbol]
        return self.held.get(block, {}).get(symbol) if self.is_stream else None

    def put(self, block: int, symbol: int, payload: bytes) -> None:
        if block in self.done or self.holds(block, symbol) or not self.fits(block, symbol, payload):
            return
        k = self.cut.sources(block)
        held = self.held.setdefault(block, {})
        held[symbol] = payload
        if len(held) == k:
            self.done[block] = field.solved(held, k, self.cut.size)
        while self.first_short in self.done:
            self.first_short += 1
        if self.is_stream:
            new = range(k) if block in self.done else range(symbol, min(symbol + 1, k))
            ends = [(block, i) for i in new if self._is_end(self.value(block, i))]
            self.end = min(ends + [self.end] if self.end else ends, default=None)

    def is_whole(self) -> bool:
        return not self.lacks_info() and self.first_short == self.cut.blocks

    def octets(self) -> bytes:
        return b''.join(b''.join(self.done[block]) for block in range(self.cut.blocks))[:self.length]

    @staticmethod
    def _is_end(segment: bytes | None) -> bool:
        return segment is not None and length_of(segment) == 0


class Holding:
    def __init__(self, p: Profile):
        self.p = p
        self.plans: dict[int, Plan] = {}        # of objects from the hand-up point on
        self.point = (0, 0, 0)                  # the next source symbol to be handed up
        self.has_lost = False
        self.ups: list[tuple] = []              # hand-ups that were not taken

    def take_in(self, index: int, message: wire.Object) -> None:
        """An INFO or DATA comes. A new plan is taken up if there is room, and its block is seen.

        If it says no other plan, what it brings is kept if it fits, and what can be is handed up."""
        if index < self.point[0]:
            return
        self._take_up(index, message)
        plan = self.plans.get(index)
        if plan is None:
            return
        if plan.is_stream:
            plan.seen = max(plan.seen, message.block)
        if message.fti is not None and not plan.is_same(self.p, message):
            return
        if message.symbol is None:
            if plan.lacks_info() and len(message.payload) <= self.p.e:
                plan.info = message.payload
        elif not plan.is_stream or message.block < self.first_block(index) + self.p.blocks:
            plan.put(message.block, message.symbol, message.payload)
        self.hand_up()

    def _take_up(self, index: int, message: wire.Object) -> None:
        """Takes up the plan of a new object, if it is one of this profile, is not too far ahead and has room."""
        if index in self.plans or message.fti is None or message.fti[1:] != shape(self.p):
            return
        length = length_said(self.p, message)
        room = sum(plan.length for plan in self.plans.values()) + length
        if length > 0 and index < self.point[0] + MOST_AHEAD and room <= self.p.octets:
            self.plans[index] = Plan(self.p, index, message)

    def first_block(self, index: int) -> int:
        """Returns the first block of an object that was not handed up whole."""
        return self.point[1] if self.point[0] == index else 0

    def next_segment(self) -> bytes | None:
        return self.plans[self.point[0]].value(*self.point[1:])

    def hand_up(self) -> None:
        """Hands up as far as it can."""
        while self.point[0] in self.plans:
            plan = self.plans[self.point[0]]
            if plan.is_stream:
                segment = None if plan.lacks_info() else self.next_segment()
                if segment is None:
                    return
                self._hand_segment(plan, segment)
            elif plan.is_whole():
                self.ups.append(('object', plan.index, 'file' if plan.is_file else 'data', plan.info, plan.octets()))
                self._pass_object()
            else:
                return

    def _hand_segment(self, plan: Plan, segment: bytes) -> None:
        index, block, symbol = self.point
        if (block, symbol) == (0, 0):
            self.ups.append(('open', index))
        length, offset = min(length_of(segment), self.p.e), int.from_bytes(segment[4:8], 'big')
        if length == 0:
            self.ups.append(('end', index))
            self._pass_object()
            return
        self.ups.append(('bytes', index, offset, segment[SEGMENT_HEAD:SEGMENT_HEAD + length]))
        self.point = (index, block, symbol + 1) if symbol + 1 < self.p.b else (index, block + 1, 0)

    def _pass_object(self) -> None:
        self.plans.pop(self.point[0], None)
        self.point = (self.point[0] + 1, 0, 0)

    def _lose(self) -> None:
        self.ups.append(('lost', self.point[0]))
        self.has_lost = True
        self._pass_object()

    def squelch(self, index: int, block: int) -> None:
        """The sender's window begins at this point: what is before it and not whole is lost, and its object too if it is cut off."""
        self.hand_up()
        while self.point[0] < index:
            self._lose()
            self.hand_up()
        if self.point[0] == index and self._is_cut_off(block):
            self._lose()
            self.hand_up()

    def _is_cut_off(self, first: int) -> bool:
        """A stream's next segment is in a block that was dropped, and is not there; only of a stream without a plan blocks are dropped."""
        plan = self.plans.get(self.point[0])
        if plan is None:
            return first > 0
        return plan.is_stream and self.point[1] < first and self.next_segment() is None
