"""The entries of a transport order: how each is cut into blocks of symbols (RFC 5052 section 9.1), and its symbols.

A position is (index, block, symbol), and a point (index, block)."""
from __future__ import annotations

from . import field
from .keys import Profile

MOST_BLOCKS = 16777216
SEGMENT_HEAD = 8                                # octets before those of a stream's segment: its length, 0 and its offset


class Cut:
    """Blocks of source symbols, and how many octets a symbol has as it is coded."""

    def __init__(self, p: Profile, blocks: int, size: int):
        self.p, self.blocks, self.size = p, blocks, size

    def sources(self, block: int) -> int:
        """Returns k: how many source symbols a block has."""
        return self.p.b

    def encoded(self, block: int) -> int:
        return self.sources(block) * self.p.max_n // self.p.b

    def number(self, block: int, symbol: int) -> int:
        """Returns a source symbol's number in the whole object or stream."""
        return block * self.p.b + symbol


class ObjectCut(Cut):
    """An object of this many octets: its blocks differ by one source symbol at most, the larger ones first."""

    def __init__(self, p: Profile, octets: int):
        self.symbols = -(-octets // p.e)
        super().__init__(p, -(-self.symbols // p.b), p.e)
        self.small, self.larger = divmod(self.symbols, self.blocks)

    def sources(self, block: int) -> int:
        return self.small + (block < self.larger)

    def number(self, block: int, symbol: int) -> int:
        return block * self.small + min(block, self.larger) + symbol


class StreamCut(Cut):
    """A stream: each block has b segments, whose symbols have their heads too."""

    def __init__(self, p: Profile):
        super().__init__(p, MOST_BLOCKS, p.e + SEGMENT_HEAD)


class Entry:
    """What objects and streams share. `closed` is how many of their source symbols are closed: only these may be sent."""
    is_stream = False
    info: bytes | None = None
    closed = 0

    def __init__(self, cut: Cut):
        self.cut = cut
        self.was_sent = False                   # all source symbols were, once that was seen

    def source(self, number: int) -> bytes:
        raise NotImplementedError

    def closed_in(self, block: int) -> int:
        return min(self.cut.sources(block), max(0, self.closed - self.cut.number(block, 0)))

    def is_full(self, block: int) -> bool:
        return self.closed_in(block) == self.cut.sources(block)

    def encoded_in(self, block: int) -> int:
        """Returns how many symbols a block has: parity only if all its source symbols are closed."""
        return self.cut.encoded(block) if self.is_full(block) else self.closed_in(block)

    def closed_blocks(self) -> int:
        """Returns how many blocks have a closed source symbol."""
        return -(-self.closed // self.cut.p.b) if self.is_stream else self.cut.blocks

    def last_in(self) -> tuple[int, int] | None:
        """Returns block and symbol of the last closed source symbol."""
        block = self.closed_blocks() - 1
        return (block, self.closed_in(block) - 1) if self.closed else None

    def payload(self, block: int, symbol: int) -> bytes:
        """Returns the octets of a symbol: a source symbol at its own length."""
        k = self.cut.sources(block)
        if symbol < k:
            return self.source(self.cut.number(block, symbol))
        sources = [self.source(self.cut.number(block, i)) for i in range(k)]
        return field.parity(sources, self.cut.size, symbol)


class Whole(Entry):
    """Data, or a file, whose info is its name."""

    def __init__(self, p: Profile, kind: str, info: bytes | None, octets: bytes):
        super().__init__(ObjectCut(p, len(octets)))
        self.kind, self.info, self.octets = kind, info, octets
        self.length, self.closed = len(octets), self.cut.symbols

    def source(self, number: int) -> bytes:
        e = self.cut.p.e
        return self.octets[number * e:(number + 1) * e]


class Stream(Entry):
    """A stream. Its octets are cut into segments of e; a mark or the end closes the last one, full or not."""
    is_stream = True

    def __init__(self, p: Profile):
        super().__init__(StreamCut(p))
        self.length = p.blocks * p.b * p.e      # of its buffer, which is what it takes of the window
        self.segments: list[bytes] = []
        self.unclosed = b''
        self.written = 0
        self.ended = False

    @property
    def closed(self) -> int:
        return len(self.segments)

    def used_with(self, octets: int) -> int:
        """Returns how many segments it has with more octets, the one that is not closed included."""
        return len(self.segments) - (-(len(self.unclosed) + octets) // self.cut.p.e)

    def add(self, octets: bytes) -> None:
        e = self.cut.p.e
        rest, self.written = self.unclosed + octets, self.written + len(octets)
        self.unclosed, offset = b'', self.written - len(rest)
        for i in range(0, len(rest), e):
            if len(rest) - i < e:
                self.unclosed = rest[i:]
            else:
                self._close(offset + i, rest[i:i + e])

    def cut_off(self) -> None:
        """Closes the segment that holds octets and is not full, if there is one."""
        if self.unclosed:
            self._close(self.written - len(self.unclosed), self.unclosed)
            self.unclosed = b''

    def end(self) -> None:
        self.cut_off()
        self._close(self.written, b'')
        self.ended = True

    def _close(self, offset: int, octets: bytes) -> None:
        self.segments.append(len(octets).to_bytes(2, 'big') + bytes(2) + offset.to_bytes(4, 'big') + octets)

    def source(self, number: int) -> bytes:
        return self.segments[number]
