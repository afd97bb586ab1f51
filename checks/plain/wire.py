"""Messages as objects, with what nodes need of them, and what their ids and repair requests name.

An item is (object id, block, symbol). A span is two positions, both included."""
from __future__ import annotations

from collections import namedtuple

IDS = 65536                                     # object transport ids and instance ids go round
LAST_INDEX = 4294967294
LAST_BLOCK, LAST_SYMBOL = 16777215, 255         # the greatest that a payload id has

IS_REPAIR, IS_EXPLICIT, HAS_INFO, IS_FILE, IS_STREAM = 1, 2, 4, 16, 32     # flags of INFO and DATA

ITEMS, RANGES, ERASURES = 1, 2, 3               # forms of requests
SEGMENT, BLOCK, INFO, OBJECT = 1, 2, 4, 8       # flags of requests
REQUEST_HEAD, ITEM_SIZE = 4, 8                  # octets


# INFO, if `symbol` is None, or DATA. `fti` is what EXT_FTI says, which a sender always writes: the length, e, b and max_n.
Object = namedtuple('Object', 'source instance object flags fti block symbol payload')
Flush = namedtuple('Flush', 'source instance object block symbol nodes')
Squelch = namedtuple('Squelch', 'source instance object block')
Adv = namedtuple('Adv', 'source instance requests')             # no sender of a session makes one
Nack = namedtuple('Nack', 'source sender instance requests')
Ack = namedtuple('Ack', 'source sender instance item')
Request = namedtuple('Request', 'form flags items')


def rise(first: int, later: int) -> int:
    """Returns how far an id is above another, going round."""
    return (later - first) % IDS


def is_above(first: int, later: int) -> bool:
    return 1 <= rise(first, later) <= 32767


def object_id(p, index: int) -> int:
    return (p.first + index) % IDS


def index_named(p, known: int, id_: int) -> int | None:
    """Returns the index that an id names to a node that knows indices up to one: 32,768 below it to 32,767 above it."""
    least = known - 32768
    index = least + (id_ - object_id(p, least)) % IDS
    return index if 0 <= index <= LAST_INDEX else None


def position_named(p, known: int, item: tuple) -> tuple | None:
    index = index_named(p, known, item[0])
    return None if index is None else (index, item[1], item[2])


class Named:
    """A request by what its items name to a node that knows indices up to one. What names nothing asks for nothing, nor does its pair."""

    def __init__(self, p, known: int, request: Request):
        self.form, self.flags = request.form, request.flags
        ends = [position_named(p, known, item) for item in request.items]
        if self.form == RANGES:
            spans = [(a, b) for a, b in zip(ends[0::2], ends[1::2]) if a and b]
            self.spans = [(a, b) for a, b in spans if a <= b]
        else:
            self.spans = [(a, a) for a in ends if a]

    def has(self, flag: int) -> bool:
        return bool(self.flags & flag)

    def symbols(self) -> list[tuple]:
        """Returns spans of the source symbols that are asked for by name, one for each item or pair and flag."""
        if self.form == ERASURES:
            return []
        found = list(self.spans) if self.has(SEGMENT) else []
        if self.has(BLOCK):
            found += [(a[:2] + (0,), b[:2] + (LAST_SYMBOL,)) for a, b in self.spans]
        if self.has(OBJECT):
            found += self._objects()
        return found

    def infos(self) -> list[tuple]:
        """Returns spans of the objects whose infos are asked for."""
        return self._objects() if self.form != ERASURES and self.has(INFO) else []

    def encoded(self) -> list[tuple]:
        """Returns the encoded symbols, parity too, that are asked for by name."""
        return [a for a, _ in self.spans] if self.form == ITEMS and self.has(SEGMENT) else []

    def counts(self) -> list[tuple]:
        """Returns points of blocks with how many symbols of them are asked for."""
        if self.form != ERASURES or not (self.has(SEGMENT) or self.has(BLOCK)):
            return []
        return [(a[:2], a[2]) for a, _ in self.spans]

    def begins(self) -> list[tuple]:
        """Returns the points at which what is asked for begins, if the request asks for something at all."""
        if not self.flags & (SEGMENT | BLOCK | (0 if self.form == ERASURES else OBJECT | INFO)):
            return []
        return [(a[0], 0) if self.flags & (OBJECT | INFO) else a[:2] for a, _ in self.spans]

    def _objects(self) -> list[tuple]:
        return [((a[0], 0, 0), (b[0], LAST_BLOCK, LAST_SYMBOL)) for a, b in self.spans]
