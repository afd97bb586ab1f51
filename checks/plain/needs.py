"""What a receiver needs (RFC 5740 section 5.3), how it asks for that, and whether others asked for it already."""
from __future__ import annotations

from typing import Iterator, NamedTuple

from . import wire
from .holding import Holding, Plan

MOST_HEARD = 4096                               # items in each list of what was heard


class Need(NamedTuple):
    """An `object` without a plan, and its info; an `info`; a `count` of symbols of a block; a `source` symbol; the `rest` of a stream."""
    kind: str
    index: int
    block: int = 0
    symbol: int = 0                             # or the count


def needs(holding: Holding, farthest: tuple | None, flush: tuple | None) -> Iterator[Need]:
    """Yields all that is needed, by the farthest point seen and the greatest flush position."""
    seen, flushed = farthest[0] if farthest else 0, flush[0] if flush else 0
    for index in range(holding.point[0], max(seen, flushed) + 1):
        covered = index < seen or (flush is not None and index <= flush[0])
        plan = holding.plans.get(index)
        if plan is None:
            if covered:
                yield Need('object', index)
            continue
        if covered and plan.lacks_info():
            yield Need('info', index)
        if plan.is_stream:
            yield from stream_needs(holding, plan, seen, flush, covered)
        else:
            yield from counts(plan, plan.first_short, blocks_due(plan, farthest, flush))


def counts(plan: Plan, first: int, end: int) -> Iterator[Need]:
    for block in range(first, end):
        lacking = plan.lacking(block)
        if lacking:
            yield Need('count', plan.index, block, lacking)


def blocks_due(plan: Plan, farthest: tuple | None, flush: tuple | None) -> int:
    """Returns how many blocks of an object are before the farthest point's, or up to the flush's."""
    due = 0
    for point in (farthest, flush and (flush[0], flush[1] + 1)):
        if point and plan.index <= point[0]:
            due = max(due, plan.cut.blocks if plan.index < point[0] else min(point[1], plan.cut.blocks))
    return due


def missing(plan: Plan, block: int, first: int, end: int) -> Iterator[Need]:
    """Yields the source symbols of a block that are not held, if it is not done."""
    if plan.lacking(block):
        for symbol in range(first, end):
            if not plan.holds(block, symbol):
                yield Need('source', plan.index, block, symbol)


def stream_needs(holding: Holding, plan: Plan, seen: int, flush: tuple | None, covered: bool) -> Iterator[Need]:
    index, k = plan.index, plan.cut.p.b
    within = flush[1:] if flush and flush[0] == index else None
    yield from counts(plan, holding.first_block(index), max(plan.seen, within[0] if within else 0))
    flushed = min(within[1] + 1, k) if within else 0
    if within:
        yield from missing(plan, within[0], 0, flushed)
    if covered and plan.end:
        first = flushed if within and within[0] == plan.end[0] else 0
        yield from missing(plan, plan.end[0], first, plan.end[1])
    is_passed = index < seen or (flush is not None and index < flush[0])
    if plan.end is None and is_passed:
        block = plan.seen if plan.lacking(plan.seen) else plan.seen + 1
        if block <= wire.LAST_BLOCK:
            yield Need('rest', index, block)


# ---- asking

ASKED = {                                       # form and flags of each kind
    'object': (wire.ITEMS, wire.OBJECT | wire.INFO),
    'info': (wire.ITEMS, wire.INFO),
    'count': (wire.ERASURES, wire.SEGMENT),
    'source': (wire.ITEMS, wire.SEGMENT),
    'rest': (wire.RANGES, wire.BLOCK),
}


def fitting(wanted: Iterator[Need], room: int) -> list[Need]:
    """Returns the longest prefix of needs whose requests fit so many octets. Neighbours of one form and the same flags share a request."""
    taken, before = [], None
    for need in wanted:
        asked = ASKED[need.kind]
        size = wire.ITEM_SIZE * (2 if need.kind == 'rest' else 1) + (0 if asked == before else wire.REQUEST_HEAD)
        if size > room:
            break
        room, before = room - size, asked
        taken.append(need)
    return taken


def requests(p, wanted: list[Need]) -> list[wire.Request]:
    made: list[wire.Request] = []
    for need in wanted:
        form, flags = ASKED[need.kind]
        if not made or (made[-1].form, made[-1].flags) != (form, flags):
            made.append(wire.Request(form, flags, []))
        id_ = wire.object_id(p, need.index)
        made[-1].items.append((id_, need.block, need.symbol))
        if need.kind == 'rest':
            made[-1].items.append((id_, wire.LAST_BLOCK, 0))
    return made


# ---- what others asked for

def with_span(spans: list[tuple], span: tuple) -> list[tuple]:
    """Returns spans in order, of which no two share a position, with one more: it takes in all that it meets."""
    first, last = span
    before = [x for x in spans if x[1] < first]
    after = [x for x in spans if last < x[0]]
    met = spans[len(before):len(spans) - len(after)]
    return before + [(min([first] + [x[0] for x in met]), max([last] + [x[1] for x in met]))] + after


def covers(width: int, first: tuple, last: tuple, spans: list[tuple]) -> bool:
    """Returns whether all source symbols from one to another lie in these spans, if blocks have so many."""
    for span in spans:
        if span[1] < first:
            continue
        if first < span[0]:
            return False
        if last <= span[1]:
            return True
        index, block, symbol = span[1]
        first = (index, block, symbol + 1) if symbol + 1 < width else (index, block + 1, 0)
    return False


class Heard:
    """What others asked for while a back-off runs, by what ids named then."""

    def __init__(self):
        self.symbols: list[tuple] = []
        self.infos: list[tuple] = []
        self.counts: dict[tuple, int] = {}

    def hear(self, named: list[wire.Named]) -> None:
        """Hears a message whole, or not at all if a list might have more than 4,096 items."""
        symbols = [span for request in named for span in request.symbols()]
        infos = [span for request in named for span in request.infos()]
        asked = [count for request in named for count in request.counts()]
        if any(len(old) + len(new) > MOST_HEARD for old, new in ((self.symbols, symbols), (self.infos, infos), (self.counts, asked))):
            return
        for span in symbols:
            self.symbols = with_span(self.symbols, span)
        for span in infos:
            self.infos = with_span(self.infos, span)
        for point, count in asked:
            self.counts[point] = max(count, self.counts.get(point, 0))

    def asks_for(self, need: Need, holding: Holding) -> bool:
        """Returns whether all of a need was asked for."""
        plan = holding.plans.get(need.index)
        width = 256 if plan is None else plan.cut.sources(need.block)
        if need.kind == 'object':
            return self._blocks(width, need.index, 0, wire.LAST_BLOCK) and self._info(need.index)
        if need.kind == 'info':
            return self._info(need.index)
        if need.kind == 'count':
            # `symbol` is the count
            return self.counts.get((need.index, need.block), -1) >= need.symbol or self._blocks(width, need.index, need.block, need.block)
        if need.kind == 'source':
            return any(first <= need[1:] <= last for first, last in self.symbols)
        return self._blocks(width, need.index, need.block, wire.LAST_BLOCK)

    def _info(self, index: int) -> bool:
        return any(first <= (index, 0, 0) <= last for first, last in self.infos)

    def _blocks(self, width: int, index: int, first: int, last: int) -> bool:
        return covers(width, (index, first, 0), (index, last, width - 1), self.symbols)
