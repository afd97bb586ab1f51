"""Members, what they are listed past, and watermarks (RFC 5740 section 5.5.3)."""
from __future__ import annotations

MOST_OPEN = 16


class Watermark:
    """A watermark: its number, its position, and how many members have to confirm that, or None for all."""

    def __init__(self, number: int, at: tuple, quorum: int | None):
        self.number, self.at, self.quorum = number, at, quorum
        self.outcome: str | None = None


class Book:
    def __init__(self, nodes: list[int]):
        self.past: dict[int, tuple | None] = dict.fromkeys(nodes)     # of the members, in order
        self.made = 0
        self.open: list[Watermark] = []                               # the oldest first
        self.flushes = 0                                              # counted for the oldest
        self.last_flush: int | None = None
        self.risen: set[int] = set()                                  # members whose listing rose
        self.ended: list[Watermark] = []

    def oldest(self) -> Watermark | None:
        return self.open[0] if self.open else None

    def is_past(self, node: int, at: tuple) -> bool:
        return self.past[node] is not None and self.past[node] >= at

    def pending(self, at: tuple) -> list[int]:
        """Returns the members that are not past a position, in order."""
        return [node for node in self.past if not self.is_past(node, at)]

    def all_past(self, at: tuple) -> bool:
        return not self.pending(at)

    def make(self, at: tuple, quorum: int | None) -> Watermark:
        """Makes a watermark, which may be satisfied at once."""
        before, self.made = self.oldest(), self.made + 1
        mark = Watermark(self.made, at, quorum)
        self.open.append(mark)
        self._settle(before)
        return mark

    def credit(self, node: int, at: tuple) -> None:
        """A member confirms all through a position."""
        if not self.is_past(node, at):
            before = self.oldest()
            self.past[node] = at
            self.risen.add(node)
            self._settle(before)

    def strike(self, node: int) -> None:
        before = self.oldest()
        del self.past[node]
        self.risen.discard(node)
        self._settle(before)

    def expire(self) -> None:
        """The oldest watermark expires."""
        before = self.oldest()
        self._end(before, 'expired')
        self._count_anew(before)

    def begin_anew(self) -> None:
        """An instance begins: each open watermark is cut, and members are listed past nothing."""
        for mark in list(self.open):
            self._end(mark, 'cut')
        self.past = dict.fromkeys(self.past)
        self.risen.clear()
        self.flushes, self.last_flush = 0, None

    def news(self) -> list[tuple]:
        """Returns what was not told yet: ('past', node, position), in order of node, and then ('done', watermark), in order of number."""
        told = [('past', node, self.past[node]) for node in sorted(self.risen)]
        told += [('done', mark) for mark in sorted(self.ended, key=lambda mark: mark.number)]
        self.risen.clear()
        self.ended.clear()
        return told

    def _settle(self, before: Watermark | None) -> None:
        for mark in list(self.open):
            needed = len(self.past) if mark.quorum is None else min(mark.quorum, len(self.past))
            if len(self.past) - len(self.pending(mark.at)) >= needed:
                self._end(mark, 'satisfied')
        self._count_anew(before)

    def _end(self, mark: Watermark, outcome: str) -> None:
        mark.outcome = outcome
        self.open.remove(mark)
        self.ended.append(mark)

    def _count_anew(self, before: Watermark | None) -> None:
        """Flushes are counted anew if another watermark is the oldest. One that is satisfied as it is made never is."""
        if self.open and self.open[0] is not before:
            self.flushes = 0
