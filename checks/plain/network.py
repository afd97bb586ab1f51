"""Networks in memory: one that passes all on, and one that loses, repeats and delays by chance."""
from __future__ import annotations

import heapq

from .draws import Words
from .keys import Profile


class Network:
    """A copy is ready after so many offers. The first ready is taken first, then that of the lower offer, and then that for the lower node."""

    def __init__(self, p: Profile):
        self.p, self.members = p, p.members()
        self.offers = 0
        self.waiting: list[tuple] = []          # (offers at which it is ready, offer, node, which copy, message)
        self.words = Words(p.chance) if p.fabric == 'chance' else None

    def offer(self, source: int, message) -> None:
        self.offers += 1
        for node in self.members:
            if node != source:
                copies, late = self._fate()
                for copy in range(copies):
                    heapq.heappush(self.waiting, (self.offers + late, self.offers, node, copy, message))

    def _fate(self) -> tuple[int, int]:
        """Returns how many copies come, and by how many further offers they are late."""
        if self.words is None:
            return 1, 0
        word = self.words.next()
        if word % 1000 < self.p.loss:
            return 0, 0
        return (2 if word // 1000 % 1000 < self.p.repeat else 1), word // 1000000 % (self.p.late + 1)

    def take(self) -> tuple[int, object] | None:
        """Returns the next copy that is ready: for whom it is, and the message."""
        if not self.waiting or self.waiting[0][0] > self.offers:
            return None
        _, _, node, _, message = heapq.heappop(self.waiting)
        return node, message
