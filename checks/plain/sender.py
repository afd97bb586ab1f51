"""A sender (RFC 5740 section 5). A want is a position; that of an info has the block -1, so that it comes before the symbols of its object."""
from __future__ import annotations

from . import wire
from .book import MOST_OPEN, Book, Watermark
from .keys import Profile
from .order import Entry, Stream, Whole

MOST_FLUSHES = 20
AN_INFO = (-1, -1)                              # block and symbol of an info's want
MOST_RISE = 32767                               # from the first instance id to any later one


class Refused(Exception):
    """A command is refused for good, for this reason."""


class Waits(Exception):
    """A command has to wait for room."""


class Round:
    """An open repair round: when it closes, and what was asked in it, by the order as each request came."""

    def __init__(self, closes: int):
        self.closes = closes
        self.wants: set[tuple] = set()
        self.counts: dict[tuple, int] = {}      # of a block the greatest
        self.begins: list[tuple] = []


class Sender:
    def __init__(self, p: Profile):
        self.p = p
        self.book = Book(p.nodes())
        self.next_send = 0
        self._begin(p.instance)

    def _begin(self, instance: int) -> None:
        self.instance = instance
        self.order: list[Entry] = []
        self.drop = (0, 0)                      # all before this point was dropped
        self.next = (0, *AN_INFO)               # from here on symbols are new
        self.wants: list[tuple] = []            # the lowest first, none twice
        self.sent: set[tuple] = set()           # symbols and infos that were sent in this instance
        self.round: Round | None = None
        self.squelch_due = False

    # ---- commands

    def enqueue(self, kind: str, info: bytes | None, octets: bytes) -> int:
        """Puts data or a file into the order. Returns its index."""
        if not octets:
            raise Refused('empty')
        if len(octets) > self.p.octets:
            raise Refused(f'too-big {len(octets)}')
        if info is not None and len(info) > self.p.e:
            raise Refused(f'info-too-big {len(info)}')
        return self._join(Whole(self.p, kind, info, octets))

    def open(self) -> int:
        stream = Stream(self.p)
        if stream.length > self.p.octets:
            raise Refused(f'too-big {stream.length}')
        return self._join(stream)

    def write(self, octets: bytes) -> tuple[int, int]:
        """Adds octets to the open stream. Returns its index, and the offset of the first octet."""
        if not octets:
            raise Refused('empty')
        if len(octets) > (self.p.blocks - 1) * self.p.b * self.p.e:
            raise Refused(f'too-big {len(octets)}')
        stream = self._open_stream()
        if stream is None:
            raise Refused('no-stream')
        self._make_stream_room(stream.used_with(len(octets)))
        offset = stream.written
        stream.add(octets)
        return len(self.order) - 1, offset

    def close(self) -> int:
        stream = self._open_stream()
        if stream is None:
            raise Refused('no-stream')
        self._make_stream_room(stream.used_with(0) + 1)
        stream.end()
        return len(self.order) - 1

    def mark(self, quorum: int | None) -> Watermark:
        """Makes a watermark of all that was enqueued. The open stream is cut even if there is no room for the watermark."""
        if quorum is not None and not 1 <= quorum <= self.p.receivers:
            raise Refused(f'quorum {quorum}')
        stream = self._open_stream()
        if stream is not None:
            stream.cut_off()
        index = next((i for i in reversed(range(len(self.order))) if self.order[i].closed), None)
        if index is None:
            raise Refused('nothing-enqueued')
        if len(self.book.open) >= MOST_OPEN:
            raise Waits
        return self.book.make((index, *self.order[index].last_in()), quorum)

    def restart(self, instance: int) -> None:
        higher = wire.rise(self.p.instance, instance)
        if higher <= wire.rise(self.p.instance, self.instance) or higher > MOST_RISE:
            raise Refused(f'id-used {instance}')
        self._begin(instance)
        self.book.begin_anew()

    def strike(self, node: int) -> None:
        if node not in self.book.past:
            raise Refused(f'not-member {node}')
        if len(self.book.past) == 1:
            raise Refused(f'last-member {node}')
        self.book.strike(node)

    # ---- room

    def _open_stream(self) -> Stream | None:
        last = self.order[-1] if self.order else None
        return last if last is not None and last.is_stream and not last.ended else None

    def _join(self, entry: Entry) -> int:
        """Makes room for an object, and puts it into the order. Only as many objects are dropped as have to be, the oldest first."""
        if self._open_stream() is not None:
            raise Refused(f'stream-open {len(self.order) - 1}')
        first = self.drop[0]
        window = [x.length for x in self.order[first:]]
        going, taken = 0, sum(window)
        while going < len(window) and not (len(window) - going < self.p.window and taken + entry.length <= self.p.octets):
            taken, going = taken - window[going], going + 1
        if not all(self._may_go(first + i) for i in range(going)):
            raise Waits
        if going:
            self._drop_to((first + going, 0))
        self.order.append(entry)
        return len(self.order) - 1

    def _make_stream_room(self, segments: int) -> None:
        """Makes room for so many segments of the open stream. Before a block of it goes, all entries before it go."""
        index = len(self.order) - 1
        kept = self.drop[1] if self.drop[0] == index else 0
        least = max(0, -(-segments // self.p.b) - self.p.blocks)
        if least <= kept:
            return
        before = (self._may_go(i) for i in range(self.drop[0], index))
        if not all(before) or not all(self._block_may_go(index, block) for block in range(kept, least)):
            raise Waits
        self._drop_to((index, least))

    def _may_go(self, index: int) -> bool:
        """An object may go once its source symbols and its info were sent and, in `hold` mode, every member is past its end."""
        entry = self.order[index]
        if not entry.was_sent:
            entry.was_sent = all((index, block, symbol) in self.sent for block in reversed(range(entry.closed_blocks()))
                                 for symbol in range(entry.closed_in(block)))
        info_sent = entry.info is None or (index, *AN_INFO) in self.sent
        return entry.was_sent and info_sent and (not entry.closed or self._is_released((index, *entry.last_in())))

    def _block_may_go(self, index: int, block: int) -> bool:
        was_sent = all((index, block, symbol) in self.sent for symbol in range(self.p.b))
        return self.order[index].is_full(block) and was_sent and self._is_released((index, block, self.p.b - 1))

    def _is_released(self, last: tuple) -> bool:
        return self.p.mode == 'drop' or self.book.all_past(last)

    def _is_kept(self, want: tuple) -> bool:
        """A want is not dropped: its block, or of an info the object."""
        return want[0] >= self.drop[0] if want[1:] == AN_INFO else want[:2] >= self.drop

    def _drop_to(self, drop: tuple) -> None:
        self.drop = drop
        kept = [want for want in self.wants if self._is_kept(want)]
        self.squelch_due = self.squelch_due or len(kept) < len(self.wants)
        self.wants = kept

    # ---- what is heard

    def deliver(self, message, now: int) -> None:
        """A message comes. All but NACKs and acknowledgements to this sender and its instance change nothing."""
        if isinstance(message, (wire.Nack, wire.Ack)) and (message.sender, message.instance) == (self.p.sender, self.instance):
            if isinstance(message, wire.Ack):
                self._hear_ack(message)
            elif message.source in self.p.nodes() and message.requests:
                self._hear_nack(message, now)

    def _hear_ack(self, message: wire.Ack) -> None:
        at = wire.position_named(self.p, self._last_index(), message.item)
        if message.source in self.book.past and at is not None and at[0] < len(self.order):
            if at[2] < self.order[at[0]].closed_in(at[1]):
                self.book.credit(message.source, at)

    def _last_index(self) -> int:
        return max(0, len(self.order) - 1)

    def _hear_nack(self, message: wire.Nack, now: int) -> None:
        if self.round is None:
            self.round = Round(now + (self.p.k + 1) * self.p.grtt)
        for request in message.requests:
            named = wire.Named(self.p, self._last_index(), request)
            for span in named.symbols():
                self.round.wants.update(self._sources_within(*span))
            for at in named.encoded():
                if at[0] < len(self.order) and at[2] < self.order[at[0]].encoded_in(at[1]):
                    self.round.wants.add(at)
            for first, last in named.infos():
                indices = range(first[0], min(last[0], self._last_index()) + 1)
                self.round.wants.update((i, *AN_INFO) for i in indices if i < len(self.order) and self.order[i].info is not None)
            for point, count in named.counts():
                if point >= self.drop and point[0] < len(self.order) and self.order[point[0]].closed_in(point[1]):
                    self.round.counts[point] = max(count, self.round.counts.get(point, 0))
            self.round.begins += named.begins()

    def _sources_within(self, first: tuple, last: tuple):
        """Yields the closed source symbols from one position to another."""
        for index in range(first[0], min(last[0], len(self.order) - 1) + 1):
            entry = self.order[index]
            low = first[1] if index == first[0] else 0
            high = min(last[1], entry.closed_blocks() - 1) if index == last[0] else entry.closed_blocks() - 1
            for block in range(low, high + 1):
                for symbol in range(entry.closed_in(block)):
                    if first <= (index, block, symbol) <= last:
                        yield index, block, symbol

    def _close_round(self) -> None:
        closing, self.round = self.round, None
        asked = set(closing.wants)
        for point, count in closing.counts.items():
            asked.update(self._repairs(point, count))
        new = {want for want in asked if self._is_kept(want)}.difference(self.wants)
        if new:
            self.wants = sorted(new.union(self.wants))
            self.book.flushes = 0
        self.squelch_due = self.squelch_due or any(point < self.drop for point in closing.begins)

    def _repairs(self, point: tuple, count: int) -> list[tuple]:
        """Returns as many symbols of a block, at most k: the lowest parity symbols that were never sent, or if fewer are left the sources."""
        entry = self.order[point[0]]
        k = entry.cut.sources(point[1])
        count = min(count, k)
        fresh = [at for at in ((*point, i) for i in range(k, entry.encoded_in(point[1]))) if at not in self.sent]
        return fresh[:count] if count <= len(fresh) else [(*point, i) for i in range(entry.closed_in(point[1]))]

    # ---- a tick

    def tick(self, now: int):
        """Closes a round that is due, and returns the message that is sent, if one is."""
        if self.round is not None and self.round.closes <= now:
            self._close_round()
        if now < self.next_send:
            return None
        message = self._first_message(now)
        if message is not None:
            self.next_send = now + self.p.gap
        return message

    def _first_message(self, now: int):
        if self.squelch_due:
            self.squelch_due = False
            return wire.Squelch(self.p.sender, self.instance, wire.object_id(self.p, self.drop[0]), self.drop[1])
        if self.wants:
            want = self.wants.pop(0)
            is_source = want[1:] == AN_INFO or want[2] < self.order[want[0]].cut.sources(want[1])
            return self._message_of(want, wire.IS_REPAIR | (wire.IS_EXPLICIT if is_source else 0))
        new = self._next_new()
        if new is not None:
            self.next = (new[0], 0, 0) if new[1:] == AN_INFO else (*new[:2], new[2] + 1)
            return self._message_of(new)
        return self._flush(now)

    def _message_of(self, want: tuple, flags: int = 0) -> wire.Object:
        self.sent.add(want)
        entry = self.order[want[0]]
        flags |= wire.IS_STREAM if entry.is_stream else wire.IS_FILE if entry.kind == 'file' else 0
        flags |= wire.HAS_INFO if entry.info is not None else 0
        fti = (entry.length, self.p.e, self.p.b, self.p.max_n)
        head = (self.p.sender, self.instance, wire.object_id(self.p, want[0]), flags, fti)
        if want[1:] == AN_INFO:
            return wire.Object(*head, 0, None, entry.info)
        return wire.Object(*head, *want[1:], entry.payload(*want[1:]))

    def _next_new(self) -> tuple | None:
        """Returns the next new symbol or info that was not dropped: by index the info, and then block by block."""
        index, block, symbol = self.next
        while index < len(self.order):
            entry = self.order[index]
            if index < self.drop[0]:
                index, block, symbol = self.drop[0], *AN_INFO
                continue
            if block < 0:
                if entry.info is not None:
                    return index, *AN_INFO
                block = symbol = 0
            if (index, block) < self.drop:
                block, symbol = self.drop[1], 0
            while block < entry.closed_blocks():
                if symbol < self._sent_once(entry, block):
                    return index, block, symbol
                block, symbol = block + 1, 0
            index, block, symbol = index + 1, *AN_INFO
        return None

    def _sent_once(self, entry: Entry, block: int) -> int:
        """Returns how many symbols of a block are sent unasked."""
        if not entry.is_full(block):
            return entry.closed_in(block)
        return min(entry.cut.sources(block) + self.p.auto, entry.cut.encoded(block))

    def _flush(self, now: int) -> wire.Flush | None:
        """A flush up to the oldest watermark, to the members that are not past it, if it is time for one."""
        book = self.book
        if not book.open or (book.last_flush is not None and now < book.last_flush + 2 * self.p.grtt):
            return None
        if book.flushes >= MOST_FLUSHES:
            if self.round is not None:
                return None
            book.expire()
            if not book.open:
                return None
        mark = book.oldest()
        book.flushes, book.last_flush = book.flushes + 1, now
        item = (wire.object_id(self.p, mark.at[0]), *mark.at[1:])
        return wire.Flush(self.p.sender, self.instance, *item, tuple(book.pending(mark.at)))

    # ---- what a session asks

    def is_idle(self) -> bool:
        return not self.squelch_due and not self.wants and self.round is None and self._next_new() is None

    def repairable(self) -> int:
        """Returns how many infos and encoded symbols the window has."""
        count = 0
        for index in range(self.drop[0], len(self.order)):
            entry = self.order[index]
            first = self.drop[1] if index == self.drop[0] else 0
            count += (entry.info is not None) + sum(entry.encoded_in(block) for block in range(first, entry.closed_blocks()))
        return count

    def streams(self) -> int:
        """Returns how many streams were not dropped whole."""
        return sum(entry.is_stream for entry in self.order[self.drop[0]:])
