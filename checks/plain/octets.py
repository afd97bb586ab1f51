"""Messages in octets (RFC 5740 section 4, and RFC 5510 section 5). Numbers are big-endian. Own layouts and limits are those of docs/protocol.md."""
from __future__ import annotations

from . import wire
from .keys import Profile

VERSION, FEC_ID, NO_NODES = 1, 5, (0, 4294967295)
INFO, DATA, COMMAND, NACK, ACK, REPORT = range(1, 7)
FLUSH, EOT, SQUELCH, CC, REPAIR_ADV, ACK_REQ, APPLICATION = range(1, 8)
LEAST_WORDS = {INFO: 4, DATA: 5, COMMAND: 4, NACK: 6, ACK: 6, REPORT: 2}        # of a header; FLUSH and SQUELCH have one more
EXT_FTI, FTI_WORDS, ONE_WORD = 64, 3, 128       # extensions from type 128 on are one word
ACK_OF_FLUSH = 2


class Refused(Exception):
    """Octets spell no message."""


def number(octets: bytes, at: int, length: int) -> int:
    return int.from_bytes(octets[at:at + length], 'big')


def need(is_so: bool) -> None:
    if not is_so:
        raise Refused


# ---- reading

def read(octets: bytes) -> tuple:
    """Returns whose a datagram is, and what it says to a node: None if that is nothing. A report, and what spells no message, is nobody's."""
    try:
        return read_message(octets)
    except Refused:
        return None, None


def read_message(octets: bytes) -> tuple:
    need(len(octets) >= 8 and octets[0] >> 4 == VERSION and octets[0] & 15 in LEAST_WORDS)
    kind, end, source = octets[0] & 15, 4 * octets[1], number(octets, 4, 4)
    sub_type = octets[12] if kind == COMMAND and len(octets) > 12 else None
    need(octets[1] >= LEAST_WORDS[kind] + (sub_type in (FLUSH, SQUELCH)) and end <= len(octets) and source not in NO_NODES)
    if kind == REPORT:
        return None, None
    if kind in (INFO, DATA):
        return source, read_object(kind, source, octets, end)
    if kind == COMMAND:
        return source, read_command(sub_type, source, octets, end)
    return read_feedback(kind, source, octets, end)


def extensions(octets: bytes, at: int, end: int) -> tuple | None:
    """Returns the first transmission information among the extensions: the object's length, e, b and max_n."""
    found = None
    while at < end:
        size = 4 if octets[at] >= ONE_WORD else 4 * octets[at + 1]
        need(size > 0 and at + size <= end)
        if octets[at] == EXT_FTI and octets[at + 1] == FTI_WORDS and found is None:
            found = number(octets, at + 2, 6), number(octets, at + 8, 2), octets[at + 10], octets[at + 11]
        at += size
    return found


def read_object(kind: int, source: int, octets: bytes, end: int) -> wire.Object:
    need(octets[13] == FEC_ID)
    fti = extensions(octets, 4 * LEAST_WORDS[kind], end)
    head = (source, number(octets, 8, 2), number(octets, 14, 2), octets[12], fti)
    if kind == INFO:
        return wire.Object(*head, 0, None, octets[end:])
    return wire.Object(*head, number(octets, 16, 3), octets[19], octets[end:])


def read_command(sub_type: int, source: int, octets: bytes, end: int):
    """Returns a FLUSH, a SQUELCH or a REPAIR_ADV; any other command says nothing."""
    need(EOT <= sub_type <= APPLICATION or sub_type == FLUSH)
    rest, instance = octets[end:], number(octets, 8, 2)
    if sub_type in (FLUSH, SQUELCH):
        need(octets[13] == FEC_ID)
        extensions(octets, 20, end)
        need(len(rest) % (4 if sub_type == FLUSH else 2) == 0)
        item = number(octets, 14, 2), number(octets, 16, 3)
        if sub_type == SQUELCH:
            return wire.Squelch(source, instance, *item)
        return wire.Flush(source, instance, *item, octets[19], tuple(number(rest, at, 4) for at in range(0, len(rest), 4)))
    if sub_type in (CC, APPLICATION):
        return None
    extensions(octets, 16, end)
    if sub_type == REPAIR_ADV:
        return wire.Adv(source, instance, read_requests(rest))
    need(not rest if sub_type == EOT else len(rest) % 4 == 0)
    return None


def read_feedback(kind: int, source: int, octets: bytes, end: int) -> tuple:
    """Returns the sender that a NACK or an acknowledgement names, and what it says: an acknowledgement of another kind nothing."""
    extensions(octets, 24, end)
    rest, sender = octets[end:], number(octets, 8, 4)
    need(sender not in NO_NODES)
    if kind == NACK:
        return sender, wire.Nack(source, sender, number(octets, 12, 2), read_requests(rest))
    if octets[14] == ACK_OF_FLUSH:
        need(len(rest) == wire.ITEM_SIZE)
        return sender, wire.Ack(source, sender, number(octets, 12, 2), read_item(rest))
    return sender, None


def read_requests(octets: bytes) -> list[wire.Request]:
    found, at = [], 0
    while at < len(octets):
        form, length = octets[at], number(octets, at + 2, 2)
        first = at + wire.REQUEST_HEAD
        unit = wire.ITEM_SIZE * (2 if form == wire.RANGES else 1)
        need(form in (wire.ITEMS, wire.RANGES, wire.ERASURES) and first + length <= len(octets) and length % unit == 0)
        items = [read_item(octets[i:i + wire.ITEM_SIZE]) for i in range(first, first + length, wire.ITEM_SIZE)]
        found.append(wire.Request(form, octets[at + 1], items))
        at = first + length
    return found


def read_item(octets: bytes) -> tuple:
    need(octets[0] == FEC_ID)
    return number(octets, 2, 2), number(octets, 4, 3), octets[7]


# ---- writing

def written(p: Profile, message, sequence: int) -> bytes:
    """Returns the octets of a message that a node of this profile sends."""
    kind, body, rest = parts(p, message)
    head = bytes([VERSION << 4 | kind, 2 + len(body) // 4])
    return head + (sequence % 65536).to_bytes(2, 'big') + message.source.to_bytes(4, 'big') + body + rest


def parts(p: Profile, message) -> tuple[int, bytes, bytes]:
    """Returns a message's type, what follows the common header in its header, and what follows that."""
    instance = message.instance.to_bytes(2, 'big')
    sizes = bytes([p.grtt_code, p.k << 4 | p.gsize_code])
    if isinstance(message, wire.Object):
        body = instance + sizes + bytes([message.flags, FEC_ID]) + message.object.to_bytes(2, 'big')
        fti = b'' if message.fti is None else write_fti(*message.fti)
        if message.symbol is None:
            return INFO, body + fti, message.payload
        return DATA, body + message.block.to_bytes(3, 'big') + bytes([message.symbol]) + fti, message.payload
    if isinstance(message, wire.Flush):
        item = (message.object, message.block, message.symbol)
        return COMMAND, instance + sizes + bytes([FLUSH]) + write_place(*item), b''.join(node.to_bytes(4, 'big') for node in message.nodes)
    if isinstance(message, wire.Squelch):
        return COMMAND, instance + sizes + bytes([SQUELCH]) + write_place(message.object, message.block, 0), b''
    if isinstance(message, wire.Adv):
        return COMMAND, instance + sizes + bytes([REPAIR_ADV]) + bytes(3), write_requests(message.requests)
    to = message.sender.to_bytes(4, 'big') + instance
    if isinstance(message, wire.Nack):
        return NACK, to + bytes(10), write_requests(message.requests)
    return ACK, to + bytes([ACK_OF_FLUSH]) + bytes(9), write_item(*message.item)


def write_fti(length: int, e: int, b: int, max_n: int) -> bytes:
    return bytes([EXT_FTI, FTI_WORDS]) + length.to_bytes(6, 'big') + e.to_bytes(2, 'big') + bytes([b, max_n])


def write_place(id_: int, block: int, symbol: int) -> bytes:
    return bytes([FEC_ID]) + id_.to_bytes(2, 'big') + block.to_bytes(3, 'big') + bytes([symbol])


def write_item(id_: int, block: int, symbol: int) -> bytes:
    return bytes([FEC_ID, 0]) + write_place(id_, block, symbol)[1:]


def write_requests(requests: list[wire.Request]) -> bytes:
    texts = [(request, b''.join(write_item(*item) for item in request.items)) for request in requests]
    return b''.join(bytes([request.form, request.flags]) + len(items).to_bytes(2, 'big') + items for request, items in texts)
