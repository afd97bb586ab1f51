"""The octets of normd's datagrams, once: layouts, numbers and refusals, their reader, and the lines of `normd show`.

Beside it stand the files that the tools read: recorded runs, and texts in lines of hexadecimal. Numbers are big-endian.
docs/protocol.md says what each part means."""
from __future__ import annotations

import argparse
import json
import math
import os
import re
import sys
from dataclasses import dataclass
from typing import Any, Callable, Iterator

# What the tools answer with beside 0.
FAILED, REFUSED_WORDS, REFUSED_INPUT = 1, 2, 3

VERSION = 1
FEC_ID = 5
NO_NODES = (0, 0xFFFFFFFF)
TYPES = {1: 'info', 2: 'data', 3: 'command', 4: 'nack', 5: 'ack', 6: 'report'}
COMMANDS = {1: 'flush', 2: 'eot', 3: 'squelch', 4: 'opaque', 5: 'adv', 6: 'ackreq', 7: 'opaque'}
FLAGS = {'REPAIR': 0x01, 'EXPLICIT': 0x02, 'INFO': 0x04, 'UNRELIABLE': 0x08, 'FILE': 0x10, 'STREAM': 0x20}
FORMS = {1: 'ITEMS', 2: 'RANGES', 3: 'ERASURES'}
ASKS = {'SEGMENT': 0x01, 'BLOCK': 0x02, 'INFO': 0x04, 'OBJECT': 0x08}
EXT_FTI, FTI_WORDS, FIXED_EXTENSION = 64, 3, 128
ACK_FLUSH = 2
HEADERS = 20 + 12 + 28  # of a symbol on the wire: a DATA's header, EXT_FTI, and those of IPv4 and UDP
FLUSHES = 20  # so often a sender asks for a watermark without progress, each two round trips after the one before
ITEM_OCTETS, REQUEST_HEAD, STREAM_HEAD, LONGEST_LINE = 8, 4, 8, 3000

UNITS = {'': 1, 'k': 10**3, 'M': 10**6, 'G': 10**9, 'Ki': 2**10, 'Mi': 2**20, 'Gi': 2**30}

Layout = tuple[tuple[str, int], ...]

# Each field with its bits, from the datagram's first octet on. Extensions follow it, to the header's end.
COMMON: Layout = (('version', 4), ('type', 4), ('words', 8), ('sequence', 16), ('source', 32))
SENT: Layout = COMMON + (('instance', 16), ('grtt', 8), ('backoff', 4), ('gsize', 4))
PLACE: Layout = (('fec_id', 8), ('object', 16), ('block', 24), ('symbol', 8))
BACK: Layout = COMMON + (('sender', 32), ('instance', 16))
STAMP: Layout = (('seconds', 32), ('microseconds', 32))
LAYOUTS: dict[str, Layout] = {
    'info': SENT + (('flags', 8), ('fec_id', 8), ('object', 16)),
    'data': SENT + (('flags', 8),) + PLACE,
    'flush': SENT + (('sub_type', 8),) + PLACE,
    'eot': SENT + (('sub_type', 8), ('reserved', 24)),
    'squelch': SENT + (('sub_type', 8),) + PLACE,
    'opaque': SENT + (('sub_type', 8), ('reserved', 24)),
    'adv': SENT + (('sub_type', 8), ('flags', 8), ('reserved', 16)),
    'ackreq': SENT + (('sub_type', 8), ('reserved', 8), ('ack_type', 8), ('ack_id', 8)),
    'nack': BACK + (('reserved', 16),) + STAMP,
    'ack': BACK + (('ack_type', 8), ('ack_id', 8)) + STAMP,
    'report': COMMON,
}
SUB_TYPE_AT = 12  # the octet of a command that says which one it is
UNREAD = ('opaque', 'report')  # what stands behind their header is read as it is


class ToolFault(Exception):
    """What a tool refuses, as a sentence for standard error, and the status that it ends with."""

    def __init__(self, sentence: str, status: int = REFUSED_INPUT):
        super().__init__(sentence)
        self.status = status


class Refused(Exception):
    """Why a datagram is refused, in the words of `normd show`."""


@dataclass(frozen=True)
class Item:
    """A place in the order: of an object, a block of it and a symbol of that."""
    object: int
    block: int
    symbol: int

    def __str__(self) -> str:
        return f'{self.object}.{self.block}.{self.symbol}'


@dataclass(frozen=True)
class Request:
    """A repair request: its form, its flags and what it names (of RANGES two ends each)."""
    form: int
    flags: int
    items: tuple[Item, ...]

    def __str__(self) -> str:
        return f'{self.form}:{self.flags}:' + '+'.join(map(str, self.items))


@dataclass(frozen=True)
class Fti:
    """EXT_FTI: the object's octets, and how it is cut and coded."""
    length: int
    e: int
    b: int
    max_n: int

    def __str__(self) -> str:
        return f'{self.length},{self.e},{self.b},{self.max_n}'


@dataclass(frozen=True)
class Message:
    """A datagram that was read: its kind, the fields of its layout, and what follows them."""
    kind: str
    fields: dict[str, int]
    fti: Fti | None
    content: bytes
    requests: tuple[Request, ...] = ()
    mark: Item | None = None

    def __getattr__(self, name: str) -> int:
        try:
            return self.fields[name]
        except KeyError:
            raise AttributeError(name) from None

    def numbers(self, octets: int) -> list[int]:
        """The content as a list of numbers of so many octets: of FLUSH and ACK_REQ node ids, of SQUELCH object ids."""
        return [int.from_bytes(self.content[i:i + octets], 'big') for i in range(0, len(self.content), octets)]

    def place(self) -> Item:
        """What a DATA, a FLUSH or a SQUELCH names."""
        return Item(self.object, self.block, self.symbol)

    def has(self, flag: str) -> bool:
        """Whether a DATA or an INFO has a flag."""
        return bool(self.fields.get('flags', 0) & FLAGS[flag])


def words_of(layout: Layout) -> int:
    """The least header length of a layout, in words of four octets."""
    return sum(bits for _, bits in layout) // 32


def fields_of(layout: Layout, octets: bytes) -> dict[str, int]:
    """The fields of a layout by name."""
    size = sum(bits for _, bits in layout)
    whole, fields = int.from_bytes(octets[:size // 8], 'big'), {}
    for name, bits in layout:
        size -= bits
        fields[name] = whole >> size & (1 << bits) - 1
    return fields


def kind_of(octets: bytes) -> str:
    """Which message it is by its type and sub-type; of a command that is none, 'command'."""
    kind = TYPES[octets[0] & 15]
    return COMMANDS.get(octets[SUB_TYPE_AT], kind) if kind == 'command' and len(octets) > SUB_TYPE_AT else kind


def least_words(octets: bytes) -> int:
    """The least header length that its type allows."""
    kind = kind_of(octets)
    return words_of(LAYOUTS.get(kind, LAYOUTS['eot']))


def check_header(octets: bytes) -> None:
    """The refusals of the common header, in their order."""
    if len(octets) < 8:
        raise Refused(f'short {len(octets)}')
    if octets[0] >> 4 != VERSION:
        raise Refused(f'version {octets[0] >> 4}')
    if octets[0] & 15 not in TYPES:
        raise Refused(f'type {octets[0] & 15}')
    if octets[1] < least_words(octets):
        raise Refused(f'header {octets[1]} {least_words(octets)}')
    if 4 * octets[1] > len(octets):
        raise Refused(f'past-end {octets[1]} {len(octets)}')


def extensions(octets: bytes, at: int, end: int) -> Iterator[tuple[int, bytes]]:
    """The extensions from an octet to the header's end: of each its type and its octets."""
    while at < end:
        size = 4 if octets[at] >= FIXED_EXTENSION else 4 * octets[at + 1]
        if size == 0 or at + size > end:
            raise Refused(f'extension {at}')
        yield octets[at], octets[at:at + size]
        at += size


def fti_of(found: list[tuple[int, bytes]]) -> Fti | None:
    """The first transmission information among the extensions."""
    for kind, octets in found:
        if kind == EXT_FTI and octets[1] == FTI_WORDS:
            return Fti(int.from_bytes(octets[2:8], 'big'), int.from_bytes(octets[8:10], 'big'), octets[10], octets[11])
    return None


def item_at(octets: bytes, at: int) -> Item:
    """The item at an octet."""
    if octets[at] != FEC_ID:
        raise Refused(f'item-fec {at} {octets[at]}')
    number = int.from_bytes(octets[at:at + ITEM_OCTETS], 'big')
    return Item(number >> 32 & 0xFFFF, number >> 8 & 0xFFFFFF, number & 0xFF)


def requests_of(octets: bytes, at: int) -> Iterator[Request]:
    """The repair requests from an octet to the end."""
    while at < len(octets):
        form, length = octets[at], int.from_bytes(octets[at + 2:at + 4], 'big')
        if form not in FORMS:
            raise Refused(f'form {at}')
        unit = ITEM_OCTETS * (2 if FORMS[form] == 'RANGES' else 1)
        if at + REQUEST_HEAD + length > len(octets) or length % unit:
            raise Refused(f'length {at}')
        first, at = at + REQUEST_HEAD, at + REQUEST_HEAD + length
        yield Request(form, octets[first - 3], tuple(item_at(octets, i) for i in range(first, at, ITEM_OCTETS)))


def check_nodes(fields: dict[str, int]) -> None:
    """Node ids 0 and 4294967295 name no member."""
    if fields['source'] in NO_NODES or fields.get('sender', 1) in NO_NODES:
        raise Refused('node')


def check_list(kind: str, fields: dict[str, int], content: bytes) -> None:
    """A list has whole numbers, an EOT no content, and an ACK of a flush one item."""
    rest = len(content)
    if kind in ('flush', 'ackreq'):
        rest %= 4
    elif kind == 'squelch':
        rest %= 2
    elif kind == 'ack' and fields['ack_type'] == ACK_FLUSH:
        rest = 0 if rest == ITEM_OCTETS else rest or -1
    elif kind != 'eot':
        rest = 0
    if rest:
        raise Refused(f'list {max(rest, 0)}')


def decode(octets: bytes) -> Message:
    """What a datagram says, or `Refused` with the first refusal in the order of docs/protocol.md."""
    check_header(octets)
    kind = kind_of(octets)
    if kind == 'command':
        raise Refused(f'sub-type {octets[SUB_TYPE_AT]}')
    fields, end = fields_of(LAYOUTS[kind], octets), 4 * octets[1]
    if kind in UNREAD:
        check_nodes(fields)
        return Message(kind, fields, None, octets[end:])
    if fields.get('fec_id', FEC_ID) != FEC_ID:
        raise Refused(f'fec-id {fields["fec_id"]}')
    found = list(extensions(octets, 4 * words_of(LAYOUTS[kind]), end))
    requests = tuple(requests_of(octets, end)) if kind in ('nack', 'adv') else ()
    marks = kind == 'ack' and fields['ack_type'] == ACK_FLUSH and len(octets) == end + ITEM_OCTETS
    mark = item_at(octets, end) if marks else None
    check_nodes(fields)
    check_list(kind, fields, octets[end:])
    return Message(kind, fields, fti_of(found), octets[end:], requests, mark)


def source_symbols(fti: Fti, block: int) -> int:
    """The source symbols of an object's block (RFC 5052 section 9.1), 0 where it has no such block."""
    symbols = -(-fti.length // fti.e) if fti.e else 0
    blocks = -(-symbols // fti.b) if fti.b else 0
    if block >= blocks:
        return 0
    small, large = divmod(symbols, blocks)
    return small + (block < large)


def is_parity(m: Message) -> bool:
    """Whether a DATA that says how its object is cut has a parity symbol. Every block of a stream has B source symbols."""
    return m.fti is not None and m.symbol >= (m.fti.b if m.has('STREAM') else source_symbols(m.fti, m.block))


def stream_head(m: Message) -> tuple[int, int] | None:
    """Of a DATA of a stream's source symbol its segment's length and offset, where eight octets and so many more are there."""
    length, offset = int.from_bytes(m.content[:2], 'big'), int.from_bytes(m.content[4:8], 'big')
    is_segment = m.kind == 'data' and m.has('STREAM') and not is_parity(m)
    return (length, offset) if is_segment and len(m.content) >= STREAM_HEAD + length else None


def joined(words: list[Any]) -> str:
    """A list with commas, or `-` where there is none."""
    return ','.join(map(str, words)) or '-'


def acknowledged(m: Message) -> list[Any]:
    """What an ACK says of the order, or how long its content is."""
    return [m.mark.object, m.mark.block, m.mark.symbol] if m.mark else ['opaque', len(m.content)]


def own_words(m: Message) -> list[Any]:
    """The words of a line of `show` behind source, sequence and, where there is one, the head of what a sender sends."""
    words: dict[str, Callable[[], list[Any]]] = {
        'info': lambda: [m.flags, m.object, m.fti or '-', m.content.hex() or '-'],
        'data': lambda: [m.flags, m.object, m.block, m.symbol, m.fti or '-', m.content.hex() or '-'],
        'flush': lambda: [m.object, m.block, m.symbol, joined(m.numbers(4))],
        'squelch': lambda: [m.object, m.block, m.symbol, joined(m.numbers(2))],
        'eot': lambda: [],
        'adv': lambda: [m.flags, joined(list(m.requests))],
        'ackreq': lambda: [m.ack_type, m.ack_id, joined(m.numbers(4))],
        'opaque': lambda: [m.sub_type],
        'nack': lambda: [m.sender, m.instance, joined(list(m.requests))],
        'ack': lambda: [m.sender, m.instance, m.ack_type, m.ack_id, *acknowledged(m)],
        'report': lambda: [],
    }
    return words[m.kind]()


def show(octets: bytes) -> str:
    """The line that `normd show` prints for a datagram."""
    try:
        m = decode(octets)
    except Refused as refusal:
        return f'refused {refusal}'
    head: list[Any] = [m.instance, f'{m.grtt}.{m.backoff}.{m.gsize}'] if 'grtt' in m.fields else []
    return ' '.join(map(str, [m.kind, m.source, m.sequence] + head + own_words(m)))


def number(least: int, greatest: int) -> Callable[[str], int]:
    """What argparse reads a number of this range with."""
    def read(text: str) -> int:
        if not (text.isascii() and text.isdigit() and least <= int(text) <= greatest):
            raise argparse.ArgumentTypeError(f'{text} is no number of {least} to {greatest}')
        return int(text)
    return read


def amount(text: str) -> int:
    """What argparse reads a number with a unit with."""
    found = re.fullmatch(r'(\d+(?:\.\d+)?)(k|M|G|Ki|Mi|Gi|)', text, re.ASCII)
    number = math.ceil(float(found[1]) * UNITS[found[2]]) if found else 0
    if number < 1:
        raise argparse.ArgumentTypeError(f'{text} is no number above 0, alone or with k, M, G, Ki, Mi or Gi')
    return number


def gap_of(rate: int, e: int) -> int:
    """The microseconds from one datagram with a symbol to the next at a rate in bits a second, headers of IP and UDP included."""
    return max(1, -(-(e + HEADERS) * 8 * 1_000_000 // rate))


def fail(tool: str, fault: ToolFault) -> int:
    """Says on standard error why a tool did nothing, and gives its status."""
    print(f'{tool}: {fault}', file=sys.stderr)
    return fault.status


def read_file(path: str) -> bytes:
    """The octets of a file, or of standard input for `-`."""
    try:
        if path == '-':
            return sys.stdin.buffer.read()
        with open(path, 'rb') as file:
            return file.read()
    except OSError as error:
        raise ToolFault(f'{path} cannot be read: {error.strerror}.', FAILED) from None


def write_file(path: str, octets: bytes) -> None:
    """Writes a file beside its place and gives it its name when it is whole; `-` is standard output."""
    try:
        if path == '-':
            sys.stdout.buffer.write(octets)
            sys.stdout.buffer.flush()
            return
        beside = f'{path}.{os.getpid()}.new'
        try:
            with open(beside, 'wb') as file:
                file.write(octets)
            os.replace(beside, path)
        finally:
            if os.path.exists(beside):
                os.remove(beside)
    except BrokenPipeError:
        os.dup2(os.open(os.devnull, os.O_WRONLY), sys.stdout.fileno())
        raise ToolFault('standard output was closed before all was written.', FAILED) from None
    except OSError as error:
        raise ToolFault(f'{path} cannot be written: {error.strerror}.', FAILED) from None


def text_of(path: str, octets: bytes) -> str:
    """The text of a file in UTF-8."""
    try:
        return octets.decode('utf-8')
    except UnicodeDecodeError as error:
        raise ToolFault(f'{path} is no text: octet {error.start} is {octets[error.start]:#04x}.') from None


def hexadecimal(path: str, text: str) -> list[bytes]:
    """The datagrams of a text as `normd show` reads it: a line each, empty lines passed over."""
    datagrams = []
    for number, line in enumerate(text.split('\n'), 1):
        digits = all(c in '0123456789abcdefABCDEF' for c in line)
        if not digits or len(line) % 2 or len(line) > LONGEST_LINE:
            raise ToolFault(f'{path}: line {number} is no even number of hexadecimal digits, at most {LONGEST_LINE}.')
        if line:
            datagrams.append(bytes.fromhex(line))
    return datagrams


def looks_like_run(octets: bytes) -> bool:
    """Whether a file begins as a recorded run does."""
    return octets.lstrip()[:1] == b'{'


@dataclass(frozen=True)
class Step:
    """An event of a recorded run, with its moment in microseconds."""
    what: str
    now: int
    event: dict[str, Any]

    def octets(self) -> bytes:
        return bytes.fromhex(self.event['bytes'])


@dataclass(frozen=True)
class Run:
    """A recorded run: the profile of its members, its events in order, whether it was recorded of a whole session, its script, and how many
    microseconds signs may be apart that belong together."""
    profile: dict[str, Any]
    steps: tuple[Step, ...]
    is_session: bool
    script: str = ''
    apart: int = 0

    def quorum(self, event: dict[str, Any]) -> int | None:
        """The quorum that a command gave: an event of a sender has it, and one of a session its script."""
        job = event['job']
        if isinstance(job, dict):
            return job.get('quorum')
        lines = [line.split(' ') for line in self.script.split('\n')]
        own = [words[1:] for words in lines if words[0] == str(job[0]) and len(words) > 1]
        words = own[job[1] - 1] if own and 0 < job[1] <= len(own) else []
        return int(words[1]) if words[:1] == ['mark'] and len(words) == 2 and words[1].isdigit() else None

    def members(self) -> list[int]:
        """The sender and then the receivers, by node id."""
        sender = self.profile['sender']
        return list(range(sender, sender + self.profile['receivers'] + 1))


# Of the profile what the tools need, with its least and greatest value.
PROFILE = {'sender': (1, 4294967278), 'receivers': (1, 16), 'port': (1024, 65000), 'first': (0, 65535), 'step': (0, 10**6), 'gap': (1, 10**6)}
# Of each event what it has to have for the tools, beside the word that it is named by; and the words whose values are nodes.
EVENTS = {'start': (), 'turn': ('now',), 'pull': (), 'job': ('gave',), 'tick': (), 'offer': ('bytes',), 'deliver': ('bytes', 'now'),
          'took': ('bytes',), 'empty': (), 'take': ('up',), 'up': ('node',), 'news': ()}
NODES = ('offer', 'deliver', 'took', 'take', 'node')


def step_of(path: str, place: int, event: Any, now: int) -> Step:
    """An event with its moment, which is that of the event before where it has none of its own."""
    event = {event: None} if isinstance(event, str) else event
    what = next((word for word in EVENTS if isinstance(event, dict) and word in event), None)
    if what is None or any(name not in event for name in EVENTS[what]):
        raise ToolFault(f'{path}: event {place} is none of a recorded run.')
    moment = event.get('now', now)
    numbers = [moment] + [event[name] for name in NODES if name in event]
    try:
        bytes.fromhex(event.get('bytes', '')) if what != 'job' else b''
    except (TypeError, ValueError):
        raise ToolFault(f'{path}: event {place} has no octets in hexadecimal.') from None
    if any(type(number) is not int or not 0 <= number < 2**64 for number in numbers):
        raise ToolFault(f'{path}: event {place} has a node or a moment that is none.')
    return Step(what, moment, event)


def run_of(path: str, octets: bytes) -> Run:
    """A recorded run, read whole before anything of it is used."""
    try:
        made = json.loads(text_of(path, octets))
        profile, events, now, steps = made['profile'], made['events'], 0, []
        if not all(type(profile[key]) is int and least <= profile[key] <= greatest for key, (least, greatest) in PROFILE.items()):
            raise ValueError
    except json.JSONDecodeError as error:
        raise ToolFault(f'{path} is no recorded run, or is cut: line {error.lineno}, column {error.colno}: {error.msg}.') from None
    except (KeyError, TypeError, ValueError, RecursionError):
        raise ToolFault(f'{path} is no recorded run: it lacks events, or a profile with {", ".join(PROFILE)}.') from None
    for place, event in enumerate(events if isinstance(events, list) else [events]):
        steps.append(step_of(path, place, event, now))
        now = steps[-1].now
    script = made.get('script')
    return Run(profile, tuple(steps), any(step.what == 'turn' for step in steps), script if isinstance(script, str) else '')
