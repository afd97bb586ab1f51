#!/usr/bin/env python3
"""The dissector (tools/norm.lua) against the lines of `normd show`, on datagrams in lines of hexadecimal.

dissector.py LINES SHOWN       SHOWN is what `normd show` prints for LINES
dissector.py --runs RUN.json.. the datagrams of recorded runs, each once, as lines, and behind them as many damaged ones

Each line is made again of the fields that tshark gives, and of nothing else; the first that differ are named."""
from __future__ import annotations

import argparse
import os
import random
import subprocess
import sys
import tempfile

HERE = os.path.dirname(os.path.abspath(__file__))
TOOLS = os.path.join(HERE, '..', '..', 'tools')
sys.path.insert(0, TOOLS)
sys.dont_write_bytecode = True
import norm_wire as wire  # noqa: E402

FIELDS = ('refused kind source sequence instance grtt_code backoff gsize_code flags object block symbol subtype sender ack_type ack_id'
          ' fti.length fti.e fti.b fti.max_n node invalid info payload content request.form request.flags request.length'
          ' item.object item.block item.symbol').split()
EXPERT = 'norm.expert.refused'
NAMES = {'CC': 'opaque', 'APPLICATION': 'opaque', 'REPAIR_ADV': 'adv', 'ACK_REQ': 'ackreq'}
SHOWN_DIFFERENCES = 10
MOST_OCTETS = wire.LONGEST_LINE // 2  # a longer datagram is no line of `normd show`
Fields = dict[str, list[str]]


def datagrams_of_runs(paths: list[str]) -> list[bytes]:
    """The datagrams of recorded runs, each once, but for one of no octets, which no line can say."""
    runs = [wire.run_of(path, wire.read_file(path)) for path in paths]
    return list(dict.fromkeys(step.octets() for run in runs for step in run.steps if step.event.get('bytes')))


def damaged(datagrams: list[bytes]) -> list[bytes]:
    """The datagrams with octets changed, cut off, added or put between, by draws that are the same each time."""
    draws, made = random.Random(5740), []
    for octets in datagrams:
        parts = bytearray(octets)
        for _ in range(draws.randint(1, 3)):
            place, octet = draws.randrange(len(parts)), draws.choice((0, 1, 2, 3, 4, 5, 9, 64, 128, 255))
            what = draws.choice(('change', 'change', 'change', 'cut', 'add', 'insert'))
            if what == 'change':
                parts[min(place, place % 40)] = octet
            elif what == 'cut':
                del parts[max(place, 1):]
            else:
                parts.insert(place if what == 'insert' else len(parts), octet)
        made.append(bytes(parts[:MOST_OCTETS]))
    return made


def tshark(lines: str) -> list[Fields]:
    """What tshark reads of each datagram: the values of each field, in order."""
    with tempfile.TemporaryDirectory() as folder:
        capture = os.path.join(folder, 'all.pcap')
        subprocess.run([os.path.join(TOOLS, 'pcap'), lines, '-o', capture], check=True)
        words = ['tshark', '-X', 'lua_script:' + os.path.join(TOOLS, 'norm.lua'), '-r', capture, '-T', 'fields', '-E', 'separator=/t',
                 '-E', 'occurrence=a', '-E', 'aggregator=,']
        for name in FIELDS:
            words += ['-e', 'norm.' + name]
        got = subprocess.run(words + ['-e', EXPERT], check=True, capture_output=True, text=True)
    if 'lua' in got.stderr.lower():
        sys.exit('dissector: ' + got.stderr)
    rows = [row.split('\t') for row in got.stdout.splitlines()]
    return [{name: cell.split(',') if cell else [] for name, cell in zip(FIELDS + [EXPERT], row)} for row in rows]


def number(fields: Fields, name: str) -> int:
    """The one value of a field."""
    values = fields[name]
    return int(values[0], 0) if len(values) == 1 else -1


def hexadecimal(fields: Fields, name: str) -> str:
    """The octets of a field, or `-`."""
    return fields[name][0].replace(':', '') if fields[name] else '-'


def joined(words: list[str]) -> str:
    return ','.join(words) or '-'


def requests(fields: Fields) -> str:
    """The repair requests: each takes as many of the items as its length says."""
    items = list(zip(fields['item.object'], fields['item.block'], fields['item.symbol']))
    made = []
    for form, flags, length in zip(fields['request.form'], fields['request.flags'], fields['request.length']):
        count = int(length) // 8
        made.append(f'{form}:{int(flags, 0)}:' + '+'.join('.'.join(item) for item in items[:count]))
        items = items[count:]
    return joined(made)


def fti(fields: Fields) -> str:
    """The first transmission information."""
    parts = [fields['fti.' + name][:1] for name in ('length', 'e', 'b', 'max_n')]
    return ','.join(part[0] for part in parts) if all(parts) else '-'


def acknowledged(fields: Fields) -> list[str]:
    """What an ACK says of the order, or how long its content is."""
    if fields['item.object']:
        return fields['item.object'] + fields['item.block'] + fields['item.symbol']
    return ['opaque', str(len(hexadecimal(fields, 'content').strip('-')) // 2)]


def line_of(fields: Fields) -> str:
    """The line of `normd show`, of tshark's fields alone."""
    if fields['refused']:
        return 'refused ' + fields['refused'][0] + ('' if fields[EXPERT] else ' without expert information')
    kind = fields['kind'][0] if fields['kind'] else 'no datagram of ours'
    words = [NAMES.get(kind, kind.lower()), number(fields, 'source'), number(fields, 'sequence')]
    if fields['grtt_code']:
        words += [number(fields, 'instance'), '.'.join(str(number(fields, n)) for n in ('grtt_code', 'backoff', 'gsize_code'))]
    place = [number(fields, 'object'), number(fields, 'block'), number(fields, 'symbol')]
    words += {
        'INFO': lambda: [number(fields, 'flags'), number(fields, 'object'), fti(fields), hexadecimal(fields, 'info')],
        'DATA': lambda: [number(fields, 'flags'), *place, fti(fields), hexadecimal(fields, 'payload')],
        'FLUSH': lambda: [*place, joined(fields['node'])],
        'SQUELCH': lambda: [*place, joined(fields['invalid'])],
        'REPAIR_ADV': lambda: [number(fields, 'flags'), requests(fields)],
        'ACK_REQ': lambda: [number(fields, 'ack_type'), number(fields, 'ack_id'), joined(fields['node'])],
        'NACK': lambda: [number(fields, 'sender'), number(fields, 'instance'), requests(fields)],
        'ACK': lambda: [*(number(fields, n) for n in ('sender', 'instance', 'ack_type', 'ack_id')), *acknowledged(fields)],
        'CC': lambda: [number(fields, 'subtype')],
        'APPLICATION': lambda: [number(fields, 'subtype')],
    }.get(kind, list)()
    return ' '.join(map(str, words))


def compare(lines: str, shown: str) -> int:
    """Compares each datagram's line, and gives the status."""
    wanted = wire.text_of(shown, wire.read_file(shown)).splitlines()
    made = [line_of(fields) for fields in tshark(lines)]
    if len(made) != len(wanted):
        print(f'dissector: tshark read {len(made)} datagrams, and `show` {len(wanted)}.')
        return 1
    differ = [(place, want, made) for place, (want, made) in enumerate(zip(wanted, made), 1) if want != made]
    for place, want, got in differ[:SHOWN_DIFFERENCES]:
        print(f'dissector: datagram {place}\n  show    {want}\n  tshark  {got}')
    refused = sum(line.startswith('refused') for line in wanted)
    print(f'dissector: {len(made)} datagrams, {refused} of them refused; {len(differ)} differ from `normd show`.')
    return 1 if differ else 0


def main() -> int:
    parser = argparse.ArgumentParser(description=__doc__, formatter_class=argparse.RawDescriptionHelpFormatter)
    parser.add_argument('--runs', nargs='+', metavar='RUN.json', help='write the datagrams of recorded runs as lines')
    parser.add_argument('files', nargs='*', metavar='FILE', help='LINES and SHOWN')
    words = parser.parse_args()
    try:
        if words.runs:
            datagrams = datagrams_of_runs(words.runs)
            wire.write_file('-', ''.join(octets.hex() + '\n' for octets in datagrams + damaged(datagrams)).encode())
            return 0
        if len(words.files) != 2:
            parser.error('name LINES and SHOWN')
        return compare(*words.files)
    except wire.ToolFault as fault:
        return wire.fail('dissector', fault)


if __name__ == '__main__':
    sys.exit(main())
