#!/usr/bin/env python3
"""The tools of tools/ and man/ on recorded runs, on a run made by hand (examples/repair.json), and on bad input.

compare.py PART ..     PART is wire, pcap, journal, ladder, record, profile or manual; checks/tools.sh runs all of them

Expected values are those of the recorded runs, of the lines in checks/tools and of the rules, never a tool's own output."""
from __future__ import annotations

import glob
import importlib.machinery
import importlib.util
import itertools
import json
import math
import os
import pathlib
import re
import struct
import subprocess
import sys
import tempfile
import tomllib
import xml.etree.ElementTree as tree
from types import ModuleType
from typing import Any, Iterator

sys.dont_write_bytecode = True
HERE = os.path.dirname(os.path.abspath(__file__))
ROOT = os.path.dirname(os.path.dirname(HERE))
TOOLS, FIXTURES = os.path.join(ROOT, 'tools'), HERE
REPAIR = os.path.join(ROOT, 'examples', 'repair.json')
sys.path[:0] = [TOOLS, HERE]
import dissector  # noqa: E402
import norm_journal  # noqa: E402
import norm_keys  # noqa: E402
import norm_ladder  # noqa: E402
import norm_nodes  # noqa: E402
import norm_record  # noqa: E402
import norm_wire as wire  # noqa: E402

PROGRAM = os.path.join(ROOT, 'crates', 'normd', 'out', 'normd')
MOST_SHOWN = 1500                               # octets of a datagram that a line of `normd show` holds
WITH_PROFILE = b'{"profile": {"sender": 1, "receivers": 1, "port": 40000, "first": 0, "step": 1, "gap": 1}, "events": [%s]}'
failures: list[str] = []


def wants(name: str, wanted: Any, got: Any) -> None:
    """Notes a row that differs, with its name."""
    if wanted != got:
        failures.append(f'{name}: wanted {str(wanted)[:300]}, and got {str(got)[:300]}')


def text(path: str) -> str:
    with open(path, encoding='utf-8') as file:
        return file.read()


def recorded(pattern: str = '*') -> list[str]:
    """The recorded runs, and the one that was made by hand."""
    return sorted(glob.glob(os.path.join(ROOT, 'checks', 'runs', pattern + '.json'))) + [REPAIR]


def run(*words: str, given: bytes = b'', tool: str = TOOLS) -> tuple[int, bytes, str]:
    """A tool's status and what it wrote."""
    done = subprocess.run([os.path.join(tool, words[0]), *words[1:]], input=given, capture_output=True, cwd=ROOT,
                          env={**os.environ, 'PYTHONDONTWRITEBYTECODE': '1'}, check=False)
    return done.returncode, done.stdout, done.stderr.decode()


def refused(name: str, status: int, *words: str, given: bytes = b'') -> None:
    """Bad input gets its status and one sentence on standard error, nothing on standard output and no file."""
    with tempfile.TemporaryDirectory() as folder:
        got, out, said = run(*words, '-o', os.path.join(folder, 'out'), given=given)
        wants(name + ', its status', status, got)
        wants(name + ', its output', (b'', []), (out, os.listdir(folder)))
        wants(name + ', its sentence', True, said.startswith(words[0] + ': ') and said.count('\n') == 1 and said.endswith('.\n'))


def module(name: str) -> ModuleType:
    """A tool as a module."""
    loader = importlib.machinery.SourceFileLoader(name, os.path.join(TOOLS, name))
    spec = importlib.util.spec_from_loader(name, loader)
    assert spec is not None
    made = importlib.util.module_from_spec(spec)
    sys.modules[name] = made
    loader.exec_module(made)
    return made


def runs() -> Iterator[tuple[str, dict[str, Any], wire.Run]]:
    """Each recorded run by its name, as it stands and as the tools read it."""
    for path in recorded():
        yield os.path.basename(path), json.loads(text(path)), wire.run_of(path, wire.read_file(path))


def check_wire() -> str:
    """The lines of `show` in Python: on fixtures, and where the program is built on every datagram of the recorded runs."""
    lines, shown = (text(os.path.join(FIXTURES, name)).splitlines() for name in ('datagrams', 'shown'))
    for place, (line, wanted) in enumerate(zip(lines, shown, strict=True), 1):
        wants(f'datagram {place}', wanted, wire.show(bytes.fromhex(line)))
    if not os.access(PROGRAM, os.X_OK):
        return f'{len(lines)} datagrams; not run: the comparison with `normd show`, since the program is not built'
    of_runs = dissector.datagrams_of_runs(recorded())
    of_runs += [octets for octets in dissector.damaged(of_runs) if len(octets) <= MOST_SHOWN]
    given = ''.join(octets.hex() + '\n' for octets in of_runs).encode()
    out = subprocess.run([PROGRAM, 'show'], input=given, capture_output=True, check=False).stdout.decode().splitlines()
    for place, (octets, wanted) in enumerate(zip(of_runs, out, strict=True), 1):
        wants(f'datagram {octets.hex()} of the recorded runs, or damaged', wanted, wire.show(octets))
    return f'{len(lines)} datagrams, and {len(of_runs)} of recorded runs and damaged ones as `normd show` prints them'


def packets(capture: bytes) -> list[tuple[int, int, int, bytes]]:
    """The packets of a capture: moment in microseconds, both ports, and the octets behind the heads of IPv4 and UDP."""
    at, found = 24, []
    while at < len(capture):
        seconds, micros, size = struct.unpack('<III', capture[at:at + 12])
        frame = capture[at + 16:at + 16 + size]
        found.append((seconds * 1_000_000 + micros, *struct.unpack('>HH', frame[20:24]), frame[28:]))
        at += 16 + size
    return found


def wanted_packets(made: dict[str, Any]) -> list[tuple[int, int, int, bytes]]:
    """What a capture of a recorded run has to have."""
    profile, now, found = made['profile'], 0, []
    for event in made['events']:
        if isinstance(event, str):
            continue
        now = event.get('now', now)
        hub, sender = profile['port'], profile['sender']
        if 'offer' in event:
            found.append((now, hub + 1 + event['offer'] - sender, hub, bytes.fromhex(event['bytes'])))
        elif 'took' in event or 'deliver' in event:
            node = event.get('took', event.get('deliver'))
            port = hub + 1 + node - sender if sender <= node <= sender + profile['receivers'] else hub - 1
            found.append((now, hub, port, bytes.fromhex(event['bytes'])))
    return found


def check_pcap() -> str:
    """Captures of recorded runs and of lines, the way back, and bad input."""
    pcap, count = module('pcap'), 0
    for name, made, r in runs():
        wanted = wanted_packets(made)
        wants(f'pcap of {name}', wanted, packets(pcap.capture(list(pcap.packets_of_run(r, False)))))
        count += len(wanted)
    lines = text(os.path.join(FIXTURES, 'datagrams')).encode()
    with tempfile.TemporaryDirectory() as folder:
        capture = os.path.join(folder, 'lines.pcap')
        wants('lines as a capture', 0, run('pcap', os.path.join(FIXTURES, 'datagrams'), '-o', capture)[0])
        wants('lines of a capture', (0, lines, ''), run('pcap', '--lines', capture))
        octets = wire.read_file(capture)
    refused('a capture that is cut', 3, 'pcap', '--lines', '-', given=octets[:-1])
    refused('a capture of other ports', 3, 'pcap', '--lines', '-', '--port', '2000', given=octets)
    refused('no capture', 3, 'pcap', '--lines', '-', given=b'%PDF-1.4 and more than twenty-four octets')
    refused('a run that is cut', 3, 'pcap', '-', given=text(REPAIR).encode()[:3000])
    refused('another JSON', 3, 'pcap', '-', given=b'{"events": []}')
    refused('an event that is none', 3, 'pcap', '-', given=WITH_PROFILE % b'{"offers": 1}')
    refused('a node that is none', 3, 'pcap', '-', given=WITH_PROFILE % b'{"offer": "1", "bytes": ""}')
    refused('a moment that is none', 3, 'pcap', '-', given=WITH_PROFILE % b'{"turn": 1, "now": -1}')
    refused('no hexadecimal', 3, 'pcap', '-', given=b'12080\n')
    refused('no datagram', 3, 'pcap', '-', given=b'\n\n')
    refused('no text', 3, 'pcap', '-', given=b'\xff\xfe')
    refused('no file', 1, 'pcap', os.path.join(FIXTURES, 'none'))
    return f'{count} packets of recorded runs, lines and back, bad input'


# The table of examples/repair.json: both receivers hand up 256 octets, and are listed past its one watermark.
REPAIR_TABLE = '''\
watermark  instance  past   quorum  outcome    2    3
1          7         0.0.3  all     satisfied  yes  yes

receiver  objects  octets  lost  listed past
2         1        256     0     0.0.3 of 7
3         1        256     0     0.0.3 of 7

objects 1 octets 256 handed 2 lost 0 satisfied 1 expired 0 cut 0
whole
'''
# A quorum of one that is met, then a strike: the journal is written by the rules, with its table.
STRUCK = '''\
enq 1 1 7 0 data 1
up 2 7 0 data 1 - 01
mark 1 2 7 1 0 0 0 1
past 2 7 0 0 0
done 1 satisfied
mark 1 3 7 2 0 0 0
strike 1 4 3
done 2 satisfied
no 1 5 last-member 2
end objects 1 octets 1 handed 1 lost 0 satisfied 2 expired 0 cut 0
'''
STRUCK_LINES = '''\
watermark,instance,index,block,symbol,quorum,outcome,receiver,listed
1,7,0,0,0,1,satisfied,2,yes
1,7,0,0,0,1,satisfied,3,no
2,7,0,0,0,all,satisfied,2,yes
2,7,0,0,0,all,satisfied,3,struck
'''


# A run that persists, by the rules: the sender marks by itself, strikes the silent node 3, and names both receivers that lack something.
PERSISTING = '''\
enq 1 1 7 0 data 5
past 2 7 0 0 0
mark 0 1 7 1 0 0 0
done 1 expired 3
strike 0 2 3
enq 1 2 7 1 data 1
mark 0 3 7 2 1 0 0
done 2 expired 2
end objects 2 octets 6 handed 0 lost 0 satisfied 0 expired 2 cut 0
lacks 2 7 0 0 0
lacks 3 7 -
'''
PERSISTING_TABLE = '''\
watermark  instance  past   quorum  outcome  2    3
1          7         0.0.0  all     expired  yes  no
2          7         1.0.0  all     expired  no   struck

receiver  objects  octets  lost  listed past
2         0        0       0     0.0.0 of 7
3         0        0       0     struck

objects 2 octets 6 handed 0 lost 0 satisfied 0 expired 2 cut 0
whole
lacking something: 2, 3
'''


def check_states(name: str, made: dict[str, Any]) -> int:
    """A recorded journal's table says what its `done` lines say: who was left, and that enough were listed."""
    profile, journal = made['profile'], norm_journal.journal_of(name, made['output'], False)
    first = profile['sender'] + 1
    receivers = norm_journal.known(journal, list(range(first, first + profile['receivers'])))
    for mark in journal.marks.values():
        states = {r.node: journal.state(mark, r) for r in receivers}
        left = tuple(node for node, state in states.items() if state in ('no', 'later'))
        listed = sum(state == 'yes' for state in states.values())
        members = sum(state != 'struck' for state in states.values())
        if mark.outcome == 'expired':
            wants(f'{name}, left of watermark {mark.number}', mark.left, left)
        if mark.outcome == 'satisfied':
            wants(f'{name}, watermark {mark.number} has enough', True, listed >= min(mark.quorum or len(receivers), members))
    return len(journal.marks)


def check_journal() -> str:
    """Tables of recorded journals, of one made by hand, and bad input."""
    journals = [(name, made) for name, made, _ in runs() if 'output' in made]
    marks = sum(check_states(name, made) for name, made in journals)
    wants('the table of examples/repair.json', (0, REPAIR_TABLE.encode(), ''), run('journal', 'table', REPAIR))
    wants('quorum and strike', (0, STRUCK_LINES.encode(), ''), run('journal', 'table', '--csv', '--receivers', '2', '-', given=STRUCK.encode()))
    wants('a run that persists', (0, PERSISTING_TABLE.encode(), ''), run('journal', 'table', '-', given=PERSISTING.encode()))
    wants('a run that persists and has spent its turns', 0, run('journal', 'table', '-', given=f'{PERSISTING}turns spent\n'.encode())[0])
    refused('who lacks something before the summary', 3, 'journal', 'table', '-', given=PERSISTING.replace('done 1', 'lacks 2 7 -\ndone 1').encode())
    cut = STRUCK.encode()[:STRUCK.index('done 2')]
    wants('a journal so far', 0, run('journal', 'table', '--so-far', '-', given=cut)[0])
    refused('a journal without its end', 3, 'journal', 'table', '-', given=cut)
    refused('a journal that is cut in a line', 3, 'journal', 'table', '-', given=STRUCK.encode()[:-4])
    refused('a journal that lacks a line', 3, 'journal', 'table', '-', given=STRUCK.replace('up 2 7 0 data 1 - 01\n', '').encode())
    refused('a watermark that ends twice', 3, 'journal', 'table', '-', given=STRUCK.replace('done 2', 'done 1').encode())
    refused('a line behind the end', 3, 'journal', 'table', '-', given=(STRUCK + 'restart 1 1 8\n').encode())
    refused('a text that is no journal', 3, 'journal', 'table', os.path.join(ROOT, 'README.md'))
    refused('a refused session', 3, 'journal', 'table', '-', given=b'refused line 3\n')
    refused('a run without a journal', 3, 'journal', 'table', '-', given=WITH_PROFILE % b'')
    return f'{len(journals)} recorded journals with {marks} watermarks, bad input'


def arrows(made: dict[str, Any]) -> tuple[int, int]:
    """Of a recorded run the pairs of an offer and a member that it was for, and those of them that it never came to."""
    sender, count = made['profile']['sender'], made['profile']['receivers']
    members, offers, came = set(range(sender, sender + count + 1)), {}, set()
    for event in made['events']:
        if isinstance(event, dict) and 'offer' in event:
            offers[event['bytes']] = event['offer']
        elif isinstance(event, dict) and ('took' in event or 'deliver' in event):
            came.add((event['bytes'], event.get('took', event.get('deliver'))))
    pairs = {(octets, node) for octets, source in offers.items() for node in members - {source}}
    return len(pairs), len(pairs - came)


def check_ladder() -> str:
    """Pictures of recorded runs are whole XML, with as many broken arrows as datagrams never came, and bad input."""
    count, broken = 0, 0
    for name, made, r in runs():
        if not any('offer' in event for event in made['events'] if isinstance(event, dict)):
            continue
        drawn = tree.fromstring(norm_ladder.ladder(r, norm_ladder.Part(0, 2**64)))
        lost = sum(e.get('class') == 'lost' for e in drawn.iter()) - 1  # one stands in the legend
        ups = sum(bool(e.get('up')) for e in made['events'] if isinstance(e, dict))
        signs = sum(e.get('class') in ('up', 'drop') for e in drawn.iter()) - 2
        wants(f'broken arrows of {name}', arrows(made)[1], lost)
        wants(f'hand-ups of {name} are marked', bool(ups), bool(signs))
        count, broken = count + 1, broken + lost
    part = run('journal', 'ladder', REPAIR, '--from', '16000', '--to', '16000')
    wants('a part of a run', (0, True, False), (part[0], b'parity' in part[1], b'NACK wants' in part[1]))
    picture = os.path.join(ROOT, 'docs', 'pictures', 'repair.svg')
    wants('the picture in docs/pictures is that of examples/repair.json', wire.read_file(picture), run('journal', 'ladder', REPAIR)[1])
    refused('a run that is cut', 3, 'journal', 'ladder', '-', given=text(REPAIR).encode()[:5000])
    refused('a journal in place of a run', 3, 'journal', 'ladder', '-', given=STRUCK.encode())
    refused('a hand-up of nothing', 3, 'journal', 'ladder', '-', given=WITH_PROFILE % b'{"up": {"object": 1}, "node": 2}')
    refused('nothing in that part', 3, 'journal', 'ladder', REPAIR, '--from', '900000')
    return f'{count} recorded runs, {broken} broken arrows, bad input'


def write_record(made: dict[str, Any], folder: pathlib.Path) -> None:
    """A recorded run as a record: each node notes what it offered, took and handed up, the sender its news, a bit later than others."""
    lines: dict[int, list[str]] = {}
    sender, now = made['profile']['sender'], 0
    for event in (it for it in made['events'] if isinstance(it, dict)):
        now = event.get('now', now)
        at = 5_000_000 + now
        if 'offer' in event:
            lines.setdefault(event['offer'], []).append(f'{at + 3 * (event["offer"] == sender)} offer {event["offer"]} {event["bytes"]}')
        elif 'took' in event or 'deliver' in event:
            node = event.get('took', event.get('deliver'))
            lines.setdefault(node, []).append(f'{at} take {node} {event["bytes"]}')
        elif event.get('up') and 'object' in event['up']:
            up, node = event['up']['object'], event.get('node', event.get('take'))
            lines.setdefault(node, []).append(f'{at} up {node} {made["profile"]["instance"]} {up["index"]} data 256 -')
    for node, noted in lines.items():
        head = '# machine 1 lab1\n# profile ' + ' '.join(f'{key}={made["profile"][key]}' for key in wire.PROFILE) + '\n'
        (folder / f'{node}.record').write_text(head + ''.join(line + '\n' for line in noted) + f'{at + 9} tomorrow 1 2\n')


def check_record() -> str:
    """A record of the run that was made by hand is drawn with its arrows, and its capture has its packets; what is cut or of another machine is said."""
    made = json.loads(text(REPAIR))
    with tempfile.TemporaryDirectory() as place:
        folder = pathlib.Path(place, 'record')
        (folder / 'below').mkdir(parents=True)
        write_record(made, folder)
        (folder / '3.record').rename(folder / 'below' / '3.record')
        status, picture, said = run('journal', 'ladder', str(folder))
        wants('a record is drawn', (0, ''), (status, said))
        drawn = tree.fromstring(picture)
        wants('broken arrows of a record', arrows(made)[1], sum(e.get('class') == 'lost' for e in drawn.iter()) - 1)
        wants('no datagram that nobody offered', 0, sum(e.get('class') == 'alien' for e in drawn.iter()))
        wants('hand-ups of a record', 2, sum(e.get('class') == 'up' for e in drawn.iter()) - 1)
        status, capture, said = run('pcap', str(folder))
        wanted = sorted((source, target, octets) for _, source, target, octets in wanted_packets(made))
        wants('a capture of a record', (0, '', wanted), (status, said, sorted(packet[1:] for packet in packets(capture))))
        cut = folder / '2.record'
        cut.write_text(cut.read_text()[:-20])
        other = folder / 'below' / '3.record'
        other.write_text(other.read_text().replace('machine 1 lab1', 'machine 2 lab2'))
        status, picture, said = run('journal', 'ladder', str(folder))
        wants('a record that is cut, and of two machines', (0, [True, True, True]), (status, [bool(picture), f'{cut} is cut or damaged in line' in said,
              f'the clocks of 2 machines, and only that of lab1 is drawn: {other} left out.' in said]))
        refused('a folder without a record', 3, 'journal', 'ladder', os.path.join(ROOT, 'man'))
        hello = os.path.join(ROOT, 'examples', 'hello.norm')
        wants('a record into a folder that is there', (3, b'', f'journal: {folder} is there already.\n'),
              run('journal', 'record', hello, '-o', str(folder), '--program', '/bin/true'))
        none = pathlib.Path(place, 'none')
        wants('a program that records nothing', 3, run('journal', 'record', hello, '-o', str(none), '--program', '/bin/true')[0])
        wants('nothing is left of a record of nothing', False, none.exists())
    said_once: list[str] = []
    recorder = norm_record.Recorder(pathlib.Path(place), 2, {}, said_once.append)
    wants('lines of a record that cannot be written', [True, True, False], [recorder.is_noted(it) for it in (b'1 offer 2 00\n', b'2 offer 2 00\n', b'nothing came\n')])
    wants('a record that cannot be written is said once', [f'{place}/2.record cannot be written: No such file or directory. The record ends here.'], said_once)
    return 'a record drawn and as a capture, bad input'


def unquantised(code: int) -> float:
    """The round trip time in seconds that a message's code says, by RFC 5401."""
    return (code + 1) * 1e-6 if code <= 31 else 1000.0 / math.exp((255 - code) / 13.0)


def check_turns(name: str, asked: Any, keys: dict[str, int], new: int) -> None:
    """The moments of a script's turns are a gap apart, and there are enough of them for all symbols and a flush; over sockets the clock gives the moments, and there are as many turns as can be."""
    if asked.sockets:
        wants(f'{name} is for sockets', ('udp', 0, 4_000_000), (words_of('fabric')[keys['fabric']], keys['step'], keys['turns']))
        wants(f'{name} waits a round trip and four turns', True, keys['grtt'] >= asked.rtt + 4 * max(keys['gap'], 1000))
        return
    wants(f'{name} is for a network in memory', False, 'fabric' in keys)
    wants(f'{name} waits a round trip and two turns', True, keys['grtt'] >= asked.rtt + 2 * keys['step'] and keys['step'] == keys['gap'])
    least = asked.objects + 1 + new + -(-2 * keys['grtt'] // keys['step']) + 2 + 2
    wants(f'{name} has turns for all symbols and a flush', True, keys['turns'] >= least)


def words_of(name: str) -> tuple[str, ...]:
    """The words of a key."""
    return next(key.words for key in norm_keys.keys() if key.name == name)


def check_profile_row(profile: ModuleType, row: tuple[int, int, int, float, int], sockets: bool) -> None:
    """A profile meets the table of keys and what was asked."""
    size, receivers, rate, loss, rtt = row
    asked = profile.Asked(size, -(-size // profile.MOST_OBJECT), receivers, rate, loss, rtt, sockets)
    keys, name = profile.choose(asked).keys, f'the {"document" if sockets else "script"} of {row}'
    wants(f'{name} is one', None, norm_keys.fault_of(keys))
    wants(f'{name} keeps to the rate', True, keys['gap'] == 1 or (keys['e'] + 60) * 8e6 / keys['gap'] <= rate)
    short = sum(math.comb(keys['max_n'], n) * (1 - loss) ** n * loss ** (keys['max_n'] - n) for n in range(keys['b']))
    wants(f'{name} has parity for all receivers', True, (1 - short) ** receivers >= 0.98)
    wants(f'{name} has no more auto than parity', True, keys['auto'] <= keys['max_n'] - keys['b'])
    said = unquantised(keys['grtt_code']) * 1e6
    wants(f'{name} has rounds as long as a block', True, (keys['k'] + 1) * keys['grtt'] >= keys['b'] * keys['gap'])
    wants(f'{name} says its round trip time', True, keys['grtt'] <= said * 1.001 <= keys['grtt'] * 1.09)
    symbols = -(-asked.object_octets() // keys['e'])
    check_turns(name, asked, keys, asked.objects * (symbols + -(-symbols // keys['b']) * keys['auto']))


def check_document(words: list[str], script: bytes) -> None:
    """A document is a profile of nodes over sockets, and says what the script says, except for the network and what waits go by."""
    with tempfile.TemporaryDirectory() as folder:
        path = os.path.join(folder, 'profile.toml')
        wants('a document is written', (0, b'', ''), run('profile', *words, '--toml', '-o', path))
        session, document = norm_nodes.session_of(path), tomllib.loads(text(path))
    wants('a document has three receivers and all turns', (3, 4_000_000), (session.receivers, session.turns))
    wants('a document is for sockets', ('udp', 0, 255), (document['fabric'], document['step'], document['max_n']))
    set_keys = dict(line.split(' ')[1:] for line in script.decode().splitlines() if not line.startswith('#'))
    others = {'fabric', 'step', 'turns', 'grtt', 'grtt_code', 'b', 'max_n', 'auto', 'window', 'octets'}
    wants('both forms have the same keys', set_keys.keys() | {'fabric'}, document.keys())
    wants('both forms say the same of the rest', {key: int(value) for key, value in set_keys.items() if key not in others},
          {key: value for key, value in document.items() if key not in others})


# Octets of a file, then e, b, max_n and auto, and the datagrams that a sender sends unasked: an info, the symbols, and parity of each block. Worked out by RFC 5052.
UNASKED = [(1, 64, 4, 6, 0, 2), (257, 64, 4, 6, 0, 6), (257, 64, 4, 6, 1, 8), (257, 64, 4, 6, 255, 8), (16_777_216, 1400, 200, 255, 255, 1 + 11_984 + 44 * 55 + 16 * 54)]


def check_unasked() -> None:
    """How many datagrams a file needs, by which `send` refuses what the turns are too few for."""
    given = {key: value for key, value in norm_keys.defaults().items() if key in norm_nodes.Session.__dataclass_fields__}
    for octets, e, b, max_n, auto, datagrams in UNASKED:
        session = norm_nodes.Session(**{**given, 'e': e, 'b': b, 'max_n': max_n, 'auto': auto, 'mode': 'hold'})
        wants(f'datagrams of {octets} octets by {e}, {b}, {max_n}, {auto}', datagrams, session.unasked(octets))


# Transfers for which a document is made, some of them odd.
DOCUMENTS = (['--rate', '100M', '--receivers', '12'], ['--rate', '20k', '--receivers', '16', '--loss', '30'], ['--rate', '1G', '--loss', '2', '--rtt', '400'],
             ['--rate', '10M', '--size', '100'], ['--rate', '1200', '--loss', '5'])


def check_documents() -> None:
    """A document does for whatever is sent: neither a small file nor many are refused, and nothing is amiss with its blocks."""
    send = module('send')
    with tempfile.TemporaryDirectory() as folder:
        place = pathlib.Path(folder)
        for number in range(2000):
            (place / f'{number}.txt').write_bytes(b'x')
        for words in DOCUMENTS:
            path = place / 'profile.toml'
            wants(f'a document of {words}', 0, run('profile', *words, '--toml', '-o', str(path))[0])
            session = norm_nodes.session_of(str(path))
            wants(f'the warning of {words}', None, session.warning())
            for files in ({'one': place / '1.txt'}, {it.name: it for it in place.glob('*.txt')}):
                wants(f'the pieces of {words}', 1, send.planned(files, session).pieces())


# What `ping` prints, and what it does of a machine that is silent.
PING = """#!/bin/sh
for word; do host=$word; done
[ "$host" = 127.0.0.9 ] && { echo "20 packets transmitted, 0 received"; exit 1; }
echo "64 bytes from $host: icmp_seq=1 ttl=64 time=0.034 ms"
echo "64 bytes from $host: icmp_seq=2 ttl=64 time=31.5 ms"
"""


def check_ping() -> None:
    """Round trips by the command, if a socket of ICMP is not allowed: the greatest counts, from 20 milliseconds on."""
    ping = importlib.import_module('norm_ping')
    with tempfile.TemporaryDirectory() as folder:
        command, before = pathlib.Path(folder, 'ping'), os.environ['PATH']
        command.write_text(PING)
        command.chmod(0o755)
        os.environ['PATH'] = f'{folder}:{before}'
        wants('round trips by the command', [34, 31_500], ping.by_command('127.0.0.1'))
        wants('none of a silent machine', [], ping.by_command('127.0.0.9'))
        os.environ['PATH'] = before
    profile = module('profile')
    for rtt, wanted in ((34, 20_000), (31_500, 35_500)):
        asked = profile.Asked(1, 1, 2, 100_000_000, 0.0, rtt, True, ' to lab2, the greatest of 20 to each machine')
        wants(f'a round trip of {rtt}', wanted, profile.choose(asked).keys['grtt'])
    refused('a machine that is unknown', 1, 'profile', '--toml', '--rate', '1M', '--ping', 'no.such.machine.invalid')


def check_profile() -> str:
    """Profiles of both forms over many transfers, both forms of one, and what no profile meets."""
    profile, count = module('profile'), 0
    sizes, rates, losses = (1, 64, 1401, 65_537, 9_000_000, 40_000_000), (10_000, 1_000_000, 50_000_000), (0.0, 0.001, 0.05, 0.4)
    for size, receivers, rate, loss, rtt in itertools.product(sizes, (1, 7, 16), rates, losses, (0, 200_000)):
        for sockets in (False, True):
            check_profile_row(profile, (size, receivers, rate, loss, rtt), sockets)
        count += 1
    asked = ['--size', '1M', '--rate', '10M', '--loss', '2', '--receivers', '3']
    script = run('profile', *asked)
    lines = [line for line in script[1].decode().splitlines() if not line.startswith('#')]
    wants('a profile is made of set lines', True, bool(lines) and all(re.fullmatch(r'set \w+ \d+', line) for line in lines))
    check_document(asked, script[1])
    check_documents()
    check_ping()
    check_unasked()
    refused('more turns than a run has', 3, 'profile', '--size', '1G', '--rate', '1G', '--loss', '90', '--receivers', '16')
    refused('a rate that no gap meets', 3, 'profile', '--size', '1M', '--rate', '900')
    refused('more objects than a script has', 3, 'profile', '--size', '1M', '--rate', '1M', '--objects', '5k')
    for name, words in (('no size', ['--rate', '1M']), ('both a round trip and machines', ['--toml', '--rate', '1M', '--rtt', '1', '--ping', 'a']), ('a size of nothing', ['--size', '0', '--rate', '1M']),
                        ('17 receivers', ['--size', '1', '--rate', '1M', '--receivers', '17']),
                        ('a loss of all', ['--size', '1', '--rate', '1M', '--loss', '91'])):
        wants(f'{name}, its status', 2, run('profile', *words)[0])
    return f'{count} transfers, both forms, bad input'


def plain(page: str) -> str:
    """A manual page's source without its fonts and its spaces that do not break."""
    return re.sub(r'\\f[A-Z]|(?m:^\.(?:B|I|BR|IB|BI) )|"', '', page.replace('\\~', ' ').replace('\\-', '-'))


def check_commands(docs: str, page: str) -> None:
    """norm-script(5) has each command of docs/scripts.md."""
    entries = {' '.join(head.split()) for head in re.findall(r'(?m)^\.TP\n(.+)\n[^.\n]', page)}
    for command in re.findall(r'(?m)^\| `(P [a-z][^`]*)` \| [^|]*\|$', docs):
        wants(f'norm-script(5) has `{command}`', True, command in entries)


def check_manual() -> str:
    """The manual says what the table of keys, docs/scripts.md and docs/turns.md say, and each tool tells how it is called."""
    wants('the keys of norm-script(5)', (0, b'', ''), run('keys', '--check', tool=os.path.join(ROOT, 'man')))
    docs, turns, program, script = (plain(text(os.path.join(ROOT, *path))) for path in
                                    (('docs', 'scripts.md'), ('docs', 'turns.md'), ('man', 'normd.1'), ('man', 'norm-script.5')))
    check_commands(docs, script)
    for status in sorted(set(re.findall(r'(?m)^\| (\d+) \| ', docs))):
        wants(f'normd(1) has status {status}', True, f'\n.TP\n{status}\n' in program)
    for line in re.findall(r'`((?:info|data|flush|eot|adv|ackreq|opaque|nack|ack|report) SRC [^`]*)`', turns):
        wants(f'normd(1) has the line {line}', True, f'\n{line}\n' in program)
    for tool in ('pcap', 'journal', 'profile'):
        wants(f'{tool} --help', 0, run(tool, '--help')[0])
        wants(f'tools/README.md shows {tool}', True, f'$ tools/{tool} ' in text(os.path.join(TOOLS, 'README.md')))
    return f'{len(norm_keys.keys())} keys, the tools\' own help'


PARTS = {'wire': check_wire, 'pcap': check_pcap, 'journal': check_journal, 'ladder': check_ladder, 'record': check_record, 'profile': check_profile,
         'manual': check_manual}


def main() -> int:
    for part in sys.argv[1:] or PARTS:
        before = len(failures)
        says = PARTS[part]()
        if len(failures) == before:
            print(f'tools: {part}: {says}')
    for failure in failures[:20]:
        print(f'tools: {failure}')
    return 1 if failures else 0


if __name__ == '__main__':
    sys.exit(main())
