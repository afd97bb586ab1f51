#!/usr/bin/env python3
"""tools/send, tools/receive and examples/cast with a stand-in for the program (standin) that prints lines written by hand: what they say at the end, as they are
interrupted or killed, and of what they are refused. No program is needed.

sending.py [PART ..]"""
from __future__ import annotations

import csv
import os
import pty
import re
import signal
import subprocess
import sys
import tempfile
import time
from collections.abc import Callable
from pathlib import Path

sys.dont_write_bytecode = True
HERE = Path(__file__).resolve().parent
TOOLS, STANDIN = HERE.parents[1] / 'tools', HERE / 'standin'
SECONDS, FAILED, REFUSED, NOT_ALL = 30, 1, 3, 4
PROFILE = {'fabric': '"udp"', 'receivers': 3, 'step': 0, 'grtt': 20000, 'gap': 60, 'octets': 16000}
# Pieces of 1,000 octets: the first file has two and a half, and the next ends with the third piece.
FILES = {'a': b'a' * 2500, 'b': b'b' * 500, 'c': b'c' * 10, 'empty': b''}
ACCEPTED = 'say enq 1 1 7 0 file 300\nsay enq 1 2 7 1 file 1000\nsay enq 1 3 7 2 file 1000\nsay enq 1 4 7 3 file 1000\nsay enq 1 5 7 4 file 10\nsay mark 1 6 7 1 4 0 0\n'
# Node 2 confirms everything, node 3 the manifest and two pieces, node 4 nothing.
TWO_LACK = f'{ACCEPTED}say past 2 7 1 0 0\nsay past 3 7 2 0 0\nsay past 2 7 4 0 0\nsay news of a kind that comes later\n'
END = 'end objects 5 octets 3310 handed 0 lost 0'
TABLE = '''\
node  machine  state       confirmed      first file that it lacks
2     lab2     everything  3,010
3     -        not all     2,000          a (and 2 more)
4     lab4     not all     0              a (and 3 more)
4 files, 3,010 octets: 1 of 3 receivers confirmed them
'''
REPORT = [['node', 'machine', 'state', 'confirmed', 'octets', 'files_lacking', 'first_lacking'], ['2', 'lab2', 'everything', '3010', '3010', '0', ''],
          ['3', '', 'not all', '2000', '3010', '3', 'a'], ['4', 'lab4', 'not all', '0', '3010', '4', 'a']]


class Unmet(Exception):
    """What does not hold."""


def holds(is_so: bool, what: str) -> None:
    if not is_so:
        raise Unmet(what)


class Place:
    """A folder with a profile, files, and what the stand-in does."""

    def __init__(self, folder: Path):
        self.folder, self.environment = folder, {**os.environ, 'STANDIN': str(folder / 'does'), 'TMPDIR': str(folder / 'temporary'), 'PYTHONDONTWRITEBYTECODE': '1'}
        for name in ('does', 'temporary', 'photos', 'saved'):
            (folder / name).mkdir()
        for name, octets in FILES.items():
            (folder / 'photos' / name).write_bytes(octets)
        self.profile()
        (folder / 'names').write_text('# machines\n2 lab2\n\n4 lab4\n')

    def profile(self, **keys: object) -> None:
        (self.folder / 'p.toml').write_text(''.join(f'{key} = {value}\n' for key, value in {**PROFILE, **keys}.items()))

    def does(self, command: str, lines: str) -> None:
        (self.folder / 'does' / command).write_text(lines)

    def words(self, tool: str, *words: object) -> list[str]:
        return [sys.executable, str(TOOLS / tool), *map(str, words), '--program', str(STANDIN)]

    def start(self, tool: str, *words: object) -> subprocess.Popen:
        return subprocess.Popen(self.words(tool, *words), cwd=self.folder, env=self.environment, stdin=subprocess.DEVNULL, stdout=subprocess.PIPE,
                                stderr=subprocess.PIPE, text=True)

    def run(self, tool: str, *words: object, given: bytes = b'') -> tuple[int, bytes, str]:
        done = subprocess.run(self.words(tool, *words), cwd=self.folder, env=self.environment, input=given, capture_output=True, timeout=SECONDS)
        return done.returncode, done.stdout, done.stderr.decode()

    def left(self) -> list[str]:
        """What the tools left in the folder for such things."""
        return os.listdir(self.folder / 'temporary')

    def report(self) -> list[list[str]]:
        with open(self.folder / 'r.csv', newline='') as file:
            return list(csv.reader(file))


def children(pid: int) -> list[int]:
    return [int(it) for it in Path(f'/proc/{pid}/task/{pid}/children').read_text().split()]


def until(is_so: Callable[[], bool], what: str) -> None:
    end = time.monotonic() + SECONDS
    while not is_so():
        holds(time.monotonic() < end, what)
        time.sleep(0.02)


def is_gone(pid: int) -> bool:
    """Whether a process is no more, or is only waited for."""
    try:
        return Path(f'/proc/{pid}/stat').read_text().rpartition(')')[2].split()[0] == 'Z'
    except OSError:
        return True


def tables(place: Place) -> str:
    """Who lacks what, for people and programs; with a watermark that expired, and all has come since."""
    place.does('send', f'{TWO_LACK}say done 1 expired 3 4\nsay {END} satisfied 0 expired 1 cut 0\n')
    status, out, said = place.run('send', 'photos', 'p.toml', '--names', 'names', '--report', 'r.csv')
    holds((status, out.decode()) == (NOT_ALL, TABLE), f'two that lack something: {status}\n{out.decode()}')
    holds(said.strip() == 'send: not everyone has everything: node 3, node 4 (lab4) did not confirm it.', f'both are named: {said}')
    holds(place.report() == REPORT, f'the report is {place.report()}')
    place.does('send', f'{TWO_LACK}say done 1 expired 3 4\nsay past 3 7 4 0 0\nsay past 4 7 4 0 0\nsay {END} satisfied 0 expired 1 cut 0\n')
    status, out, said = place.run('send', 'photos', 'p.toml')
    holds((status, said) == (0, ''), f'all confirmed after a watermark expired: {status} {said}')
    holds(out.decode().splitlines()[-1] == '4 files, 3,010 octets: 3 of 3 receivers confirmed them', f'the last line: {out.decode()}')
    place.does('send', 'say enq 1 1 7 0 file 300\nsay fault fabric\nend 6\n')
    status, out, said = place.run('send', 'photos', 'p.toml')
    holds(status == NOT_ALL and said.endswith('node 2, node 3, node 4 did not confirm it; the sender ended with status 6.\n'), f'a sender that ends: {status} {said}')
    holds(not place.left(), f'the tool left {place.left()}')
    return 'who confirmed what, as a table and a report'


def interrupted(place: Place) -> str:
    """A signal ends the node, one line says what was reached, and the report is there."""
    place.does('send', f'{TWO_LACK}read\nwait 0.2\nnote\nwait 60\n')
    for number in (signal.SIGINT, signal.SIGTERM):
        for name in ('r.csv', 'does/words'):
            (place.folder / name).unlink(missing_ok=True)
        tool = place.start('send', 'photos', 'p.toml', '--names', 'names', '--report', 'r.csv')
        until((place.folder / 'does/words').exists, 'the tool took in what the node printed')
        node = children(tool.pid)[0]
        tool.send_signal(number)
        out, said = tool.communicate(timeout=SECONDS)
        wanted = f'send: ended by {number.name}: 4 files, 3,010 octets: 1 of 3 receivers confirmed them, and node 4 (lab4) has 0\n'
        holds((tool.returncode, out, said) == (128 + number, '', wanted), f'{number.name}: {tool.returncode} {out} {said}')
        holds(is_gone(node) and not place.left() and place.report() == REPORT, f'{number.name}: the node is gone, and the report is there')
    place.does('recv', 'wait 60\n')
    tool = place.start('receive', 'p.toml', 2, 'in')
    until(lambda: bool(children(tool.pid)), 'a receiver runs')
    tool.send_signal(signal.SIGINT)
    out, said = tool.communicate(timeout=SECONDS)
    holds((tool.returncode, out, said) == (130, '', 'receive: ended by SIGINT: nothing came\n'), f'receive: {tool.returncode} {out} {said}')
    holds(os.listdir(place.folder / 'in') == [], 'nothing is left of a receiver that was ended')
    return 'a tool that a signal ends says what was reached, in one line'


def at_a_terminal(place: Place) -> str:
    """Ctrl-C at a terminal: the line of progress does not stand in the way of what the node and the tool say."""
    place.does('send', f'{TWO_LACK}say past 3 7 4 0 0\nsay past 4 7 2 0 0\nwait 1.5\ntell a word of the node\nwait 60\n')
    pid, terminal = pty.fork()
    if pid == 0:
        os.chdir(place.folder)
        words = place.words('send', 'photos', 'p.toml')
        os.execvpe(words[0], words, place.environment)
    said = b''
    try:
        while b'of the node' not in said:
            said += os.read(terminal, 4096)
        os.write(terminal, b'\x03')
        while part := os.read(terminal, 4096):
            said += part
    except OSError:
        pass  # the terminal is closed as its last process ends
    status = os.waitstatus_to_exitcode(os.waitpid(pid, 0)[1])
    os.close(terminal)
    holds(status == 128 + signal.SIGINT, f'Ctrl-C: {status} {said}')
    holds(b'everybody confirmed 66 in 100' in said, f'a third is left: {said}')
    holds(b'\r\033[Ka word of the node' in said and b'Traceback' not in said, f'the line of progress is wiped: {said}')
    holds(said.count(b'send: ended by SIGINT: ') == 1, f'one line says what was reached: {said}')
    return 'Ctrl-C at a terminal'


def killed(place: Place) -> str:
    """A tool that is killed takes its node along, and the next receiver starts all the same; not while one lives."""
    place.does('recv', 'wait 60\n')
    tool = place.start('receive', 'p.toml', 2, 'in')
    until(lambda: bool(children(tool.pid)), 'a receiver runs')
    status, _, said = place.run('receive', 'p.toml', 2, 'in')
    holds((status, said) == (REFUSED, 'receive: receiver 2 runs already in in.\n'), f'a second receiver: {status} {said}')
    node = children(tool.pid)[0]
    (place.folder / 'in' / '.normd-2' / 'file0').write_bytes(b'half of it')
    holds(not is_gone(node), 'the node lives')
    tool.kill()
    tool.communicate(timeout=SECONDS)
    until(lambda: is_gone(node), 'a tool that was killed takes its node along')
    place.does('send', 'save ../../saved\nwait 0\n')
    place.run('send', 'photos', 'p.toml')
    place.does('recv', f'hand {place.folder}/saved 2\nwait 60\n')
    status, out, said = place.run('receive', 'p.toml', 2, 'in', '--linger', 0)
    holds((status, out) == (0, b'4 files, 3,010 octets: they are in in\n'), f'the next receiver: {status} {out} {said}')
    holds(said.startswith('receive: a receiver 2 was killed in in; what it left unfinished is removed\n'), f'it says what it removes: {said}')
    holds({it.name: it.read_bytes() for it in (place.folder / 'in').iterdir()} == FILES, 'the files are what was sent')
    return 'a tool that is killed takes its node along, and the next one starts'


def paced(place: Place) -> str:
    """--rate: the sender goes by a copy of the profile with another gap, and the last line says what was reached."""
    confirmed = ''.join(f'say past {node} 7 4 0 0\n' for node in (2, 3, 4))
    place.does('send', f'note\n{ACCEPTED}wait 0.5\n{confirmed}')
    status, out, said = place.run('send', 'photos', 'p.toml', '--rate', '40M')
    words, *profile, names = (place.folder / 'does/words').read_text().split('\n')
    # A symbol of 1,024 octets has 60 octets of headers: 8,672 bits, 216.8 microseconds at 40 Mbit/s.
    holds(profile == [f'{key} = {value}' for key, value in {**PROFILE, 'gap': 217}.items()] + [''], f'the copy of the profile is {profile}')
    holds(words.startswith(f'send {place.folder}/temporary/normd-send-') and names == 'lock manifest p0 p1 p2 p3 profile.toml script', f'{words}\n{names}')
    # Five objects with an info and a symbol each are 86,720 bits, in half a second and what the tools take.
    reached = re.fullmatch(r'4 files, 3,010 octets: 3 of 3 receivers confirmed them, at (0\.[0-2]) of 40\.0 Mbit/s', out.decode().splitlines()[-1])
    holds(status == 0 and bool(reached), f'the last line: {out.decode()} {said}')
    status, _, said = place.run('send', 'photos', 'p.toml', '--rate', '8k')
    holds(status == REFUSED and 'takes 1,084,000 microseconds, and the greatest gap is 1,000,000' in said, f'a rate below every gap: {status} {said}')
    return 'a sender at a rate of its own'


def pipes(place: Place) -> str:
    """Standard input goes as one file, and comes out at standard output."""
    confirmed = ''.join(f'say past {node} 7 3 0 0\n' for node in (2, 3, 4))
    place.does('send', f'save {place.folder}/saved\nsay enq 1 1 7 0 file 100\n{confirmed}')
    octets = bytes(range(256)) * 10
    status, out, said = place.run('send', '-', 'p.toml', '--name', 'photos.tar', given=octets)
    holds((status, said) == (0, '') and out.endswith(b'1 file, 2,560 octets: 3 of 3 receivers confirmed them\n'), f'standard input: {status} {out} {said}')
    place.does('recv', f'hand {place.folder}/saved 2\nwait 60\n')
    status, out, said = place.run('receive', 'p.toml', 2, '--output', '-', '--linger', 0)
    holds((status, out) == (0, octets) and said.endswith('1 file, 2,560 octets: they went to standard output\n'), f'standard output: {status} {said}')
    holds(place.run('receive', 'p.toml', 2, 'in', '--linger', 0)[0] == 0 and (place.folder / 'in/photos.tar').read_bytes() == octets, 'the name that was given')
    status, _, said = place.run('send', '-', 'p.toml', '--name', '../x', given=octets)
    holds((status, said) == (REFUSED, "send: '../x' is no path below a folder.\n"), f'a name out of the folder: {status} {said}')
    place.does('send', f'save {place.folder}/saved\n')
    place.run('send', 'photos', 'p.toml')
    status, out, said = place.run('receive', 'p.toml', 2, '--output', '-', '--linger', 0)
    holds((status, out) == (REFUSED, b'') and said.endswith('receive: 4 files are sent, and one can be written to standard output.\n'), f'four files: {said}')
    holds(not place.left(), f'the tools left {place.left()}')
    return 'standard input to standard output'


def records(place: Place) -> str:
    """--record keeps what the node notes, and not what it says."""
    place.does('send', f'tell 17 offer 1 12\ntell 18 enq 1 1 7 0 file 300\n{TWO_LACK}tell nothing came\ntell 19 past 2 7 1 0 0\n')
    status, _, said = place.run('send', 'photos', 'p.toml', '--record', 'kept')
    lines = (place.folder / 'kept/1.record').read_text().splitlines()
    holds(lines[0].startswith('# machine ') and lines[1] == '# profile sender=1 receivers=3 port=40000 first=0 step=0 gap=60', f'the head: {lines[:2]}')
    holds(lines[2:] == ['17 offer 1 12', '18 enq 1 1 7 0 file 300', '19 past 2 7 1 0 0'], f'the lines: {lines[2:]}')
    holds(status == NOT_ALL and said.splitlines()[0] == 'nothing came' and len(said.splitlines()) == 2, f'what the node says: {said}')
    place.does('recv', 'tell 5 take 3 12\nend 1\n')
    status, _, said = place.run('receive', 'p.toml', 3, 'in', '--record', 'kept3')
    holds((place.folder / 'kept3/3.record').read_text().splitlines()[2:] == ['5 take 3 12'], 'the lines of a receiver')
    for words in (('send', 'photos', 'p.toml', '--record', 'kept'), ('receive', 'p.toml', 3, 'in', '--record', 'kept')):
        status, _, said = place.run(*words)
        holds((status, said) == (REFUSED, f'{words[0]}: kept is there already.\n'), f'a record into a folder that is there: {status} {said}')
    return 'what nodes record'


def cast(place: Place) -> str:
    """examples/cast: a receiver without a whole copy has dashes, and Ctrl-C ends it in one line."""
    place.does('send', 'wait 0.3\nsay done 1 expired 2 3\n')
    place.does('recv', 'wait 60\n')
    status, out, said = place.run('../examples/cast', 'photos/a', 2)
    rows = [it.split() for it in out.decode().splitlines()]
    holds((status, said) == (1, 'cast: watermarks that were not confirmed: 1 expired 2 3\n'), f'cast: {status} {said}')
    holds(rows[1:] == [['2', '-', '-', '0', 'of', '1', 'pieces'], ['3', '-', '-', '0', 'of', '1', 'pieces']], f'no copies: {rows}')
    place.does('send', 'tell 7 offer 1 12\ntell a word\nsay done 1 satisfied\n')
    place.does('recv', 'tell 9 take 2 12\nwait 60\n')
    place.run('../examples/cast', 'photos/a', 1, '--record', 'kept', '--keep', 'copies')
    lines = {it.name: it.read_text().splitlines()[1:] for it in (place.folder / 'kept').iterdir()}
    head = '# profile sender=1 receivers=1 port=20000 first=0 step=0 gap=5'
    holds(lines == {'1.record': [head, '7 offer 1 12'], '2.record': [head, '9 take 2 12']}, f'the record of cast: {lines}')
    holds((place.folder / 'copies/sender.log').read_text() == 'a word\n', 'what a node says is no record')
    place.does('send', 'wait 60\n')
    place.does('recv', 'wait 60\n')
    tool = place.start('../examples/cast', 'photos/a', 2)
    until(lambda: len(children(tool.pid)) == 3, 'three nodes run')
    nodes = children(tool.pid)
    tool.send_signal(signal.SIGINT)
    out, said = tool.communicate(timeout=SECONDS)
    holds((tool.returncode, said) == (130, 'cast: ended by SIGINT: 0 of 1 watermarks were told of\n'), f'cast: {tool.returncode} {said}')
    holds(all(map(is_gone, nodes)) and not place.left(), f'cast left {place.left()}')
    status, _, said = place.run('../examples/cast', 'photos/a', 2, '--keep', 'names/kept')
    holds((status, said) == (3, 'cast: names/kept cannot be read or written: Not a directory\n'), f'a folder that cannot be made: {said}')
    return 'examples/cast without a copy, and as it is interrupted'


def refusals(place: Place) -> str:
    """What is refused is said in a sentence, with the place that a user knows."""
    place.does('send', f'{TWO_LACK}')
    place.does('recv', 'wait 60\n')
    (place.folder / 'file').write_bytes(b'')
    (place.folder / 'bad').write_text('2 lab2\n7 lab7\n')
    rows = [(('send', 'none', 'p.toml'), FAILED, 'send: none cannot be read or written: No such file or directory.\n'),
            (('send', 'photos', 'none.toml'), FAILED, 'send: none.toml cannot be read: No such file or directory.\n'),
            (('send', 'file', 'p.toml'), REFUSED, 'send: there is no octet to send.\n'),
            (('send', 'photos', 'p.toml', '--names', 'bad'), REFUSED, 'send: bad: line 2: 7 is no receiver of the profile.\n'),
            (('send', 'photos', 'p.toml', '--report', 'none/r.csv'), NOT_ALL, 'send: none/r.csv cannot be written: No such file or directory.\n'),
            (('receive', 'p.toml', 2, 'file'), FAILED, 'receive: file cannot be read or written: Not a directory.\n')]
    for words, status, sentence in rows:
        got, _, said = place.run(*words)
        holds(got == status and said.startswith(sentence), f'{words}: {got} {said}')
    place.profile(b=120, gap=1000, k=1)
    blocks = 'a block of 120 symbols takes 120,000 microseconds to send, and a receiver asks again after 80,000 at most'
    for words in (('send', 'file', 'p.toml'), ('receive', 'p.toml', 2, 'file')):
        holds(blocks in (said := place.run(*words)[2]) and 'a grtt of 60,000 or more' in said, f'{words[0]} warns of long blocks: {said}')
    place.profile(b=80, gap=1000, k=1)
    holds('a block' not in (said := place.run('send', 'file', 'p.toml')[2]), f'no warning of blocks as long as that: {said}')
    return f'{len(rows)} refusals'


PARTS = (tables, interrupted, at_a_terminal, killed, paced, pipes, records, cast, refusals)


def main() -> int:
    # A shell starts what runs in the background with this signal ignored, and the tools would inherit that.
    signal.signal(signal.SIGINT, signal.default_int_handler)
    failed, asked = 0, sys.argv[1:]
    for part in PARTS:
        with tempfile.TemporaryDirectory(prefix='sending-') as folder:
            try:
                if not asked or part.__name__ in asked:
                    print(f'tools: sending: {part(Place(Path(folder)))}')
            except Unmet as unmet:
                failed += 1
                print(f'tools: sending: {part.__name__} DOES NOT HOLD: {unmet}')
    return 1 if failed else 0


if __name__ == '__main__':
    sys.exit(main())
