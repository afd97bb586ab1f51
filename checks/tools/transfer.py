#!/usr/bin/env python3
"""tools/send, tools/receive and tools/bridge with the built program: a folder goes to two receivers over sockets of this machine, as a group too,
and where network namespaces can be made, to receivers on other machines, in a group, and behind bridges beside others that listen to the hub; what
starts a thread; and what is refused. examples/cast with a file that goes in pieces, to a group and through a hub.

transfer.py [--program NORMD] [--port PORT] [--machines N] [--gap MICROSECONDS] [--group]

With --group only the group on other machines is tried. --machines are those beside the sender's, at most 14 in a group and 16 behind bridges, beside
which eight receivers listen, or as many as there are left of sixteen. The bridges are programs in Python, so with many machines on one --gap wants to
be larger (400 for sixteen). What a receiver's folder has to hold is what was put into the sender's.
Says which part did not run, and why."""
from __future__ import annotations

import argparse
import os
import random
import shutil
import signal
import subprocess
import sys
import tempfile
import time
from pathlib import Path

sys.dont_write_bytecode = True
ROOT = Path(__file__).resolve().parents[2]
sys.path[:0] = [str(ROOT / 'checks')]
from subnet import NoSubnet, Subnet, ip  # noqa: E402

TOOLS = ROOT / 'tools'
SECONDS, REFUSED, TAKEN, NOT_ALL = 60, 2, 3, 4
# Below the ports that the system gives out itself, and apart from those of other checks. A bridge's lie a hundred above its member's.
LOWEST, PORTS, PROCESSES = 16400, 128, 28
LOOPBACK_GROUP = '127.255.255.255'
# The most receivers, and how many of them listen to the hub beside those behind bridges.
MOST_RECEIVERS, LISTENING = 16, 8
# The fewest processors with which a thread sends.
LEAST_PROCESSORS = 4
# How long a machine is away at a time, and the round trip with which no watermark expires meanwhile: that takes forty of them without an answer.
AWAY, GRTT_OF_AWAY = 3, 200_000


class Unmet(Exception):
    """What does not hold."""


def holds(is_so: bool, what: str) -> None:
    if not is_so:
        raise Unmet(what)


class Nodes:
    """A profile, and the processes under it, which are ended with the block."""

    def __init__(self, program: str, port: int, receivers: int, room: Path, gap: int = 60, grtt: int = 0):
        self.program, self.room, self.running, self.env = program, room, [], {**os.environ, 'XDG_STATE_HOME': str(room / 'state')}
        self.profile = room / 'profile.toml'
        self.profile.write_text(f'fabric = "udp"\nport = {port}\nreceivers = {receivers}\nstep = 0\nturns = 4000000\ne = 1400\nb = 100\nmax_n = 255\n'
                                f'gap = {gap}\ngrtt = {grtt or (20000 if receivers < 4 else 100000)}\nk = 1\noctets = 1000000\n')

    def __enter__(self) -> Nodes:
        return self

    def start(self, *words: object) -> subprocess.Popen:
        self.running.append(subprocess.Popen([str(it) for it in words], stdout=subprocess.PIPE, stderr=subprocess.STDOUT, text=True, env=self.env))
        return self.running[-1]

    def tool(self, name: str, *words: object, before: tuple = ()) -> subprocess.Popen:
        given = () if name == 'bridge' else ('--program', self.program)
        return self.start(*before, sys.executable, TOOLS / name, *words, *given)

    def __exit__(self, *_) -> None:
        for it in self.running:
            it.terminate()
        for it in self.running:
            it.wait()


def ended(process: subprocess.Popen, status: int, what: str, seconds: int = SECONDS) -> str:
    """What it said, once it ended with this status."""
    try:
        said, _ = process.communicate(timeout=seconds)
    except subprocess.TimeoutExpired:
        process.terminate()
        raise Unmet(f'{what} did not end in {seconds} seconds: {process.communicate()[0].strip()}') from None
    holds(process.returncode == status, f'{what} ended with status {process.returncode}, not {status}: {said.strip()}')
    return said


def made(folder: Path) -> dict[str, bytes]:
    """A folder with files of several lengths, one in a folder of its own and an empty one."""
    draws = random.Random(7)
    files = {'a': b'one', 'letters/b': draws.randbytes(700_000), 'letters/empty': b'', 'c d': draws.randbytes(1_500_001)}
    for name, octets in files.items():
        (folder / name).parent.mkdir(parents=True, exist_ok=True)
        (folder / name).write_bytes(octets)
    return files


def there(folder: Path) -> dict[str, bytes]:
    return {it.relative_to(folder).as_posix(): it.read_bytes() for it in folder.rglob('*') if it.is_file()}


def to_two(program: str, port: int, room: Path) -> str:
    files = made(room / 'photos')
    with Nodes(program, port, 2, room) as nodes:
        nodes.start(program, 'hub', nodes.profile)
        receivers = [nodes.tool('receive', nodes.profile, node, room / f'in{node}', '--linger', 5) for node in (2, 3)]
        ended(nodes.tool('send', room / 'photos', nodes.profile), 0, 'send')
        for node, receiver in zip((2, 3), receivers):
            ended(receiver, 0, f'receive {node}')
            holds(there(room / f'in{node}') == files, f'the folder of {node} has what was sent')
    return 'a folder of four files to two receivers'


def to_two_in_a_group(program: str, port: int, room: Path) -> str:
    files, group = made(room / 'photos'), ('--group', f'{LOOPBACK_GROUP}:{port}')
    with Nodes(program, port, 2, room) as nodes:
        receivers = [nodes.tool('receive', nodes.profile, node, room / f'in{node}', '--linger', 5, *group) for node in (2, 3)]
        time.sleep(1)  # with no hub that tells of them, a watermark may expire before they stand
        ended(nodes.tool('send', room / 'photos', nodes.profile, *group), 0, 'send to a group')
        for node, receiver in zip((2, 3), receivers):
            ended(receiver, 0, f'receive {node} in a group')
            holds(there(room / f'in{node}') == files, f'the folder of {node} in a group has what was sent')
    return 'a folder of four files to a group of two receivers'


def threads(program: str, port: int, room: Path) -> str:
    """A hub and a sender have a thread that sends, where there are processors for it; a sender of a group has none."""
    more = 1 if len(os.sched_getaffinity(0)) >= LEAST_PROCESSORS else 0
    with Nodes(program, port, 1, room) as nodes:
        for words, wanted in ((('hub', nodes.profile), 1 + more), (('send', nodes.profile, '--instance', 1), 1 + more),
                              (('send', nodes.profile, '--instance', 2, '--group', LOOPBACK_GROUP), 1)):
            node = subprocess.Popen([str(it) for it in (program, *words)], stdin=subprocess.PIPE, stdout=subprocess.DEVNULL, stderr=subprocess.DEVNULL, env=nodes.env)
            nodes.running.append(node)
            time.sleep(0.3)
            found = len(os.listdir(f'/proc/{node.pid}/task'))
            holds(found == wanted, f'{words[0]} {" ".join(map(str, words[2:]))} has {wanted} threads, not {found}')
    return f'a hub and a sender have {1 + more} threads, and a sender of a group one'


def instance(program: str, port: int, room: Path) -> str:
    """The instance that `send` is given is the sender's, by a program that writes down its words and ends; and what is no number is refused."""
    made(room / 'photos')
    fake = room / 'fake'
    fake.write_text('#!/bin/sh\necho "$@" >"$0.words"\nexit 8\n')
    fake.chmod(0o755)
    with Nodes(str(fake), port, 1, room) as nodes:
        for words, wanted in (((), f'send {nodes.profile}\n'), (('--instance', 65535), f'send {nodes.profile} --instance 65535\n')):
            ended(nodes.tool('send', room / 'photos', nodes.profile, *words), NOT_ALL, 'send by a program that sends nothing')
            holds((room / 'fake.words').read_text() == wanted, f'the words are {wanted!r}')
        for number in ('65536', '-1', 'x'):
            ended(nodes.tool('send', room / 'photos', nodes.profile, '--instance', number), REFUSED, f'send --instance {number}')
    return 'the instance that send is given is the sender\'s'


def two_sends(program: str, port: int, room: Path) -> str:
    """A receiver that runs throughout, and two sends: the second is no repetition of the first."""
    names = ('first', 'second')
    with Nodes(program, port, 1, room) as nodes:
        nodes.start(program, 'hub', nodes.profile)
        for name in names:
            (room / name).write_bytes(random.Random(name).randbytes(100_000))
        inbox = room / 'inbox'
        inbox.mkdir()
        nodes.running.append(subprocess.Popen([program, 'recv', str(nodes.profile), '2'], cwd=inbox, stdin=subprocess.DEVNULL, stdout=subprocess.DEVNULL,
                                              stderr=subprocess.DEVNULL, env=nodes.env))
        before: set[str] = set()
        for name in names:
            ended(nodes.tool('send', room / name, nodes.profile), 0, f'send of the {name} file')
            came = there(inbox)
            new = [it for it in came if it not in before and it.endswith('-x1')]  # the first piece, after the manifest
            holds([came[it] for it in new] == [(room / name).read_bytes()[:62_500]], f'the receiver has the {name} file once: {new}')
            before = set(came)
    return 'two sends to a receiver that runs throughout'


def in_pieces(program: str, port: int, room: Path, *more: str) -> str:
    """A file past 16 MiB, the most that one object has, and which is named as a piece of it is at a receiver."""
    file, kept = room / 'n2-i1-x0', room / 'kept'
    octets = random.Random(11).randbytes((16 << 20) + 12_345)
    file.write_bytes(octets)
    words = [sys.executable, ROOT / 'examples/cast', file, 2, '--keep', kept, '--port', port, '--gap', 60, '--grtt', 50_000, '--program', program, *more]
    done = subprocess.Popen([str(it) for it in words], stdout=subprocess.PIPE, stderr=subprocess.STDOUT, text=True)
    try:
        said = ended(done, 0, 'cast')
    finally:
        done.send_signal(signal.SIGINT)  # where it goes on, it ends its nodes
        done.wait()
    holds(said.count('the same') == 2, f'each copy is said to be the same: {said}')
    for node in (2, 3):
        holds(there(kept / str(node)) == {file.name: octets}, f'the folder of {node} has the copy and nothing else')
    return 'a file of 17 pieces to two receivers by examples/cast' + (', through a hub' if more else ', as a group')


def refusals(program: str, port: int, room: Path) -> str:
    made(room / 'photos')
    (room / 'in2').mkdir()
    (room / 'in2' / 'a').write_bytes(b'mine')
    with Nodes(program, port, 1, room) as nodes:
        nodes.start(program, 'hub', nodes.profile)
        receiver = nodes.tool('receive', nodes.profile, 2, room / 'in2')
        nodes.tool('send', room / 'photos', nodes.profile)
        said = ended(receiver, TAKEN, 'receive of a file that is there')
        holds(said.strip().endswith('is in ' + str(room / 'in2') + ' already.'), f'it says which file is there: {said}')
        holds(there(room / 'in2') == {'a': b'mine'}, 'the file that was there is as it was')
        ended(nodes.tool('receive', nodes.profile, 9, room / 'in9'), TAKEN, 'receive of no member')
        holds(not (room / 'in9').exists(), 'nothing is made for no member')
        ended(nodes.tool('send', room / 'nothing', nodes.profile), 1, 'send of a file that is not there')
        ended(nodes.tool('bridge', 'hub', nodes.profile, 9, 'localhost'), TAKEN, 'a bridge of no member')
        # Pieces of 62,500 octets: 35 with an info and 45 symbols, and one with an info and 9; a quarter of these 1,620 datagrams is allowed for repair.
        nodes.profile.write_text(nodes.profile.read_text().replace('turns = 4000000', 'turns = 2024'))
        said = ended(nodes.tool('send', room / 'photos', nodes.profile), TAKEN, 'send of more datagrams than turns')
        holds("need some 2,025 datagrams, with a quarter for repair, and the profile's turns are 2,024" in said, f'it says how many datagrams and turns: {said}')
        nodes.profile.write_text('fabric = "direct"\n')
        ended(nodes.tool('send', room / 'photos', nodes.profile), TAKEN, 'send over no sockets')
        with open(room / 'long', 'wb') as long:
            long.truncate(5_000_000_000)
        said = ended(nodes.start(sys.executable, ROOT / 'examples/cast', room / 'long', 1, '--port', port, '--program', program), TAKEN, 'cast of five thousand million octets')
        holds('a sender has 4,000,000 turns' in said, f'cast says how many turns a sender has: {said}')
    return 'a file that is there, no member, no file, no sockets, more datagrams than turns: refused'


class Machines:
    """Network namespaces that stand for other machines, each at the end of a virtual cable from this one."""

    def __init__(self, number: int):
        self.spaces = [f'normd-{os.getpid()}-{at}' for at in range(1, number + 1)]
        self.cables = [f'nd{os.getpid() % 100000}-{at}' for at in range(1, number + 1)]

    def here(self, at: int) -> str:
        return f'10.203.{at + 1}.1'

    def there(self, at: int) -> str:
        return f'10.203.{at + 1}.2'

    def make(self) -> bool:
        """Whether all could be made."""
        return all(
            ip('netns', 'add', space) and ip('link', 'add', cable, 'type', 'veth', 'peer', 'name', 'cable', 'netns', space)
            and ip('addr', 'add', f'{self.here(at)}/30', 'dev', cable) and ip('link', 'set', cable, 'up')
            and ip('-n', space, 'link', 'set', 'lo', 'up') and ip('-n', space, 'addr', 'add', f'{self.there(at)}/30', 'dev', 'cable')
            and ip('-n', space, 'link', 'set', 'cable', 'up') for at, (space, cable) in enumerate(zip(self.spaces, self.cables)))

    def __enter__(self) -> Machines:
        return self

    def __exit__(self, *_) -> None:
        for space, cable in zip(self.spaces, self.cables):
            ip('link', 'del', cable)
            ip('netns', 'del', space)


def listen_at(port: int) -> int:
    """How many sockets of this machine are at its broadcast address and this port."""
    return sum(it.split()[1] == f'FFFFFF7F:{port:04X}' for it in Path('/proc/net/udp').read_text().splitlines()[1:])


def await_listening(port: int, number: int) -> None:
    end = time.monotonic() + SECONDS
    while listen_at(port) != number and time.monotonic() < end:
        time.sleep(0.1)
    holds(listen_at(port) == number, f'{number} receivers listen to the hub, not {listen_at(port)}')


def over_bridges(program: str, port: int, room: Path, number: int, gap: int) -> str | None:
    """At one hub: receivers that listen, and receivers on other machines behind bridges."""
    if not shutil.which('ip') or os.geteuid() != 0:
        return None
    beside = min(LISTENING, MOST_RECEIVERS - number)
    files, near, members = made(room / 'photos'), range(2, 2 + beside), range(2 + beside, 2 + beside + number)
    with Machines(number) as machines:
        if not machines.make():
            return None
        with Nodes(program, port, beside + number, room, gap) as nodes:
            nodes.start(program, 'hub', nodes.profile)
            receivers = [nodes.tool('receive', nodes.profile, node, room / f'in{node}', '--linger', 5) for node in near]
            for at, node in enumerate(members):
                inside = ('ip', 'netns', 'exec', machines.spaces[at])
                nodes.tool('bridge', 'hub', nodes.profile, node, machines.there(at))
                nodes.tool('bridge', 'member', nodes.profile, node, machines.here(at), before=inside)
                receivers.append(nodes.tool('receive', nodes.profile, node, room / f'in{node}', '--linger', 5, before=inside))
            time.sleep(1 + (beside + number) / 4)  # what is sent before the bridges stand is lost, and costs a repair
            await_listening(port, beside)
            began = time.monotonic()
            ended(nodes.tool('send', room / 'photos', nodes.profile), 0, 'send over bridges')
            took = time.monotonic() - began
            for node, receiver in zip((*near, *members), receivers):
                ended(receiver, 0, f'receive {node} at a hub with bridges')
                holds(there(room / f'in{node}') == files, f'the folder of {node} at a hub with bridges has what was sent')
    return f'the folder to {beside} receivers that listen and to {number} on other machines, behind bridges, in {took:.1f} seconds'


def away(subnet: Subnet, at: int, seconds: float) -> None:
    """A machine's interface is down for so long."""
    holds(subnet.sets_cable(at, False), f'the interface of machine {at} goes down')
    time.sleep(seconds)
    holds(subnet.sets_cable(at, True), f'the interface of machine {at} comes back')


def unplugged(subnet: Subnet, at: int, seconds: float) -> None:
    """A machine's cable is out for so long."""
    holds(subnet.sets_port(at, False), f'the cable of machine {at} is pulled')
    time.sleep(seconds)
    holds(subnet.sets_port(at, True), f'the cable of machine {at} is put back')


def in_a_group(program: str, port: int, room: Path, number: int) -> str | None:
    """A receiver beside the sender, two on the first other machine, and one on each further one. The first other machine's interface is down and its
    cable out while the folder is sent, and then the sender's interface is down."""
    files, machines = made(room / 'photos'), [0, 1, 1, *range(2, number + 1)]
    members, group = range(2, 2 + len(machines)), ('--group', Subnet.GROUP)
    with Subnet(1 + number) as subnet:
        # With this gap the folder's 1,600 symbols take longer than the machines are away.
        with Nodes(program, port, len(machines), room, 8_000, GRTT_OF_AWAY) as nodes:
            receivers = [nodes.tool('receive', nodes.profile, node, room / f'in{node}', '--linger', 8, *group, before=subnet.inside(at))
                         for node, at in zip(members, machines)]
            time.sleep(1 + number / 4)
            began = time.monotonic()
            sender = nodes.tool('send', room / 'photos', nodes.profile, *group, before=subnet.inside(0))
            time.sleep(1)
            away(subnet, 1, AWAY)
            time.sleep(1)
            unplugged(subnet, 1, AWAY)
            time.sleep(1)
            holds(sender.poll() is None, 'the folder takes longer to send than its machines are away')
            away(subnet, 0, 1)
            said = ended(sender, 0, 'send to a group', 2 * SECONDS)
            took = time.monotonic() - began
            for what in (f'cannot send to {Subnet.GROUP}:{port}', f'sending to {Subnet.GROUP}:{port} works again'):
                holds(said.count(what) == 1, f'the sender says once {what!r}: {said}')
            for node, receiver in zip(members, receivers):
                ended(receiver, 0, f'receive {node} in a group')
                holds(there(room / f'in{node}') == files, f'the folder of {node} in a group has what was sent')
    return f'the folder to a group of {len(machines)} receivers on {1 + number} machines, of which two were away, in {took:.1f} seconds'


def main() -> int:
    parser = argparse.ArgumentParser(description=__doc__, formatter_class=argparse.RawDescriptionHelpFormatter)
    parser.add_argument('--program', default=str(ROOT / 'crates/normd/out/normd'))
    parser.add_argument('--port', type=int, default=LOWEST + PORTS * (os.getpid() % PROCESSES))
    parser.add_argument('--machines', type=int, default=2)
    parser.add_argument('--gap', type=int, default=60)
    parser.add_argument('--group', action='store_true')
    given = parser.parse_args()
    failed = 0
    everywhere = ((to_two, ()), (to_two_in_a_group, ()), (two_sends, ()), (threads, ()), (instance, ()), (in_pieces, ()), (in_pieces, ('--hub',)),
                  (refusals, ()), (over_bridges, (given.machines, given.gap)))
    for part, more in (*(() if given.group else everywhere), (in_a_group, (given.machines,))):
        with tempfile.TemporaryDirectory(prefix='transfer-') as room:
            try:
                said = part(given.program, given.port, Path(room), *more)
                print(f'tools: transfer: {said}' if said else f'tools: transfer: {part.__name__} did not run: no network namespace can be made here')
            except NoSubnet as none:
                print(f'tools: transfer: {part.__name__} did not run: {none}')
            except Unmet as unmet:
                failed += 1
                print(f'tools: transfer: {part.__name__} DOES NOT HOLD: {unmet}')
    return 1 if failed else 0


if __name__ == '__main__':
    sys.exit(main())
