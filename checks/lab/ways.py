"""The ways in which files go to all machines: normd in a group and by hub and bridges, uftp, udpcast and libnorm."""
from __future__ import annotations

import re
import shutil
import subprocess
import sys
from dataclasses import dataclass
from pathlib import Path

from machines import HERE, ROOM, Lab

TOOLS = HERE.parents[1] / 'tools'
RATE = 40_000_000  # bits a second
# The octets of a datagram of normd: a symbol, and the headers of DATA with EXT_FTI, UDP and IPv4.
E, HEADERS = 1400, 32 + 8 + 20
PORT, USUAL_B, OTHER_B = 20000, 100, 64
LEAST_GRTT = 20_000
# uftp's kilobit has 1,024 bits. The round trip with which it begins, and the least and most that it may come to, are in seconds: with its own ones it waits
# longer for a machine that is gone.
KILOBIT, ROUND_TRIPS = 1024, '0.05:0.01:1'
SOCKET_BUFFER, MOST_WAIT = 4_194_304, 8


@dataclass(frozen=True)
class Given:
    """What the lab was told."""
    program: str
    octets: int
    limit: float
    keys: dict[str, str]
    logs: Path | None = None


class Way:
    """What starts on each machine, and what the sender says of those that lack something.

    `stays`: a receiver goes on after a transfer. `has_b`: its members agree on the number of symbols of a block beforehand."""
    name, title = '', ''
    stays, has_b = True, False

    def __init__(self, given: Given, lab: Lab, room: Path, other_b: int = 0):
        self.given, self.lab, self.room, self.other_b = given, lab, room, other_b

    @staticmethod
    def is_there(room: Path) -> bool:
        """Whether it can be run here. Compiles what it needs."""
        return True

    def receivers(self) -> range:
        return self.lab.machines[1:]

    def start(self) -> None:
        """Starts what runs beside receivers and sender."""

    def receiver(self, at: int, folder: Path, source: Path) -> list[object]:
        raise NotImplementedError

    def sender(self, source: Path) -> list[object]:
        raise NotImplementedError

    def named(self, said: str) -> set[int]:
        """The machines that the sender says lack something."""
        raise NotImplementedError

    def place(self, folder: Path, source: Path) -> Path:
        """The place at a receiver of what lies in the source's folder."""
        return folder


class Group(Way):
    """normd, whose datagrams go once to all machines. Node N + 1 is on machine N."""
    name, title, stays, has_b = 'group', 'normd, group', False, True

    def joins(self) -> list[object]:
        return ['--group', Lab.GROUP]

    def profile(self, at: int) -> Path:
        """The profile of a machine, with a round trip that no datagram outlasts."""
        keys = {'fabric': '"udp"', 'port': PORT, 'receivers': len(self.receivers()), 'step': 0, 'turns': 4000000, 'e': E, 'b': USUAL_B, 'max_n': 255, 'k': 1,
                'gap': 8 * 10**6 * (E + HEADERS) // RATE, 'grtt': LEAST_GRTT + int(2000 * self.lab.harm.late), **self.given.keys}
        keys['b'] = OTHER_B if at and at == self.other_b else keys['b']
        path = self.room / f'profile-{at}.toml'
        path.write_text(''.join(f'{key} = {value}\n' for key, value in keys.items()))
        return path

    def tool(self, name: str, *words: object) -> list[object]:
        return [sys.executable, TOOLS / name, *words]

    def receiver(self, at: int, folder: Path, source: Path) -> list[object]:
        return self.tool('receive', self.profile(at), at + 1, folder, '--program', self.given.program, *self.joins())

    def sender(self, source: Path) -> list[object]:
        return self.tool('send', source, self.profile(0), '--program', self.given.program, *self.joins())

    def named(self, said: str) -> set[int]:
        """Those of watermarks that expired, and in a table of nodes those without everything."""
        nodes = {int(it) for found in re.findall(r'\bexpired((?: \d+)+)', said) for it in found.split()}
        nodes |= {int(it) for it in re.findall(r'\bnode (\d+) (?:confirmed|lacks)', said)}
        nodes |= {int(it) for it in re.findall(r'^(\d+) +(?!.*\beverything\b)\S', said, re.M) if re.search(r'^node +machine', said, re.M)}
        return {node - 1 for node in nodes}


class Bridges(Group):
    """normd with a hub beside the sender, and for each machine a bridge there and one on it."""
    name, title = 'bridges', 'normd, bridges'

    def joins(self) -> list[object]:
        return []

    def start(self) -> None:
        self.lab.start(0, [self.given.program, 'hub', self.profile(0)], self.room / 'hub.log')
        for at in self.receivers():
            self.lab.start(0, self.tool('bridge', 'hub', self.profile(0), at + 1, self.lab.address(at)), self.room / f'near{at}.log')
            self.lab.start(at, self.tool('bridge', 'member', self.profile(0), at + 1, self.lab.address(0)), self.room / f'far{at}.log')


class Uftp(Way):
    """Debian's uftp."""
    name, title = 'uftp', 'uftp'

    @staticmethod
    def is_there(room: Path) -> bool:
        return bool(shutil.which('uftp') and shutil.which('uftpd'))

    def receiver(self, at: int, folder: Path, source: Path) -> list[object]:
        return ['uftpd', '-d', '-I', Lab.CABLE, '-U', f'0x{at:08x}', '-D', folder, '-B', SOCKET_BUFFER]

    def sender(self, source: Path) -> list[object]:
        hosts = ','.join(f'0x{at:08x}' for at in self.receivers())
        return ['uftp', '-I', Lab.CABLE, '-R', RATE // KILOBIT, '-b', E, '-r', ROUND_TRIPS, '-B', SOCKET_BUFFER, '-H', hosts, source]

    def named(self, said: str) -> set[int]:
        """Hosts with another status than that they have it."""
        found = re.findall(r'^Host: +0x([0-9A-Fa-f]+) +Status: (.*)$', said, re.M)
        return {int(host, 16) for host, status in found if not status.startswith('Completed')}

    def place(self, folder: Path, source: Path) -> Path:
        return folder / source.name if source.is_dir() else folder


class Udpcast(Way):
    """Debian's udpcast, which sends one file or pipe, to receivers that end with it."""
    name, title, stays = 'udpcast', 'udpcast', False

    @staticmethod
    def is_there(room: Path) -> bool:
        return bool(shutil.which('udp-sender') and shutil.which('udp-receiver'))

    def receiver(self, at: int, folder: Path, source: Path) -> list[object]:
        what = ['--pipe', f'tar -x -C {folder}'] if source.is_dir() else ['--file', folder / source.name]
        return ['udp-receiver', '--nokbd', '--interface', Lab.CABLE, *what]

    def sender(self, source: Path) -> list[object]:
        what = ['--pipe', f'tar -c -C {source} .'] if source.is_dir() else ['--file', source]
        return ['udp-sender', '--nokbd', '--interface', Lab.CABLE, '--min-receivers', len(self.receivers()), '--max-wait', MOST_WAIT,
                '--max-bitrate', f'{RATE // 10**6}m', *what]

    def named(self, said: str) -> set[int]:
        """Those that it dropped. One that never came is not named."""
        came = {number: int(last) - 1 for last, number in re.findall(r'^New connection from [\d.]+\.(\d+) +\(#(\d+)\)', said, re.M)}
        return {came[it] for it in re.findall(r'^Dropping client #(\d+)', said, re.M) if it in came}


class Norm(Way):
    """libnorm, by two short programs: Debian's libnorm-dev has none that names who acknowledged."""
    name, title = 'norm', 'libnorm'

    @staticmethod
    def is_there(room: Path) -> bool:
        compiled = (['c++', '-O2', '-o', room / name, HERE / f'{name}.cpp', '-lnorm'] for name in ('norm_send', 'norm_receive'))
        return bool(shutil.which('c++')) and all(subprocess.run(words, stderr=subprocess.DEVNULL).returncode == 0 for words in compiled)

    def receiver(self, at: int, folder: Path, source: Path) -> list[object]:
        return [ROOM / 'norm_receive', Lab.CABLE, at, folder]

    def sender(self, source: Path) -> list[object]:
        files = sorted(it.relative_to(source) for it in source.rglob('*') if it.is_file()) if source.is_dir() else [source.name]
        folder = source if source.is_dir() else source.parent
        nodes = ','.join(map(str, self.receivers()))
        return ['env', '-C', folder, ROOM / 'norm_send', Lab.CABLE, nodes, RATE, *files]

    def named(self, said: str) -> set[int]:
        return {int(it) for it in re.findall(r'^node (\d+) did not acknowledge$', said, re.M)}


WAYS: dict[str, type[Way]] = {it.name: it for it in (Group, Bridges, Uftp, Udpcast, Norm)}
