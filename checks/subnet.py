"""The machines of one wired subnet, for checks/lab, checks/tools/transfer.py and the benches `lan` and `udp`. It wants root and iproute2."""
from __future__ import annotations

import os
import subprocess
import time

CARRIER = 0.6  # seconds that the switch takes until it passes everything on


class NoSubnet(Exception):
    """Network namespaces cannot be made here."""


def ip(*words: object) -> bool:
    """Whether the command `ip` did this."""
    try:
        return subprocess.run(['ip', *map(str, words)], stdin=subprocess.DEVNULL, stdout=subprocess.DEVNULL, stderr=subprocess.DEVNULL).returncode == 0
    except FileNotFoundError:
        return False


class Subnet:
    """A network namespace for each machine, and one more for the switch that joins them. They are there within the block.

    Raises `NoSubnet` if they cannot be made. A machine's interface is its `CABLE`; the other end of it is the switch's `port`."""
    GROUP, CABLE = '10.9.0.255', 'cable'

    def __init__(self, machines: int, mark: str = ''):
        self.machines, self.mark = range(machines), mark or f'normd-{os.getpid()}'
        self.switch = f'{self.mark}-switch'

    def name(self, at: int) -> str:
        return f'{self.mark}-{at}'

    def address(self, at: int) -> str:
        return f'10.9.0.{at + 1}'

    def port(self, at: int) -> str:
        return f'port{at}'

    def inside(self, at: int) -> tuple[str, ...]:
        """The words that run a command on a machine."""
        return 'ip', 'netns', 'exec', self.name(at)

    def counted(self, at: int, what: str) -> int:
        """One of the statistics of a machine's interface, which counts Ethernet frames without their checks."""
        words = [*self.inside(at), 'cat', f'/sys/class/net/{self.CABLE}/statistics/{what}']
        return int(subprocess.run(words, stdout=subprocess.PIPE, text=True, check=True).stdout)

    def sent(self, at: int) -> int:
        """The octets that a machine's interface sent so far."""
        return self.counted(at, 'tx_bytes')

    def sets_cable(self, at: int, is_up: bool) -> bool:
        """Whether a machine's interface is now up, or down."""
        done = ip('-n', self.name(at), 'link', 'set', self.CABLE, 'up' if is_up else 'down')
        # An interface that goes down loses its routes, and gets back by itself only that to its own subnet.
        return done and (not is_up or ip('-n', self.name(at), 'route', 'replace', '224.0.0.0/4', 'dev', self.CABLE))

    def sets_port(self, at: int, is_up: bool) -> bool:
        """Whether a machine's cable is now in the switch, or out of it."""
        return ip('-n', self.switch, 'link', 'set', self.port(at), 'up' if is_up else 'down')

    def joined(self, at: int) -> bool:
        name, switch = self.name(at), ('-n', self.switch)
        return (ip('netns', 'add', name) and ip(*switch, 'link', 'add', self.port(at), 'type', 'veth', 'peer', 'name', self.CABLE, 'netns', name)
                and ip('-n', name, 'addr', 'add', f'{self.address(at)}/24', 'brd', self.GROUP, 'dev', self.CABLE) and ip('-n', name, 'link', 'set', 'lo', 'up')
                and ip(*switch, 'link', 'set', self.port(at), 'master', 'switch', 'up') and self.sets_cable(at, True))

    def made(self) -> bool:
        switch = ('-n', self.switch)
        return (ip('netns', 'add', self.switch) and ip(*switch, 'link', 'add', 'switch', 'type', 'bridge', 'mcast_snooping', 0)
                and ip(*switch, 'link', 'set', 'switch', 'up') and all(self.joined(at) for at in self.machines))

    def __enter__(self) -> Subnet:
        if not self.made():
            self.__exit__()
            raise NoSubnet('no network namespace can be made here: that wants root and iproute2')
        time.sleep(CARRIER)
        return self

    def __exit__(self, *_) -> None:
        for space in (*map(self.name, self.machines), self.switch):
            ip('netns', 'del', space)
