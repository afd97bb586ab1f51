#!/usr/bin/env python3
"""Runs docs/first-hour.md: its commands, on thirteen machines that are network namespaces, each with a copy of this machine's files of its own. What a
command prints has to be what the page has; a line `..` there stands for any lines.

first_hour.py [--archive FILE] [--show]

The archive is that of `make dist`, by default the one in out/. It wants root, iproute2 and a kernel with overlays. `systemctl` and `journalctl` on those
machines are stand-ins that run what a unit says (ExecStart again RestartSec after it ended), and `scp` copies between them. By hand; it takes some two
minutes. Status 0: all is as the page says. 1: it is not, or it cannot run here. 2: refused words."""
from __future__ import annotations

import argparse
import os
import re
import shutil
import subprocess
import sys
import tempfile
from collections.abc import Iterator
from contextlib import ExitStack, contextmanager
from pathlib import Path

sys.dont_write_bytecode = True
TOP = Path(__file__).resolve().parent.parent
sys.path[:0] = [str(TOP / 'checks'), str(TOP / 'checks/lab')]
from machines import end_all  # noqa: E402
from subnet import NoSubnet, Subnet  # noqa: E402

PAGE, MACHINES, SECONDS, ANY = TOP / 'docs/first-hour.md', 13, 120, '..'
COMMAND = re.compile(r'(desk|lab\d+|lab\*)# (.*)')
# What stands on each machine in the place of programs that need a whole system, or other machines.
SYSTEMCTL = r'''#!/usr/bin/env python3
"""systemctl enable [-q] --now UNIT | start UNIT | stop UNIT | daemon-reload"""
import os, re, shlex, signal, subprocess, sys, time
from pathlib import Path
verb, *words = [it for it in sys.argv[1:] if not it.startswith('-')]
if verb == 'daemon-reload' or words[0].endswith('.timer') and Path('/etc/systemd/system', words[0]).is_file():
    sys.exit(0)
name = words[0].removesuffix('.service')
running, log = Path('/run', f'{name}.pid'), open(f'/run/{name}.log', 'ab')
if verb == 'stop':
    os.killpg(int(running.read_text()), signal.SIGTERM)
    sys.exit(0)
kind, _, instance = name.partition('@')
unit = Path('/etc/systemd/system', f'{kind}@.service' if instance else f'{kind}.service').read_text()
value = lambda key: (re.findall(f'^{key}=(.*)$', unit, re.M) or [''])[-1].replace('%i', instance).replace('%S', '/var/lib')
given = {'PATH': os.environ['PATH'], 'LANG': 'C.UTF-8', **dict(it.split('=', 1) for it in re.findall('^Environment=(.*)$', unit.replace('%S', '/var/lib'), re.M))}
given |= dict(it.split('=', 1) for it in Path(value('EnvironmentFile').lstrip('-')).read_text().splitlines() if '=' in it)
def run(line):
    # ${NAME} is one word, and $NAME is split.
    split = [part for word in shlex.split(line) for part in (given.get(word[1:], '').split() if re.fullmatch(r'\$\w+', word) else [word])]
    filled = [re.sub(r'\$\{(\w+)\}', lambda it: given.get(it[1], ''), it) for it in split] if '/bin/sh' not in line else split
    user = subprocess.run(['id', '-u', value('User')], stdout=subprocess.PIPE, text=True, check=True).stdout.strip()
    return subprocess.run(['setpriv', '--reuid', user, '--clear-groups', *filled], env=given, stdin=subprocess.DEVNULL, stdout=log, stderr=log).returncode
def once():
    return run(value('ExecStartPre')) or run(value('ExecStart'))
if value('StateDirectory'):
    os.makedirs(f"/var/lib/{value('StateDirectory')}", exist_ok=True)
    subprocess.run(['chown', value('User'), f"/var/lib/{value('StateDirectory')}"], check=True)
if value('Type') == 'oneshot':
    sys.exit(once() != 0)
if os.fork() == 0:
    os.setsid()
    running.write_text(str(os.getpid()))
    for at in range(3):
        os.dup2(os.open(os.devnull, os.O_RDWR), at)
    while value('Restart') == 'always':
        once()
        time.sleep(float(value('RestartSec')))
'''
JOURNALCTL = '''#!/bin/sh
# journalctl -u UNIT.service -o cat -n LINES
tail -n "$6" "/run/${2%.service}.log"
'''
SCP = '''#!/bin/sh
# scp -q FILE MACHINE:
cp "$2" "/machines/${3%:}/root/root/$2"
'''


class Unmet(Exception):
    """What is not as the page says, or why it cannot be tried."""


def commands() -> Iterator[tuple[str, str, list[str]]]:
    """The page's commands, each with its machine and what it prints."""
    blocks = re.findall(r'^```\n(.*?)^```$', PAGE.read_text(), re.M | re.S)
    for block in blocks:
        parts = re.split(r'^(?=(?:desk|lab\d+|lab\*)# )', block, flags=re.M)
        for part in filter(None, parts):
            line, *printed = part.splitlines()
            found = COMMAND.fullmatch(line)
            if not found:
                raise Unmet(f'{line!r} is no command of the page')
            yield found[1], found[2], printed


def is_as_shown(printed: list[str], shown: list[str]) -> bool:
    """Whether lines are those of the page, where `..` stands for any."""
    pattern = ''.join('(?:.*\n)*' if line == ANY else re.escape(line) + '\n' for line in shown)
    return re.fullmatch(pattern, ''.join(f'{line}\n' for line in printed)) is not None


@contextmanager
def mounted(*words: object) -> Iterator[None]:
    if subprocess.run(['mount', *map(str, words)], stderr=subprocess.DEVNULL).returncode:
        raise Unmet(f'nothing can be mounted at {words[-1]}: that wants root and a kernel with overlays')
    try:
        yield
    finally:
        subprocess.run(['umount', '-l', str(words[-1])])


class Machine:
    """A machine: a namespace of the subnet, and a root of its own above this one's."""

    def __init__(self, subnet: Subnet, at: int, room: Path):
        self.name, self.inside, self.room = f'lab{at + 1}' if at else 'desk', subnet.inside(at), room / (f'lab{at + 1}' if at else 'desk')
        self.root = self.room / 'root'

    def make(self, stack: ExitStack, hosts: str) -> None:
        for name in ('upper', 'work', 'root'):
            (self.room / name).mkdir(parents=True)
        stack.enter_context(mounted('-t', 'overlay', '-o', f'lowerdir=/,upperdir={self.room}/upper,workdir={self.room}/work', 'overlay', self.root))
        for name in ('proc', 'dev'):
            stack.enter_context(mounted('--bind', f'/{name}', self.root / name))
        for name in ('run', 'machines'):
            shutil.rmtree(self.root / name, ignore_errors=True)
            (self.root / name).mkdir()
        shutil.rmtree(self.root / 'srv/normd', ignore_errors=True)
        (self.root / 'etc/hosts').write_text(hosts)
        own = self.root / 'usr/local/sbin'
        own.mkdir(parents=True, exist_ok=True)
        for name, text in (('systemctl', SYSTEMCTL), ('journalctl', JOURNALCTL), ('scp', SCP)):
            (own / name).write_text(text)
            (own / name).chmod(0o755)

    def run(self, command: str) -> list[str]:
        place = {'PATH': f'/usr/local/sbin:{os.path.dirname(sys.executable)}:/usr/sbin:/usr/bin:/sbin:/bin', 'HOME': '/root', 'HOSTNAME': self.name, 'LANG': 'C.UTF-8'}
        done = subprocess.run([*self.inside, 'chroot', str(self.root), 'bash', '-c', f'cd /root; {command}'], env=place, stdin=subprocess.DEVNULL,
                              stdout=subprocess.PIPE, stderr=subprocess.STDOUT, text=True, timeout=SECONDS)
        return done.stdout.splitlines()


def follow(machines: dict[str, Machine], shows: bool) -> int:
    """Runs the page's commands. Returns how many there are."""
    count = 0
    for where, command, shown in commands():
        for machine in [it for name, it in machines.items() if name != 'desk'] if where == 'lab*' else [machines[where]]:
            printed = machine.run(command)
            if shows:
                print(f'{machine.name}# {command}', *printed, sep='\n', flush=True)
            if not is_as_shown(printed, shown):
                raise Unmet('\n'.join([f'{machine.name}# {command}', 'prints', *printed, 'and not', *shown]))
        count += 1
    return count


def main() -> int:
    parser = argparse.ArgumentParser(description=__doc__, formatter_class=argparse.RawDescriptionHelpFormatter)
    parser.add_argument('--archive', type=Path, default=TOP / f'out/normd-{(TOP / "VERSION").read_text().strip()}-linux-x86_64.tar.gz')
    parser.add_argument('--show', action='store_true', help='prints each command with what it prints')
    given = parser.parse_args()
    if not given.archive.is_file():
        parser.error(f"{given.archive} is not there: 'make dist' packs it")
    try:
        with tempfile.TemporaryDirectory(prefix='first-hour-', dir='/dev/shm') as room, Subnet(MACHINES) as subnet, ExitStack() as stack:
            machines = [Machine(subnet, at, Path(room)) for at in subnet.machines]
            hosts = '127.0.0.1 localhost\n' + ''.join(f'{subnet.address(at)} {it.name}\n' for at, it in enumerate(machines))
            for at, machine in enumerate(machines):
                machine.make(stack, hosts)
                stack.callback(end_all, subnet.name(at))
                subprocess.run([*machine.inside, 'sysctl', '-qw', 'net.ipv4.ping_group_range=0 0'], stderr=subprocess.DEVNULL)
            desk = machines[0].root
            stack.enter_context(mounted('--rbind', room, desk / 'machines'))
            shutil.copy(given.archive, desk / 'root')
            count = follow({it.name: it for it in machines}, given.show)
    except (Unmet, NoSubnet, subprocess.TimeoutExpired) as fault:
        print(f'first_hour: {fault}', file=sys.stderr)
        return 1
    print(f'first_hour: {count} commands of the page, on {MACHINES} machines: each prints what it has')
    return 0


if __name__ == '__main__':
    sys.exit(main())
