#!/usr/bin/env python3
"""Transfers to other machines in turns: by normd as a group, by normd through a hub and bridges, and by uftp.

lan.py [--program NORMD] [--size MIB] [--runs N] [--machines N ..] [--ways group bridges uftp] [--gap MICROSECONDS] [--set KEY=VALUE ..]

Each machine is a network namespace on one switch: one has the sender, and each other a receiver. The file goes as objects of 1 MiB with a
watermark behind each eight, with every line written to nothing. normd's gap and uftp's rate are swept once for each number of machines, and
the best is run; --gap leaves out the sweep of groups and bridges. Files lie in memory (/dev/shm). MB/s is of 1,000,000 octets, from the sender's start to the
slowest receiver's last octet; uftp's by the time that it tells itself. The wire is what the sender's interface sent, as Ethernet frames, beside
one copy: each symbol once, with normd's headers. Medians of the runs, with the least and greatest."""
from __future__ import annotations

import argparse
import hashlib
import os
import shutil
import statistics
import subprocess
import sys
import tempfile
import time
from pathlib import Path
from typing import Callable

sys.dont_write_bytecode = True
HERE = Path(__file__).resolve().parent
sys.path[:0] = [str(HERE.parents[1] / 'checks'), str(HERE.parent / 'udp')]
from compare import MIB, INSTANCE, RATES, SENDER, Bench, ended, profile_of, said_of, uftp  # noqa: E402
from subnet import Subnet  # noqa: E402

BRIDGE = HERE.parents[1] / 'tools/bridge'
FROM_WATERMARK = 8
GAPS = {'group': ('3', '4', '6', '8', '12', '16', '24'), 'bridges': ('25', '50', '100', '200', '400')}
# Beside a symbol's own octets: the headers of DATA with EXT_FTI, of UDP, of IPv4, and of an Ethernet frame without its check.
HEADERS = 32 + 8 + 20 + 14


class Lan:
    """One transfer by normd between namespaces, by a group or by bridges."""

    def __init__(self, bench: Bench, machines: Subnet, receivers: int, way: str, gap: str):
        self.bench, self.machines, self.receivers, self.way = bench, machines, receivers, way
        self.room, self.running = Path(tempfile.mkdtemp(prefix='lan-', dir=bench.room)), {}
        name = 'four' if receivers < 8 else 'many'
        (self.room / 'profile.toml').write_text(profile_of(bench, name, receivers, gap=gap))

    def nodes(self) -> range:
        return range(SENDER + 1, SENDER + 1 + self.receivers)

    def start(self, name: object, at: int, *words: object, **how) -> subprocess.Popen:
        """Starts a process on a machine: the sender's is 0, and that of each receiver one less than its number."""
        (self.room / str(name)).mkdir(exist_ok=True)
        with open(self.room / f'{name}.log', 'wb') as log:
            self.running[name] = subprocess.Popen([*self.machines.inside(at), *(str(it) for it in words)], cwd=self.room / str(name), stderr=log,
                                                  **{'stdin': subprocess.DEVNULL, 'stdout': subprocess.DEVNULL, **how})
        return self.running[name]

    def member(self, name: object, at: int, *words: object, **how) -> subprocess.Popen:
        return self.start(name, at, self.bench.program, *words, *(('--group', Subnet.GROUP) if self.way == 'group' else ()), **how)

    def start_others(self) -> None:
        if self.way == 'bridges':
            self.start('hub', 0, self.bench.program, 'hub', '../profile.toml')
        for node in self.nodes():
            at = node - SENDER
            if self.way == 'bridges':
                self.start(f'near{node}', 0, sys.executable, BRIDGE, 'hub', '../profile.toml', node, self.machines.address(at))
                self.start(f'far{node}', at, sys.executable, BRIDGE, 'member', '../profile.toml', node, self.machines.address(0))
            self.member(node, at, 'recv', '../profile.toml', node)
        time.sleep(0.5 + (0.1 * self.receivers if self.way == 'bridges' else 0))

    def script(self) -> Path:
        octets, script = self.bench.source.read_bytes(), ''
        (self.room / 'sender').mkdir()
        for at in range(self.bench.size):
            (self.room / 'sender' / f'p{at}').write_bytes(octets[at * MIB:(at + 1) * MIB])
            script += f'1 file p{at}\n' + ('1 mark\n' if (at + 1) % FROM_WATERMARK == 0 or at + 1 == self.bench.size else '')
        (self.room / 'script').write_text(script)
        return self.room / 'script'

    def send(self) -> tuple[float, int | None]:
        """When it began, and the sender's status."""
        script, began = self.script(), time.time()
        with script.open() as source:
            sender = self.member('sender', 0, 'send', '../profile.toml', stdin=source, env={**os.environ, 'XDG_STATE_HOME': str(self.room)})
        try:
            return began, sender.wait(timeout=self.bench.limit)
        except subprocess.TimeoutExpired:
            return began, None

    def last_of(self, node: int) -> float | None:
        """When a receiver had the last octet, or None where its copy is not the file."""
        digest, last = hashlib.sha256(), 0.0
        for at in range(self.bench.size):
            piece = self.room / str(node) / f'n{node}-i{INSTANCE}-x{at}'
            if not piece.exists():
                return None
            last = max(last, piece.stat().st_mtime)
            digest.update(piece.read_bytes())
        return last if digest.hexdigest() == self.bench.digest else None

    def run(self) -> tuple[float, int] | None:
        """MB/s of the slowest receiver, and the octets of the sender's interface."""
        self.start_others()
        before = self.machines.sent(0)
        began, status = self.send()
        wire = self.machines.sent(0) - before
        ended({name: it for name, it in self.running.items() if it.returncode is None})
        lasts = [self.last_of(node) for node in self.nodes()]
        if None in lasts or status:
            for name in self.running:
                said = (self.room / f'{name}.log').read_text(errors='replace').strip()
                print(f'  {name}: {said[-300:]}' if said else f'  {name} said nothing', file=sys.stderr)
        shutil.rmtree(self.room)
        return None if None in lasts else (self.bench.size * MIB / (max(lasts) - began) / 1e6, wire)


def normd(bench: Bench, receivers: int, way: str, gap: str) -> tuple[float, int] | None:
    with Subnet(receivers + 1) as machines:
        return Lan(bench, machines, receivers, way, gap).run()


def by_uftp(bench: Bench, receivers: int, rate: str) -> tuple[float, int] | None:
    wires: list[int] = []
    figure = uftp(bench, receivers, 0, rate, wires)
    return None if figure is None else (figure, wires[0])


def best(choices: tuple[str, ...], run: Callable[[str], tuple[float, int] | None]) -> str:
    return max(choices, key=lambda choice: (run(choice) or (0, 0))[0])


def row(bench: Bench, receivers: int, ways: list[str], gap: str | None) -> None:
    """One number of machines: the ways in turns."""
    chosen = {}
    for way in ways:
        if way == 'uftp':
            chosen[way] = best(RATES, lambda rate: by_uftp(bench, receivers, rate))
        else:
            chosen[way] = gap or best(GAPS[way], lambda one, way=way: normd(bench, receivers, way, one))
    found: dict[str, list[tuple[float, int] | None]] = {way: [] for way in ways}
    for _ in range(bench.runs):
        for way in ways:
            found[way].append(by_uftp(bench, receivers, chosen[way]) if way == 'uftp' else normd(bench, receivers, way, chosen[way]))
    copy = bench.size * MIB + HEADERS * bench.size * -(-MIB // 1400)
    for way, runs in found.items():
        wires = [it[1] for it in runs if it is not None]
        wire = f'; wire {statistics.median(wires) / 1e6:.1f} MB, {statistics.median(wires) / copy:.3f} of one copy' if wires else ''
        with_what = f'rate {chosen[way]}' if way == 'uftp' else f'gap {chosen[way]}'
        print(f'{receivers} machines, {way} ({with_what}): {said_of([it and it[0] for it in runs])}{wire}', flush=True)


def main() -> int:
    parser = argparse.ArgumentParser(description=__doc__, formatter_class=argparse.RawDescriptionHelpFormatter)
    parser.add_argument('--program', default=str(HERE.parents[1] / 'crates/normd/out/normd'))
    parser.add_argument('--size', type=int, default=64)
    parser.add_argument('--runs', type=int, default=5)
    parser.add_argument('--limit', type=float, default=120)
    parser.add_argument('--machines', type=int, nargs='*', default=[2, 3, 12])
    parser.add_argument('--ways', nargs='*', default=['group', 'bridges', 'uftp'], choices=('group', 'bridges', 'uftp'))
    parser.add_argument('--gap')
    parser.add_argument('--set', nargs='*', default=[])
    given = parser.parse_args()
    ways = [way for way in given.ways if way != 'uftp' or shutil.which('uftp')]
    keys = dict(it.split('=', 1) for it in given.set)
    bench = Bench(given.program, given.size, given.runs, given.limit, keys, Path(tempfile.mkdtemp(prefix='lan-', dir='/dev/shm')))
    try:
        bench.prepare()
        for receivers in given.machines:
            row(bench, receivers, ways, given.gap)
    finally:
        shutil.rmtree(bench.room, ignore_errors=True)
    return 0


if __name__ == '__main__':
    sys.exit(main())
