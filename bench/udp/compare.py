#!/usr/bin/env python3
"""Transfers by normd and by uftp in turns, and how fast the slowest receiver was.

compare.py [--program NORMD] [--size MIB] [--runs N] [--only RECEIVERS:LOSS ..] [--set KEY=VALUE ..] [--before NORMD PROFILES] [--against NORMD]
           [--copies] [--group GAP ..] [--beside N] [--no-uftp] [--no-chain]
compare.py --paced [--against NORMD]       a file of 20 MiB to three receivers, with a gap of 280 microseconds, and again beside eight busy loops
compare.py --lone [--against NORMD]        an object of 100 octets to one and to sixteen receivers, and what idle nodes take of a processor

normd's nodes are processes on 127.0.0.1 with the profiles of examples/profiles, one for each row; --set changes keys of all. In the same turns
run: another program with the same profiles by --against, or with those of another folder by --before; this program, with a hub that sends copies
alone since another process keeps the address to which it broadcasts, by --copies; and this one as a group without a hub, with each gap of --group.
The file goes as objects of 1 MiB with a watermark behind each window of sixteen or half of it (FROM_WATERMARK), with every line written to
nothing. uftp's members have a network namespace each, joined by a bridge; its rate is swept once and its best is run, as is the gap of --copies.
Rows without loss are compared with a source, a hub and receivers in C (chain.c) too, and those of 1 % with the same transfer without loss. Files
lie in memory (/dev/shm). MB/s is of 1,000,000 octets: normd's from the sender's start to the slowest receiver's last octet, uftp's by the time that
it tells itself. How many times as fast normd is: the median of the ratios of neighbouring runs, with the least and greatest. With --no-uftp, and
where uftp is not there, a bare copier of datagrams (copier.c) is run in its place, to 4 and 16 receivers without loss. --beside runs so many busy
loops all the while, at the usual priority. Beside them: which processor time hub and sender took for a symbol, what the memory of each node came
to, and, of all rows and by --lone, which part of a processor an idle node takes."""
from __future__ import annotations

import argparse
import hashlib
import os
import selectors
import shutil
import socket
import statistics
import subprocess
import sys
import tempfile
import time
from contextlib import ExitStack, contextmanager
from dataclasses import dataclass, field, replace
from pathlib import Path
from typing import Callable, Iterator

sys.dont_write_bytecode = True
HERE = Path(__file__).resolve().parent
sys.path[:0] = [str(HERE.parents[1] / 'checks')]
from subnet import Subnet  # noqa: E402

PROFILES = HERE.parent.parent / 'examples/profiles'
MIB = 1 << 20
ROWS = {(1, 0): 'loopback', (4, 0): 'four', (16, 0): 'many', (1, 1): 'loopback', (4, 1): 'four', (1, 5): 'lossy', (4, 5): 'lossy-four', (16, 5): 'lossy-many'}
# How many objects stand before each watermark: a window of sixteen, or half of one, so that the next half goes while what a receiver lost comes again.
FROM_WATERMARK = {(1, 0): 16, (4, 0): 8, (16, 0): 8, (1, 1): 8, (4, 1): 8, (1, 5): 8, (4, 5): 8, (16, 5): 8}
# How many times as fast normd is to be: as uftp, as uftp while busy loops run, as a copier, as the chain in C, as a hub that sends copies alone, and
# with 1 % lost as without loss.
WANTED = {(1, 0): 2.0, (4, 0): 2.2, (16, 0): 1.9, (1, 5): 2.0, (4, 5): 1.7, (16, 5): 1.5}
WANTED_BESIDE = 1.0
WANTED_OF_COPIER = {(4, 0): 0.8, (16, 0): 0.8}
WANTED_OF_CHAIN = 0.7
WANTED_OF_COPIES = {(4, 0): 1.3, (16, 0): 2.0}
WANTED_WITHOUT_LOSS = 0.95
# Gaps for a hub that sends copies alone, by receivers. The best of them is run.
GAPS_OF_COPIES = {4: ('3', '6', '9', '13'), 16: ('12', '18', '21', '38')}
RATES = ('400000', '700000', '1000000', '2000000', '-1')
SENDER, INSTANCE = 1, 1
SYMBOL, COPIER_PORT, EVERYONE, PORT = 1400, 31000, '127.255.255.255', 20000
PACED_RECEIVERS, PACED_SIZE, PACED_GAP, PACED_LOOPS = 3, 20, '280', 8
LONE_RUNS, LONE_OCTETS = 11, 100


@dataclass(frozen=True)
class Way:
    """A program, its profiles, and their gap if it is not their own. Its nodes are joined by a hub, which sends copies alone if they are crowded, or
    they are a group. So many busy loops run beside them."""
    name: str
    program: str
    profiles: Path = PROFILES
    gap: str | None = None
    is_group: bool = False
    is_crowded: bool = False
    loops: int = 0

    def words(self) -> list[str]:
        return ['--group', EVERYONE] if self.is_group else []

    def keys(self) -> dict[str, object]:
        return {'gap': self.gap} if self.gap else {}


@dataclass(frozen=True)
class Run:
    """MB/s of the slowest receiver of a transfer, and the microseconds of a processor that hub and sender of normd took for a symbol."""
    speed: float
    hub: float | None = None
    sender: float | None = None


@dataclass(frozen=True)
class Rival:
    """What a row is compared with: a run of it, and how many times as fast normd is to be."""
    name: str
    run: Callable[[], Run | None]
    wanted: float | None = None


@dataclass
class Bench:
    """What is sent, and where all of it lies."""
    program: str
    size: int
    runs: int
    limit: float
    keys: dict[str, str]
    room: Path
    others: tuple[Way, ...] = ()
    gaps: tuple[str, ...] = ()
    with_copies: bool = False
    with_uftp: bool = False
    with_chain: bool = False
    loops: int = 0
    digest: str = ''
    memory: dict[str, int] = field(default_factory=dict)

    @property
    def own(self) -> Way:
        return Way('normd', self.program)

    def ways(self, receivers: int, loss: int) -> list[Way]:
        """The other ways of a row. A group is compared without loss, and with more than one receiver."""
        groups = [Way(f'a group with gap {gap}', self.program, gap=gap, is_group=True) for gap in self.gaps] if receivers > 1 and not loss else []
        return [*self.others, *([copies(self, receivers, loss)] if self.with_copies else []), *groups]

    def took(self, role: str, memory: int) -> None:
        self.memory[role] = max(memory, self.memory.get(role, 0))

    @property
    def source(self) -> Path:
        return self.room / 'source.bin'

    @property
    def library(self) -> Path:
        return self.room / 'rxloss.so'

    @property
    def copier(self) -> Path:
        return self.room / 'copier'

    @property
    def chain(self) -> Path:
        return self.room / 'chain'

    def prepare(self) -> None:
        for made in (self.copier, self.chain):
            subprocess.run(['cc', '-O2', '-o', made, HERE / f'{made.name}.c'], check=True)
        subprocess.run(['cc', '-O2', '-shared', '-fPIC', '-o', self.library, HERE / 'rxloss.c', '-ldl'], check=True)
        with self.source.open('wb') as out:
            for _ in range(self.size):
                out.write(os.urandom(MIB))
        self.digest = hashlib.sha256(self.source.read_bytes()).hexdigest()

    def losing(self, loss: float) -> dict[str, str]:
        return {**os.environ, 'RXLOSS': str(loss), 'LD_PRELOAD': str(self.library)} if loss else dict(os.environ)


def profile_of(bench: Bench, name: str, receivers: int, folder: Path = PROFILES, **more: object) -> str:
    """The profile's text, with the keys that were asked for in place of its own."""
    keys = {'receivers': str(receivers), 'instance': str(INSTANCE), **bench.keys, **more}
    kept = [it for it in (folder / f'{name}.toml').read_text().splitlines() if it.split(' = ')[0] not in keys]
    return '\n'.join(kept + [f'{key} = {value}' for key, value in keys.items()]) + '\n'


def memory_of(process: subprocess.Popen) -> int:
    """The most octets of memory that a process had since it began its program."""
    status = Path(f'/proc/{process.pid}/status').read_text()
    return 1024 * int(next(line.split()[1] for line in status.splitlines() if line.startswith('VmHWM')))


def ended(processes: dict[object, subprocess.Popen]) -> dict[object, tuple[float, int]]:
    """Ends the processes, and returns the seconds of a processor and the octets of memory that each took."""
    memory = {name: memory_of(process) for name, process in processes.items()}
    for process in processes.values():
        process.terminate()
    used = {name: os.wait4(process.pid, 0)[2] for name, process in processes.items()}
    return {name: (it.ru_utime + it.ru_stime, memory[name]) for name, it in used.items()}


@contextmanager
def busy(loops: int) -> Iterator[None]:
    """So many busy loops at the usual priority. Each ends soon after this process does."""
    loop = 'while kill -0 $PPID 2>/dev/null; do i=0; while [ $i -lt 100000 ]; do i=$((i + 1)); done; done'
    usual = lambda: os.sched_setscheduler(0, os.SCHED_OTHER, os.sched_param(0))  # noqa: E731
    running = [subprocess.Popen(['sh', '-c', loop], preexec_fn=usual) for _ in range(loops)]
    try:
        yield
    finally:
        for it in running:
            it.kill()
            it.wait()


@contextmanager
def crowded_out(port: int) -> Iterator[None]:
    """Nobody else can bind the port of the broadcast address: so no receiver listens there, and a hub sends copies alone."""
    with socket.socket(socket.AF_INET, socket.SOCK_DGRAM) as it:
        it.bind((EVERYONE, port))
        yield


class Nodes:
    """The nodes of one run, each a process with a folder of its own in `room`, which is there within the block."""

    def __init__(self, bench: Bench, name: str, receivers: int, way: Way, loss: int = 0, **keys: object):
        self.bench, self.way, self.loss, self.running = bench, way, loss, {}
        self.receivers = range(SENDER + 1, SENDER + 1 + receivers)
        self.room = Path(tempfile.mkdtemp(prefix='normd-', dir=bench.room))
        (self.room / 'profile.toml').write_text(profile_of(bench, name, receivers, way.profiles, **way.keys(), **keys))
        self.around = ExitStack()

    def __enter__(self) -> Nodes:
        self.around.enter_context(busy(self.way.loops))
        if self.way.is_crowded:
            self.around.enter_context(crowded_out(int(self.bench.keys.get('port', PORT))))
        return self

    def __exit__(self, *error: object) -> None:
        for it in self.running.values():
            if it.returncode is None:
                it.kill()
                it.wait()
        self.around.close()
        shutil.rmtree(self.room)

    def folder(self, name: object) -> Path:
        (self.room / str(name)).mkdir(exist_ok=True)
        return self.room / str(name)

    def start(self, name: object, words: list[str], **how) -> subprocess.Popen:
        nothing = {'stdin': subprocess.DEVNULL, 'stdout': subprocess.DEVNULL}
        with open(self.room / f'{name}.log', 'wb') as log:
            self.running[name] = subprocess.Popen([self.way.program, *words], cwd=self.folder(name), stderr=log, **{**nothing, **how})
        return self.running[name]

    def start_others(self, **how) -> None:
        """Starts all but the sender, and waits until they are there."""
        if not self.way.is_group:
            self.start('hub', ['hub', '../profile.toml'])
        for node in self.receivers:
            self.start(node, ['recv', '../profile.toml', str(node), *self.way.words()], env=self.bench.losing(self.loss), **how)
        time.sleep(0.5)

    def send(self, script: str, **how) -> subprocess.Popen:
        (self.room / 'script').write_text(script)
        with (self.room / 'script').open() as source:
            return self.start('sender', ['send', '../profile.toml', *self.way.words()], stdin=source, env={**os.environ, 'XDG_STATE_HOME': str(self.room)}, **how)

    def wait(self, process: subprocess.Popen) -> tuple[float, int]:
        """Waits until a node ended by itself, or too long. Returns the seconds of a processor and the octets of memory that it took."""
        memory, end = 0, time.monotonic() + self.bench.limit
        while time.monotonic() < end:
            pid, status, used = os.wait4(process.pid, os.WNOHANG)
            if pid:
                process.returncode = os.waitstatus_to_exitcode(status)
                return used.ru_utime + used.ru_stime, memory
            memory = most_of(process, memory)
            time.sleep(0.005)
        process.kill()
        process.wait()
        return 0.0, memory

    def end_others(self) -> dict[object, tuple[float, int]]:
        return ended({name: it for name, it in self.running.items() if it.returncode is None})

    def tell(self) -> None:
        """Says what each node said."""
        for name in self.running:
            said = (self.room / f'{name}.log').read_text(errors='replace').strip()
            print(f'  node {name}: {said[-300:]}' if said else f'  node {name} said nothing', file=sys.stderr)

    def last_of(self, node: int) -> float | None:
        """When a receiver had the last octet. None if its copy is not the file."""
        digest, last = hashlib.sha256(), 0.0
        for at in range(self.bench.size):
            piece = self.room / str(node) / f'n{node}-i{INSTANCE}-x{at}'
            if not piece.exists():
                return None
            last = max(last, piece.stat().st_mtime)
            digest.update(piece.read_bytes())
        return last if digest.hexdigest() == self.bench.digest else None


def most_of(process: subprocess.Popen, most: int) -> int:
    """The most octets of memory that a process had, or those known before if it ends just now."""
    try:
        return memory_of(process)
    except (OSError, StopIteration):
        return most


def file_script(bench: Bench, folder: Path, step: int) -> str:
    """Puts the pieces of the file into the sender's folder, and returns the commands that send them."""
    octets, script = bench.source.read_bytes(), ''
    for at in range(bench.size):
        (folder / f'p{at}').write_bytes(octets[at * MIB:(at + 1) * MIB])
        script += f'1 file p{at}\n' + ('1 mark\n' if (at + 1) % step == 0 or at + 1 == bench.size else '')
    return script


def normd(bench: Bench, receivers: int, loss: int, way: Way) -> Run | None:
    """One transfer. None if a copy is not the file."""
    row = (receivers, loss) if (receivers, loss) in ROWS else (4, 0)
    with Nodes(bench, ROWS[row], receivers, way, loss) as nodes:
        script = file_script(bench, nodes.folder('sender'), FROM_WATERMARK[row])
        nodes.start_others()
        began = time.time()
        sender = nodes.send(script)
        took, memory = nodes.wait(sender)
        used = nodes.end_others()
        lasts = [nodes.last_of(node) for node in nodes.receivers]
        if None in lasts or sender.returncode:
            nodes.tell()
        if way == bench.own:
            bench.took('sender', memory)
            bench.took('hub', used['hub'][1])
            bench.took('receiver', max(used[node][1] for node in nodes.receivers))
    if None in lasts:
        return None
    symbols = bench.size * -(-MIB // SYMBOL)
    return Run(bench.size * MIB / (max(lasts) - began) / 1e6, 1e6 * used.get('hub', (0.0, 0))[0] / symbols, 1e6 * took / symbols)


def speed_of(run: Run | None) -> float | None:
    return run and run.speed


def only_speed(speed: float | None) -> Run | None:
    return speed and Run(speed)


def costs_said(runs: list[Run | None]) -> str:
    """What nodes of normd took for a symbol."""
    roles = {'hub': [it.hub for it in runs if it and it.hub], 'sender': [it.sender for it in runs if it and it.sender]}
    said = ' and '.join(f'{role} {statistics.median(took):.1f}' for role, took in roles.items() if took)
    return f', {said} microseconds a symbol' if said else ''


def copies(bench: Bench, receivers: int, loss: int) -> Way:
    """This program with a hub that sends copies alone, and the gap with which that is fastest."""
    ways = [Way(f'a hub of copies with {gap or "its"} gap', bench.program, gap=gap, is_crowded=True) for gap in GAPS_OF_COPIES.get(receivers, (None,))]
    return ways[0] if len(ways) == 1 else max(ways, key=lambda way: speed_of(normd(bench, receivers, loss, way)) or 0)


def uftp(bench: Bench, receivers: int, loss: float, rate: str, wires: list[int] | None = None) -> float | None:
    """One transfer by uftp at this rate in kilobits a second, -1 for as fast as it goes. `wires` gains the octets that the sender's interface sent."""
    room, running = Path(tempfile.mkdtemp(prefix='uftp-', dir=bench.room)), {}
    numbers = {at: f'0x{0x100 + at:08x}' for at in range(1, receivers + 1)}
    with Subnet(receivers + 1) as machines:
        for at, number in numbers.items():
            (room / str(at)).mkdir()
            words = [*machines.inside(at), 'uftpd', '-d', '-I', Subnet.CABLE, '-U', number, '-D', str(room / str(at)), '-B', '4194304']
            running[at] = subprocess.Popen(words, stdin=subprocess.DEVNULL, stdout=subprocess.DEVNULL, stderr=subprocess.DEVNULL, env=bench.losing(loss))
        time.sleep(0.7)
        words = [*machines.inside(0), 'uftp', '-I', Subnet.CABLE, '-R', rate, '-b', '1400', '-B', '4194304', '-t', '1', '-r', '0.05:0.01:1',
                 '-H', ','.join(numbers.values()), str(bench.source)]
        try:
            said = subprocess.run(words, stdin=subprocess.DEVNULL, stdout=subprocess.PIPE, stderr=subprocess.STDOUT, text=True, timeout=bench.limit).stdout
        except subprocess.TimeoutExpired:
            said = ''
        if wires is not None:
            wires.append(machines.sent(0))
        time.sleep(0.3)
        for process in running.values():
            process.kill()
            process.wait()
    copies = [room / str(at) / bench.source.name for at in numbers]
    same = sum(it.exists() and hashlib.sha256(it.read_bytes()).hexdigest() == bench.digest for it in copies)
    shutil.rmtree(room)
    told = [it for it in said.splitlines() if 'elapsed' in it.lower()]
    return bench.size * MIB / float(told[-1].split(':')[-1].split()[0]) / 1e6 if told and same == receivers else None


def best_rate(bench: Bench, receivers: int, loss: float) -> str:
    return max(RATES, key=lambda rate: uftp(bench, receivers, loss, rate) or 0)


def copied(bench: Bench, receivers: int) -> float | None:
    """One run of the bare copier. Returns MB/s of the slowest receiver, where each datagram brings a symbol."""
    running = []

    def start(*words: object) -> subprocess.Popen:
        running.append(subprocess.Popen([str(it) for it in (bench.copier, *words)], stdout=subprocess.PIPE, text=True))
        return running[-1]

    takers = [start('receive', COPIER_PORT + 1 + at) for at in range(receivers)]
    start('copy', COPIER_PORT, receivers)
    time.sleep(0.5)
    source = start('send', COPIER_PORT, bench.size * MIB // SYMBOL + 1)
    try:
        began = int(source.communicate(timeout=bench.limit)[0])
        told = [it.communicate(timeout=bench.limit)[0].split() for it in takers]
        return min(1000 * SYMBOL * int(number) / (int(last) - began) for number, last in told)
    except (subprocess.TimeoutExpired, ValueError):
        return None
    finally:
        for it in running:
            it.kill()
            it.wait()


def chained(bench: Bench, receivers: int) -> float | None:
    """One run of the source, hub and receivers in C. Returns MB/s of the slowest receiver, where each datagram brings a symbol."""
    number = bench.size * MIB // SYMBOL + 1
    said = subprocess.run([bench.chain, str(receivers), str(number)], stdin=subprocess.DEVNULL, stdout=subprocess.PIPE, text=True).stdout
    return 1000 * SYMBOL * number / int(said) if said else None


def said_of(figures: list[float | None], digits: int = 1) -> str:
    whole = [it for it in figures if it is not None]
    failed = f', {len(figures) - len(whole)} failed' if len(whole) < len(figures) else ''
    return f'{statistics.median(whole):.{digits}f} ({min(whole):.{digits}f} to {max(whole):.{digits}f}{failed})' if whole else 'none came through'


def times_of(ours: list[float | None], theirs: list[float | None]) -> list[float | None]:
    """How many times as fast normd is, by each pair of neighbouring runs."""
    return [one / other if one and other else None for one, other in zip(ours, theirs)]


def against(rival: Rival, ours: list[float | None], runs: list[Run | None]) -> str:
    theirs, wanted = [speed_of(it) for it in runs], f', wanted {rival.wanted}' if rival.wanted else ''
    return f'; {rival.name} {said_of(theirs)}{costs_said(runs)}, {said_of(times_of(ours, theirs), 2)} times{wanted}'


def rivals_of(bench: Bench, receivers: int, loss: int) -> list[Rival]:
    """What a row is compared with."""
    rivals = []
    for way in bench.ways(receivers, loss):
        wanted = WANTED_OF_COPIES.get((receivers, loss)) if way.is_crowded else None
        rivals.append(Rival(way.name, lambda way=way: normd(bench, receivers, loss, way), wanted))
    if loss == 1:
        return [*rivals, Rival('without loss', lambda: normd(bench, receivers, 0, bench.own), WANTED_WITHOUT_LOSS)]
    if bench.with_chain and not loss:
        rivals.append(Rival('the chain in C', lambda: only_speed(chained(bench, receivers)), WANTED_OF_CHAIN))
    if bench.with_uftp:
        rate = best_rate(bench, receivers, loss)
        rivals.append(Rival(f'uftp at {rate}', lambda: only_speed(uftp(bench, receivers, loss, rate)), WANTED_BESIDE if bench.loops else WANTED[receivers, loss]))
    elif (receivers, loss) in WANTED_OF_COPIER:
        rivals.append(Rival('a bare copier', lambda: only_speed(copied(bench, receivers)), WANTED_OF_COPIER[receivers, loss]))
    return rivals


def row(bench: Bench, receivers: int, loss: int) -> None:
    rivals = rivals_of(bench, receivers, loss)
    ours: list[Run | None] = []
    theirs: list[list[Run | None]] = [[] for _ in rivals]
    for _ in range(bench.runs):
        ours.append(normd(bench, receivers, loss, bench.own))
        for rival, runs in zip(rivals, theirs):
            runs.append(rival.run())
    speeds = [speed_of(it) for it in ours]
    line = f'{receivers} receivers, {loss:g} % lost: normd {said_of(speeds)}{costs_said(ours)}'
    print(line + ''.join(against(rival, speeds, runs) for rival, runs in zip(rivals, theirs)), flush=True)


def paced(bench: Bench) -> None:
    """A file at a slow pace, alone and beside busy loops."""
    programs = [replace(it, gap=PACED_GAP) for it in (bench.own, *bench.others)]
    ways = [it for program in programs for it in (program, replace(program, loops=PACED_LOOPS))]
    found: dict[Way, list[float | None]] = {way: [] for way in ways}
    for _ in range(bench.runs):
        for way in ways:
            run = normd(bench, PACED_RECEIVERS, 0, way)
            found[way].append(run and bench.size * MIB / run.speed / 1e6)
    for program in programs:
        alone, beside = found[program], found[replace(program, loops=PACED_LOOPS)]
        print(f'{bench.size} MiB to {PACED_RECEIVERS} receivers, gap {PACED_GAP}, {program.name}: {said_of(alone)} seconds, beside {PACED_LOOPS} busy loops '
              f'{said_of(beside)}, {said_of(times_of(beside, alone), 2)} times, wanted at most 1.5', flush=True)


def told(nodes: Nodes) -> float | None:
    """Milliseconds from the sender's line `enq` to the last receiver's `up`, each as it comes here."""
    began, waiting, end = None, set(nodes.receivers), time.monotonic() + nodes.bench.limit
    with selectors.DefaultSelector() as ready:
        for name in ('sender', *nodes.receivers):
            ready.register(nodes.running[name].stdout, selectors.EVENT_READ, name)
        while time.monotonic() < end:
            for key, _ in ready.select(1):
                now, said = time.monotonic(), os.read(key.fd, 65536)
                if key.data == 'sender' and began is None and said.startswith(b'enq '):
                    began = now
                elif key.data in waiting and b'up ' in said:
                    waiting.discard(key.data)
                if not said:
                    ready.unregister(key.fileobj)
                if began is not None and not waiting:
                    return 1000 * (now - began)
    return None


def lone_once(bench: Bench, receivers: int, way: Way) -> float | None:
    with Nodes(bench, ROWS[receivers, 0], receivers, way) as nodes:
        nodes.start_others(stdout=subprocess.PIPE)
        nodes.send(f'1 data {"61" * LONE_OCTETS}\n1 mark\n', stdout=subprocess.PIPE)
        return told(nodes)


def lone(bench: Bench, receivers: int, wanted: float) -> None:
    """An object of a hundred octets to nodes to which nothing else comes."""
    ways = (bench.own, *bench.others)
    found: dict[Way, list[float | None]] = {way: [] for way in ways}
    for _ in range(LONE_RUNS):
        for way in ways:
            found[way].append(lone_once(bench, receivers, way))
    for way, figures in found.items():
        print(f'{LONE_OCTETS} octets to {receivers} receivers, {way.name}: {said_of(figures, 2)} milliseconds from `enq` to the last `up`, '
              f'wanted at most {wanted}', flush=True)


def idle(bench: Bench, way: Way, seconds: int = 10) -> None:
    """Which part of a processor each node takes where nothing is sent. The sender's second object waits for room, since nobody is asked for the first."""
    with Nodes(bench, 'loopback', 1, way, window=1) as nodes:
        nodes.start_others()
        nodes.send('1 data 61\n1 data 62\n')
        time.sleep(seconds)
        for name, it in nodes.running.items():
            if it.poll() is not None:
                print(f'idle {name}: it ended with status {it.returncode}', flush=True)
        for name, (took, memory) in nodes.end_others().items():
            what = {'hub': 'hub', 'sender': 'waiting sender'}.get(name, 'receiver')
            print(f'idle {what}, {way.name}: {100 * took / seconds:.2f} in 100 of a processor, {memory / MIB:.1f} MiB', flush=True)


def rows_of(bench: Bench, rows: list[tuple[int, int]]) -> None:
    with busy(bench.loops):
        for receivers, loss in rows:
            row(bench, receivers, loss)
    most = bench.memory.get('receiver', 0)
    print(f'the greatest memory of a receiver: {most / MIB:.0f} MiB, {(most - 32 * MIB) / (bench.size * MIB):.2f} times the octets and 32 MiB')
    print(f'the greatest memory of the hub: {bench.memory.get("hub", 0) / MIB:.1f} MiB, of the sender: {bench.memory.get("sender", 0) / MIB:.1f} MiB', flush=True)


def take(bench: Bench, given: argparse.Namespace) -> None:
    """Takes the figures that were asked for."""
    bench.prepare()
    if given.paced:
        paced(bench)
    elif given.lone:
        lone(bench, 1, 0.5)
        lone(bench, 16, 1.5)
    else:
        rows_of(bench, [tuple(int(part) for part in it.split(':')) for it in given.only] or list(ROWS))
    if given.lone or not (given.paced or given.beside or given.only):
        for way in (bench.own, *(bench.others if given.lone else ())):
            idle(bench, way)


def others_of(given: argparse.Namespace) -> tuple[Way, ...]:
    before = (Way('before', given.before[0], Path(given.before[1])),) if given.before else ()
    return (*before, *((Way('against', given.against),) if given.against else ()))


def main() -> int:
    parser = argparse.ArgumentParser(description=__doc__, formatter_class=argparse.RawDescriptionHelpFormatter)
    parser.add_argument('--program', default=str(HERE.parent.parent / 'crates/normd/out/normd'))
    parser.add_argument('--size', type=int, default=64)
    parser.add_argument('--runs', type=int, default=9)
    parser.add_argument('--limit', type=float, default=120)
    parser.add_argument('--only', nargs='*', default=[])
    parser.add_argument('--set', nargs='*', default=[])
    parser.add_argument('--before', nargs=2, metavar=('NORMD', 'PROFILES'))
    parser.add_argument('--group', nargs='*', default=[], metavar='GAP')
    parser.add_argument('--against', metavar='NORMD')
    parser.add_argument('--beside', type=int, default=0, metavar='N')
    for word in ('--copies', '--paced', '--lone', '--no-uftp', '--no-chain'):
        parser.add_argument(word, action='store_true')
    given = parser.parse_args()
    bench = Bench(given.program, PACED_SIZE if given.paced else given.size, given.runs, given.limit, dict(it.split('=', 1) for it in given.set),
                  Path(tempfile.mkdtemp(prefix='bench-', dir='/dev/shm')), others_of(given), tuple(given.group), given.copies,
                  not given.no_uftp and shutil.which('uftp') is not None, not given.no_chain, given.beside)
    try:
        take(bench, given)
    finally:
        shutil.rmtree(bench.room, ignore_errors=True)
    return 0


if __name__ == '__main__':
    sys.exit(main())
