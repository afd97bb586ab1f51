"""The lab's machines: one subnet whose cables may lose, delay, reorder and repeat, and the processes on it. Takes away what a killed lab left."""
from __future__ import annotations

import contextlib
import fcntl
import os
import shutil
import signal
import subprocess
import sys
import time
from collections.abc import Iterator
from dataclasses import dataclass
from pathlib import Path

HERE = Path(__file__).resolve().parent
sys.path[:0] = [str(HERE.parent)]
from subnet import Subnet, ip  # noqa: E402

MARK, ROOM, LOCK = 'normd-lab', Path('/dev/shm/normd-lab'), Path('/dev/shm/normd-lab.lock')
SPACES = Path('/run/netns')
# The most octets of a receive buffer that a program gets: what normd asks for, and what Linux has by itself.
MOST_BUFFER, KEPT_BUFFER = Path('/proc/sys/net/core/rmem_max'), ROOM / 'rmem_max'
WIDE, NARROW = 4_194_304, 212_992
FIRST_SEED, STARTS = 100, 0.3
LOOKS, ENDS = 50, 0.02


class LabFault(Exception):
    """Why the lab cannot run."""


@dataclass(frozen=True)
class Harm:
    """What a cable does to the datagrams that go through it, each way: shares in 100, and milliseconds."""
    lost: float = 0
    late: float = 0
    reordered: float = 0
    repeated: float = 0

    def is_none(self) -> bool:
        return self == Harm()


def there_in(space: str) -> list[int]:
    """The processes in a namespace."""
    return [int(it) for it in subprocess.run(['ip', 'netns', 'pids', space], stdout=subprocess.PIPE, stderr=subprocess.DEVNULL, text=True).stdout.split()]


def end_all(space: str) -> None:
    """Ends all processes in one of the lab's namespaces, which are those that a lab started there and what they started."""
    # One that starts another meanwhile leaves that to the next look.
    for _ in range(LOOKS):
        for pid in (pids := there_in(space)):
            with contextlib.suppress(ProcessLookupError):
                os.kill(pid, signal.SIGKILL)
        if not pids:
            return
        time.sleep(ENDS)


def clear() -> None:
    """Takes away what this lab or a killed one made, and gives the system its limit of receive buffers back."""
    for space in sorted(it.name for it in SPACES.glob(f'{MARK}-*')):
        end_all(space)
        ip('netns', 'del', space)
    if KEPT_BUFFER.exists():
        MOST_BUFFER.write_text(KEPT_BUFFER.read_text())
    shutil.rmtree(ROOM, ignore_errors=True)


@contextlib.contextmanager
def alone() -> Iterator[Path]:
    """The lab's room, which one lab has at a time."""
    with LOCK.open('w') as lock:
        try:
            fcntl.flock(lock, fcntl.LOCK_EX | fcntl.LOCK_NB)
        except BlockingIOError:
            raise LabFault('another lab is running') from None
        clear()
        try:
            ROOM.mkdir()
            KEPT_BUFFER.write_text(MOST_BUFFER.read_text())
            yield ROOM
        finally:
            clear()


class Lab(Subnet):
    """Machine 0 has the sender, and each other machine a receiver. Of the sender's frames to all, the switch passes on `broadcasts` a second; with 0, all."""

    def __init__(self, receivers: int, harm: Harm = Harm(), broadcasts: int = 0, buffer: int = WIDE):
        super().__init__(1 + receivers, MARK)
        self.harm, self.broadcasts, self.buffer, self.running = harm, broadcasts, buffer, []

    def __enter__(self) -> Lab:
        MOST_BUFFER.write_text(str(self.buffer))
        super().__enter__()
        for at in self.machines:
            self.make_frames_whole(at)
            if self.broadcasts if at == 0 else not self.harm.is_none():
                self.spoil(at)
        time.sleep(STARTS)
        return self

    def __exit__(self, *_) -> None:
        for space in (*map(self.name, self.machines), self.switch):
            end_all(space)
        for process in self.running:
            process.wait()
        super().__exit__()

    def make_frames_whole(self, at: int) -> None:
        """Has each datagram be a frame of its own, which an emulator can lose and the interface counts, and not one of several that are cut apart later."""
        ip('-n', self.name(at), 'link', 'set', self.CABLE, 'gso_max_segs', 1)
        ip('-n', self.switch, 'link', 'set', self.port(at), 'gso_max_segs', 1)

    def spoil(self, at: int) -> None:
        """Puts an emulator between a machine's cable and the switch."""
        near, far, switch = f'near{at}', f'far{at}', ('-n', self.switch)
        if not (ip(*switch, 'link', 'set', self.port(at), 'nomaster') and ip(*switch, 'link', 'add', near, 'type', 'veth', 'peer', 'name', far)
                and ip(*switch, 'link', 'set', near, 'up') and ip(*switch, 'link', 'set', far, 'master', 'switch', 'up')):
            raise LabFault(f'no emulator can be put before machine {at}')
        harm, broadcasts = (self.harm, 0) if at else (Harm(), self.broadcasts)
        self.start_in(self.switch, [ROOM / 'emu', self.port(at), near, harm.lost, harm.late, harm.reordered, harm.repeated, broadcasts, FIRST_SEED + at])

    def start_in(self, space: str, words: list[object], log: Path | None = None, **how: object) -> subprocess.Popen:
        """Starts a process, as the first of a group of its own. What it says is added to the log."""
        with open(log or os.devnull, 'ab') as said:
            self.running.append(subprocess.Popen(['ip', 'netns', 'exec', space, *map(str, words)], stdin=subprocess.DEVNULL, stdout=said, stderr=said,
                                                 start_new_session=True, **how))
        return self.running[-1]

    def start(self, at: int, words: list[object], log: Path, **how: object) -> subprocess.Popen:
        return self.start_in(self.name(at), words, log, **how)

    def signal(self, process: subprocess.Popen, how: int) -> None:
        """Sends a signal to a process that still runs and to all that it started, as a terminal does."""
        if process.poll() is None:
            os.killpg(process.pid, how)

    def kill(self, process: subprocess.Popen) -> None:
        self.signal(process, signal.SIGKILL)
        process.wait()
