"""Nodes as processes of a tool: they end with it, whatever ends it, and a line of progress gives way to what they say.

A tool calls `end_by_signals`, starts each node by `Node` from its main thread, and ends its `main` by `Ended.said` if a signal came."""
from __future__ import annotations

import ctypes
import fcntl
import functools
import os
import shutil
import signal
import subprocess
import sys
import tempfile
import threading
import time
from collections.abc import Callable, Iterator
from contextlib import contextmanager, suppress
from pathlib import Path
from typing import IO

import norm_record
import norm_wire as wire
from norm_record import Recorder
from norm_wire import ToolFault

SIGNALS = (signal.SIGINT, signal.SIGTERM, signal.SIGHUP)
PR_SET_PDEATHSIG = 1  # of Linux, prctl(2)
LIBC = ctypes.CDLL(None)
PATIENCE = 3  # the seconds that a node is given to end: one that is stopped does not hear that it is to end
LOCK, LONG_DEAD = 'lock', 60  # a folder that is younger, in seconds, may be one that its tool did not lock yet
DRAWN_EACH, WIPED = 1.0, '\r\033[K'  # seconds; what takes a line of a terminal away


class Ended(BaseException):
    """A signal ended the tool. Who catches it notes what was reached, for the one line that is said."""

    def __init__(self, number: int):
        super().__init__(number)
        self.number, self.reached = number, 'nothing was done'

    def said(self, tool: str) -> int:
        """Says it, and gives the status."""
        print(f'{tool}: ended by {signal.Signals(self.number).name}: {self.reached}', file=sys.stderr)
        return 128 + self.number


def end_by_signals() -> None:
    """From now on a signal that would end the tool raises `Ended`, once: what follows may end the nodes in peace. A signal that the tool's parent
    turned off, as `nohup` does, stays so."""
    def end(number: int, _: object) -> None:
        for each in SIGNALS:
            signal.signal(each, signal.SIG_IGN)
        raise Ended(number)

    for number in SIGNALS:
        if signal.getsignal(number) != signal.SIG_IGN:
            signal.signal(number, end)


@contextmanager
def held() -> Iterator[None]:
    """Signals wait until the end of the block: one that comes as a process starts would leave it to nobody."""
    signal.pthread_sigmask(signal.SIG_BLOCK, SIGNALS)
    try:
        yield
    finally:
        signal.pthread_sigmask(signal.SIG_UNBLOCK, SIGNALS)


def end_with(parent: int) -> None:
    """Called in a new process: it is killed as soon as its parent is gone, also if that was killed. Signals do what they do by default."""
    for number in SIGNALS:
        if signal.getsignal(number) != signal.SIG_IGN:
            signal.signal(number, signal.SIG_DFL)
    signal.pthread_sigmask(signal.SIG_UNBLOCK, SIGNALS)
    LIBC.prctl(PR_SET_PDEATHSIG, int(signal.SIGKILL))
    if os.getppid() != parent:  # it was gone before the call
        os._exit(1)


class Progress:
    """A line on a terminal that says how far a tool is. It is wiped before anything else is said there."""

    def __init__(self) -> None:
        self.shows, self.drawn, self.lock = sys.stderr.isatty(), False, threading.Lock()

    def draw(self, words: str) -> None:
        if self.shows:
            with self.lock:
                sys.stderr.write(WIPED + words[:max(20, shutil.get_terminal_size().columns - 1)])
                sys.stderr.flush()
                self.drawn = True

    def say(self, line: str) -> None:
        """Says a line on standard error."""
        with self.lock:
            self.wipe()
            print(line, file=sys.stderr, flush=True)

    def wipe(self) -> None:
        if self.drawn:
            sys.stderr.write(WIPED)
            sys.stderr.flush()
            self.drawn = False

    @contextmanager
    def drawing(self, words: Callable[[], str]) -> Iterator[None]:
        """Draws what `words` says once a second, until the block ends."""
        over = threading.Event()

        def draw() -> None:
            while not over.wait(DRAWN_EACH):
                self.draw(words())

        drawer = threading.Thread(target=draw, daemon=True)
        if self.shows:
            drawer.start()
        try:
            yield
        finally:
            over.set()
            if self.shows:
                drawer.join()
            self.wipe()


class Speed:
    """Octets a second over the last seconds, of a count that rises in steps."""
    OVER = 5.0

    def __init__(self) -> None:
        self.steps = [(time.monotonic(), 0)]

    def add(self, count: int) -> None:
        """Notes what the count is now. Of the steps before the last seconds one is kept."""
        if count == self.steps[-1][1]:
            return
        now = time.monotonic()
        self.steps.append((now, count))
        while len(self.steps) > 2 and self.steps[1][0] < now - self.OVER:
            del self.steps[0]

    def now(self) -> float:
        (since, before), (_, count) = self.steps[0], self.steps[-1]
        return (count - before) / max(time.monotonic() - since, 0.001)


def of_the_whole(count: int, total: int, speed: Speed) -> str:
    """The share in 100, the speed, and the time that is left at this speed."""
    rate = speed.now()
    left = f', {duration((total - count) / rate)} left' if rate and count < total else ''
    return f'{100 * count // max(total, 1)} in 100, {rate / 1e6:,.1f} MB/s{left}'


def duration(seconds: float) -> str:
    """A time as h:mm:ss or m:ss."""
    minutes, rest = divmod(int(min(seconds, 359_999)), 60)
    return f'{minutes // 60}:{minutes % 60:02}:{rest:02}' if minutes >= 60 else f'{minutes}:{rest:02}'


class Node:
    """A node that runs until the block ends. It is in a process group of its own, so that Ctrl-C at a terminal reaches the tool alone."""

    def __init__(self, words: list[str], folder: Path, progress: Progress, source: IO | int = subprocess.DEVNULL, recorder: Recorder | None = None):
        # A node draws no progress of its own: the tool does.
        environment = {**os.environ, 'NORMD_PROGRESS': '0', **({'NORMD_LOG': 'record'} if recorder else {})}
        self.start = functools.partial(subprocess.Popen, words, cwd=folder, stdin=source, stdout=subprocess.PIPE, stderr=subprocess.PIPE,
                                       env=environment, process_group=0, preexec_fn=functools.partial(end_with, os.getpid()))
        self.progress, self.recorder, self.listener = progress, recorder, threading.Thread(target=self.listen, daemon=True)

    def listen(self) -> None:
        """Says what the node says, a line at a time, and keeps what it notes for a record."""
        for line in self.process.stderr:
            if self.recorder and self.recorder.is_noted(line):
                continue
            with suppress(OSError):  # nobody listens any more, and the node is not to wait for that
                self.progress.say(line.decode(errors='replace').rstrip('\n'))

    def __enter__(self) -> Node:
        try:
            with held():
                self.process = self.start()
                self.listener.start()
        except Ended:  # a signal had waited
            self.__exit__()
            raise
        return self

    def wait(self) -> int:
        """Its status, after all that it said was passed on."""
        status = self.process.wait()
        self.listener.join()
        return status

    def __exit__(self, *_: object) -> None:
        self.process.terminate()
        try:
            self.process.wait(PATIENCE)
        except subprocess.TimeoutExpired:
            self.process.kill()
        self.wait()
        if self.recorder:
            self.recorder.close()
        self.process.stdout.close()


def recorder_of(folder: str | None, node: int, keys: dict[str, int | str], progress: Progress) -> Recorder | None:
    """What keeps a node's record in a new folder, if one is asked for."""
    return Recorder(norm_record.made(folder), node, keys, progress.say) if folder else None


def refusal(error: OSError, own: Path, place: str) -> ToolFault:
    """What the system refused, as a sentence. Who reads it knows the place, and not the paths that begin as `own`, which are the tool's."""
    named = os.path.abspath(os.fsdecode(error.filename)) if isinstance(error.filename, (str, bytes, Path)) else ''
    is_own = not named or named.startswith(os.path.abspath(own))
    return ToolFault(f'{place if is_own else os.fsdecode(error.filename)} cannot be read or written: {error.strerror or error}.', wire.FAILED)


def lock_of(folder: Path) -> int | None:
    """Makes a folder that is the tool's alone as long as the descriptor that this returns is open. None if another tool has it."""
    while True:
        folder.mkdir(parents=True, exist_ok=True)
        with suppress(FileNotFoundError):  # whoever had it is taking it away
            lock = os.open(folder / LOCK, os.O_RDWR | os.O_CREAT | os.O_CLOEXEC, 0o600)
            try:
                fcntl.flock(lock, fcntl.LOCK_EX | fcntl.LOCK_NB)
                if os.fstat(lock).st_ino == os.stat(folder / LOCK).st_ino:
                    return lock
            except BlockingIOError:
                os.close(lock)
                return None
            except FileNotFoundError:
                pass
            os.close(lock)


def empty(folder: Path) -> bool:
    """Takes away all but the lock. Whether there was anything."""
    found = [it for it in folder.iterdir() if it.name != LOCK]
    for it in found:
        shutil.rmtree(it) if it.is_dir() and not it.is_symlink() else it.unlink()
    return bool(found)


@contextmanager
def room(folder: Path, taken: str, left: Callable[[], None]) -> Iterator[Path]:
    """A folder of the tool's own, which is gone after the block. If another tool has it, `taken` says so; if one was killed there, `left` is
    called."""
    lock = lock_of(folder)
    if lock is None:
        raise ToolFault(taken)
    try:
        if empty(folder):
            left()
        yield folder
    finally:
        empty(folder)
        with suppress(OSError):
            (folder / LOCK).unlink()
            folder.rmdir()
        os.close(lock)


@contextmanager
def temporary(prefix: str) -> Iterator[Path]:
    """A folder of the tool's own below the system's for such. Those that killed tools left there go away first: they may hold much."""
    place = Path(tempfile.gettempdir())
    sweep(place, f'{prefix}*')
    with room(Path(tempfile.mkdtemp(prefix=prefix, dir=place)), 'it is in use.', lambda: None) as made:
        yield made


def sweep(folder: Path, names: str) -> None:
    """Takes away the folders of this user that tools left which were killed."""
    for found in folder.glob(names):
        with suppress(OSError):
            seen = (found / LOCK).stat()
            if seen.st_uid != os.getuid() or time.time() - seen.st_mtime < LONG_DEAD:
                continue
            with (found / LOCK).open('rb+') as lock:
                fcntl.flock(lock, fcntl.LOCK_EX | fcntl.LOCK_NB)
                shutil.rmtree(found)
