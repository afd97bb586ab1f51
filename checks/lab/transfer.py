"""One transfer in the lab, and what came of it."""
from __future__ import annotations

import contextlib
import hashlib
import os
import subprocess
import threading
import time
from dataclasses import dataclass
from pathlib import Path
from typing import TYPE_CHECKING

from machines import ROOM, Lab
from ways import Given, Way

if TYPE_CHECKING:
    from rows import Row

AMID = 3  # a transfer is amid once a machine's interface took one part in this many
SMALL_DISK = 0.4  # of the file
UNNAMED = '.norm'  # folders of normd and libnorm with files that are not whole begin so
POLL, READY, COPIES, LINGER = 0.05, 1.0, 6.0, 30.0  # seconds


@dataclass(frozen=True)
class Outcome:
    """What came of a transfer: the seconds until the sender ended, if it did, and the octets that its interface sent until then."""
    seconds: float | None
    wire: int
    status: int | None
    machines: int
    lacking: frozenset[int]
    named: frozenset[int]
    said: str

    def has(self) -> str:
        """Who has everything, and what the sender says of those that do not."""
        if not self.lacking:
            return 'all' if not self.status and not self.named else 'all; false alarm'
        count = self.machines - len(self.lacking)
        return f'{count} of {self.machines}; {self.word()}' if count else f'nobody; {self.word()}'

    def word(self) -> str:
        if 'Traceback' in self.said:
            return f'a traceback of {len(self.said.splitlines())} lines'
        if self.named == self.lacking:
            return 'named'
        if self.named:
            return 'named ' + ', '.join(map(str, sorted(self.named)))
        return 'not said' if self.status == 0 else 'unnamed'


def digests(folder: Path) -> dict[str, str]:
    """The files below a folder that have got their names, each with its digest. A receiver may change the folder meanwhile."""
    found = {}
    for place, folders, names in os.walk(folder):
        folders[:] = [it for it in folders if not it.startswith(UNNAMED)]
        for file in (Path(place) / name for name in names):
            with contextlib.suppress(FileNotFoundError):
                found[file.relative_to(folder).as_posix()] = hashlib.sha256(file.read_bytes()).hexdigest()
    return found


class Transfer:
    """A sender on machine 0, and a receiver on each other. `source` is what is sent; accidents act on all of it."""

    def __init__(self, given: Given, row: Row, way: type[Way], lab: Lab):
        self.given, self.row, self.lab, self.room = given, row, lab, ROOM / 'run'
        self.room.mkdir()
        self.source = self.room / 'source' / 'first'
        self.source.parent.mkdir()
        self.source.write_bytes(os.urandom(given.octets))
        self.way = way(given, lab, self.room, row.other_b)
        self.receivers: dict[int, subprocess.Popen] = {}
        self.small_disks: set[int] = set()
        self.env = {**os.environ, 'XDG_STATE_HOME': str(self.room / 'state'), 'TMPDIR': str(self.room)}

    def folder(self, at: int) -> Path:
        return self.room / str(at)

    def receive(self, at: int) -> None:
        """Starts the receiver of a machine. A small disk is mounted for it alone, and is gone with it."""
        self.folder(at).mkdir(exist_ok=True)
        words = self.way.receiver(at, self.folder(at), self.source)
        if at in self.small_disks:
            mount = f'mount -t tmpfs -o size={int(SMALL_DISK * self.given.octets)} none {self.folder(at)} && exec "$@"'
            words = ['sh', '-c', mount, 'sh', *words]
        self.receivers[at] = self.lab.start(at, words, self.room / f'{at}.log', env=self.env)

    def receive_again(self) -> None:
        """Starts the receivers that end with a transfer once more, after they ended."""
        end = time.monotonic() + LINGER
        for at, process in () if self.way.stays else self.receivers.items():
            try:
                process.wait(max(0, end - time.monotonic()))
            except subprocess.TimeoutExpired:
                self.lab.kill(process)
        for at in () if self.way.stays else list(self.receivers):
            self.receive(at)
        time.sleep(READY)

    def send(self) -> None:
        self.log = self.room / 'sender.log'
        self.log.unlink(missing_ok=True)
        self.ended, self.wire, self.began = None, self.lab.sent(0), time.monotonic()
        self.sender = self.lab.start(0, self.way.sender(self.source), self.log, env=self.env)
        self.watcher = threading.Thread(target=self.watch, args=(self.sender,), daemon=True)
        self.watcher.start()

    def watch(self, sender: subprocess.Popen) -> None:
        """Writes down when a sender ended, also if that is during an accident."""
        sender.wait()
        self.ended = time.monotonic() - self.began, self.lab.sent(0) - self.wire

    def wait_for_sender(self) -> None:
        """Waits until the sender ends, at most until the limit."""
        self.watcher.join(max(0, self.began + self.given.limit - time.monotonic()))

    def kill_sender(self) -> None:
        self.lab.kill(self.sender)
        self.watcher.join()

    def wait_until_amid(self, at: int) -> None:
        """Waits until a part of the file reached a machine's interface, or the sender ended."""
        amid, end = self.given.octets // AMID, self.began + self.given.limit
        while self.sender.poll() is None and time.monotonic() < end and self.lab.counted(at, 'rx_bytes') < amid:
            time.sleep(POLL)

    def lacking(self) -> frozenset[int]:
        sent = digests(self.source) if self.source.is_dir() else {self.source.name: digests(self.source.parent)[self.source.name]}
        came = {at: digests(self.way.place(self.folder(at), self.source)) for at in self.way.receivers()}
        return frozenset(at for at, files in came.items() if any(files.get(name) != digest for name, digest in sent.items()))

    def wait_for_copies(self) -> frozenset[int]:
        """The machines that lack something, some seconds after the sender ended: a receiver may still put its copy together."""
        end = time.monotonic() + COPIES
        while (lacking := self.lacking()) and time.monotonic() < end:
            time.sleep(10 * POLL)
        return lacking

    def run(self) -> Outcome:
        if self.row.before:
            self.row.before(self)
        for at in self.row.dead:
            self.lab.sets_cable(at, False)
        self.way.start()
        for at in self.way.receivers():
            if at not in (*self.row.dead, *self.row.absent):
                self.receive(at)
        time.sleep(READY)
        self.send()
        if self.row.meanwhile:
            self.row.meanwhile(self)
        self.wait_for_sender()
        return self.outcome()

    def outcome(self) -> Outcome:
        ended, status = self.ended, self.sender.poll()
        if ended is None:
            status, wire = None, self.lab.sent(0) - self.wire
            self.kill_sender()
        lacking = self.lacking() if ended is None else self.wait_for_copies()
        said = self.log.read_text(errors='replace').replace('\r', '\n')
        seconds, wire = ended or (None, wire)
        return Outcome(seconds, wire, status, len(self.way.receivers()), lacking, frozenset(self.way.named(said)), said)
