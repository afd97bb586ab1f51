"""The rows of the table: how many machines there are, what their cables do, and what happens meanwhile."""
from __future__ import annotations

import os
import signal
import time
from collections.abc import Callable
from dataclasses import dataclass

from machines import NARROW, WIDE, Harm
from transfer import Transfer

VICTIM = 2  # the machine that something happens to
STOPPED, AWAY, AGAIN = 10, 5, 1  # seconds
BUSY_LOOPS, SMALL_FILES, ODD_NAMES = 8, 2000, ('-dash', 'with space', 'größe', 'a' * 200, 'empty', 'run.sh', 'new\nline', '.hidden')


@dataclass(frozen=True)
class Row:
    """`absent`: the machines without a receiver at first; `dead`: those whose interface is down throughout."""
    name: str
    title: str
    harm: Harm = Harm()
    receivers: int = 3
    broadcasts: int = 0
    buffer: int = WIDE
    absent: tuple[int, ...] = ()
    dead: tuple[int, ...] = ()
    other_b: int = 0
    before: Callable[[Transfer], None] | None = None
    meanwhile: Callable[[Transfer], None] | None = None


def killed(run: Transfer) -> None:
    run.wait_until_amid(VICTIM)
    run.lab.kill(run.receivers[VICTIM])


def again(run: Transfer) -> None:
    killed(run)
    time.sleep(AGAIN)
    run.receive(VICTIM)


def late(run: Transfer) -> None:
    run.wait_until_amid(VICTIM)
    run.receive(VICTIM)


def stopped(run: Transfer) -> None:
    run.wait_until_amid(VICTIM)
    run.lab.signal(run.receivers[VICTIM], signal.SIGSTOP)
    time.sleep(STOPPED)
    run.lab.signal(run.receivers[VICTIM], signal.SIGCONT)


def sender_again(run: Transfer) -> None:
    run.wait_until_amid(VICTIM)
    run.kill_sender()
    run.source.write_bytes(os.urandom(run.source.stat().st_size))
    time.sleep(AGAIN)
    run.send()


def second(run: Transfer) -> None:
    run.wait_for_sender()
    run.wait_for_copies()
    run.source = run.source.with_name('second')
    run.source.write_bytes(os.urandom(run.source.with_name('first').stat().st_size))
    run.receive_again()
    run.send()


def interrupted(run: Transfer) -> None:
    run.wait_until_amid(VICTIM)
    run.lab.signal(run.sender, signal.SIGINT)


def interface_down(run: Transfer) -> None:
    run.wait_until_amid(VICTIM)
    run.lab.sets_cable(VICTIM, False)
    time.sleep(AWAY)
    run.lab.sets_cable(VICTIM, True)


def cable_out(run: Transfer) -> None:
    run.wait_until_amid(VICTIM)
    run.lab.sets_port(VICTIM, False)
    time.sleep(AWAY)
    run.lab.sets_port(VICTIM, True)


def busy(run: Transfer) -> None:
    for _ in range(BUSY_LOOPS):
        run.lab.start(0, ['sh', '-c', 'while :; do :; done'], run.room / 'busy.log')


def small_disk(run: Transfer) -> None:
    run.small_disks.add(VICTIM)


def tree(run: Transfer) -> None:
    """In place of the file, a folder with many small files and some with names that are seldom tried."""
    run.source = run.source.with_name('tree')
    (run.source / 'small').mkdir(parents=True)
    for at in range(SMALL_FILES):
        (run.source / 'small' / f'{at % 40}-{at}.txt').write_bytes(os.urandom(7 * at % 3000))
    for at, name in enumerate(ODD_NAMES):
        (run.source / name).write_bytes(b'' if name == 'empty' else os.urandom(1 + at))


ROWS = {it.name: it for it in (
    Row('plain', 'nothing lost'),
    Row('lost-1', '1 % lost', Harm(lost=1)),
    Row('lost-10', '10 % lost', Harm(lost=10)),
    Row('lost-30', '30 % lost', Harm(lost=30)),
    Row('delayed', '50 ms each way', Harm(late=50)),
    Row('reordered', '10 % reordered', Harm(reordered=10)),
    Row('repeated', '10 % repeated', Harm(repeated=10)),
    Row('dead', 'one dead', dead=(VICTIM,)),
    Row('killed', 'one killed for good', meanwhile=killed),
    Row('full', 'one disk full', before=small_disk),
    Row('again', 'one killed and started again', meanwhile=again),
    Row('late', 'one started late', absent=(VICTIM,), meanwhile=late),
    Row('stopped', 'one stopped for 10 s', meanwhile=stopped),
    Row('sender', 'sender killed, again, another file', meanwhile=sender_again),
    Row('second', 'a second file', meanwhile=second),
    Row('interrupted', 'Ctrl-C at the sender', meanwhile=interrupted),
    Row('tree', f'{SMALL_FILES + len(ODD_NAMES):,} files', before=tree),
    Row('busy', 'eight busy loops beside', before=busy),
    Row('down', "one machine's interface down for 5 s", meanwhile=interface_down),
    Row('unplugged', "one machine's cable out for 5 s", meanwhile=cable_out),
    Row('other-b', 'another `b` at one machine', other_b=VICTIM),
    Row('twelve', '12 machines, one dead', receivers=12, dead=(VICTIM,)),
    Row('buffers', 'receive buffers of 212,992 octets', buffer=NARROW),
    Row('storm', 'broadcast cut off above 2,000 a second', broadcasts=2000))}
