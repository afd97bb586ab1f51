"""Round trips to other machines: ICMP echoes by a socket that needs no rights, or else by the command `ping`."""
from __future__ import annotations

import re
import select
import shutil
import socket
import struct
import subprocess
import time

import norm_wire as wire
from norm_wire import ToolFault

ECHOES, APART, LAST_WAIT = 20, 0.1, 2.0  # how many, and seconds from one to the next and after the last
ECHO, ECHO_REPLY, HEAD = 8, 0, struct.Struct('>BBHHH')
TIMES = re.compile(r'\btime=([0-9.]+) ?ms')


def round_trips(hosts: list[str]) -> dict[str, int]:
    """The greatest round trip to each host, in microseconds. One that is unknown or does not answer is a fault."""
    found = by_socket(addresses(hosts))
    if found is None:
        found = {host: by_command(host) for host in hosts}
    for host, times in found.items():
        if not times:
            raise ToolFault(f'{host} does not answer.', wire.FAILED)
    return {host: max(times) for host, times in found.items()}


def addresses(hosts: list[str]) -> dict[str, str]:
    found = {}
    for host in hosts:
        try:
            found[host] = socket.gethostbyname(host)
        except (OSError, UnicodeError) as error:
            raise ToolFault(f'{host} is unknown: {getattr(error, "strerror", None) or error}.', wire.FAILED) from None
    return found


def checksum(octets: bytes) -> int:
    """The Internet checksum of an even number of octets (RFC 1071)."""
    total = sum(struct.unpack(f'>{len(octets) // 2}H', octets))
    while total >> 16:
        total = (total & 0xFFFF) + (total >> 16)
    return total ^ 0xFFFF


def by_socket(hosts: dict[str, str]) -> dict[str, list[int]] | None:
    """The round trips to all hosts, measured side by side. None if this user may not."""
    try:
        opened = socket.socket(socket.AF_INET, socket.SOCK_DGRAM, socket.IPPROTO_ICMP)
    except OSError:
        return None
    sent: dict[tuple[str, int], float] = {}
    times: dict[str, list[int]] = {host: [] for host in hosts}
    of_address = {address: host for host, address in hosts.items()}
    with opened:
        for number in range(1, ECHOES + 1):
            for address in of_address:
                # The system sets the identifier and the checksum over it.
                head = HEAD.pack(ECHO, 0, checksum(HEAD.pack(ECHO, 0, 0, 0, number)), 0, number)
                sent[address, number] = time.monotonic()
                try:
                    opened.sendto(head, (address, 0))
                except OSError as error:
                    raise ToolFault(f'{of_address[address]} cannot be reached: {error.strerror}.', wire.FAILED) from None
            take(opened, sent, of_address, times, APART)
        take(opened, sent, of_address, times, LAST_WAIT)
    return {host: times[of_address[address]] for host, address in hosts.items()}


def take(opened: socket.socket, sent: dict[tuple[str, int], float], of_address: dict[str, str], times: dict[str, list[int]], seconds: float) -> None:
    """Takes answers for so long, or until each came."""
    end = time.monotonic() + seconds
    while (left := end - time.monotonic()) > 0 and (sent or seconds < LAST_WAIT):
        if not select.select([opened], [], [], left)[0]:
            return
        octets, (address, _) = opened.recvfrom(2048)
        kind, _, _, _, number = HEAD.unpack(octets[:HEAD.size]) if len(octets) >= HEAD.size else (None,) * 5
        if kind == ECHO_REPLY and (began := sent.pop((address, number), None)) is not None:
            times[of_address[address]].append(round((time.monotonic() - began) * 1e6))


def by_command(host: str) -> list[int]:
    """The round trips as `ping` prints them."""
    command = shutil.which('ping')
    if not command:
        raise ToolFault(f'no round trip to {host} can be measured: this user may open no ICMP socket, and there is no command `ping`.', wire.FAILED)
    words = [command, '-n', '-c', str(ECHOES), '-i', '0.2', '-W', str(int(LAST_WAIT)), host]
    done = subprocess.run(words, stdin=subprocess.DEVNULL, stdout=subprocess.PIPE, stderr=subprocess.DEVNULL, text=True)
    return [round(float(it) * 1000) for it in TIMES.findall(done.stdout)]
