#!/usr/bin/env python3
"""Captures of recorded sessions, made by tools/pcap, through `normd gather`: each receiver hands up what it handed up in the session.

captured.py PROGRAM RUN.json..

Sessions over a network of chance are passed over: a capture has what every node was given, so a receiver there hears what it missed before."""
from __future__ import annotations

import json
import os
import subprocess
import sys
import tempfile

PCAP = os.path.join(os.path.dirname(os.path.abspath(__file__)), '..', '..', 'tools', 'pcap')


def lines_of_capture(run: str, folder: str) -> bytes:
    """A run as a capture, and the datagrams of that as lines."""
    capture = os.path.join(folder, 'run.pcap')
    subprocess.run([PCAP, run, '-o', capture], check=True)
    return subprocess.run([PCAP, '--lines', capture], check=True, capture_output=True).stdout


def handed_up(program: str, folder: str, sender: int, node: int, lines: bytes) -> list[str]:
    """The `up` lines of one receiver."""
    done = subprocess.run([program, 'gather', 'run.toml', str(node)], input=lines, check=True, capture_output=True, cwd=folder)
    of_sender = f'of {sender} '
    return [line[len(of_sender):] for line in done.stdout.decode().splitlines() if line.startswith(of_sender)]


def look(program: str, path: str) -> int | None:
    """How many hand-ups are alike. None if the session is passed over, or nothing was offered in it."""
    with open(path, encoding='utf-8') as file:
        run = json.load(file)
    profile, count = run['profile'], 0
    if profile['fabric'] != 'direct' or not any('offer' in event for event in run['events']):
        return None
    with tempfile.TemporaryDirectory() as folder:
        with open(os.path.join(folder, 'run.toml'), 'w', encoding='utf-8') as file:
            file.writelines(f'{key} = {json.dumps(value)}\n' for key, value in profile.items())
        lines = lines_of_capture(path, folder)
        for node in range(profile['sender'] + 1, profile['sender'] + 1 + profile['receivers']):
            wanted = [line for line in run['output'].splitlines() if line.startswith(f'up {node} ')]
            if handed_up(program, folder, profile['sender'], node, lines) != wanted:
                sys.exit(f'captured: node {node} of {path} hands up something else')
            count += len(wanted)
    return count


def main() -> None:
    program = os.path.abspath(sys.argv[1])
    counts = [count for path in sys.argv[2:] if (count := look(program, path)) is not None]
    if not sum(counts):
        sys.exit('captured: nothing was handed up')
    print(f'tools: {len(counts)} captures through gather, {sum(counts)} hand-ups')


if __name__ == '__main__':
    main()
