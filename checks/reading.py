"""Reads a session's printed lines against its script: what is promised, judged by the lines alone.

Every receiver's hand-ups go through the accepted order of an instance without a gap and with equal contents; a loss stands only in `drop`
mode or at a receiver that was struck; a member is listed only behind its hand-ups; a watermark is satisfied exactly when its quorum is
listed; and each producer's commands are answered once each, in their order. The lines are those of docs/scripts.md."""
from __future__ import annotations

from typing import Iterator

NEWS, LASTS = ('past', 'done'), ('end', 'turns', 'tail', 'absent', 'fault')
Place = tuple[int, ...]                         # an index, a block and a symbol


def commands_of(script: str) -> dict[tuple[int, int], list[str]]:
    """The words of each command, by its producer and its number."""
    found: dict[tuple[int, int], list[str]] = {}
    for words in (line.split(' ') for line in script.split('\n') if line[:1].isdigit()):
        producer = int(words[0])
        found[producer, 1 + sum(p == producer for p, _ in found)] = words[1:]
    return found


class Session:
    """A session as far as its lines were read."""

    def __init__(self, script: str, files: dict[str, bytes]):
        keys = dict(line.split(' ')[1:] for line in script.split('\n') if line.startswith('set '))
        first = int(keys.get('sender', 1)) + 1
        self.commands, self.files, self.may_drop = commands_of(script), files, keys.get('mode') == 'drop'
        self.instance = int(keys.get('instance', 1))
        self.receivers = range(first, first + int(keys.get('receivers', 1)))
        self.orders: dict[int, list[str]] = {self.instance: []}         # of each instance what is handed up of each index
        self.at = {node: (self.instance, 0) for node in self.receivers}  # the instance and the index of each receiver's next hand-up
        self.struck: set[int] = set()
        self.listed: dict[int, Place] = {}
        self.open: dict[int, tuple[Place, int]] = {}                    # of each open watermark its place and its quorum
        self.done: dict[int, int] = {}                                  # of each producer the commands that were answered
        self.counts = dict.fromkeys(('objects', 'octets', 'handed', 'lost', 'satisfied', 'expired', 'cut'), 0)
        self.last = ''                                                  # the first word of the line before

    def members(self) -> set[int]:
        return set(self.receivers) - self.struck

    def is_met(self, mark: int) -> bool:
        """Whether a watermark's quorum is listed past it."""
        place, quorum = self.open[mark]
        return sum(self.listed.get(node, (-1,)) >= place for node in self.members()) >= min(quorum, len(self.members()))

    def answered(self, words: list[str]) -> list[str] | str:
        """The words of the command that a line answers, or what is wrong with that."""
        producer, number = int(words[1]), int(words[2])
        if number != self.done.get(producer, 0) + 1:
            return f'the command before was {self.done.get(producer, 0)}'
        self.done[producer] = number
        command = self.commands.get((producer, number), ['none'])
        verb = {'enq': words[5] if words[0] == 'enq' else ''}.get(words[0], words[0])
        return command if verb in ('no', command[0]) else f'the script has {command[0]}'

    def enqueued(self, command: list[str], words: list[str]) -> str | None:
        """An object enters the order."""
        octets = self.files[command[1]].hex() if command[0] == 'file' else command[1].lower()
        info = command[1].encode().hex() if command[0] == 'file' else command[2].lower() if len(command) > 2 else '-'
        order = self.orders[self.instance]
        self.counts['objects'] += 1
        self.counts['octets'] += len(octets) // 2
        order.append(f'{command[0]} {len(octets) // 2} {info} {octets}')
        return None if words[3:] == [str(self.instance), str(len(order) - 1), command[0], str(len(octets) // 2)] else 'that is not its place'

    def handed(self, words: list[str]) -> str | None:
        """A receiver hands up."""
        node, instance, index = map(int, words[1:4])
        before = self.at[node]
        self.at[node] = (instance, index + 1)
        self.counts['lost' if words[4:] == ['lost'] else 'handed'] += 1
        if instance not in self.orders or index >= len(self.orders[instance]):
            return 'no such object was accepted'
        if index != (before[1] if before[0] == instance else 0) or list(self.orders).index(instance) < list(self.orders).index(before[0]):
            return f'it stood at index {before[1]} of {before[0]}'
        if words[4:] == ['lost']:
            return None if self.may_drop or node in self.struck else 'nothing was dropped'
        return None if ' '.join(words[4:]) == self.orders[instance][index] else 'that is not what was accepted'

    def told(self, words: list[str]) -> str | None:
        """A listing, or how a watermark ended."""
        if words[0] == 'past':
            node, instance, *place = map(int, words[1:])
            before, self.listed[node] = self.listed.get(node, (-1,)), tuple(place)
            if self.listed[node] <= before or instance != self.instance or node not in self.members():
                return 'that is no new listing of a member'
            return None if self.at[node] > (instance, place[0]) and self.at[node][0] == instance else f'it handed up to {self.at[node]}'
        mark, outcome = int(words[1]), words[2]
        self.counts[outcome] += 1
        if mark not in self.open:
            return 'it is not open'
        wrong = self.is_met(mark) != (outcome == 'satisfied')
        left = [str(node) for node in sorted(self.members()) if self.listed.get(node, (-1,)) < self.open[mark][0]]
        del self.open[mark]
        return 'its quorum says otherwise' if wrong and outcome != 'cut' else f'left are {left}' if outcome == 'expired' and words[3:] != left else None

    def commanded(self, words: list[str]) -> str | None:
        """A line that answers a command."""
        command = self.answered(words)
        if isinstance(command, str):
            return command
        if words[0] == 'enq':
            return self.enqueued(command, words)
        if words[0] == 'mark':
            self.open[int(words[4])] = tuple(map(int, words[5:8])), int(words[8]) if len(words) > 8 else len(self.receivers)
            return None if int(words[5]) == len(self.orders[self.instance]) - 1 else 'that is not the last object'
        if words[0] == 'restart':
            self.instance = int(words[3])
            self.listed = {}
            return 'that instance was there' if self.orders.setdefault(self.instance, []) else None
        if words[0] == 'strike':
            self.struck.add(int(words[3]))
        return None

    def read(self, line: str) -> str | None:
        """What is wrong with a line."""
        words = line.split(' ')
        before, self.last = self.last, words[0]
        if before in LASTS and (before, words[0]) not in (('end', 'turns'), ('end', 'tail')):
            return f'the journal had ended by {before}'
        if words[0] in NEWS:
            return self.told(words)
        if any(self.is_met(mark) for mark in self.open):
            return 'a watermark is open whose quorum is listed'
        if words[0] == 'up':
            return self.handed(words)
        if words[0] == 'end':
            return None if words[1:] == [str(word) for pair in self.counts.items() for word in pair] else f'counted were {self.counts}'
        if words[0] in LASTS:
            return None
        return self.commanded(words)


def faults(script: str, files: dict[str, bytes], output: str) -> Iterator[str]:
    """What is wrong with what a session printed, a sentence for each line that is."""
    session = Session(script, files)
    for number, line in enumerate(output.split('\n')[:-1], 1):
        try:
            wrong = session.read(line)
        except (KeyError, ValueError, IndexError):
            wrong = 'that is no line of this session'
        if wrong:
            yield f'line {number}, {line[:100]}: {wrong}'
    if session.last not in LASTS:
        yield 'the journal has no end'
