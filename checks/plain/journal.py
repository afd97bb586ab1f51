"""The lines of a session, and the counts of its summary."""
from __future__ import annotations


def number_words(at: tuple) -> str:
    return ' '.join(map(str, at))


class Journal:
    def __init__(self):
        self.lines: list[str] = []
        self.objects = self.octets = self.handed = self.lost = 0
        self.outcomes = {'satisfied': 0, 'expired': 0, 'cut': 0}

    def say(self, line: str) -> None:
        self.lines.append(line)

    def accepted(self, octets: int, objects: int = 1) -> None:
        self.octets += octets
        self.objects += objects

    def up(self, node: int, instance: int, up: tuple) -> None:
        """A hand-up of a receiver."""
        what, index, *rest = up
        if what == 'object':
            kind, info, octets = rest
            words = f'{kind} {len(octets)} {"-" if info is None else info.hex()} {octets.hex()}'
        elif what == 'bytes':
            offset, octets = rest
            words = f'bytes {offset} {len(octets)} {octets.hex()}'
        else:
            words = what
        self.handed += what in ('object', 'end')
        self.lost += what == 'lost'
        self.say(f'up {node} {instance} {index} {words}')

    def news(self, instance: int, book, news: tuple) -> None:
        """A listing that rose, or a watermark that ended, with the members that are left by now."""
        if news[0] == 'past':
            self.say(f'past {news[1]} {instance} {number_words(news[2])}')
            return
        mark = news[1]
        self.outcomes[mark.outcome] += 1
        left = ''.join(f' {node}' for node in book.pending(mark.at)) if mark.outcome == 'expired' else ''
        self.say(f'done {mark.number} {mark.outcome}{left}')

    def end(self) -> None:
        outcomes = ' '.join(f'{word} {count}' for word, count in self.outcomes.items())
        self.say(f'end objects {self.objects} octets {self.octets} handed {self.handed} lost {self.lost} {outcomes}')
