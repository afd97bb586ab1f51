"""The keys of a script, and the profile that they make."""
from __future__ import annotations

# each key with its least value, its greatest and its default; that of max_n is b and its half, at most 255
NUMBERS = {
    'instance': (0, 65535, 1), 'first': (0, 65535, 0), 'sender': (1, 4294967278, 1), 'receivers': (1, 16, 1), 'producers': (1, 4, 1),
    'e': (64, 1400, 1024), 'b': (1, 200, 64), 'max_n': (1, 255, None), 'auto': (0, 255, 0),
    'window': (1, 256, 256), 'octets': (1, 16777216, 16777216), 'blocks': (2, 256, 16),
    'gap': (1, 1000000, 1000), 'grtt': (1, 10000000, 10000), 'grtt_code': (0, 255, 64), 'gsize_code': (0, 15, 1), 'k': (0, 15, 4),
    'step': (0, 1000000, 1000), 'turns': (1, 4000000, 1000000),
    'chance': (0, 4294967295, 0), 'loss': (0, 900, 0), 'repeat': (0, 900, 0), 'late': (0, 64, 0), 'port': (1024, 65000, 40000),
}

# keys whose values are words; the first is the default
WORDS = {'mode': ('hold', 'drop'), 'fabric': ('direct', 'chance', 'udp')}

MOST_BUFFER = 16777216


class Profile:
    """A value for each key, as attributes."""

    def __init__(self, given: dict[str, int | str]):
        values = {key: default for key, (_, _, default) in NUMBERS.items()}
        values.update({key: words[0] for key, words in WORDS.items()})
        values.update(given)
        if values['max_n'] is None:
            values['max_n'] = min(255, values['b'] + values['b'] // 2)
        self.__dict__.update(values)

    def meets_rules(self) -> bool:
        """Returns whether the two rules across keys hold."""
        return self.b <= self.max_n and self.blocks * self.b * self.e <= MOST_BUFFER

    def nodes(self) -> list[int]:
        """Returns the receivers in order of node id."""
        return [self.sender + 1 + i for i in range(self.receivers)]

    def members(self) -> list[int]:
        """Returns the sender and then the receivers."""
        return [self.sender, *self.nodes()]


def number(word: bytes, least: int, greatest: int) -> int | None:
    """Returns the number in this range that a word spells: decimal digits without a sign or a leading zero."""
    if not word.isdigit() or (len(word) > 1 and word[:1] == b'0'):
        return None
    value = int(word)
    return value if least <= value <= greatest else None


def value_of(key: str, word: bytes) -> int | str | None:
    """Returns the value of a key that a word spells."""
    if key in WORDS:
        text = word.decode('latin-1')
        return text if text in WORDS[key] else None
    least, greatest, _ = NUMBERS[key]
    return number(word, least, greatest)
