"""The words of PCG32 (XSH RR on 64 bits), from a seed."""
from __future__ import annotations

MASK = (1 << 64) - 1
MULTIPLIER = 6364136223846793005
SEED_INCREMENT = 0xA17654E46FBE17F3


def output(state: int) -> int:
    word = (((state >> 18) ^ state) >> 27) & 0xffffffff
    turn = state >> 59
    return (word >> turn | word << (32 - turn)) & 0xffffffff


class Words:
    """A generator. Its own seed is four words of another one, whose state is the number that is given."""

    def __init__(self, seed: int):
        words, state = [], seed
        for _ in range(4):
            state = (state * MULTIPLIER + SEED_INCREMENT) & MASK
            words.append(output(state))
        self.increment = (words[2] | words[3] << 32) | 1
        self.state = (words[0] | words[1] << 32) + self.increment & MASK
        self.next()

    def next(self) -> int:
        """Returns the word of the state before the step."""
        word = output(self.state)
        self.state = (self.state * MULTIPLIER + self.increment) & MASK
        return word
