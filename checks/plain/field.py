"""GF(256) by x^8 + x^4 + x^3 + x^2 + 1, and the Reed-Solomon code by interpolation (RFC 5510 section 8).

Symbol j of a block is, octet by octet, the value at alpha^j of the one polynomial of degree below k that has the value s_i at alpha^i."""
from __future__ import annotations

import functools

ORDER = 255                                     # of alpha, which is 2
POWERS = []
LOGS = [0] * 256
value = 1
for power in range(ORDER):
    POWERS.append(value)
    LOGS[value] = power
    value = value << 1 ^ (0x11d if value & 0x80 else 0)


def product(a: int, b: int) -> int:
    return POWERS[(LOGS[a] + LOGS[b]) % ORDER] if a and b else 0


@functools.lru_cache(maxsize=None)
def table(factor: int) -> bytes:
    """Returns the products of all octets with a factor."""
    return bytes(product(factor, octet) for octet in range(256))


@functools.lru_cache(maxsize=256)
def denominators(ids: tuple[int, ...]) -> tuple[int, ...]:
    """Returns for each id the logarithm of the product of its point's differences to the others' points."""
    points = [POWERS[i] for i in ids]
    return tuple(sum(LOGS[x ^ y] for y in points if y != x) for x in points)


@functools.lru_cache(maxsize=4096)
def factors(ids: tuple[int, ...], j: int) -> tuple[int, ...]:
    """Returns by what each of the symbols with these ids is multiplied in symbol j, which is none of them."""
    at = POWERS[j]
    all_of = sum(LOGS[at ^ POWERS[i]] for i in ids)
    return tuple(POWERS[(all_of - LOGS[at ^ POWERS[i]] - below) % ORDER] for i, below in zip(ids, denominators(ids)))


def combined(ids: tuple[int, ...], symbols: list[bytes], j: int) -> bytes:
    """Returns symbol j of the codeword through symbols of one length."""
    total = 0
    for factor, symbol in zip(factors(ids, j), symbols):
        total ^= int.from_bytes(symbol.translate(table(factor)), 'big')
    return total.to_bytes(len(symbols[0]), 'big')


def parity(sources: list[bytes], size: int, j: int) -> bytes:
    """Returns parity symbol j of source symbols, each padded with zeros to its size."""
    return combined(tuple(range(len(sources))), [s.ljust(size, b'\0') for s in sources], j)


def solved(held: dict[int, bytes], k: int, size: int) -> list[bytes]:
    """Returns the k source symbols of the codeword through k symbols that are held, by id."""
    ids = tuple(sorted(held))
    symbols = [held[i].ljust(size, b'\0') for i in ids]
    return [held[j].ljust(size, b'\0') if j in held else combined(ids, symbols, j) for j in range(k)]
