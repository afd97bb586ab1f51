"""How much of what is needed a NACK asks for."""
from evaluate.steps import Run, data, small


@small
def the_longest_prefix():
    """Of nine needs of eight octets behind a head of four, seven fit 64 octets."""
    r = Run().hears(2, data(9, 0, 0, 'hx 1 0x41'), 0, 5)
    return r.tick(2, 4).tick(2, 5, [4, 1, 12, *[n for i in range(7) for n in (i, 0, 0)]]).hears(2, data(9, 0, 0, 'hx 1 0x41'), 60004).tick(2, 70000)
