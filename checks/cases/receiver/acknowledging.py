"""Which flush is acknowledged, and when."""
from evaluate.steps import Run, command, data, small


@small
def the_greatest_flush():
    """A flush further back changes nothing of what is covered."""
    r = Run().hears(2, command('Flush', 2, 0, 0)).tick(2, 0, [4, 1, 12, 0, 0, 0, 1, 0, 0, 2, 0, 0])
    return r.hears(2, command('Flush', 0, 0, 0), 60000).tick(2, 60000, [4, 1, 12, 0, 0, 0, 1, 0, 0, 2, 0, 0])


@small
def acknowledging():
    """What is asked of this node, handed up, and nothing lost; the further of two stays."""
    r = Run().hears(2, data(0, 0, 0, 'hx 1 0x41', l=1)).hears(2, data(1, 0, 0, 'hx 1 0x42', l=1)).take(2, [41, 0, 0, 0, 0x41]).take(2, [41, 1, 0, 0, 0x42])
    r.hears(2, command('Flush', 0, 0, 0, nodes=[3])).tick(2, 0).hears(2, command('Flush', 1, 0, 0, nodes=[3, 2])).hears(2, command('Flush', 0, 0, 0, nodes=[2]))
    r.tick(2, 0, [5, 1, 0, 0]).tick(2, 0).hears(2, command('Flush', 2, 0, 0, nodes=[2])).tick(2, 100000, [4, 1, 12, 2, 0, 0])
    return r.hears(2, command('Squelch', 3, 0, 0)).take(2, [45, 2]).hears(2, command('Flush', 1, 0, 0, nodes=[2])).tick(2, 100000)
