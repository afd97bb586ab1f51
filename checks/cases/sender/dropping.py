"""What a drop does to the wants."""
from evaluate.steps import Run, nack, request, small


@small
def a_want_that_is_dropped():
    """It is removed, and a squelch is due; a new symbol that was dropped is passed over."""
    r = Run(mode='drop', window=1, k=0, grtt=1, auto=2, gap=1000).data(256, 0, [1, 0, 256])
    for i in range(4):
        r.tick(1, 1000 * i, [2, 0, 0, 0, i])
    r.hears(1, nack(2, request('Items', 1, (0, 0, 2))), 3000).tick(1, 3001).wants([0, 0, 2]).data(1, 3500, [1, 1, 1]).wants([])
    return r.tick(1, 4000, [33, 1, 0, 0]).tick(1, 5000, [2, 0, 1, 0, 0]).tick(1, 6000)
