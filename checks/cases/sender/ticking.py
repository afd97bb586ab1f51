"""When a round closes, and when a sender is idle."""
from evaluate.steps import Run, nack, request, small


@small
def dropped_before_the_round_closed():
    """What is not in the window any more is no want, and its item makes a squelch due."""
    r = Run(mode='drop', window=1, k=0, grtt=1).data(1, 0, [1, 0, 1]).tick(1, 0, [2, 0, 0, 0, 0]).hears(1, nack(2, request('Items', 1, (0, 0, 0))), 10)
    r.data(1, 10, [1, 1, 1]).tick(1, 11).wants([]).tick(1, 1000, [33, 1, 0, 0]).tick(1, 2000, [2, 0, 1, 0, 0])
    return r.hears(1, nack(2, request('Items', 1, (1, 0, 0))), 3000).tick(1, 3001, [2, 3, 1, 0, 0]).tick(1, 9000)


@small
def when_a_sender_is_idle():
    """Where no squelch, want, new symbol or open round is there; an open watermark leaves it idle."""
    def idle(r, gives):
        return r.look('elim (is_idle PROFILE w.sender) [ true ↦ 1 ∷ [] | false ↦ 0 ∷ [] ]', [gives])
    r = idle(idle(Run(mode='drop', window=1, k=0, grtt=1), 1).data(1, 0, [1, 0, 1]), 0).tick(1, 0, [2, 0, 0, 0, 0])
    idle(idle(idle(r, 1).hears(1, nack(2, request('Items', 1, (0, 0, 0))), 10), 0).tick(1, 12), 0)
    idle(idle(r.data(1, 20, [1, 1, 1]), 0).tick(1, 1000, [33, 1, 0, 0]), 0)
    idle(idle(r.tick(1, 2000, [2, 0, 1, 0, 0]), 1).mark(2000, [5, 1, 1, 0, 0]), 1)
    r.hears(1, nack(2, request('Items', 1, (0, 0, 0)), request('Items', 1, (9, 0, 0))), 2000)
    return idle(idle(r.tick(1, 2001), 0).tick(1, 3000, [33, 1, 0, 0]), 1)
