"""When a watermark is satisfied."""
from evaluate.steps import Run, ack, small


@small
def a_quorum_of_two():
    """Two of three receivers satisfy it; the flushes go to all that are not listed past it."""
    r = Run(receivers=3).data(1, 0, [1, 0, 1]).tick(1, 0, [2, 0, 0, 0, 0]).mark(0, [5, 1, 0, 0, 0], quorum=2).mark(0, [5, 2, 0, 0, 0])
    r.tick(1, 1000, [31, 0, 0, 0, 2, 3, 4]).hears(1, ack(4, 0, 0, 0)).tick(1, 21000, [31, 0, 0, 0, 2, 3]).news([21, 4, 0, 0, 0]).news([20])
    r.look('w.sender.flushes ∷ []', [2]).hears(1, ack(2, 0, 0, 0)).look('w.sender.flushes ∷ []', [0]).news([21, 2, 0, 0, 0]).news([22, 1, 1]).news([20])
    return r.tick(1, 41000, [31, 0, 0, 0, 3]).hears(1, ack(3, 0, 0, 0)).news([21, 3, 0, 0, 0]).news([22, 2, 1])


@small
def a_quorum_above_the_members():
    """Where fewer members are left than it says, all of them are enough."""
    r = Run(receivers=3).data(1, 0, [1, 0, 1]).tick(1, 0, [2, 0, 0, 0, 0]).mark(0, [5, 1, 0, 0, 0], quorum=3).hears(1, ack(2, 0, 0, 0))
    r.news([21, 2, 0, 0, 0]).strike(4, 0, [8, 4]).news([20]).mark(0, [5, 2, 0, 0, 0], quorum=3).hears(1, ack(3, 0, 0, 0))
    return r.news([21, 3, 0, 0, 0]).news([22, 1, 1]).news([22, 2, 1]).mark(0, [7, 13, 4], quorum=4)
