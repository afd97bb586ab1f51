"""What a strike takes away."""
from evaluate.steps import Run, ack, small


@small
def strikes():
    """A stranger and who was struck are no members; the last one stays. Who is struck is kept, also over a restart."""
    r = Run(receivers=2).strike(4, 0, [7, 14, 4]).strike(1, 0, [7, 14, 1]).strike(3, 0, [8, 3]).strike(3, 0, [7, 14, 3]).strike(2, 0, [7, 15, 2])
    r.look('w.sender.struck', [3]).job('(job.Restart 8)', 0, [6, 8]).look('w.sender.struck', [3]).strike(3, 0, [7, 14, 3]).strike(2, 0, [7, 15, 2])
    return r.look('map (λ (l : Listing). l.node) w.sender.listings', [2])


@small
def a_strike_satisfies():
    """What waited for the struck node alone is satisfied, and another watermark is flushed from 0 on."""
    r = Run(receivers=2).data(1, 0, [1, 0, 1]).tick(1, 0, [2, 0, 0, 0, 0]).mark(0, [5, 1, 0, 0, 0]).data(1, 0, [1, 1, 1]).mark(0, [5, 2, 1, 0, 0])
    r.tick(1, 1000, [2, 0, 1, 0, 0]).hears(1, ack(2, 0, 0, 0)).tick(1, 2000, [31, 0, 0, 0, 3]).look('w.sender.flushes ∷ []', [1]).strike(3, 2000, [8, 3])
    r.look('w.sender.flushes ∷ []', [0]).news([21, 2, 0, 0, 0]).news([22, 1, 1]).news([20])
    return r.tick(1, 22000, [31, 1, 0, 0, 2]).hears(1, ack(2, 1, 0, 0)).news([21, 2, 1, 0, 0]).news([22, 2, 1])


@small
def a_strike_after_the_outcome():
    """Of a node whose rise was not told, that is told no more; what was satisfied stays so, and other rises are told."""
    r = Run(receivers=2).data(1, 0, [1, 0, 1]).tick(1, 0, [2, 0, 0, 0, 0]).mark(0, [5, 1, 0, 0, 0]).hears(1, ack(3, 0, 0, 0)).hears(1, ack(2, 0, 0, 0))
    return r.strike(3, 0, [8, 3]).news([21, 2, 0, 0, 0]).news([22, 1, 1]).news([20])


@small
def a_struck_node_and_room():
    """In hold mode nothing waits for a node that was struck."""
    r = Run(receivers=2, window=1).data(1, 0, [1, 0, 1]).tick(1, 0, [2, 0, 0, 0, 0]).hears(1, ack(2, 0, 0, 0)).data(1, 0, [7, 9, 0])
    return r.strike(3, 0, [8, 3]).data(1, 0, [1, 1, 1])


@small
def a_struck_node_after_a_restart():
    """It is asked no more, and the others are listed past nothing."""
    r = Run(receivers=2).data(1, 0, [1, 0, 1]).tick(1, 0, [2, 0, 0, 0, 0]).hears(1, ack(2, 0, 0, 0)).strike(3, 0, [8, 3]).job('(job.Restart 8)', 0, [6, 8])
    r.data(1, 0, [1, 0, 1]).tick(1, 1000, [2, 0, 0, 0, 0]).mark(1000, [5, 1, 0, 0, 0]).news([20]).tick(1, 2000, [31, 0, 0, 0, 2])
    return r.hears(1, ack(3, 0, 0, 0, instance=8)).news([20]).hears(1, ack(2, 0, 0, 0, instance=8)).news([21, 2, 0, 0, 0]).news([22, 1, 1])
