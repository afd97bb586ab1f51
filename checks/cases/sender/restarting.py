"""What a restart leaves, and what goes with it."""
from evaluate.steps import NONE, Run, ack, nack, request, small


@small
def what_a_restart_leaves():
    """The next send moment, the sequence number and the numbers of watermarks."""
    r = Run(gap=5000).data(1, 1000, [1, 0, 1]).tick(1, 1000, [2, 0, 0, 0, 0]).mark(1500, [5, 1, 0, 0, 0])
    r.job('(job.Restart 8)', 2000, [6, 8]).data(1, 3000, [1, 0, 1]).tick(1, 3000).tick(1, 5999).tick(1, 6000, [2, 0, 0, 0, 0])
    r.look('flat_map (λ (g : ℕ × Written). take 14 g.1.octets) w.given', [0x12, 8, 0, 1, 0, 0, 0, 1, 0, 8, 64, 0x41, 0, 5])
    return r.news([22, 1, 3]).mark(7000, [5, 2, 0, 0, 0]).job('(job.Restart 7)', 7000, [7, 12, 7]).job('(job.Restart 8)', 7000, [7, 12, 8])


@small
def a_restart_ends_repairs():
    """No want, no round and no squelch outlives it."""
    r = Run(mode='drop', window=1, k=0, grtt=1).data(1, 0, [1, 0, 1]).tick(1, 0, [2, 0, 0, 0, 0])
    r.hears(1, nack(2, request('Items', 1, (0, 0, 0))), 10).tick(1, 12).wants([0, 0, 0]).data(1, 20, [1, 1, 1]).wants([])
    r.tick(1, 1000, [33, 1, 0, 0]).tick(1, 2000, [2, 0, 1, 0, 0])
    r.hears(1, nack(2, request('Items', 1, (0, 0, 0)), request('Items', 1, (1, 0, 0))), 2010).tick(1, 2012).wants([1, 0, 0])
    r.hears(1, nack(2, request('Items', 1, (1, 0, 0))), 2013).job('(job.Restart 8)', 2013, [6, 8]).wants([])
    return r.look('shown_option (λ (r : Round). r.closes ∷ []) w.sender.round', [NONE]).tick(1, 3000).tick(1, 4000)


@small
def a_restart_forgets_what_was_sent():
    """An object of the new instance goes once its symbol and its info were sent there. A listing of the old one is not told, and satisfies nothing."""
    def enqueues(r, now, gives):
        return r.data(1, now, gives, info='(Some (9 ∷ []))')
    r = enqueues(Run(mode='drop', window=1, k=0, grtt=1, gap=1), 0, [1, 0, 1]).tick(1, 0, [1, 4, 0]).tick(1, 1, [2, 4, 0, 0, 0])
    r.hears(1, ack(2, 0, 0, 0)).mark(1, [5, 1, 0, 0, 0]).job('(job.Restart 8)', 2, [6, 8]).news([22, 1, 1]).news([20])
    enqueues(r, 2, [1, 0, 1]).mark(2, [5, 2, 0, 0, 0]).news([20]).hears(1, nack(2, request('Items', 1, (0, 0, 0)), instance=8), 2)
    enqueues(r.tick(1, 3, [2, 7, 0, 0, 0]), 3, [7, 9, 0]).tick(1, 4, [1, 4, 0])
    enqueues(r.job('(job.Restart 9)', 4, [6, 9]), 4, [1, 0, 1]).tick(1, 5, [1, 4, 0])
    return enqueues(enqueues(r, 5, [7, 9, 0]).tick(1, 6, [2, 4, 0, 0, 0]), 6, [1, 1, 1])


@small
def the_first_flush_after_a_restart():
    """It waits for no flush of the instance before."""
    r = Run().data(1, 0, [1, 0, 1]).tick(1, 0, [2, 0, 0, 0, 0]).mark(0, [5, 1, 0, 0, 0]).tick(1, 1000, [31, 0, 0, 0, 2])
    r.job('(job.Restart 8)', 1000, [6, 8]).data(1, 1000, [1, 0, 1]).tick(1, 2000, [2, 0, 0, 0, 0]).mark(2000, [5, 2, 0, 0, 0])
    return r.tick(1, 3000, [31, 0, 0, 0, 2])
