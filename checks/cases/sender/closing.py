"""What the closing of a round wants again, and when a squelch is due."""
from cases.shared import early_stream
from evaluate.steps import Run, nack, request, small


@small
def fresh_parity():
    """A parity symbol that is a want already counts as never sent; fewer fresh ones than asked for give all sources."""
    r = Run(k=0, grtt=1, gap=1000).data(256, 0, [1, 0, 256])
    for i in range(4):
        r.tick(1, 1000 * i, [2, 0, 0, 0, i])
    for i, (count, wants) in enumerate([(2, [0, 0, 4, 0, 0, 5]), (1, [0, 0, 4, 0, 0, 5])]):
        r.hears(1, nack(2, request('Erasures', 1, (0, 0, count))), 3000 + 10 * i).tick(1, 3005 + 10 * i).wants(wants)
    r.hears(1, nack(2, request('Erasures', 1, (0, 0, 3))), 3100).tick(1, 3105)
    return r.wants([0, 0, 0, 0, 0, 1, 0, 0, 2, 0, 0, 3, 0, 0, 4, 0, 0, 5]).tick(1, 4000, [2, 3, 0, 0, 0])


@small
def counts_of_a_round():
    """The greatest count of a block is taken: counts are not added up, and the last one does not win."""
    r = Run(k=0, grtt=1, max_n=9, receivers=2).data(256, 0, [1, 0, 256])
    for i in range(4):
        r.tick(1, 1000 * i, [2, 0, 0, 0, i])
    r.hears(1, nack(2, request('Erasures', 1, (0, 0, 2))), 3000).hears(1, nack(3, request('Erasures', 1, (0, 0, 1))), 3000)
    r.tick(1, 3001).wants([0, 0, 4, 0, 0, 5]).tick(1, 4000, [2, 1, 0, 0, 4]).tick(1, 5000, [2, 1, 0, 0, 5])
    return r.hears(1, nack(2, request('Erasures', 2, (0, 0, 200))), 5000).tick(1, 5001).wants([x for i in range(4) for x in (0, 0, i)])


@small
def early_requests():
    """With OBJECT or INFO among its flags an item's block counts as 0."""
    r = early_stream().hears(1, nack(2, request('Items', 12, (1, 0, 0))), 3000).tick(1, 4000, [33, 1, 1, 0])
    r.tick(1, 5000, [2, 35, 1, 1, 0]).tick(1, 6000, [2, 35, 1, 2, 0])
    r.hears(1, nack(2, request('Items', 1, (1, 1, 0))), 6000).tick(1, 7000, [2, 35, 1, 1, 0])
    r.hears(1, nack(2, request('Erasures', 12, (0, 0, 1))), 8000).tick(1, 8001).wants([])
    r.hears(1, nack(2, request('Erasures', 5, (1, 1, 1))), 9000).tick(1, 9001, [33, 1, 1, 0]).tick(1, 10001, [2, 35, 1, 1, 0])
    r.hears(1, nack(2, request('Ranges', 1, (1, 0, 5), (1, 0, 4))), 11000).tick(1, 11001)
    return r.hears(1, nack(2, request('Ranges', 1, (1, 0, 5), (1, 1, 0))), 12000).tick(1, 12001, [33, 1, 1, 0]).tick(1, 13001, [2, 35, 1, 1, 0])


@small
def a_count_of_an_open_block():
    """A stream's block without parity is answered by its closed segments."""
    r = Run(b=3, max_n=4, k=0, grtt=1, gap=1000000).job('job.Open', 0, [2, 0]).write(129, 0, [3, 0, 0, 129]).tick(1, 0, [2, 32, 0, 0, 0])
    return r.hears(1, nack(2, request('Erasures', 1, (0, 0, 1))), 10).tick(1, 12).wants([0, 0, 0, 0, 0, 1])


@small
def the_count_of_flushes_and_a_round():
    """A round that added a want makes it begin anew, and one that added none does not."""
    r = Run(k=0, grtt=1, gap=1).data(1, 0, [1, 0, 1]).tick(1, 0, [2, 0, 0, 0, 0]).mark(0, [5, 1, 0, 0, 0])
    r.tick(1, 10, [31, 0, 0, 0, 2]).tick(1, 20, [31, 0, 0, 0, 2]).look('w.sender.flushes ∷ []', [2])
    r.hears(1, nack(2, request('Items', 1, (9, 0, 0))), 20).tick(1, 21).look('w.sender.flushes ∷ []', [2])
    return r.hears(1, nack(2, request('Items', 1, (0, 0, 0))), 21).tick(1, 22, [2, 3, 0, 0, 0]).look('w.sender.flushes ∷ []', [0])
