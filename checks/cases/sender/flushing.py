"""When a flush goes, and when a watermark expires."""
from cases.shared import direct_turn
from evaluate.steps import Run, nack, request, small


@small
def flushes():
    """The count begins anew with another watermark, the moment of the last flush does not."""
    r = Run()
    direct_turn(r, 1, lambda now: r.data(1, now, [1, 0, 1]), [2, 0, 0, 0, 0], [[41, 0, 0, 0, 0]])
    direct_turn(r, 2, lambda now: r.mark(now, [5, 1, 0, 0, 0]), [31, 0, 0, 0, 2], [], [5, 0, 0, 0])
    direct_turn(r, 3, lambda now: r.data(1, now, [1, 1, 1]), [2, 0, 1, 0, 0], [[41, 1, 0, 0, 2]])
    r.news([21, 2, 0, 0, 0]).news([22, 1, 1]).news([20])
    direct_turn(r, 4, lambda now: r.mark(now, [5, 2, 1, 0, 0]))
    direct_turn(r, 21)
    direct_turn(r, 22, None, [31, 1, 0, 0, 2], [], [5, 1, 0, 0])
    direct_turn(r, 23)
    return r.news([21, 2, 1, 0, 0]).news([22, 2, 1])


@small
def expiry_waits_for_the_round():
    """After 20 flushes nothing is sent while a round is open; then the watermark expires, and the next has its turn."""
    r = Run(grtt=1000, gap=1).data(1, 0, [1, 0, 1]).tick(1, 0, [2, 0, 0, 0, 0]).mark(0, [5, 1, 0, 0, 0]).mark(0, [5, 2, 0, 0, 0])
    for i in range(20):
        r.tick(1, 1000 + 2000 * i, [31, 0, 0, 0, 2]).tick(1, 2999 + 2000 * i)
    r.hears(1, nack(2, request('Items', 1, (9, 0, 0))), 40000).tick(1, 41000).news([20])
    return r.tick(1, 45000, [31, 0, 0, 0, 2]).news([22, 1, 2, 1]).look('w.sender.flushes ∷ []', [1])
