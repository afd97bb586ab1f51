"""Which refusal of an enqueue counts, and that it changes nothing."""
from evaluate.steps import Run, ack, info, nack, request, small


def three_objects(r, size=64):
    for i in range(3):
        r.data(size, 0, [1, i, size]).tick(1, 1000 * i, [2, 0, i, 0, 0])
    return r


@small
def the_first_refusal_counts():
    """While a stream is open: no octets, too many, an info of too many, and then the stream."""
    r, info = Run(octets=4096).job('job.Open', 0, [2, 0]), '(Some (hx 65 0x%s))' % ('00' * 65)
    return r.job('(job.Data %s [])' % info, 0, [7, 1]).data(4097, 0, [7, 2, 4097], info).data(1, 0, [7, 3, 65], info).data(1, 0, [7, 4, 0])


@small
def refused_enqueue_drops_nothing():
    """An object that needs the room of 0 and 1, of which 1 may not go, is refused, and 0 stays."""
    r = three_objects(Run(receivers=2, window=3, octets=192, k=0, grtt=1))
    r.hears(1, ack(2, 0, 0, 0)).hears(1, ack(3, 0, 0, 0)).hears(1, ack(2, 1, 0, 0)).data(128, 3000, [7, 9, 0]).drop([0, 0])
    return r.hears(1, nack(2, request('Items', 1, (0, 0, 0))), 3000).tick(1, 5000, [2, 3, 0, 0, 0])
