"""What has to be sent and confirmed before an object, or an open stream's block, may go."""
from cases.shared import early_stream
from evaluate.steps import Run, ack, nack, request, small


def two_segments(index, **keys):
    """A stream of blocks of one segment, with the two segments for which its buffer has room."""
    r = Run(b=1, max_n=1, blocks=2, **keys)
    if index:
        r.data(1, 0, [1, 0, 1])
    return r.job('job.Open', 0, [2, index]).write(64, 0, [3, index, 0, 64]).write(64, 0, [3, index, 64, 64])


@small
def a_block_waits_for_the_entries_before_the_stream():
    """Block 0 was sent as a repair, and the object before the stream was not: neither goes until that was sent."""
    r = two_segments(1, mode='drop', k=0, grtt=1).hears(1, nack(2, request('Items', 1, (1, 0, 0)))).tick(1, 10, [2, 35, 1, 0, 0])
    r.write(64, 20, [7, 8, 0]).drop([0, 0]).tick(1, 1010, [2, 0, 0, 0, 0])
    return r.write(64, 1020, [3, 1, 128, 64]).drop([1, 1]).tick(1, 2010, [2, 32, 1, 1, 0])


@small
def a_stream_takes_its_buffer():
    """A stream of 2 blocks of 4 segments of 64 octets takes 512, open or closed: nothing has room beside it."""
    r = Run(mode='drop', octets=512, blocks=2).data(1, 0, [1, 0, 1]).job('job.Open', 0, [7, 9, 0]).tick(1, 0, [2, 0, 0, 0, 0])
    r.job('job.Open', 1000, [2, 1]).drop([1, 0]).job('job.Close', 1000, [4, 1]).data(1, 1000, [7, 9, 1]).tick(1, 1000, [2, 32, 1, 0, 0])
    return r.data(1, 2000, [1, 2, 1]).drop([2, 0])


@small
def a_block_that_was_not_sent():
    """One octet more needs the room of block 0."""
    r = two_segments(0, mode='drop').write(1, 0, [7, 8, 0]).drop([0, 0]).tick(1, 0, [2, 32, 0, 0, 0])
    return r.write(1, 10, [3, 0, 128, 1]).drop([0, 1]).tick(1, 1000, [2, 32, 0, 1, 0])


@small
def a_block_that_not_all_confirmed():
    r = two_segments(0, receivers=2).tick(1, 0, [2, 32, 0, 0, 0]).tick(1, 1000, [2, 32, 0, 1, 0])
    r.hears(1, ack(2, 0, 1, 0)).write(1, 1000, [7, 8, 0]).drop([0, 0])
    return r.hears(1, ack(3, 0, 0, 0)).write(1, 1000, [3, 0, 128, 1]).drop([0, 1])


@small
def entries_before_a_stream():
    """The third write makes room in the stream, and object 0 goes with it."""
    return early_stream()


@small
def an_info_that_was_not_sent_holds_its_object():
    """Its symbol was sent as a repair, before the info: nothing of it may be dropped."""
    r = Run(mode='drop', window=1, k=0, grtt=1, gap=1).data(1, 0, [1, 0, 1], info='(Some (9 ∷ []))').hears(1, nack(2, request('Items', 1, (0, 0, 0))))
    return r.tick(1, 10, [2, 7, 0, 0, 0]).data(1, 20, [7, 9, 0]).tick(1, 30, [1, 4, 0]).data(1, 40, [1, 1, 1])
