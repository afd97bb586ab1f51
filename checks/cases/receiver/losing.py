"""What a squelch makes lost."""
from evaluate.steps import STREAM, Run, command, data, small, stream_data

BYTES = [43, 0, 0, 0x5a]


def stream_after_a_gap(blocks):
    """Object 0 is missing, and of the stream behind it these blocks of one octet are held."""
    r = Run(**STREAM)
    for block in blocks:
        r.hears(2, stream_data(block, block, 1).replace('object = 0', 'object = 1'))
    return r.take(2, [40])


@small
def a_squelch_after_whole_objects():
    """What is whole behind a loss is handed up, and the object at the window is not lost."""
    r = Run().hears(2, data(1, 0, 0, 'hx 1 0x41', l=1)).take(2, [40]).hears(2, command('Squelch', 2, 0, 0))
    r.take(2, [45, 0]).take(2, [41, 1, 0, 0, 0x41]).take(2, [40])
    return r.hears(2, data(2, 0, 0, 'hx 1 0x42', l=1)).take(2, [41, 2, 0, 0, 0x42])


@small
def squelch_without_a_plan():
    """Only a stream is dropped block by block."""
    r = Run(**STREAM).hears(2, command('Squelch', 0, 0, 0)).take(2, [40]).hears(2, command('Squelch', 1, 1, 0))
    return r.take(2, [45, 0]).take(2, [45, 1]).take(2, [40])


@small
def squelch_after_a_held_block():
    r = Run(**STREAM).hears(2, stream_data(0, 0, 1)).hears(2, command('Squelch', 0, 1, 0)).take(2, [42, 0]).take(2, BYTES).take(2, [40])
    return r.hears(2, command('Squelch', 0, 2, 0)).take(2, [45, 0]).take(2, [40]).hears(2, stream_data(1, 1, 1)).take(2, [40])


@small
def squelch_before_a_held_block():
    """A stream is lost without an open where its first block never came."""
    return Run(**STREAM).hears(2, stream_data(1, 1, 1)).hears(2, command('Squelch', 0, 1, 0)).take(2, [45, 0]).take(2, [40])


@small
def squelch_after_a_stream():
    """What is there next of a stream is handed up before the rest of it is lost, and nothing after."""
    r = stream_after_a_gap([0, 1]).hears(2, command('Squelch', 2, 0, 0)).take(2, [45, 0]).take(2, [42, 1])
    r.take(2, [43, 1, 0, 0x5a]).take(2, [43, 1, 1, 0x5a]).take(2, [45, 1]).take(2, [40])
    return r.hears(2, stream_data(2, 2, 1).replace('object = 0', 'object = 1')).take(2, [40])


@small
def squelch_within_a_stream():
    """Its next block is held, and then the one behind that is neither held nor in the window."""
    r = stream_after_a_gap([0]).hears(2, command('Squelch', 1, 1, 0)).take(2, [45, 0]).take(2, [42, 1]).take(2, [43, 1, 0, 0x5a]).take(2, [40])
    return r.hears(2, command('Squelch', 1, 2, 0)).take(2, [45, 1]).take(2, [40])
