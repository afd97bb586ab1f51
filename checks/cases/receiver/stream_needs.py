"""What a receiver needs of a stream."""
from evaluate.steps import STREAM, Run, command, data, segment, small, stream_data
from evaluate.terms import nums


@small
def needs_of_a_stream():
    """Earlier blocks by count, the flush's and the end's block by symbols, and the rest where the end is not held."""
    def make(block, symbol, payload):
        return data(0, block, symbol, payload, l=2048, flags=32, b=3, max_n=4)
    r = Run(b=3, max_n=4).hears(2, make(1, 2, segment(64 * 5, 64)), 0, 0).tick(2, 0, [4, 3, 1, 0, 0, 3])
    r.hears(2, command('Flush', 0, 1, 1), 60000, 0).tick(2, 60000, [4, 3, 1, 0, 0, 3, 1, 1, 0, 1, 0, 0, 1, 1])
    r.hears(2, command('Flush', 0, 1, 3), 120000, 0).tick(2, 120000, [4, 3, 1, 0, 0, 3, 1, 1, 0, 1, 0, 0, 1, 1])
    r.hears(2, data(1, 0, 0, 'hx 1 0x41'), 180000, 0).tick(2, 180000, [4, 3, 1, 0, 0, 3, 1, 1, 0, 1, 0, 0, 1, 1, 2, 2, 0, 1, 0, 0, 16777215, 0])
    r.hears(2, make(3, 2, segment(0, 0)), 240000, 0)
    r.tick(2, 240000, [4, 3, 1, 0, 0, 3, 0, 1, 2, 0, 2, 3, 1, 1, 0, 1, 0, 0, 1, 1, 0, 3, 0, 0, 3, 1])
    return r


@small
def the_end_of_a_stream():
    """In the block of a held end each symbol before it is missing; a symbol stands once."""
    def make(block, symbol, payload):
        return data(0, block, symbol, payload, l=2048, flags=32, b=4, max_n=4)
    r = Run(b=4, max_n=4).hears(2, make(0, 3, segment(0, 0)), 0, 0).tick(2, 0).hears(2, command('Flush', 0, 0, 1), 0, 0)
    r.tick(2, 0, [4, 1, 1, 0, 0, 0, 0, 0, 1, 0, 0, 2]).hears(2, make(0, 0, segment(0, 64)), 60000, 0)
    return r.tick(2, 60000, [4, 1, 1, 0, 0, 1, 0, 0, 2])


@small
def the_block_after_a_whole_one():
    """From a whole greatest block on the rest begins behind it."""
    r = Run(**STREAM).hears(2, stream_data(0, 0, 64)).take(2, [42, 0]).take(2, [43, 0, 0, *[0x5a] * 64])
    return r.hears(2, data(1, 0, 0, 'hx 1 0x41'), 0, 0).tick(2, 0, [4, 2, 2, 0, 1, 0, 0, 16777215, 0])


@small
def a_stream_whose_end_is_held():
    """What is missing before it is asked for, and nothing behind it."""
    r = Run(**STREAM).hears(2, stream_data(1, 64, 0)).hears(2, data(1, 0, 0, 'hx 1 0x41'))
    return r.tick(2, 0, [4, 3, 1, 0, 0, 1])


@small
def a_block_that_is_done_by_parity():
    """02 times the first segment and 03 times the second: of its offset's last octet 03 times 64, which is c0. No symbol is missing."""
    def make(symbol, payload):
        return data(0, 0, symbol, payload, l=64 * 2 * 16, flags=32, b=2, max_n=3)
    r = Run(b=2, max_n=3).hears(2, make(1, segment(64, 64))).hears(2, make(2, nums([0, 64, 0, 0, 0, 0, 0, 0xc0] + [0x5a] * 64)))
    r.take(2, [42, 0]).take(2, [43, 0, 0, *[0x5a] * 64]).take(2, [43, 0, 64, *[0x5a] * 64])
    return r.hears(2, command('Flush', 0, 0, 1)).tick(2, 0)


@small
def the_last_block_of_a_stream():
    """Behind the last block that 24 bits name nothing is asked for; the block itself is, where it is not whole."""
    r = Run(**STREAM).hears(2, stream_data(0, 0, 64)).hears(2, data(1, 0, 0, 'hx 1 0x41'))
    for held, point, gives in [('(record { at = position 0 16777215 0; octets = [] } ∷ [])', 16777216, []),
                               ('[]', 16777215, [4, 2, 2, 0, 16777215, 0, 0, 16777215, 0])]:
        state = 'record r { holding = record (r.holding) { plans = map (λ (x : Plan). record x { seen = 16777215 }) r.holding.plans; held = %s; point = position 0 %d 0 } }' % (held, point)
        r.look('brief (world_step PROFILE (record w { receivers = map (λ (r : ReceiverState). %s) w.receivers }) (Ticked 2 0)).1' % state, gives)
    return r
