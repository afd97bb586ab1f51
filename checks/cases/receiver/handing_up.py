"""What is handed up, and when."""
from evaluate.steps import STREAM, Run, command, data, info, segment, small
from evaluate.terms import nums


@small
def a_segment_of_too_many_octets():
    """One that says more than e octets counts with e."""
    payload = '(0 ∷ 100 ∷ hx 70 0x0000000000005a%s)' % ('5a' * 63)
    r = Run(b=1, max_n=2).hears(2, data(0, 0, 1, payload, l=1024, flags=32, b=1, max_n=2))
    return r.take(2, [42, 0]).take(2, [43, 0, 0, *[0x5a] * 64]).take(2, [40])


@small
def an_object_from_parity():
    """With two source symbols the first parity symbol is 02 times the first and 03 times the second, which is padded for it."""
    r = Run(b=2, max_n=3).hears(2, data(0, 0, 0, 'hx 64 0x%s' % ('01' * 64), l=65, b=2, max_n=3)).take(2, [40])
    return r.hears(2, data(0, 0, 2, 'hx 64 0x01%s' % ('02' * 63))).take(2, [41, 0, 0, 0, *[1] * 65])


@small
def a_segment_from_parity():
    """The one parity symbol of a block of one segment is that segment with its padding."""
    r = Run(b=1, max_n=2).hears(2, data(0, 0, 1, nums([0, 1, 0, 0, 0, 0, 0, 0, 0x5a] + [0] * 63), l=1024, flags=32, b=1, max_n=2))
    return r.take(2, [42, 0]).take(2, [43, 0, 0, 0x5a]).take(2, [40])


@small
def hand_ups_of_one_delivery():
    """Of the object that comes last, and of the stream behind it: its open once, its segments, its end."""
    def make(symbol, payload):
        return data(1, 0, symbol, payload, l=64 * 3 * 16, flags=32, b=3, max_n=3)
    r = Run(b=3, max_n=3).hears(2, make(1, segment(64, 1))).hears(2, make(2, segment(65, 0))).hears(2, make(0, segment(0, 64))).take(2, [40])
    r.hears(2, data(0, 0, 0, 'hx 1 0x41', l=1, b=3, max_n=3)).take(2, [41, 0, 0, 0, 0x41])
    return r.take(2, [42, 1]).take(2, [43, 1, 0, *[0x5a] * 64]).take(2, [43, 1, 64, 0x5a]).take(2, [44, 1]).take(2, [40])


@small
def a_file_waits_for_its_info():
    r = Run().hears(2, data(0, 0, 0, 'hx 1 0x41', l=1, flags=20)).take(2, [40]).hears(2, command('Flush', 0, 0, 0, nodes=[2]))
    return r.tick(2, 0, [4, 1, 4, 0, 0, 0]).hears(2, info(0, '(1 ∷ 2 ∷ [])', l=1, flags=20)).take(2, [41, 0, 1, 1, 2, 1, 2, 0x41])


@small
def a_stream_waits_for_its_info():
    """It is asked for where the stream is covered; then open and segment are handed up together."""
    r = Run(**STREAM).hears(2, data(0, 0, 0, segment(0, 1), l=1024, flags=36, b=1, max_n=1)).take(2, [40]).tick(2, 0)
    r.hears(2, command('Flush', 0, 0, 0)).tick(2, 0, [4, 1, 4, 0, 0, 0])
    return r.hears(2, info(0, '(9 ∷ [])', flags=36)).take(2, [42, 0]).take(2, [43, 0, 0, 0x5a]).take(2, [40])
