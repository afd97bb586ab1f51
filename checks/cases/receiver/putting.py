"""Which symbols and infos are kept."""
from cases.shared import receiver_look
from evaluate.steps import Run, data, info, segment, small


@small
def symbols_that_do_not_fit():
    """No encoded symbol of its block, or not of its length; a stream's block too far ahead."""
    r = Run(b=2, max_n=3, blocks=2).hears(2, info(0, '[]', l=129, b=2, max_n=3))
    for block, symbol, size in ((2, 0, 64), (0, 3, 64), (0, 0, 63), (0, 2, 63), (1, 0, 64), (1, 1, 64)):
        r.hears(2, data(0, block, symbol, 'hx %d 0x%s' % (size, '41' * size), flags=4))
    receiver_look(r, 'flat_map (λ (h : Held). at_numbers h.at) r.holding.held', [])
    r.hears(2, data(0, 1, 0, 'hx 1 0x41', flags=4)).hears(2, data(0, 0, 2, 'hx 64 0x%s' % ('41' * 64), flags=4))
    receiver_look(r, 'flat_map (λ (h : Held). at_numbers h.at) r.holding.held', [0, 0, 2, 0, 1, 0])
    r.hears(2, data(1, 1, 0, segment(64, 64), l=256, flags=32, b=2, max_n=3)).hears(2, data(1, 2, 0, segment(0, 64), flags=32))
    r.hears(2, data(1, 0, 0, '(%s ++ 0 ∷ [])' % segment(0, 3), flags=32)).hears(2, data(1, 0, 2, segment(0, 63), flags=32))
    return receiver_look(r, 'flat_map (λ (h : Held). at_numbers h.at) r.holding.held', [0, 0, 2, 0, 1, 0, 1, 1, 0])


@small
def symbols_after_the_last():
    """Of 129 octets in blocks of 2 and 1: a third block's parity symbol, and a third symbol of a block that is done."""
    octets = 'hx 64 0x%s' % ('41' * 64)
    r = Run(b=2, max_n=4).hears(2, data(0, 0, 0, octets, l=129, b=2, max_n=4)).hears(2, data(0, 2, 1, octets)).hears(2, data(0, 0, 1, octets))
    return receiver_look(r.hears(2, data(0, 0, 2, octets)), 'flat_map (λ (h : Held). at_numbers h.at) r.holding.held', [0, 0, 0, 0, 0, 1])


@small
def infos_that_do_not_fit():
    """Of an object whose flags have no INFO, or of more than e octets."""
    octets, infos = 'hx 64 0x%s' % ('41' * 64), 'map (λ (h : HeldInfo). h.index) r.holding.infos'
    r = Run().hears(2, data(0, 0, 0, octets, l=128)).hears(2, info(0, '(1 ∷ [])')).hears(2, data(1, 0, 0, octets, l=128, flags=4))
    receiver_look(r.hears(2, info(1, 'hx 65 0x%s' % ('42' * 65))), infos, [])
    return receiver_look(r.hears(2, info(1, 'hx 64 0x%s' % ('42' * 64))), infos, [1])
