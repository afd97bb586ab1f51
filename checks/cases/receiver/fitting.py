"""Which transmission information is taken up as a plan."""
from cases.shared import receiver_look
from evaluate.steps import Run, data, segment, small


@small
def fitting_plans():
    """Too far ahead, no room, not of the profile, another one than is known."""
    r = Run(octets=256)
    for index, keys in ((256, {}), (255, {'l': 257}), (1, {'e': 128}), (1, {'b': 5}), (1, {'max_n': 7}), (1, {'l': 0})):
        r.hears(2, data(index, 0, 0, 'hx 1 0x41', **{'l': 1, **keys}))
        receiver_look(r, 'map (λ (x : Plan). x.index) r.holding.plans', [])
    r.hears(2, data(255, 0, 0, 'hx 64 0x%s' % ('41' * 64), l=200))
    receiver_look(r, 'map (λ (x : Plan). x.index) r.holding.plans', [255]).hears(2, data(254, 0, 0, 'hx 57 0x%s' % ('41' * 57), l=57))
    receiver_look(r, 'map (λ (x : Plan). x.index) r.holding.plans', [255]).hears(2, data(254, 0, 0, 'hx 56 0x%s' % ('41' * 56), l=56))
    receiver_look(r, 'map (λ (x : Plan). x.index) r.holding.plans', [254, 255]).hears(2, data(254, 0, 0, 'hx 55 0x%s' % ('41' * 55), l=55))
    r.hears(2, data(254, 0, 0, segment(0, 1), l=56, flags=32))
    return receiver_look(r, 'flat_map (λ (h : Held). at_numbers h.at) r.holding.held', [254, 0, 0, 255, 0, 0])


@small
def another_plan_than_the_known_one():
    """A symbol with another length, or with another STREAM flag, is not put, though it would fit the plan that is known."""
    octets = 'hx 64 0x%s' % ('41' * 64)
    r = Run().hears(2, data(0, 0, 0, octets, l=128)).hears(2, data(0, 0, 1, octets, l=129)).hears(2, data(0, 0, 1, octets, l=128, flags=32)).take(2, [40])
    return r.hears(2, data(0, 0, 1, octets, l=128)).take(2, [41, 0, 0, 0, *[0x41] * 128])


@small
def the_room_of_a_stream():
    """Whatever length it says, it takes its buffer of 512 octets, for which there is no room beside an object that waits."""
    r = Run(octets=512, blocks=2).hears(2, data(1, 0, 0, 'hx 1 0x41', l=1)).hears(2, data(0, 0, 0, segment(0, 1), l=1, flags=32))
    return receiver_look(r, 'map (λ (x : Plan). x.index) r.holding.plans', [1])


@small
def the_length_of_a_stream():
    """It is not looked at: another one is the same plan, and the stream has room for its buffer."""
    r = Run(octets=513, blocks=2).hears(2, data(1, 0, 0, 'hx 1 0x41', l=1)).hears(2, data(0, 0, 0, segment(0, 1), l=1, flags=32))
    r.hears(2, data(0, 0, 1, segment(1, 1), l=600, flags=32)).take(2, [42, 0]).take(2, [43, 0, 0, 0x5a]).take(2, [43, 0, 1, 0x5a])
    return receiver_look(r, 'map (λ (x : Plan). x.index) r.holding.plans', [0, 1])
