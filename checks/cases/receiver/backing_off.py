"""When a back-off begins, and what it forgets."""
from cases.shared import HEARD_PROFILE, OCTET
from evaluate.steps import Run, command, data, nack, request, small


@small
def a_back_off_goes_on():
    """Further messages do not move its end."""
    r = Run().hears(2, data(1, 0, 0, 'hx 1 0x41'), 0, 40000).hears(2, data(1, 0, 0, 'hx 1 0x41'), 1, 0).tick(2, 39999)
    return r.tick(2, 40000, [4, 1, 12, 0, 0, 0])


@small
def what_was_heard_is_forgotten():
    """With the next back-off; and what is heard while none runs does not count."""
    r = Run(**HEARD_PROFILE).hears(2, nack(3, request('Items', 12, (0, 0, 0)))).hears(2, data(1, 0, 0, 'hx 1 0x41'))
    r.hears(2, nack(3, request('Items', 12, (0, 0, 0)))).tick(2, 0).hears(2, data(1, 0, 0, 'hx 1 0x41'), 60000, 0)
    return r.tick(2, 60000, [4, 1, 12, 0, 0, 0])


@small
def no_back_off_without_a_need():
    """Where nothing is needed none begins, so that the next message with a need begins its own."""
    r = Run().hears(2, data(0, 0, 0, 'hx 1 0x41', l=1), 0, 40000).take(2, [41, 0, 0, 0, 0x41])
    return r.hears(2, data(2, 0, 0, OCTET), 1, 0).tick(2, 1, [4, 1, 12, 1, 0, 0])


@small
def a_back_off_after_a_squelch():
    """What is still needed behind the window's first is asked for."""
    r = Run().hears(2, data(3, 0, 0, OCTET)).tick(2, 0, [4, 1, 12, 0, 0, 0, 1, 0, 0, 2, 0, 0])
    r.hears(2, command('Squelch', 1, 0, 0), 60000).take(2, [45, 0])
    return r.tick(2, 60000, [4, 1, 12, 1, 0, 0, 2, 0, 0])
