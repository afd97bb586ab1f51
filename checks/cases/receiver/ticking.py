"""What a receiver's tick sends, and what it holds off."""
from cases.shared import HEARD_PROFILE, OCTET
from evaluate.steps import Run, command, data, nack, request, small


@small
def the_hold_off():
    """K + 2 round trips after a NACK no back-off begins; a draw is taken modulo K round trips and one."""
    r = Run().hears(2, data(1, 0, 0, 'hx 1 0x41'), 0, 40001).tick(2, 0, [4, 1, 12, 0, 0, 0]).hears(2, data(1, 0, 0, 'hx 1 0x41'), 59999, 0).tick(2, 59999)
    return r.hears(2, data(1, 0, 0, 'hx 1 0x41'), 60000, 40000).tick(2, 99999).tick(2, 100000, [4, 1, 12, 0, 0, 0])


@small
def a_need_that_ended():
    """Where nothing is needed as the back-off ends, nothing is sent, and none is held off."""
    r = Run().hears(2, data(1, 0, 0, OCTET), 0, 100).hears(2, data(0, 0, 0, 'hx 1 0x41', l=1), 50).take(2, [41, 0, 0, 0, 0x41]).tick(2, 100)
    return r.hears(2, data(2, 0, 0, OCTET), 101, 0).tick(2, 101, [4, 1, 12, 1, 0, 0])


@small
def silence_holds_off_too():
    """K + 2 round trips after a NACK that was not sent because all of it was heard."""
    r = Run(**HEARD_PROFILE).hears(2, data(1, 0, 0, OCTET)).hears(2, nack(3, request('Items', 12, (0, 0, 0)))).tick(2, 0)
    r.hears(2, data(1, 0, 0, OCTET), 59999, 0).tick(2, 59999)
    return r.hears(2, data(1, 0, 0, OCTET), 60000, 0).tick(2, 60000, [4, 1, 12, 0, 0, 0])


@small
def an_acknowledgement_before_a_nack():
    r = Run().hears(2, data(0, 0, 0, 'hx 1 0x41', l=1)).take(2, [41, 0, 0, 0, 0x41]).hears(2, command('Flush', 1, 0, 0))
    return r.hears(2, command('Flush', 0, 0, 0, nodes=[2])).tick(2, 0, [5, 0, 0, 0]).tick(2, 0, [4, 1, 12, 1, 0, 0])
