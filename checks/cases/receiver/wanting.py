"""For which datagrams a receiver may want memory."""
from cases.shared import HEARD_PROFILE, UNKNOWN, repair_adv
from evaluate.steps import Run, ack, command, data, info, nack, request, small

ASKED = request('Items', 12, (0, 0, 0))
OF_SENDER = [info(0, '[]'), data(0, 0, 0, 'hx 1 0x41'), command('Flush', 0, 0, 0), command('Squelch', 0, 0, 0)]


def wants(r, datagram, may):
    """Whether node 2 may want memory for a datagram."""
    return r.look('flat_map (λ (r : ReceiverState). elim (r.node == 2) [ true ↦ cond (may_want PROFILE r (%s)) 1 0 ∷ [] | false ↦ [] ]) w.receivers' % datagram, [int(may)])


@small
def which_datagrams_want_memory():
    """Those of the sender in the instance or one above; and what others ask for, while a back-off runs."""
    r = Run(**HEARD_PROFILE)
    for datagram in OF_SENDER:
        wants(r, datagram, True)
    for datagram in [nack(3, ASKED), repair_adv(ASKED), ack(3, 0, 0, 0), '[]']:
        wants(r, datagram, False)
    for datagram in UNKNOWN:
        r.hears(2, datagram)
    for datagram in [*OF_SENDER, nack(3, ASKED), repair_adv(ASKED), data(0, 0, 0, 'hx 1 0x41', instance=8)]:
        wants(r, datagram, True)
    for datagram in [nack(2, ASKED), nack(3, ASKED, instance=8), nack(3, ASKED, sender=9), ack(3, 0, 0, 0), data(0, 0, 0, 'hx 1 0x41', instance=6), '[]']:
        wants(r, datagram, False)
    r.tick(2, 0, [4, 1, 12, 0, 0, 0])
    for datagram in [nack(3, ASKED), repair_adv(ASKED)]:
        wants(r, datagram, False)
    return wants(r, OF_SENDER[0], True)
