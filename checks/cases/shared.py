"""What several cases begin with."""
from evaluate.steps import NOTHING, SMALL, Run, data, head, nack
from evaluate.terms import lst


def many_objects():
    """Object 0 of four symbols with info, object 1 of one with info, object 2 of three without; blocks of two, of four coded."""
    r = Run(b=2, max_n=4, k=0, grtt=1, gap=1000000)
    r.data(200, 0, [1, 0, 200], info='(Some (1 ∷ []))').data(64, 0, [1, 1, 64], info='(Some (2 ∷ []))').data(130, 0, [1, 2, 130])
    return r.tick(1, 0, [1, 4, 0])


OCTET = 'hx 1 0x41'                                           # the payload of an object that has no plan


def repair_adv(*requests):
    return ('octets_of (message.RepairAdv (record { head = %s; flags = 0; extensions = []; requests = %s }))' % (head('command'), lst(requests)))


HEARD_PROFILE = dict(b=2, max_n=3, receivers=2)


def heard_by(name, needing, heard, silent):
    """A receiver that needs something hears requests of node 3 while it backs off; then it is silent or not."""
    def make():
        r = Run(**HEARD_PROFILE)
        for datagram in needing:
            r.hears(2, datagram, 0, 0)
        for h in heard:
            r.hears(2, h if h.startswith('octets') else nack(3, h))
        return r.look('gives_datagram (world_step PROFILE w (Ticked 2 0)).1', [0 if silent else 1])
    SMALL[name] = make


UNKNOWN = [data(1, 0, 0, 'hx 1 0x41')]                                            # object 0 is needed whole


def receiver_look(r, row, gives):
    return r.look('flat_map (λ (r : ReceiverState). %s) w.receivers' % row, gives)


def early_stream():
    r = Run(mode='drop', b=1, max_n=1, blocks=2, k=0, grtt=1)
    r.data(1, 0, [1, 0, 1]).tick(1, 0, [2, 0, 0, 0, 0]).job('job.Open', 0, [2, 1])
    for i in range(2):
        r.write(64, 0, [3, 1, 64 * i, 64]).tick(1, 1000 * (i + 1), [2, 32, 1, i, 0])
    return r.drop([0, 0]).write(64, 0, [3, 1, 128, 64]).drop([1, 1]).tick(1, 3000, [2, 32, 1, 2, 0])


def direct_turn(r, t, job=None, sends=NOTHING, ups=(), answers=NOTHING):
    now = 1000 * t
    if job:
        job(now)
    r.tick(1, now, sends).passes(2, 1, now).passes(1, 2, now)
    for u in ups:
        r.take(2, u)
    return r.tick(2, now, answers)


def sent(r, *positions, flags=0, first=0):
    """So many ticks, each a gap after the other, and then one that sends nothing."""
    for i, at in enumerate(positions):
        r.tick(1, first + 1000 * i, [2, flags, *at])
    return r.tick(1, first + 1000 * len(positions))
