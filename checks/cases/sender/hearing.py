"""Which messages a sender hears, when a round opens, and what an acknowledgement lists."""
from cases.shared import direct_turn, repair_adv
from evaluate.steps import NONE, Run, ack, command, nack, request, small


@small
def an_acknowledgement_of_what_was_dropped():
    """It counts where its position is a source symbol of the whole order, dropped or not."""
    r = Run(mode='drop', window=1, k=0)
    direct_turn(r, 1, lambda now: r.data(1, now, [1, 0, 1]), [2, 0, 0, 0, 0], [[41, 0, 0, 0, 0]])
    direct_turn(r, 2, lambda now: r.mark(now, [5, 1, 0, 0, 0]), [31, 0, 0, 0, 2], [], [5, 0, 0, 0])
    r.data(1, 3000, [1, 1, 1]).drop([1, 0]).tick(1, 3000, [2, 0, 1, 0, 0]).passes(2, 1, 3000)
    return r.news([21, 2, 0, 0, 0]).news([22, 1, 1])


@small
def acknowledged_positions():
    """Of a flush alone; and source means the block's own k: an object of 257 octets has blocks of 3 and 2."""
    r = Run().data(257, 0, [1, 0, 257]).hears(1, ack(2, 0, 1, 1).replace('ack_type = 2', 'ack_type = 1')).news([20])
    for at, news in [((0, 0, 3), [20]), ((0, 1, 2), [20]), ((0, 2, 0), [20]), ((1, 0, 0), [20]), ((0, 1, 1), [21, 2, 0, 1, 1]), ((0, 1, 0), [20])]:
        r.hears(1, ack(2, *at)).news(news)
    return r.hears(1, ack(3, 0, 1, 1)).hears(1, ack(2, 0, 1, 1, instance=8)).news([20])


@small
def a_round_while_nothing_is_missing():
    """A NACK whose items name nothing opens a round, and one without requests does not."""
    r = Run().data(1, 0, [1, 0, 1]).tick(1, 0, [2, 0, 0, 0, 0]).hears(1, nack(2), 10).look('shown_option (λ (r : Round). r.closes ∷ []) w.sender.round', [4294967295])
    r.hears(1, nack(2, request('Items', 1, (9, 0, 0))), 10).look('shown_option (λ (r : Round). r.closes ∷ []) w.sender.round', [50010])
    return r.tick(1, 50009).look('shown_option (λ (r : Round). r.closes ∷ []) w.sender.round', [50010]).tick(1, 50010).look('shown_option (λ (r : Round). r.closes ∷ []) w.sender.round', [4294967295])


@small
def the_closing_moment():
    """K + 1 round trips after the first NACK; a second one joins and does not move it."""
    r = Run(k=2, grtt=1000, gap=1).data(1, 0, [1, 0, 1]).tick(1, 0, [2, 0, 0, 0, 0]).hears(1, nack(2, request('Items', 1, (0, 0, 0))), 10)
    return r.hears(1, nack(2, request('Items', 1, (0, 0, 0))), 2000).tick(1, 3009).tick(1, 3010, [2, 3, 0, 0, 0]).tick(1, 8000)


@small
def listings_that_rise():
    """Each is told once with its latest position, in order of node."""
    r = Run(receivers=2).data(257, 0, [1, 0, 257]).hears(1, ack(3, 0, 0, 0)).hears(1, ack(2, 0, 0, 1)).hears(1, ack(3, 0, 1, 1)).hears(1, ack(3, 0, 0, 2))
    return r.news([21, 2, 0, 0, 1]).news([21, 3, 0, 1, 1]).news([20])


@small
def which_messages_a_sender_hears():
    """A listed receiver's, to this sender and its current instance."""
    look = 'shown_option (λ (r : Round). r.closes ∷ []) w.sender.round'
    r = Run(k=0, grtt=1).data(1, 0, [1, 0, 1])
    for bad in (nack(3, request('Items', 1, (0, 0, 0))), nack(2, request('Items', 1, (0, 0, 0)), instance=8), nack(2, request('Items', 1, (0, 0, 0)), sender=9),
                command('Flush', 0, 0, 0, nodes=[2]), repair_adv(request('Items', 1, (0, 0, 0))), '[]'):
        r.hears(1, bad).look(look, [NONE])
    return r.hears(1, nack(2, request('Items', 1, (0, 0, 0)))).look(look, [1])


@small
def what_a_struck_node_says():
    """Its NACK opens a round as before, since members that heard it hold theirs back; its acknowledgement counts no more."""
    r = Run(receivers=2, k=0, grtt=1, gap=1).data(1, 0, [1, 0, 1]).tick(1, 0, [2, 0, 0, 0, 0]).mark(0, [5, 1, 0, 0, 0]).strike(3, 0, [8, 3])
    r.hears(1, ack(3, 0, 0, 0)).news([20]).tick(1, 1, [31, 0, 0, 0, 2]).hears(1, nack(3, request('Items', 1, (0, 0, 0))), 10).tick(1, 11, [2, 3, 0, 0, 0])
    return r.hears(1, ack(2, 0, 0, 0)).news([21, 2, 0, 0, 0]).news([22, 1, 1]).news([20])
