"""A world that goes on over a network that loses nothing, until a watermark is done."""
from evaluate.steps import Run, small

UP = [41, 0, 0, 0, 0]                                         # object 0, data without info, of one octet


def brief(*rows):
    return [n for row in rows for n in row]


def direct(now, first_draw, sent, ups=()):
    """The sender sends; its datagram comes to nodes 2 and 3, which hand up what it brought and have nothing to say."""
    heard = brief([3, 1, now, *sent], [4, 1], [2, 2, first_draw], [2, 3, first_draw + 1])
    return heard + brief(*(brief(*([5, node, *up] for up in ups), [3, node, now]) for node in (2, 3)))


def acknowledged(now, first_draw):
    """Nodes 2 and 3 acknowledge a flush one after the other. The other receiver hears it, and the sender tells its news before that."""
    return brief([3, 1, now, 31, 0, 0, 0, 2, 3], [4, 1], [2, 2, first_draw], [2, 3, first_draw + 1],
                 [3, 2, now, 5, 0, 0, 0], [4, 2], [2, 1, 0], [6, 21, 2, 0, 0, 0], [2, 3, first_draw + 2],
                 [3, 3, now, 5, 0, 0, 0], [4, 3], [2, 1, 0], [6, 21, 3, 0, 0, 0], [6, 22, 1, 1], [2, 2, first_draw + 3])


@small
def a_tail():
    """A DATA and a flush, in a turn each. Copies come in order of node, and each to a receiver uses a draw."""
    r = Run(receivers=2).data(1, 0, [1, 0, 1]).mark(0, [5, 1, 0, 0, 0])
    events = direct(1000, 7, [2, 0, 0, 0, 0], [UP]) + acknowledged(2000, 9)
    r.look('brief_tail (tail_of PROFILE (λ i. i + 7) 0 w 1)', [2, 2000, 6, *events])
    return r.look('brief_course (tail_turns 2 PROFILE (λ i. i + 7) 0 (course_from w))', [6, *events])


@small
def a_nack_in_a_tail():
    """Two receivers lack the same. The second one hears the NACK of the first before its own tick, and holds its own back."""
    r = Run(receivers=2, k=0, grtt=500).data(1, 0, [1, 0, 1]).tick(1, 0, [2, 0, 0, 0, 0]).mark(0, [5, 1, 0, 0, 0])
    asked = brief([3, 1, 1000, 31, 0, 0, 0, 2, 3], [4, 1], [2, 2, 7], [2, 3, 8],
                  [3, 2, 1000, 4, 1, 12, 0, 0, 0], [4, 2], [2, 1, 0], [2, 3, 9], [3, 3, 1000])
    return r.look('brief_tail (tail_of PROFILE (λ i. i + 7) 0 w 1)', [3, 3000, 9, *asked, *direct(2000, 10, [2, 3, 0, 0, 0], [UP]), *acknowledged(3000, 12)])


@small
def a_turn_that_is_cut():
    """After 20 flushes the sender's tick ends the watermark: its news are told, and nobody else ticks in that turn. It counts."""
    r = Run(gap=1, grtt=500).data(1, 0, [1, 0, 1]).tick(1, 0, [2, 0, 0, 0, 0]).mark(0, [5, 1, 0, 0, 0])
    for i in range(20):
        r.tick(1, 1000 * (i + 1), [31, 0, 0, 0, 2])
    r.look('brief_tail (tail_of PROFILE (λ i. i) 20000 w 1)', [1, 21000, 0, 3, 1, 21000, 6, 22, 1, 2, 1])
    return r.look('brief_course (tail_turns 1 PROFILE (λ i. i) 20000 (course_from w))', [0, 3, 1, 21000, 6, 22, 1, 2, 1, 3, 2, 21000])


@small
def the_bound_of_a_tail():
    """2 * 10 * 7 microseconds for one symbol, and 8 * 10 * 7 for seven, in turns of 3 or of 4: what does not divide takes one turn more."""
    r = Run(k=0, grtt=7, gap=3, step=3).data(1, 0, [1, 0, 1])
    r.look('tail_bound PROFILE w.sender ∷ tail_bound (record PROFILE { step = 4 }) w.sender ∷ []', [47, 35]).data(200, 0, [1, 1, 200])
    return r.look('tail_bound PROFILE w.sender ∷ tail_bound (record PROFILE { step = 4 }) w.sender ∷ []', [187, 140])


@small
def why_no_tail_begins():
    """The first that applies: no watermark, the mode, streams, the step, the pace of a window of one symbol, flushes with twice K."""
    def refused(r, gives, **keys):
        changed = 'record PROFILE { %s }' % '; '.join('%s = %s' % kv for kv in keys.items()) if keys else 'PROFILE'
        return r.look('shown_refusal (tail_fault (%s) w.sender)' % changed, gives)
    r = Run().data(1, 0, [1, 0, 1])
    refused(refused(r, [1]), [1], mode='mode.Drop').mark(0, [5, 1, 0, 0, 0])
    refused(refused(refused(r, [0]), [2], mode='mode.Drop'), [2], mode='mode.Drop', step=0)
    refused(refused(refused(r, [4, 0], step=0), [4, 1001], step=1001), [4, 0], step=0, grtt=1)
    refused(refused(refused(r, [0], grtt=8000), [5, 1], grtt=7999), [5, 1], grtt=7999, k=8)
    refused(refused(refused(r, [0], k=7), [6, 0], k=8).tick(1, 0, [2, 0, 0, 0, 0]).tick(1, 1000, [31, 0, 0, 0, 2]), [0], k=7)
    refused(r, [6, 1], k=8).job('job.Open', 1000, [2, 1])
    return refused(refused(refused(r, [3, 1]), [2], mode='mode.Drop'), [3, 1], step=0)
