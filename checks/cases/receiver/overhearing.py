"""Whose requests a receiver hears of others, and how they are kept."""
from cases.shared import HEARD_PROFILE, UNKNOWN, heard_by, repair_adv
from evaluate.steps import Run, nack, request, small
from evaluate.terms import lst

heard_by('heard the own NACK', UNKNOWN, [nack(2, request('Items', 12, (0, 0, 0)))], False)
heard_by('heard a NACK of another instance', UNKNOWN, [nack(3, request('Items', 12, (0, 0, 0)), instance=8)], False)
heard_by('heard a NACK to another sender', UNKNOWN, [nack(3, request('Items', 12, (0, 0, 0)), sender=9)], False)
heard_by('heard the sender', UNKNOWN, [repair_adv(request('Items', 12, (0, 0, 0)))], True)


@small
def what_was_heard_is_kept_merged():
    """Of the spans of 2 to 5, 8 to 9, 0, and 12 to 13 of a block's symbols, then 4 to 8: in order, and three of them one."""
    r = Run(**HEARD_PROFILE)
    for datagram in UNKNOWN:
        r.hears(2, datagram)
    for first, last in (2, 5), (8, 9), (0, 0), (12, 13), (4, 8), (3, 4):
        r.hears(2, nack(3, request('Ranges', 1, (0, 0, first), (0, 0, last))))
    return r.look('flat_map (λ (r : ReceiverState). elim (r.node == 2) [ true ↦ flat_map (λ (s : Span). s.first.symbol ∷ s.last.symbol ∷ []) '
                  'r.knows.heard.symbols | false ↦ [] ]) w.receivers', [0, 0, 2, 9, 12, 13])


def message_heard(r, had, requests, lengths):
    """After a message of these requests, where so many spans of symbols, spans of infos and counts were heard before: how many there are."""
    return r.look('heard_lengths (heard_whole (heard_many %d %d %d) (asked_all (map (named PROFILE 0) %s)))' % (*had, lst(requests)), lengths)


NEW, HEARD = (5000, 0, 1), (0, 0, 0)                      # what was heard is of the first 4,096 objects, of each its first symbol


@small
def what_is_heard_up_to_the_bound():
    """4,096 of each kind."""
    r = Run()
    for form, flags, kind in ('Items', 1, 0), ('Items', 4, 1), ('Erasures', 1, 2):
        for many, there in (4095, 4096), (4096, 4096):
            message_heard(r, [many * (kind == k) for k in range(3)], [request(form, flags, NEW)], [there * (kind == k) for k in range(3)])
    return r


@small
def what_was_heard_before_counts_too():
    r = message_heard(Run(), (4095, 0, 0), [request('Items', 1, HEARD, NEW)], [4095, 0, 0])
    r = message_heard(r, (0, 4095, 0), [request('Items', 4, HEARD), request('Items', 4, NEW)], [0, 4095, 0])
    return message_heard(r, (0, 0, 4094), [request('Erasures', 1, (5000, 0, 0), (5000, 0, 0), (5000, 0, 0))], [0, 0, 4094])


@small
def each_list_has_its_own_bound():
    return message_heard(Run(), (4000, 4000, 4000), [request('Items', 5, NEW), request('Erasures', 2, NEW)], [4001, 4001, 4001])


@small
def a_message_is_heard_as_a_whole():
    r = message_heard(Run(), (4096, 0, 0), [request('Items', 5, NEW)], [4096, 0, 0])
    return message_heard(r, (0, 0, 4096), [request('Items', 12, NEW), request('Erasures', 1, NEW)], [0, 0, 4096])


@small
def an_item_counts_for_each_of_its_flags():
    """SEGMENT, BLOCK and OBJECT each, of an item and of a pair that is not empty; INFO and what names nothing count for no symbols."""
    r = message_heard(Run(), (4094, 0, 0), [request('Items', 11, NEW)], [4094, 0, 0])
    r = message_heard(r, (4093, 0, 0), [request('Items', 15, NEW, (40000, 0, 0))], [4094, 1, 0])
    r = message_heard(r, (4094, 0, 0), [request('Ranges', 11, NEW, (5000, 0, 2))], [4094, 0, 0])
    return message_heard(r, (4093, 0, 0), [request('Ranges', 11, NEW, (5000, 0, 2), (5000, 0, 2), (5000, 0, 1)), request('Erasures', 12, NEW)], [4094, 0, 0])
