"""Which index an id names by what is known, and which instance lies above another."""
from cases.shared import UNKNOWN, many_objects, receiver_look
from evaluate.steps import NONE, Run, ack, command, data, nack, request, small

LAST = 4294967294
# what is known, an id, and the index that it names: 32,768 below to 32,767 above, if an object can have it
NAMES = [(0, 0, 0), (0, 32767, 32767), (0, 32768, NONE), (0, 65535, NONE), (1, 32768, 32768), (32767, 65535, NONE), (32767, 65534, 65534), (32768, 0, 0),
         (32768, 65535, 65535), (32769, 0, 65536), (65534, 32766, 32766), (65534, 32765, 98301), (100000, 34464, 100000), (100000, 1695, 132767),
         (100000, 1696, 67232), (LAST, 65534, LAST), (LAST, 65535, NONE), (LAST, 32766, LAST - 32768), (LAST, 32765, NONE)]


def known_by(r, gives):
    return receiver_look(r, 'shown_option (λ i. i ∷ []) r.instance ++ r.knows.known ∷ shown_option (λ (x : Point). x.index ∷ []) r.knows.farthest', gives)


@small
def which_index_an_id_names():
    r = Run(first=5)
    for known, object, index in NAMES:
        r.look('shown_option (λ i. i ∷ []) (index_named PROFILE %d %d)' % (known, (object + 5) % 65536), [index])
    return r


@small
def a_receiver_names_by_what_it_knows():
    """A message whose id names nothing changes nothing: it begins no instance, and is no reason to ask."""
    r = Run(k=0)
    for object, knows in [(40000, [NONE, 0, NONE]), (32767, [7, 32767, 32767]), (65535, [7, 32767, 32767]), (65534, [7, 65534, 65534]), (32766, [7, 65534, 65534]),
                          (32765, [7, 98301, 98301]), (0, [7, 98301, 98301])]:
        known_by(r.hears(2, data(object, 0, 0, 'hx 1 0x41')), knows)
    return known_by(r.hears(2, data(40000, 0, 0, 'hx 1 0x41', instance=8)), [7, 98301, 98301])


@small
def what_names_nothing_is_no_reason_to_ask():
    r = Run(k=0).hears(2, data(1, 0, 0, 'hx 1 0x41'), 0, 0).tick(2, 0, [4, 1, 12, 0, 0, 0])
    return r.hears(2, data(40000, 0, 0, 'hx 1 0x41'), 90000, 0).tick(2, 90000, []).hears(2, data(1, 0, 0, 'hx 1 0x41'), 90000, 0).tick(2, 90000, [4, 1, 12, 0, 0, 0])


@small
def each_message_of_the_sender_makes_its_index_known():
    r = Run()
    for index, made in enumerate([data(0, 0, 0, 'hx 1 0x41'), command('Flush', 1, 0, 0), command('Squelch', 2, 0, 0)]):
        known_by(r.hears(2, made), [7, index, min(index, 0)])
    return r


@small
def what_was_heard_is_named_as_it_is_heard():
    """What names nothing then is not heard later either; and of a pair of which one end names nothing neither is."""
    r = Run(receivers=2)
    for datagram in UNKNOWN:
        r.hears(2, datagram, 0, 0)
    r.hears(2, nack(3, request('Items', 12, (40000, 0, 0), (0, 0, 0))))
    r.hears(2, nack(3, request('Ranges', 12, (0, 0, 0), (40000, 0, 0), (0, 0, 0), (1, 0, 0))))
    r.hears(2, data(32767, 0, 0, 'hx 1 0x41')).hears(2, data(65534, 0, 0, 'hx 1 0x41')).hears(2, nack(3, request('Items', 12, (1, 0, 0))))
    return receiver_look(r, 'elim (r.node == 2) [ true ↦ span_indices r.knows.heard.symbols ++ span_indices r.knows.heard.infos | false ↦ [] ]', [0, 1, 65537, 65537, 0, 1, 65537, 65537])


@small
def a_pair_of_which_one_end_names_nothing():
    r = many_objects().hears(1, nack(2, request('Ranges', 8, (0, 0, 0), (40000, 0, 0), (1, 0, 0), (1, 0, 0))), 10)
    return r.tick(1, 12).wants([1, 0, 0])


@small
def an_acknowledgement_that_names_nothing():
    r = Run().data(1, 0, [1, 0, 1]).tick(1, 1000, [2, 0, 0, 0, 0]).hears(1, ack(2, 40000, 0, 0)).news([20])
    return r.hears(1, ack(2, 0, 0, 0)).news([21, 2, 0, 0, 0])


@small
def indices_that_are_spent():
    """No object has the index 4,294,967,295."""
    r = Run()
    return r.look('cond (is_no_index 4294967294) 1 0 ∷ cond (is_no_index 4294967295) 1 0 ∷ []', [0, 1])


@small
def instances_that_a_sender_takes():
    """Each lies above the one before, and less than half of all ids above the first."""
    r = Run(instance=65535)
    for instance, is_taken in [(0, True), (65535, False), (0, False), (32767, False), (5, True), (3, False), (32766, True), (40000, False), (32766, False)]:
        r.job('(job.Restart %d)' % instance, 0, [6, instance] if is_taken else [7, 12, instance])
    return r


@small
def instances_that_a_receiver_goes_on_to():
    """One that lies less than half of all ids above its own."""
    r = Run().hears(2, data(0, 0, 0, 'hx 1 0x41', instance=8))
    for instance, now in [(7, 8), (32776, 8), (32775, 32775), (8, 32775), (7, 32775), (6, 6), (32774, 6), (32773, 32773)]:
        receiver_look(r.hears(2, data(0, 0, 0, 'hx 1 0x41', instance=instance)), 'shown_option (λ i. i ∷ []) r.instance', [now])
    return r


@small
def a_new_instance_knows_nothing():
    r = Run().hears(2, data(30000, 0, 0, 'hx 1 0x41')).hears(2, data(60000, 0, 0, 'hx 1 0x41'))
    known_by(r, [7, 60000, 60000]).hears(2, data(40000, 0, 0, 'hx 1 0x41', instance=8))
    return known_by(known_by(r, [7, 60000, 60000]).hears(2, data(5, 0, 0, 'hx 1 0x41', instance=8)), [8, 5, 5])
