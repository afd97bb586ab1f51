"""What a receiver forgets as it goes to another instance."""
from evaluate.steps import Run, command, data, head, small


@small
def a_sequence_goes_on_in_another_instance():
    """The sequence number is the second pair of octets of a NACK."""
    r, head = Run(), 'flat_map (λ (g : ℕ × Written). take 4 g.1.octets) w.given'
    for i, instance in enumerate((7, 8)):
        r.hears(2, data(1, 0, 0, 'hx 1 0x41', instance=instance)).tick(2, 0, [4, 1, 12, 0, 0, 0]).look(head, [0x14, 6, 0, i])
    return r


@small
def a_change_of_instance_forgets_hand_ups():
    r = Run().hears(2, data(0, 0, 0, 'hx 1 0x41', l=1)).hears(2, command('Flush', 0, 0, 0, instance=8)).take(2, [40])
    return r.hears(2, data(0, 0, 0, 'hx 1 0x41', l=1)).take(2, [40])
