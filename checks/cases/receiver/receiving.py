"""Which messages a receiver hears."""
from cases.shared import receiver_look
from evaluate.steps import Run, data, small


@small
def which_messages_a_receiver_hears():
    """INFO, DATA and commands of the profile's sender; and it never goes back to an instance."""
    wrong = data(0, 0, 0, 'hx 1 0x41', l=1).replace('source = 1;', 'source = 9;')
    r = Run().hears(2, wrong).hears(2, '[]').take(2, [40])
    r.hears(2, data(0, 0, 0, 'hx 1 0x41', l=1)).take(2, [41, 0, 0, 0, 0x41]).hears(2, data(0, 0, 0, 'hx 1 0x42', l=1, instance=8)).take(2, [41, 0, 0, 0, 0x42])
    r.hears(2, data(1, 0, 0, 'hx 1 0x43', l=1)).take(2, [40])
    return receiver_look(r, 'shown_option (λ i. i ∷ []) r.instance ++ r.knows.known ∷ at_numbers r.holding.point', [8, 0, 1, 0, 0])
