"""What a sender sends by itself, and when."""
from cases.shared import sent
from evaluate.steps import Run, nack, request, small


@small
def what_is_sent_before_a_drop():
    """A drop asks for source symbols and info only, and a new symbol that was dropped is passed over."""
    r = Run(mode='drop', window=1, auto=1)
    r.data(128, 1000, [1, 0, 128]).tick(1, 1000, [2, 0, 0, 0, 0]).data(64, 2000, [7, 9, 0]).tick(1, 2000, [2, 0, 0, 0, 1])
    return r.data(64, 3000, [1, 1, 64]).tick(1, 3000, [2, 0, 1, 0, 0]).tick(1, 4000)


@small
def parity_by_itself():
    """Blocks of 2 and of 1 with 4 and 2 encoded symbols: of each block one parity symbol."""
    r = Run(b=2, max_n=4, auto=1).data(192, 0, [1, 0, 192])
    return sent(r, (0, 0, 0), (0, 0, 1), (0, 0, 2), (0, 1, 0), (0, 1, 1))


@small
def all_parity_by_itself():
    """Where a block has fewer than the profile says, all it has."""
    r = Run(b=2, max_n=4, auto=3).data(192, 0, [1, 0, 192])
    return sent(r, (0, 0, 0), (0, 0, 1), (0, 0, 2), (0, 0, 3), (0, 1, 0), (0, 1, 1))


@small
def the_last_moment():
    """A sum of moments that passes 64 bits is the last one."""
    last = 18446744073709551615
    r = Run().data(1, last - 10, [1, 0, 1]).data(1, last - 10, [1, 1, 1]).tick(1, last - 10, [2, 0, 0, 0, 0])
    r.look('w.sender.next_send ∷ []', [last]).tick(1, last - 1).hears(1, nack(2, request('Items', 1, (0, 0, 0))), last - 1)
    return r.tick(1, last, [2, 3, 0, 0, 0]).tick(1, last, [2, 0, 1, 0, 0])
