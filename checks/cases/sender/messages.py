"""What transmission information says."""
from evaluate.steps import Run, small


def fti_of_given(r, gives):
    """The twelve octets behind the 20 of a DATA's head: EXT_FTI, which says L, E, B and max_n."""
    return r.look('flat_map (λ (g : ℕ × Written). take 12 (drop 20 g.1.octets)) w.given', gives)


@small
def the_length_that_is_told():
    """Of data its own, and of a stream that of its buffer: 4 blocks of 2 segments of 64 octets."""
    r = Run(b=2, max_n=3, blocks=4).data(130, 0, [1, 0, 130]).tick(1, 0, [2, 0, 0, 0, 0])
    fti_of_given(r, [64, 3, 0, 0, 0, 0, 0, 130, 0, 64, 2, 3])
    for i, at in enumerate([(0, 1), (1, 0)]):
        r.tick(1, 1000 * (i + 1), [2, 0, 0, *at])
    r.job('job.Open', 3000, [2, 1]).write(64, 3000, [3, 1, 0, 64]).tick(1, 3000, [2, 32, 1, 0, 0])
    return fti_of_given(r, [64, 3, 0, 0, 0, 0, 2, 0, 0, 64, 2, 3])
