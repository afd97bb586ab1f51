"""How much may still have to be repaired."""
from evaluate.steps import Run, small


@small
def what_is_left_of_the_window():
    """Its infos and encoded symbols, and its streams."""
    def counts(r, *gives):
        return r.look('repairable PROFILE w.sender ∷ streams w.sender ∷ []', list(gives))
    r = counts(Run(mode='drop', window=2, b=2, max_n=3), 0, 0).data(130, 0, [1, 0, 130], info='(Some (9 ∷ []))')
    counts(r, 5, 0).job('job.Open', 0, [2, 1]).write(130, 0, [3, 1, 0, 130])
    counts(r, 8, 1).job('job.Close', 0, [4, 1])
    for i in range(4):
        r.tick(1, 1000 * i, [1, 4, 0] if i == 0 else [2, 4, 0, (i - 1) // 2, (i - 1) % 2])
    return counts(r.data(1, 4000, [1, 2, 1]), 7, 1)
