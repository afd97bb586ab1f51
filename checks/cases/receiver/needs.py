"""What a receiver needs of data and files."""
from evaluate.steps import Run, command, data, small


@small
def needs_of_objects():
    """Blocks before the farthest point, or at most at the flush's."""
    r = Run(b=2, max_n=3).hears(2, data(0, 1, 0, 'hx 64 0x%s' % ('41' * 64), l=320, b=2, max_n=3))
    r.tick(2, 0, [4, 3, 1, 0, 0, 2]).hears(2, command('Flush', 0, 1, 1), 60000, 0).tick(2, 60000, [4, 3, 1, 0, 0, 2, 0, 1, 1])
    return r.hears(2, data(1, 0, 0, 'hx 1 0x41'), 120000, 0).tick(2, 120000, [4, 3, 1, 0, 0, 2, 0, 1, 1, 0, 2, 1])


@small
def the_info_before_the_symbols():
    r = Run(b=2, max_n=3).hears(2, data(0, 0, 0, 'hx 64 0x%s' % ('41' * 64), l=192, flags=4, b=2, max_n=3)).hears(2, command('Flush', 0, 1, 0))
    return r.tick(2, 0, [4, 1, 4, 0, 0, 0, 3, 1, 0, 0, 1, 0, 1, 1])


@small
def the_farthest_point():
    """It is raised whether the symbol is kept or not."""
    r = Run().hears(2, data(3, 0, 0, 'hx 1 0x41')).look('flat_map (λ (r : ReceiverState). length r.holding.held ∷ shown_option (λ (x : Point). x.index ∷ x.block ∷ []) r.knows.farthest) w.receivers', [0, 3, 0])
    return r.tick(2, 0, [4, 1, 12, 0, 0, 0, 1, 0, 0, 2, 0, 0])
