"""Deliberate errors in the definition of a tail."""

W = 'norm_safety'
# what is wrong, the crate, the file, the text (or texts), what stands in its place, and the case that notices it
ERRORS = [
    ('copies come in falling order', W, 'Tail', '(others_than p node)', '(reverse (others_than p node))', 'a tail'),
    ('all receivers tick before a NACK is delivered', W, 'Tail', 'fold (serves p draws now) (passes_on p draws now c p.sender)', 'fold (passes_on p draws now) (fold (receiver_ticks p now) (passes_on p draws now c p.sender) (receivers_of p p.receivers))', 'a nack in a tail'),
    ('news are told at the end of a turn', W, 'Tail', ('true ↦ tells p (comes p (Delivered node octets now 0) c)', 'goes_round p draws now c = fold (serves p draws now) (passes_on p draws now c p.sender) (receivers_of p p.receivers)'), ('true ↦ comes p (Delivered node octets now 0) c', 'goes_round p draws now c = tells p (fold (serves p draws now) (passes_on p draws now c p.sender) (receivers_of p p.receivers))'), 'a tail'),
    ('a delivery to the sender uses a draw', W, 'Tail', 'tells p (comes p (Delivered node octets now 0) c)', 'tells p (comes p (Delivered node octets now (draws c.used)) (record c { used = c.used + 1 }))', 'a tail'),
    ('the bound of a tail is rounded down', W, 'Tail', 'div_ceil (tail_time p s) p.step', 'tail_time p s / p.step', 'the bound of a tail'),
    ('a turn that is cut is not counted', W, 'Tail', 'turns = t.turns + 1', 'turns = t.turns + elim (is_open_mark (sender_ticks p now t.course).world mark) [ true ↦ 1 | false ↦ 0 ]', 'a turn that is cut'),
    ('a pace that is just met is refused', W, 'Tail', 'nat_lt p.grtt (sent_twice p s)', 'nat_le p.grtt (sent_twice p s)', 'why no tail begins'),
    ('streams are named before the mode', W, 'Tail', '(drops p, Mode)\n    ∷ (nat_lt 0 (streams s), Streams (streams s))', '(nat_lt 0 (streams s), Streams (streams s))\n    ∷ (drops p, Mode)', 'why no tail begins'),
]
