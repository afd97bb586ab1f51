"""Laws of the rules as tests: each holds in every state, or of every event, along the recorded runs, and is false where a state is damaged."""
from evaluate import terms

# a test of Laws.txt, and the damage that has to make it false in a state of some run; what front_tells says needs no premise of data
# and files, so that no damage of a state makes it false
TESTS = [('block_was_seen', 'blocks_unseen'), ('has_passed', 'blocks_further'), ('is_far', 'point_at_begin'), ('due_was_handed_up', 'due_of_next'),
         ('front_tells', None)]


# the same of the sender's steps
STEPS = [('keeps_the_gap', 'sent_too_soon'), ('drop_never_falls', 'nothing_dropped'), ('listings_never_fall', 'none_listed'), ('ends_at_most_one', 'all_ended'),
         ('idle_has_sent', 'nothing_sent'), ('reads_as_it_came', 'asked_further')]


def case(name, run, test):
    p, declared = terms.profile_of(name, run)
    return declared, '%s %s 0 (world_opening %s) %s ≡ []' % (test, p, p, terms.lst([terms.event(e) for e in run['events']]))


def is_refused(said):
    """The statement was computed and is false."""
    return bool(said) and 'limit' not in said.split('\n')[0]


def look(space, runs):
    """Says which run has a state in which a law is false, and which damage no run notices."""
    every = 'fails_along (λ q w. %s)' % ' && '.join('of_each %s q w' % test for test, _ in TESTS)
    steps = 'fails_between (λ q w e next. %s) as_it_is' % ' && '.join('%s q w e next' % test for test, _ in STEPS)
    whole = {'%s, %s' % (name, what): (name + what, run, test) for name, run in runs for what, test in (('states', every), ('steps', steps))}
    damages = {d: 'fails_along (of_damaged %s %s)' % (d, test) for test, d in TESTS if d}
    damages.update({d: 'fails_between %s %s' % (test, d) for test, d in STEPS})
    damaged = {'%s, %s' % (name, d): (name + d, run, test) for name, run in runs if name.startswith('streams') for d, test in damages.items()}
    said = space.evaluate([(k, *case(*v)) for k, v in [*whole.items(), *damaged.items()]])
    wrong = [k for k in whole if said[k]]
    missed = [d for d in damages if not any(is_refused(said[k]) for k in damaged if k.endswith(', ' + d))]
    for k in wrong:
        print('%s: a law is false: %s' % (k, said[k][:1500]))
    for d in missed:
        print('%s: no run notices it' % d)
    return '%d laws along %d runs of %d events' % (len(TESTS + STEPS), len(runs), sum(len(r['events']) for _, r in runs)), len(wrong + missed)
