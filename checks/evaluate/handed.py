"""Runs that pass on what the sender gives, made of the commands of recorded ones: all is handed up wherever the sender is idle."""
import os

from evaluate import evaluating, terms
from evaluate.laws import is_refused

HERE = os.path.dirname(os.path.abspath(__file__))
USES = '''use Rattle.std.specs.Prelude.{◌*◌, reverse}
use Rattle.norm_base.specs.Members.{receivers_of}
use Rattle.norm_safety.specs.Fronts.{same_up}
use Rattle.norm_safety.specs.Hands.{hands}
use Rattle.norm_laws.specs.HandedUp.{Passing, passes_on_from, everything}
'''
HANDED = open(os.path.join(HERE, 'Handed.txt'), encoding='utf-8').read()
# the sender's ticks after each command, and the most events of a recorded run whose commands are taken
TICKS, MOST = 4, 200


class Passing(evaluating.Workspace):
    """The definitions with those of the law."""

    def __init__(self, work):
        super().__init__(work, 'norm_laws', terms.USES + USES, evaluating.SHARED + '\n' + HANDED)


def case(name, run, less):
    """The run of these commands passes on, and in the end, where the sender is idle, all was handed up; not so where one hand-up is taken away."""
    p, declared = terms.profile_of('%s_%d' % (name, less), run)
    # a command that was refused and offered again comes once, since the first offer may be accepted here
    first = {tuple(e['job']['by']): e for e in reversed(run['events']) if 'job' in e}
    commands = terms.lst([terms.event(e) for e in run['events'] if 'job' in e and first[tuple(e['job']['by'])] is e])
    return declared, 'passes_and_has %d %s %d %s ≡ ((true, true), true)' % (less, p, TICKS, commands)


def look(space, runs):
    """Says in which run not all was handed up, and whether a hand-up that is left out is noticed."""
    runs = [(n, r) for n, r in runs if r.get('lawful') and len(r['events']) <= MOST]
    damaged = ['%s, less one' % n for n, _ in runs[:4]]
    said = space.evaluate([(n, *case(n, r, 0)) for n, r in runs] + [(d, *case(n, r, 1)) for d, (n, r) in zip(damaged, runs)])
    wrong = [n for n, _ in runs if said[n]]
    for n in wrong:
        print('%s: not all is handed up: %s' % (n, said[n][:1500]))
    missed = 0 if not runs or any(is_refused(said[d]) for d in damaged) else 1
    if missed:
        print('no run notices a hand-up that is left out')
    return 'all handed up in %d runs that pass on' % len(runs), len(wrong) + missed
