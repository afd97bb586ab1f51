"""Deliberate errors in the definitions. Each is one changed text in one file, or two that belong together, and the case that its row names
has to part from it."""
import itertools, re

import cases
from errors import receiver, sender, tail
from evaluate import terms
from evaluate.variant import Failed, Variant

ERRORS = sender.ERRORS + receiver.ERRORS + tail.ERRORS
UNREAD = 'CANNOT BE READ'
# the steps of a small run by which a definition of one kind of node is used; its sender is node 1
STEPS = {sender.S: r'Commanded|(Ticked|Delivered) 1 |NewsAsked|Pass |is_no_index', receiver.R: r'(Ticked|Delivered|UpTaken) [2-9]\b|Pass '}


def look(space, runs, names, at_once=12):
    """Whether the case that each error names parts from it; where it does not, which others do, or which of the shorter runs.
    NAMEs are parts of errors' words."""
    small = [('case ' + c[0], *c[1:]) for c in cases.cases()]
    short = [(n, *terms.run_case(n, r)) for n, r in sorted(runs, key=lambda x: len(x[1]['events']))[:24]]
    errors = [e for e in ERRORS if not names or any(n in e[0] for n in names)]
    missed = 0
    for part in parts(errors, at_once):
        named = {'case ' + e[5] for e in part}
        seen = noticed(space, part, [c for c in small if c[0] in named])
        for others in ([c for c in small if re.search(STEPS.get(part[0][1], ''), c[2])], short):
            unseen = [e for e in part if not seen[e[0]]]
            if unseen:
                seen.update(noticed(space, unseen, others))
        for what, _, name, _, _, case in part:
            by = seen[what]
            more = ' and %d more' % (len(by) - 3) if len(by) > 3 else ''
            print('%s in %s: %s' % (what, name, ', '.join(by[:3]) + more or 'NOT NOTICED'), flush=True)
            if 'case ' + case not in by:
                print('    its row names the case "%s", which does not notice it' % case, flush=True)
                missed += 1
    return '%d errors' % len(errors), missed


def parts(errors, most):
    """The errors of each crate, at most so many together."""
    for _, group in itertools.groupby(errors, lambda e: e[1]):
        group = list(group)
        yield from (group[i:i + most] for i in range(0, len(group), most))


def noticed(space, errors, everything):
    """{error's words: the cases and runs that part from it}."""
    return {e[0]: [case for case, text in said.items() if text] for e, said in zip(errors, evaluated(space, errors, everything))}


def evaluated(space, errors, everything):
    """What is said of each error. One that can't be read is left out, and said to be so."""
    try:
        return space.evaluate_variants([Variant(space, e[1:5], '_v%d' % n) for n, e in enumerate(errors)], everything)
    except Failed as e:
        named = re.search(r'/crates/\w+_v(\d+)/|/proofs/Shared(\d+)\.', str(e))
        if not named:
            raise
        n = int(named.group(1) or named.group(2))
        print('%s: %s' % (errors[n][0], str(e)[:500]), flush=True)
        said = evaluated(space, errors[:n] + errors[n + 1:], everything) if errors[1:] else []
        return said[:n] + [{UNREAD: True}] + said[n:]
