"""Recorded tails (checks/runs/tails) against the definitions of one (crates/norm_safety/specs/Tail): how many turns it takes and may take,
its events with what they answer, where the nodes stand at its end, and whether the whole is lawful."""
import glob, json, os, re

from evaluate import terms
from evaluate.evaluating import found_in
from evaluate.laws import is_refused

# a watermark may expire in a tail that begins with more than so many flushes and 2K: no other recorded tail is refused
MOST_COUNTED = 15


def runs_of(folder, names=(), count=0):
    """The recorded tails, with `count` so many that have the fewest events."""
    paths = sorted(glob.glob(os.path.join(folder, 'tails', '*.json')))
    runs = [(os.path.basename(p)[:-5], json.load(open(p, encoding='utf-8'))) for p in paths]
    runs = [r for r in runs if not names or any(n in r[0] for n in names)]
    return sorted(runs, key=lambda r: len(r[1]['before'] + r[1]['tail']))[:count] if count else runs


def shown(e):
    """An event in numbers, as `shown_event`."""
    if 'tick' in e:
        return [3, e['tick'], e['now']]
    if 'offer' in e:
        return [4, e['offer'], *bytes.fromhex(e['bytes'])]
    if 'deliver' in e:
        return [2, e['deliver'], e['now'], e['draw'], *bytes.fromhex(e['bytes'])]
    return [5, e['take']] if 'take' in e else [6]


def rows(run):
    """(name, numbers) of each row, as `tail_rows`."""
    yield 'symbols that may need repair, flushes counted, bound', [run['repairable'], run['flushes'], run['bound']]
    yield 'refusal', [6, run['flushes']] if run['flushes'] + 2 * run['profile']['k'] > MOST_COUNTED else [0]
    yield 'turns, last moment, draws used, events', [run['turns'], run['end'], run['used'], len(run['tail'])]
    yield 'outcome', [terms.OUTCOMES[run['outcome']]]
    yield 'lawful', [int(run['lawful'])]
    yield from terms.rows(run)
    for i, e in enumerate(run['tail']):
        yield 'event %d' % i, shown(e) + terms.answer(e)


def case(name, run):
    n = re.sub(r'\W', '_', name)
    p, declared = terms.profile_of(name, run)
    declared += '\n\nabbrev before_%s : List Event\nbefore_%s = %s' % (n, n, terms.lst([terms.event(e) for e in run['before']]))
    tail = 'tail_rows %s before_%s %d %d %s' % (p, n, run['last'], run['mark'], terms.nums(run['draws']))
    return name, declared, 'first_unlike 0 (%s) %s ≡ None' % (tail, terms.lst([terms.nums(r) for _, r in rows(run)]))


def damages(run):
    """(what was damaged, the record so damaged): each has to be refused."""
    for key, wrong in (('bound', run['bound'] - 1), ('turns', run['turns'] - 1), ('end', run['end'] + 1), ('used', run['used'] + 1), ('lawful', not run['lawful']),
                       ('outcome', 'cut'), ('tail', run['tail'][:-1]), ('draws', [n + 1 for n in run['draws']])):
        yield key, dict(run, **{key: wrong})


def report(name, run, text):
    """Says where a tail and its record part."""
    m = re.match(r'\(?Some \((\d+), (.*)\)\)?$', found_in(text) or '', re.S)
    if not m:
        return '%s: undecided\n%s' % (name, text[:1500])
    what, record = list(rows(run))[int(m.group(1))]
    return '%s: %s: recorded %s, defined %s' % (name, what, record, terms.read_numbers(m.group(2)))


def look(space, runs):
    """Says which tail parts from its record, and which damage of the shortest one that uses draws is not noticed."""
    with_draws = sorted((r for r in runs if r[1]['used']), key=lambda r: len(r[1]['tail']))[:1]
    damaged = {'%s, %s' % (name, key): wrong for name, run in with_draws for key, wrong in damages(run)}
    said = space.evaluate([case(name, run) for name, run in [*runs, *damaged.items()]])
    wrong = [name for name, _ in runs if said[name]]
    missed = [name for name in damaged if not is_refused(said[name])]
    for name in wrong:
        print(report(name, dict(runs)[name], said[name]))
    for name in missed:
        print('%s: this damage is not noticed' % name)
    return '%d tails of %d events, %d damages' % (len(runs), sum(len(r['tail']) for _, r in runs), len(damaged)), len(wrong + missed)
