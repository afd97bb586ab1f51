#!/usr/bin/env python3
"""Evaluates the definitions of the protocol (crates/*/specs) on recorded runs.

    checks/definitions.py [--runs DIR] [--count N] [--safe] [--laws] [--cases] [--damaged] [--journals] [--steady] [--tails] [--relays] [--gathers]
                          [--manifests] [--folders] [--persist] [--errors] [--rules [--write]] [--gate] [NAME ..]

A recorded run is a list of events with what each gave, and where the nodes stood at its end (checks/runs). For each run
antt computes the defined steps, event by event, and compares each answer and the end state with the record: the proof of
the statement "they never part" is `refl`. Nothing is proved or built of the crates, and no code of theirs is run.

Without a flag the runs are compared. `--safe` evaluates the tests of lawfulness and safety along each lawful run, `--laws` those of
laws of the rules along each run, and that each damage of a state is noticed, with those of recovery along each tail, `--cases` the
small runs and values of checks/cases, `--damaged` the tests of safety on damaged runs, and `--errors` looks whether
each deliberate error of checks/errors in a definition is noticed by the case that it names. `--rules` compares the rows of
docs/protocol.md with what stands here, and with `--write` prints them again. `--journals` judges each recorded journal, which has to be
accepted event by event, to end as recorded and to print the recorded text, and damaged ones, which have to be refused (with
`--count N` those of the N shortest). `--steady` says of each recorded journal over a direct network, and of rows made by hand, whether
its number of turns can be told from its script, and that it ended whole by then. `--tails` compares each recorded tail
(checks/runs/tails) with the defined one, and damages of the shortest, which have to be refused. `--relays` compares each recorded relay (checks/runs/relays), and lists of calls made by hand. `--gathers` compares
what is printed of each recorded input of `gather` (checks/runs/gathers), and of the shortest two damages. `--manifests` compares rows of manifests and
of checks made by hand, and `--folders` scripts of folders; it makes runs of them, in which the folder has to arrive. `--persist` runs a sender by the rule of
runs that persist, and compares each recorded one (checks/runs/persist); with `--errors` each wrong rule has to part from the run that it names. `--gate` compares the rows, ten
runs, the four shortest tails, the relays, manifests and scripts of folders made by hand, one run of a folder, the shortest inputs of `gather` and runs
that persist, and evaluates the cases, the damaged runs, all journals and the damaged ones of the ten shortest. NAME is a part of a run's name, or with
`--errors` of an error's words, and `--count N` takes N runs evenly (with `--tails` and `--gathers` the N shortest).
Exit status: 0 where all is as expected, 1 where something differs, 2 where the evaluation failed.
"""
import argparse, glob, json, os, re, sys, tempfile, time

sys.dont_write_bytecode = True
HERE = os.path.dirname(os.path.abspath(__file__))
sys.path.insert(0, HERE)
from evaluate import terms                                      # noqa: E402
from evaluate.evaluating import Failed, Workspace, found_in     # noqa: E402


# Its 4,096 spans take antt more steps than it has for one statement: checks/nodes.py drives it, and the cases of what is overheard have its bound.
UNEVALUATED = 'hostile-008'
# the gate takes so many tails, the shortest, of which one is cut; `--tails` takes all, which is a minute
GATE_TAILS = 4
# and so many inputs of `gather`, the shortest
GATE_GATHERS = 20
# and so many runs that persist, the shortest
GATE_PERSIST = 12


def runs_of(folder, names, count):
    paths = sorted(p for p in glob.glob(os.path.join(folder, '*.json'))
                   if (any(n in os.path.basename(p) for n in names) if names else UNEVALUATED not in os.path.basename(p)))
    if count and count < len(paths):
        paths = [paths[i * len(paths) // count] for i in range(count)]
    for p in paths:
        run = json.load(open(p, encoding='utf-8'))
        if 'after' in run:
            yield os.path.basename(p)[:-5], run


def report(name, run, text):
    """Says where a run and its record part."""
    m = re.match(r'\(?Some \((\d+), (.*)\)\)?$', found_in(text) or '', re.S)
    if not m:
        return '%s: undecided\n%s' % (name, text[:1500])
    n, computed = int(m.group(1)), terms.read_numbers(m.group(2))
    if n >= 1000000:
        row, record = terms.rows(run)[n - 1000000]
        return '%s: at the end, %s: recorded %s, defined %s' % (name, row, record, computed)
    event = run['events'][n]
    return '%s: event %d: %s\n    recorded %s\n    defined  %s' % (name, n, json.dumps(event)[:300], terms.answer(event), computed)


def compare(space, runs, more=()):
    """Compares runs, and evaluates further cases with them."""
    said = space.evaluate([(name, *terms.run_case(name, run)) for name, run in runs] + list(more))
    for name, run in runs:
        if said[name]:
            print(report(name, run, said[name]))
    for name, *_ in more:
        if said[name]:
            print('%s: computed %s' % (name, found_in(said[name]) or said[name][:1500]))
    events = sum(len(run['events']) for _, run in runs)
    return '%d runs of %d events, %d cases' % (len(runs), events, len(more)), sum(1 for x in said.values() if x)


def judge(a, count=0):
    """Judges the recorded journals, and damaged ones of as many."""
    from evaluate import journals
    recorded = journals.runs_of(a.runs, a.names)
    with tempfile.TemporaryDirectory() as scratch:
        return journals.look(journals.Judge(scratch), recorded, journals.runs_of(a.runs, a.names, a.count or count))


def main():
    a = argparse.ArgumentParser(description=__doc__, formatter_class=argparse.RawDescriptionHelpFormatter)
    a.add_argument('names', nargs='*')
    a.add_argument('--runs', default=os.path.join(HERE, 'runs'))
    a.add_argument('--count', type=int, default=0)
    a.add_argument('--work')
    for flag in ('safe', 'laws', 'cases', 'damaged', 'journals', 'steady', 'tails', 'relays', 'gathers', 'manifests', 'folders', 'persist', 'errors', 'rules', 'write',
                 'gate'):
        a.add_argument('--' + flag, action='store_true')
    a = a.parse_args()
    runs = list(runs_of(a.runs, [] if a.errors else a.names, 0 if a.gate else a.count))
    began = time.time()
    with tempfile.TemporaryDirectory() as scratch:
        try:
            space = Workspace(a.work or scratch)
            lawful = [(n, r) for n, r in runs if r.get('lawful', True)]
            if a.persist:
                from evaluate import persisting
                look = persisting.look_at_wrong if a.errors else persisting.look
                said, differ = look(persisting.Persisting(tempfile.mkdtemp(dir=scratch)), persisting.runs_of(a.runs, () if a.errors else a.names, a.count))
            elif a.errors:
                import errors
                said, differ = errors.look(space, runs, a.names)
            elif a.journals:
                said, differ = judge(a)
            elif a.steady:
                from evaluate import journals, steady
                said, differ = steady.look(steady.Steady(tempfile.mkdtemp(dir=scratch)), journals.runs_of(a.runs, a.names))
            elif a.tails:
                from evaluate import tails
                said, differ = tails.look(space, tails.runs_of(a.runs, a.names, a.count))
            elif a.relays:
                from evaluate import relays
                said, differ = relays.look(relays.Relays(tempfile.mkdtemp(dir=scratch)), relays.runs_of(a.runs, a.names))
            elif a.manifests:
                from evaluate import manifests
                said, differ = manifests.look(manifests.Manifests(tempfile.mkdtemp(dir=scratch)))
            elif a.folders:
                from evaluate import folders
                said, differ = folders.look(folders.Folders(tempfile.mkdtemp(dir=scratch)))
            elif a.gathers:
                from evaluate import gathers
                said, differ = gathers.look(gathers.Gathers(tempfile.mkdtemp(dir=scratch)), gathers.runs_of(a.runs, a.names, a.count))
            elif a.rules:
                from evaluate import rules
                said, differ = rules.look(a.write)
            elif a.laws:
                from evaluate import handed, journals, laws, recovery, tails
                said, differ = laws.look(space, runs)
                own, astray = journals.look_at_laws(journals.Judge(tempfile.mkdtemp(dir=scratch)), journals.without_streams(journals.runs_of(a.runs, a.names)))
                passing, parted = handed.look(handed.Passing(tempfile.mkdtemp(dir=scratch)), runs)
                recovered, unmet = recovery.look(recovery.Recovery(tempfile.mkdtemp(dir=scratch)), tails.runs_of(a.runs, a.names))
                said, differ = '%s, %s, %s, %s' % (said, own, passing, recovered), differ + astray + parted + unmet
            elif a.safe:
                said, differ = compare(space, [], [(n, *terms.safe_case(n, r)) for n, r in lawful])
            elif a.gate or a.damaged or a.cases:
                import cases
                from evaluate import damaged, tails
                more = (cases.cases() if a.gate or a.cases else []) + (damaged.cases(lawful) if a.gate or a.damaged else [])
                more += [tails.case(*t) for t in tails.runs_of(a.runs, (), GATE_TAILS)] if a.gate else []
                said, differ = compare(space, [runs[i * len(runs) // 10] for i in range(10)] if a.gate else [], more)
                if a.gate:
                    from evaluate import folders, gathers, manifests, persisting, relays, rules
                    judged, refused = judge(a, 10)
                    relayed, parted = relays.look(relays.Relays(tempfile.mkdtemp(dir=scratch)), [])
                    heard, misheard = gathers.look(gathers.Gathers(tempfile.mkdtemp(dir=scratch)), gathers.runs_of(a.runs, (), GATE_GATHERS))
                    spelt, other = manifests.look(manifests.Manifests(tempfile.mkdtemp(dir=scratch)))
                    arrived, lost = folders.look(folders.Folders(tempfile.mkdtemp(dir=scratch)), ['a run'])
                    persisted, other_lines = persisting.look(persisting.Persisting(tempfile.mkdtemp(dir=scratch)), persisting.runs_of(a.runs, (), GATE_PERSIST))
                    there, astray = rules.look()
                    said = '%s, %s, %s, %s, %s, %s, %s, %s' % (said, judged, relayed, heard, spelt, arrived, persisted, there)
                    differ += refused + parted + misheard + other + lost + other_lines + astray
            else:
                said, differ = compare(space, runs)
        except Failed as e:
            print('definitions: ' + str(e)[:4000])
            return 2
    print('definitions: %s, %d differ, %.0f s' % (said, differ, time.time() - began))
    return 1 if differ else 0


if __name__ == '__main__':
    sys.exit(main())
