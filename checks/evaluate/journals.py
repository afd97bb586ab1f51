"""Recorded journals against the judge (crates/norm_journal/specs): each is accepted event by event, ends as recorded and prints
the recorded text, and damaged ones are refused."""
import json, os, re

from evaluate import evaluating, terms
from evaluate.journal_terms import event, journal_of, octets

HERE = os.path.dirname(os.path.abspath(__file__))
ENDINGS = {'whole': 1, 'spent': 2, 'absent': 3}

# what journals bring in beside the definitions of the world
USES = '''use Rattle.norm_script.specs.Commands.{Commands}
use Rattle.norm_script.specs.Reading.{script_of as read_script}
use Rattle.norm_base.specs.Members.{receivers_of}
use Rattle.norm_base.specs.declared.kinds.Sent.TheVariants as sent
use Rattle.norm_journal.specs.declared.event.Event.{Event as JournalEvent}
use Rattle.norm_journal.specs.declared.event.Event.TheVariants as journal
use Rattle.norm_journal.specs.Accepting.{accepts, judged_from}
use Rattle.norm_journal.specs.Direct.{is_direct, taken_with}
use Rattle.norm_journal.specs.Handed.{ups_in}
use Rattle.norm_journal.specs.Honest.{is_honest}
use Rattle.norm_journal.specs.Jobs.{Told as ToldFiles}
use Rattle.norm_journal.specs.Judged.{Judged, judged_opening}
use Rattle.norm_journal.specs.Printed.{printed_from}
use Rattle.norm_journal.specs.SessionRun.{Ending, Whole, Spent, Absent, ending_of}
use Rattle.norm_journal.specs.declared.totals.Totals.{Totals}
use Rattle.norm_journal.specs.WorldEvents.{world_events}
use Rattle.norm_safety.specs.Fronts.{same_up}
use Rattle.norm_safety.specs.Hands.{hands}
use Rattle.norm_safety.specs.History.{happens}
use Rattle.norm_safety.specs.OnceEach.{instance_ids}
use Rattle.std.specs.Prelude.{◌*◌}
'''
# definitions of the kit that have to be opened
KIT = [('Rattle.hex.specs.Hex', 'encode_with'), ('Rattle.hex.specs.Hex', 'decode_pairs'), ('Rattle.rand_core.specs.Pcg32Seed', 'pcg32_seed'),
       ('Rattle.rand_core.specs.Steps', 'word_bytes'), ('Rattle.rand_core.specs.Steps', 'u32_at'), ('Rattle.core.specs.Fmt', 'digits')]
JUDGING = open(os.path.join(HERE, 'Judging.txt'), encoding='utf-8').read()


class Judge(evaluating.Workspace):
    """The definitions with the judge, and what journals need beside them."""

    def __init__(self, work):
        super().__init__(work, 'norm_journal', terms.USES + USES, evaluating.SHARED + '\n' + JUDGING)

    def unfoldable(self):
        yield from super().unfoldable()
        yield from KIT


def ending(run):
    return ENDINGS['absent' if 'absent' in run['ended'] else 'whole' if run['ended']['whole'] else 'spent']


def files_of(run):
    return '(Some %s)' % terms.lst(['(%s, %s)' % (octets(name.encode().hex()), octets(bytes)) for name, bytes in sorted(run['files'].items())])


def printed(run):
    """The text that the journal prints: the output without the line that says how a run ended that was not whole."""
    return run['output'] if run['ended'].get('whole') else ''.join(run['output'].splitlines(True)[:-1])


def by_script(run, otherwise, judge):
    return 'by_script %s %s %s (λ j. %s)' % (octets(run['script'].encode().hex()), files_of(run), otherwise, judge)


def accepted_case(name, run):
    """The journal is accepted event by event, ends as recorded, and prints the recorded text."""
    says = by_script(run, '((2, 0), [])', 'journal_says j %s' % terms.lst([event(e) for e in journal_of(run)]))
    return name, '', '%s ≡ ((0, %d), %s)' % (says, ending(run), octets(printed(run).encode().hex()))


def runs_of(folder, names=(), count=0):
    paths = sorted(p for p in os.listdir(folder) if p.startswith('journal-') and p.endswith('.json'))
    runs = [(p[:-5], json.load(open(os.path.join(folder, p), encoding='utf-8'))) for p in paths]
    runs = [r for r in runs if not names or any(n in r[0] for n in names)]
    return sorted(runs, key=lambda r: (len(r[1]['events']), r[0]))[:count] if count else runs


def off_by_one(v, name=None):
    """(what was changed, value) of each number in a value off by one; of octets the first and the last, and of words another."""
    if isinstance(v, bool):
        yield name, not v
    elif isinstance(v, int):
        yield from ((name, n) for n in (v - 1, v + 1) if n >= 0)
    elif isinstance(v, str) and name in ('bytes', 'info', 'name') and v:
        octets = bytes.fromhex(v)
        for i in sorted({0, len(octets) - 1}):
            yield name, (octets[:i] + bytes([(octets[i] + 1) % 256]) + octets[i + 1:]).hex()
    elif isinstance(v, str) and name == 'kind':
        yield name, 'file' if v == 'data' else 'data'
    elif isinstance(v, str) and name == 'outcome':
        yield from ((name, o) for o in ('satisfied', 'expired', 'cut') if o != v)
    elif isinstance(v, list):
        for i, x in enumerate(v):
            yield from ((n, v[:i] + [y] + v[i + 1:]) for n, y in off_by_one(x, name))
    elif isinstance(v, dict):
        for key, x in v.items():
            yield from ((n, dict(v, **{key: y})) for n, y in off_by_one(x, key))


def word_of(e):
    return e if isinstance(e, str) else next(iter(e))


def damages_of(events, i):
    """(what was damaged, how many events go, which come) for the event at a place."""
    e, word, term = events[i], word_of(events[i]), event(events[i])
    yield word + ' left out', 1, []
    yield word + ' doubled', 0, [term]
    if i + 1 < len(events) and event(events[i + 1]) != term:
        yield '%s and %s swapped' % (word, word_of(events[i + 1])), 2, [event(events[i + 1]), term]
    for name, changed in off_by_one(e):
        if event(changed) != term:
            yield '%s: %s' % (word, name), 1, [event(changed)]


# what a lawful network may do, so that a journal damaged so is another journal that may be
LAWFUL = {
    'took left out': 'a datagram may be lost',
    'took doubled': 'a datagram may come twice',
    'took and took swapped': 'datagrams may come in another order',
    'took: to': 'a datagram may come to another member, or to a node that the run does not have',
}


def damaged_cases(name, run, per_case=40):
    """(the case, what was damaged at each place) for a piece of the journal. Of each damage the judge's verdict is computed."""
    events = journal_of(run)
    listed = 'journal_%s' % name[-3:]
    for start in range(0, len(events), per_case):
        rows = [[d for d in damages_of(events, i) if d[0] not in LAWFUL] if start <= i < start + per_case else [] for i in range(len(events))]
        rows = rows[:start + per_case]
        damages = terms.lst([terms.lst(['(%d, %s)' % (n, terms.lst(more)) for _, n, more in row]) for row in rows])
        judge = 'damages_accepted %d 0 j %s %s' % (ending(run), damages, listed)
        case = '%s from event %d on, damaged' % (name, start)
        declared = 'abbrev %s : List JournalEvent\n%s = %s\n' % (listed, listed, terms.lst([event(e) for e in events]))
        yield (case, declared if start == 0 else '', by_script(run, '[]', judge) + ' ≡ []'), [[d[0] for d in row] for row in rows]


def recorded_cases(runs):
    return [accepted_case(name, run) for name, run in runs]


def all_damaged_cases(runs):
    """({case's name: what was damaged at each place}, the cases)"""
    made = [made for name, run in runs for made in damaged_cases(name, run)]
    return {case[0]: rows for case, rows in made}, [case for case, _ in made]


def report(name, rows, found):
    """Says where a journal is not accepted, or which damages of it are."""
    if name not in rows:
        return '%s: expected ((0, its ending), its text), computed %s' % (name, found[:1500])
    pairs = re.findall(r'\((\d+), ((?:\d+ ∷ )*)\[\]\)', found)
    accepted = ['event %s: %s' % (n, rows[name][int(n)][int(d)]) for n, ds in pairs for d in re.findall(r'\d+', ds)]
    return '%s: accepted: %s' % (name, '; '.join(accepted) or found[:1500])


def without_streams(runs):
    return [(name, run) for name, run in runs if not re.search(r'^\d+ (open|write|close)\b', run['script'], re.M)]


# the laws of journals as a test, and so damaged that it is false where something was accepted and handed up
LAWS, DAMAGED_LAWS = 'laws_hold', ('without_ups', 'without_objects', 'without_takes')


def law_case(name, run, test):
    return '%s, %s' % (name, test), '', by_script(run, 'false', '%s j %s' % (test, terms.lst([event(e) for e in journal_of(run)]))) + ' ≡ true'


def look_at_laws(space, runs):
    """Says which journal a law is false of, and which damage no journal notices; in the counts of data and files alone."""
    whole = [law_case(name, run, LAWS) for name, run in runs]
    damaged = [law_case(name, run, test) for name, run in runs for test in DAMAGED_LAWS]
    said = space.evaluate(whole + damaged)
    wrong = [name for name, _, _ in whole if said[name]]
    missed = [d for d in DAMAGED_LAWS if not any(said[name] for name, _, _ in damaged if name.endswith(', ' + d))]
    for name in wrong:
        print('%s: a law is false: %s' % (name, said[name][:1500]))
    for d in missed:
        print('%s: no journal notices it' % d)
    return '3 laws of %d journals' % len(runs), len(wrong + missed)


def look(space, runs, damaged_runs=()):
    """What was evaluated, and how many cases differ. The damaged journals of the one list, and the recorded of the other."""
    rows, damaged = all_damaged_cases(damaged_runs)
    said = space.evaluate(recorded_cases(runs) + damaged, per_batch=1000)
    for name, text in said.items():
        if text:
            print(report(name, rows, evaluating.found_in(text) or text))
    kinds = sorted({kind for case in rows.values() for row in case for kind in row})
    many = sum(len(row) for case in rows.values() for row in case)
    if many:
        print('journals: %d damaged ones are to be refused: %s.' % (many, ', '.join(kinds)))
        print('journals: not damages, since ' + '; '.join('%s (%s)' % (why, kind) for kind, why in LAWFUL.items()) + '.')
    return '%d journals, %d damaged ones' % (len(runs), many), sum(1 for text in said.values() if text)
