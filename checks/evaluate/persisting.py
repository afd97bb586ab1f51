"""Recorded runs of a sender that persists (checks/runs/persist) against its rule and its judge (crates/norm_persist/specs)."""
import glob, json, os

from evaluate import evaluating, journals, terms
from evaluate.evaluating import found_in
from evaluate.variant import Variant

HERE = os.path.dirname(os.path.abspath(__file__))
USES = '''use Rattle.norm_script.specs.declared.script.Line.{Line}
use Rattle.norm_journal.specs.InWorld.{answer_to}
use Rattle.norm_journal.specs.Jobs.{job_of}
use Rattle.norm_journal.specs.Judged.{news_due}
use Rattle.norm_journal.specs.Places.{Place, Starting, Between, Pulling, Giving, Again, Sending, Offering, Taking, Handing, Over}
use Rattle.norm_journal.specs.Pulling.{origin_of}
use Rattle.norm_persist.specs.Accepting.{accepts_persisting}
use Rattle.norm_persist.specs.declared.account.Account.{Account}
use Rattle.norm_persist.specs.Accounts.{is_silent, of_members}
use Rattle.norm_persist.specs.Persisted.{Persisted, persisted_opening, own_due, own_name, is_over, lacks_now, may_own}
use Rattle.norm_persist.specs.Persisting.{one_lacks}
use Rattle.norm_persist.specs.PersistRun.{is_lacking, ending_of as ending_of_persisting, status_of as persisting_status}
use Rattle.norm_persist.specs.Printed.{lines_of}
'''
PERSISTING = open(os.path.join(HERE, 'Persisting.txt'), encoding='utf-8').read()


class Persisting(evaluating.Workspace):
    """The definitions with the judge of a run that persists."""

    def __init__(self, work):
        super().__init__(work, 'norm_persist', terms.USES + journals.USES + USES, evaluating.SHARED + '\n' + journals.JUDGING + '\n' + PERSISTING)

    def unfoldable(self):
        yield from super().unfoldable()
        yield from journals.KIT


def runs_of(folder, names=(), count=0):
    """The recorded runs; with a count the shortest."""
    paths = sorted(glob.glob(os.path.join(folder, 'persist', '*.json')))
    runs = [(os.path.basename(p)[:-5], json.load(open(p, encoding='utf-8'))) for p in paths if not names or any(n in os.path.basename(p) for n in names)]
    return sorted(runs, key=lambda r: (r[1]['turns'], r[0]))[:count] if count else runs


def text_of(run):
    return ''.join('set %s %s\n' % kv for kv in run['profile'].items()) + run['script']


def octets(text):
    return terms.octets(text.encode().hex()) if text else '[]'


def case(name, run):
    """The run prints the recorded lines in their turns, and ends with the recorded status, turn and number of offers. In each of its states holds
    what is to hold; else 96 stands in place of the status, with the turn."""
    words = run['words']
    give_up = terms.opt(words[words.index('--give-up') + 1] if '--give-up' in words else None)
    takes = terms.lst(['(%d, %s)' % (turn, terms.octets(octets)) for turn, octets in run['takes']])
    lines = terms.lst(['(%d, %s)' % (turn, octets(line + '\n')) for turn, line in run['lines']])
    most = 4 * run['turns'] + 4 * len(run['lines']) + run['offers'] + len(run['takes']) + 64
    return name, '', 'persisting_says %s %s %s %d ≡ (%s, (%d, (%d, (%d, 0))))' % (
        octets(text_of(run)), give_up, takes, most, lines, run['status'], run['turns'], run['offers'])


def look(space, runs):
    """Says which run differs from its record."""
    said = space.evaluate([case(name, run) for name, run in runs], per_batch=1000)
    for name, text in said.items():
        if text:
            print('%s: computed %s' % (name, found_in(text) or text[:1500]))
    return '%d runs that persist' % len(runs), sum(1 for text in said.values() if text)


# what is wrong with a rule, the file, its text and what replaces it, and the run that has to part from it
WRONG = [
    ('a mark while one is open', 'Persisting', 'is_idle p s && length (open_watermarks s) == 0 && one_lacks', 'is_idle p s && one_lacks', '05-partial'),
    ('a mark while the sender is not idle', 'Persisting', 'is_idle p s && length (open_watermarks s) == 0', 'length (open_watermarks s) == 0', '04-room'),
    ('no mark after a listing rose', 'Accounts', 'Some at ↦ reaches at last | None ↦ false', 'Some at ↦ true | None ↦ false', '04-room'),
    ('no mark for a partial segment', 'Accounts', 'last_source (current_shapes p (cut p s))', 'last_source (current_shapes p s)', '05-partial'),
    ('a strike one mark early', 'Accounts', 'is_silent (Some marks) a = nat_le marks a.expired', 'is_silent (Some marks) a = nat_le marks (a.expired + 1)', '11-all-silent'),
    ('a strike one mark late', 'Accounts', 'is_silent (Some marks) a = nat_le marks a.expired', 'is_silent (Some marks) a = nat_lt marks a.expired', '12-two-of-three'),
    ('a strike only once no watermark is open', 'Persisting', 'struck_unless (all_silent give_up s accounts)',
     'struck_unless (all_silent give_up s accounts || not (length (open_watermarks s) == 0))', '10-scripts-marks'),
    ('two own commands in a turn', 'Persisted', 'is_sending x.judged.place && not (x.own_turn == x.judged.turn)', 'is_sending x.judged.place', '12-two-of-three'),
    ('the silent member with the highest id', 'Persisting', 'find (is_silent give_up) (of_members s accounts)', 'find (is_silent give_up) (reverse (of_members s accounts))',
     '12-two-of-three'),
    ('a count that a rise leaves as it is', 'Accounts', 'record a { confirmed = Some at; expired = 0 }', 'record a { confirmed = Some at }', '09-cleared'),
    ('a count that a restart leaves as it is', 'Accounts', 'record a { confirmed = None; expired = 0 }', 'record a { confirmed = None }', '24-restart-counts'),
    ('what was confirmed before a restart', 'Accounts', 'record a { confirmed = None; expired = 0 }', 'record a { expired = 0 }', '14-restart'),
    ("a count that the script's marks leave as it is", 'Persisted', 'map (passed_by (left_of j number)) accounts',
     'elim (is_own (elim (watermark_of j.world.sender number) [ Some w ↦ w.by | None ↦ record { producer = 1; number = 1 } ])) '
     '[ true ↦ map (passed_by (left_of j number)) accounts | false ↦ accounts ]', '10-scripts-marks'),
    ('a strike of the run excuses', 'Persisted', 'elim (is_own by) [ true ↦ accounts | false ↦ map (excused_by node) accounts ]', 'map (excused_by node) accounts', '12-two-of-three'),
    ('a strike of the script does not excuse', 'Persisted', 'elim (is_own by) [ true ↦ accounts | false ↦ map (excused_by node) accounts ]', 'accounts', '03-row-6'),
    ('a strike takes away what was confirmed', 'Persisted', 'elim (is_own by) [ true ↦ accounts |', 'elim (is_own by) [ true ↦ map begun_anew accounts |', '13-had-confirmed'),
    ('status 0 though a receiver lacks', 'PersistRun', '[ true ↦ 15 | false ↦ 0 ]\nstatus_of GivenUp', '[ true ↦ 0 | false ↦ 0 ]\nstatus_of GivenUp', '12-two-of-three'),
    ('no line of a struck receiver', 'Printed', 'filter (lacks_now x) x.accounts', 'filter (lacks_now x) (of_members x.judged.world.sender x.accounts)', '03-row-6'),
    ('given up is not an end', 'Persisted', 'is_complete x || is_given_up x ||', 'is_complete x ||', '11-all-silent'),
    ("an own command takes a script's name", 'Persisted', 'record { producer = 0; number = own + 1 }', 'record { producer = 1; number = own + 1 }', '04-room'),
    ('own commands are not numbered', 'Persisted', 'record { producer = 0; number = own + 1 }', 'record { producer = 0; number = 1 }', '07-stream-full'),
]


def look_at_wrong(space, runs):
    """Says which wrong rule its run does not part from."""
    named, missed = dict(runs), 0
    for part in [WRONG[i:i + 13] for i in range(0, len(WRONG), 13)]:
        pairs = [(Variant(space, ('norm_persist', *w[1:4]), '_v%d' % n), [case(w[4], named['persist-' + w[4]])]) for n, w in enumerate(part)]
        for w, found in zip(part, space.evaluate_each(pairs)):
            if not found[w[4]]:
                print('%s: %s does not notice it' % (w[0], w[4]))
                missed += 1
    return '%d wrong rules' % len(WRONG), missed
