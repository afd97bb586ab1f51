"""Sessions whose number of turns their script tells (norm_recovery/specs/Steady): recorded journals over direct networks, and rows worked out by hand."""
import os

from evaluate import evaluating, journals, terms
from evaluate.evaluating import found_in
from evaluate.journal_terms import event, journal_of, octets

HERE = os.path.dirname(os.path.abspath(__file__))
USES = '''use Rattle.norm_script.specs.declared.script.Line.{Line}
use Rattle.norm_journal.specs.Places.{Place, Taking}
use Rattle.norm_receive_rules.specs.Leaving.{is_in}
use Rattle.norm_safety.specs.Said.{said}
use Rattle.norm_recovery.specs.Steady.{is_plain, refuses_object, enough_turns, marks_of, fresh_of}
use Rattle.norm_recovery.specs.SteadyTakes.{copies_of, most_waiting}
'''
STEADY = open(os.path.join(HERE, 'Steady.txt'), encoding='utf-8').read()
# why an object is refused
REFUSALS = ('empty', 'too-big', 'info-too-big', 'stream-open', 'ids-spent', 'window-full')
# the law at each state of a journal, and statements that some journal refuses: fewer copies ever wait
LAWS, WRONG = ('takes_all_at',), ('takes_one_each', 'takes_at_once')
# what holds at each state of a steady one, and what some steady one refuses: a watermark is flushed once, each receiver is in the sender's instance, and no
# acknowledgement is due
STEADY_LAWS, STEADY_WRONG = ('nothing_is_needed', '(asked_at_most 2)'), ('(asked_at_most 1)', 'all_entered', 'nothing_is_due')


class Steady(evaluating.Workspace):
    """The definitions with the judge of journals and those of the laws."""

    def __init__(self, work):
        super().__init__(work, 'norm_recovery', terms.USES + journals.USES + USES, evaluating.SHARED + '\n' + journals.JUDGING + '\n' + STEADY)

    def unfoldable(self):
        yield from super().unfoldable()
        yield from journals.KIT


# ---- rows worked out by hand: data 68656c6c6f, without and with a mark

DATA = '1208000000000001000740410005000000000000400300000000000500400406' + '68656c6c6f'
FLUSH = '130500010000000100074041010500000000000000000002'
ACK = '1506000000000002000000010007020000000000000000000500000000000000'
SCRIPT = 'set instance 7\nset e 64\nset b 4\n1 data 68656c6c6f\n'
UP = {'up': {'object': {'index': 0, 'kind': 'data', 'info': None, 'bytes': '68656c6c6f'}}, 'node': 2, 'instance': 7}
PULLED = [{'turn': 1, 'now': 1000}, {'pull': [1, 1]}, {'job': [1, 1], 'first': True, 'gave': {'object': {'index': 0, 'len': 5}}}]


def sent(node, bytes):
    """A node ticks, and gives this or nothing."""
    return [{'tick': node, 'sent': bytes is not None}] + ([{'offer': node, 'bytes': bytes}] if bytes else [])


def took(node, bytes):
    return {'took': node, 'bytes': bytes}


def row(script, turns, grtt=10000):
    return {'script': script, 'files': {}, 'profile': {'fabric': 'direct', 'gap': 1000, 'step': 1000, 'grtt': grtt, 'window': 256, 'octets': 16777216},
            'events': ['start', *turns], 'ended': {'whole': True}}


FIRST = PULLED + sent(1, DATA) + [took(2, DATA), 'empty', UP] + sent(2, None)
MARKED = [{'turn': 2, 'now': 2000}, {'pull': [1, 2]}, {'job': [1, 2], 'first': True, 'gave': {'mark': {'mark': 1, 'at': [0, 0, 0]}}}]
ASKED = MARKED + sent(1, FLUSH) + [took(2, FLUSH), 'empty'] + sent(2, ACK)
LISTED = [{'turn': 3, 'now': 3000}, *sent(1, None), took(1, ACK), {'news': {'past': {'node': 2, 'at': [0, 0, 0]}}},
          {'news': {'done': {'mark': 1, 'outcome': 'satisfied', 'left': []}}}, 'empty', *sent(2, None)]
# the same with a second receiver: four copies of acknowledgements wait
BOTH, SECOND = FLUSH + '00000003', ACK[:15] + '3' + ACK[16:]
TWO = (PULLED + sent(1, DATA) + [took(2, DATA), took(3, DATA), 'empty', UP] + sent(2, None) + [dict(UP, node=3)] + sent(3, None)
       + MARKED + sent(1, BOTH) + [took(2, BOTH), took(3, BOTH), 'empty'] + sent(2, ACK) + sent(3, SECOND)
       + [{'turn': 3, 'now': 3000}, *sent(1, None), took(1, ACK), {'news': {'past': {'node': 2, 'at': [0, 0, 0]}}}, took(3, ACK), took(1, SECOND),
          {'news': {'past': {'node': 3, 'at': [0, 0, 0]}}}, {'news': {'done': {'mark': 1, 'outcome': 'satisfied', 'left': []}}}, took(2, SECOND), 'empty',
          *sent(2, None), *sent(3, None)])
# and with a round trip of half a turn: the flush goes again before its acknowledgement is taken
AGAIN, SECOND_ACK = FLUSH[:7] + '2' + FLUSH[8:], ACK[:7] + '1' + ACK[8:]
SOON = (FIRST + ASKED + [{'turn': 3, 'now': 3000}, *sent(1, AGAIN), took(1, ACK), *LISTED[3:5], took(2, AGAIN), 'empty', *sent(2, SECOND_ACK)])
ROWS = [('row 2', row(SCRIPT, FIRST)), ('row 3', row(SCRIPT + '1 mark\n', FIRST + ASKED + LISTED)),
        ('row 3 with two receivers', row(SCRIPT.replace('set b 4', 'set b 4\nset receivers 2') + '1 mark\n', TWO)),
        ('row 3 with a short round trip', row(SCRIPT.replace('set b 4', 'set b 4\nset grtt 500') + '1 mark\n', SOON, grtt=500))]


# ---- what is expected of a journal, from its record

def commands_of(run):
    return [line.split(' ')[1] for line in run['script'].split('\n') if line and not line.startswith(('#', 'set'))]


def accepted(run):
    return [e['gave']['object']['len'] for e in run['events'] if 'job' in e and 'object' in e['gave']]


def is_steady(run):
    p, lengths = run['profile'], accepted(run)
    refused = [e['gave']['refused']['reason'] for e in run['events'] if 'job' in e and 'refused' in e['gave']]
    return (all(word in ('data', 'file', 'mark') for word in commands_of(run)) and 1 <= p['gap'] <= p['step']
            and not any(reason in REFUSALS for reason in refused) and len(lengths) <= p['window'] and sum(lengths) <= p['octets'])


def fresh(run):
    """How many different INFO and DATA that repair nothing were sent, in a journal that ended whole and sent all that is new."""
    return len({e['bytes'] for e in run['events'] if 'offer' in e and int(e['bytes'][:2], 16) & 15 in (1, 2) and not int(e['bytes'][24:26], 16) & 1})


def says(run):
    """Whether a journal is steady, how it ended, its last turn, and of one that is steady how much is new and how many turns are enough."""
    p, words = run['profile'], commands_of(run)
    numbers = [int(is_steady(run)), journals.ending(run), max((e['turn'] for e in run['events'] if 'turn' in e), default=0)]
    if not is_steady(run):
        return numbers
    enough = len(words) + fresh(run) + words.count('mark') * (-(-2 * p['grtt'] // p['step']) + 2) + 2
    assert numbers[1] != 1 or numbers[2] <= enough, 'whole in turn %d, and %d are to be enough' % (numbers[2], enough)
    return numbers + [fresh(run), enough]


def case(name, run):
    events = terms.lst([event(e) for e in journal_of(run)])
    expected = says(run)
    return name, '', 'take %d (%s) ≡ %s' % (len(expected), journals.by_script(run, '[]', 'steady_says j %s' % events), terms.nums(expected))


def law_case(name, run, test):
    events = terms.lst([event(e) for e in journal_of(run)])
    return '%s, %s' % (name, test), '', '%s ≡ []' % journals.by_script(run, '(0 ∷ [])', 'fails_at %s 0 0 j %s' % (test, events))


def look(space, recorded):
    """Says which journal differs from its record, of which a law is false, and which wrong statement none refuses."""
    runs = ROWS + [(name, run) for name, run in recorded if run['profile']['fabric'] == 'direct']
    steady = [r for r in runs if is_steady(r[1])]
    whole = [case(*r) for r in runs] + [law_case(*r, test) for r in runs for test in LAWS] + [law_case(*r, test) for r in steady for test in STEADY_LAWS]
    wrong = [law_case(*r, test) for r in runs for test in WRONG] + [law_case(*r, test) for r in steady for test in STEADY_WRONG]
    said = space.evaluate(whole + wrong)
    differ = [name for name, _, _ in whole if said[name]]
    for name in differ:
        print('%s: computed %s' % (name, found_in(said[name]) or said[name][:1500]))
    missed = [test for test in WRONG + STEADY_WRONG if not any(found_in(said[name] or '') for name, _, _ in wrong if name.endswith(', ' + test))]
    for test in missed:
        print('%s: no journal refuses it' % test)
    return '%d journals over direct networks, %d steady' % (len(runs), len(steady)), len(differ + missed)
