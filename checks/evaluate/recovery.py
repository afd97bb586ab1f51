"""Laws of bounded recovery as tests of each event along the recorded tails: all are true there, their premises are met, and wrong statements are refused."""
import os, re

from evaluate import evaluating, laws, terms
from evaluate.evaluating import found_in

HERE = os.path.dirname(os.path.abspath(__file__))
USES = '''use Rattle.std.specs.Prelude.{◌*◌, ◌-◌, max}
use Rattle.norm_send_rules.specs.Flushing.{most_flushes}
use Rattle.std.specs.Prelude.{nat_eq}
use Rattle.std.specs.List.{list_any}
use Rattle.std.specs.Option.{option_eq}
use Rattle.fec_plan.specs.Points.{point_of, reached_by, same_position}
use Rattle.std.specs.Prelude.{slice_get}
use Rattle.norm_order.specs.Shapes.{shape_of, shapes_of, closed_in, last_in, last_source}
use Rattle.norm_safety.specs.CreditsMembers.{is_listed_past}
use Rattle.norm_safety.specs.InOrder.{is_stream_object}
use Rattle.norm_safety.specs.Tail.{drops}
use Rattle.norm_receive_rules.specs.Leaving.{is_in}
use Rattle.norm_send_rules.specs.Restarting.{instances}
use Rattle.norm_send_rules.specs.SenderState.{Instance}
use Rattle.norm_send_rules.specs.Watermarks.{is_open, oldest, members, has_member}
use Rattle.norm_safety.specs.Hands.{is_at}
use Rattle.norm_safety.specs.InTime.{most_objects}
use Rattle.norm_safety.specs.Lawful.{is_near}
use Rattle.norm_safety.specs.World.{is_of}
use Rattle.norm_send_rules.specs.Wants.{want_before}
use Rattle.norm_recovery.specs.Left.{held_for, has, will_have, in_window, left}
use Rattle.norm_recovery.specs.LeftHeard.{brings}
use Rattle.norm_recovery.specs.HadBringsNothing.{says_nothing_more}
use Rattle.norm_receive_rules.specs.Holding.{Plan}
use Rattle.std.specs.Prelude.{sum}
use Rattle.norm_recovery.specs.Asking.{asks, all_have, have_wanted, with_closed}
use Rattle.norm_recovery.specs.RoundAsks.{asks_open}
use Rattle.norm_recovery.specs.Clean.{hears_of, is_clean, is_clean_from}
use Rattle.norm_recovery.specs.Watch.{Phase, each_member, is_asked, flushed_at, most_held, owes_nothing, has_waited, has_ticked, closes_later, closes_apart, is_spent, are_apart, knows_flush, is_behind, is_waited, closes_soon, is_waiting}
use Rattle.std.specs.Prelude.{is_some}
use Rattle.fec_plan.specs.Points.{same_point}
use Rattle.norm_order.specs.Shapes.{is_source, has_info}
use Rattle.norm_ext.specs.declared.refusal.Refusal.{Refusal}
use Rattle.norm_receive_rules.specs.AllNeeds.{needs}
use Rattle.norm_receive_rules.specs.HeardNeeds.{width_of}
use Rattle.norm_receive_rules.specs.Holding.{Holding}
use Rattle.norm_receive_rules.specs.Nack.{fitting}
use Rattle.norm_receive_rules.specs.Needs.{Need}
use Rattle.norm_receive_rules.specs.Needs as need
use Rattle.norm_send_rules.specs.Hearing.{nack_counts, heard}
use Rattle.norm_send_rules.specs.Ticking.{closed_where_due}
use Rattle.norm_ext.specs.Asking.{named}
use Rattle.norm_ext.specs.Message.{Nack, NackMessage}
use Rattle.norm_receive_rules.specs.Heard.{heard_all}
use Rattle.norm_receive_rules.specs.HeardNeeds.{is_heard}
use Rattle.norm_send_rules.specs.InWindow.{last_index}
use Rattle.norm_safety.specs.Said.{first_index}
use Rattle.norm_ext.specs.Message.{Message, Info, Data, Flush, Squelch}
use Rattle.norm_ext.specs.Written.{Written}
use Rattle.norm_send_rules.specs.InWindow.{stands_behind}
use Rattle.norm_send_rules.specs.Repairable.{streams}
use Rattle.norm_send_rules.specs.declared.want.Want.{Want}
use Rattle.norm_recovery.specs.RunsOut.{all_new, to_send, last_closing}
use Rattle.norm_safety.specs.Recovery.{is_satisfied_mark}
'''
RECOVERY = open(os.path.join(HERE, 'Recovery.txt'), encoding='utf-8').read()
# wrong statements, each of which some recorded tail refuses: a hold-off of K round trips, a flush a microsecond sooner, and that all is out a
# round trip after the tail began, whatever was asked for since
WRONG = {'a hold-off of K': 'timely_for (λ q. q.k)', 'a flush after 2G - 1': 'goes_after (λ q. 2 * q.grtt - 1)', 'out whatever closes': 'runs_out_of %d'}
# wrong statements of members, each refused by this tail: that struck nodes stand as members do, that members stand where a datagram came
# that nobody offered, that whoever hears the sender was in its instance before, and that a member had what it hears of the window before
ASTRAY = {'tail-13': 'all_stand', 'tail-16': 'members_stand', 'tail-19': 'was_there', 'tail-05': 'had_before'}
# in this one a NACK is not read so by whoever knows indices far past those of the sender
FAR = ('tail-05', 'needs_read_by 40000')
# wrong counts of what is left, each of which differs from the record of this tail: of struck nodes too, of what is wanted too, of what a member
# lacks now, and of what a member holds in another instance
COUNTS = {'left_of_all': 'tail-13', 'left_with_wanted': 'tail-05', 'left_now': 'tail-05', 'left_elsewhere': 'tail-19'}
# and in this one it rises, if it is counted before the sender's datagram was delivered
EARLY = 'tail-05'
# in this one it falls
FALLS = 'tail-13'
# in this one not every member that a flush asks has handed up everything: not all of them are listed at once
LATER = 'tail-04'
# in this one something is enqueued while a watermark is open, which does not ask for that
FURTHER = 'tail-07'


# Wrong statements of asking and closings, each refused by this tail: that a closing helps though what is wanted is on its way, that it adds only what
# every member has, that it helps whatever its round asks for, that a round asked for what a NACK asks for before that came, and that a member lacks
# all of what it needs, and that whatever a member hears brings it nothing. And in these tails a round asks for what a member lacks, if every member has
# all that is wanted; and a member hears what it has.
ASKING = {'helps_anyway': 'tail-13', 'keeps_always': 'tail-01', 'helps_asked': 'tail-13', 'asked_before': 'tail-05', 'need_lacks_all': 'tail-15',
          'never_helps': 'tail-01', 'nack_asked_before': 'tail-05', 'brings_never': 'tail-05', 'always_more': 'tail-05'}
# Wrong statements of turns, each refused by this tail: that all members are clean from the first turn on, that a back-off that is not clean ends with
# its member asked for, and that a member is asked for that did not back off. And in this tail a member heard what it lacks, a clean back-off ends, a
# round closes in vain.
TURNS = {'all_are_clean': 'tail-18', 'ends_unclean': 'tail-18', 'asked_anyway': 'tail-01', 'never_hears': 'tail-04', 'never_ends': 'tail-05',
         'never_in_vain': 'tail-20'}
# Wrong statements of phases, each refused by this tail: that nothing new is left and all is had from the first turn on, that members are clean then,
# and that nobody is held off for more than K + 2 round trips after a phase began without being asked for.
PHASES = {'spent_at_once': 'tail-01', 'clean_at_once': 'tail-18', 'held_off_less': 'tail-18'}
# No tail lasts until the flush that a phase waits for. If the first flush counts that went once nobody was held off, all was spent and all were clean, it
# goes in the first of these; in the second it is false that whoever is behind is asked for at once.
EARLY_FLUSH = {'never_first': 'tail-01', 'all_asked': 'tail-12'}
# in this one more flushes are counted than are left for a phase of repairs: its watermark expires
EXPIRES = 'tail-17'
# in this one a member would not stay clean, if NACKs came to the sender last
LAST = 'tail-04'


class Recovery(evaluating.Workspace):
    """The definitions with those of the laws."""

    def __init__(self, work):
        super().__init__(work, 'norm_recovery', terms.USES + USES, evaluating.SHARED + '\n' + RECOVERY)


def is_refused(said):
    """The statement was computed, and names the event at which it is false."""
    return bool(found_in(said or ''))


def has_flush(run):
    """A flush goes in the tail."""
    return any(e.get('sent') and int(e['sent'][:2], 16) & 15 == 3 and int(e['sent'][24:26], 16) == 1 for e in run['tail'] if e.get('tick') == run['profile']['sender'])


def tail_of(name, run):
    """The profile, what is declared, the name of the events before a tail, and those of the tail."""
    n = re.sub(r'\W', '_', name)
    p, declared = terms.profile_of(name, run)
    declared += '\n\nabbrev events_%s : List Event\nevents_%s = %s' % (n, n, terms.lst([terms.event(e) for e in run['before']]))
    return p, declared, 'events_' + n, terms.lst([terms.event(e) for e in run['tail']])


def case(name, run, test):
    """The test is true at each event of the tail."""
    p, declared, before, tail = tail_of(name, run)
    return name, declared, 'fails_after (%s) %s %s %d %s ≡ []' % (test, p, before, run['last'], tail)


def flush_case(name, run, test):
    """The test is true of each receiver at the end of each turn of the tail that flushes."""
    p, declared, before, tail = tail_of(name, run)
    return name, declared, 'unmet_after %s %s %s %s ≡ []' % (test, p, before, tail)


def marks_case(name, run, test):
    """The test is true at each event of the run and of its tail."""
    p, declared, before, tail = tail_of(name, run)
    return name, declared, 'fails_after %s %s [] 0 (%s ++ %s) ≡ []' % (test, p, before, tail)


def left_case(name, run, count):
    """As a tail begins and after each of its whole turns so much is left as is recorded."""
    p, declared, before, tail = tail_of(name, run)
    counted = 'lefts %s %s (run_from %s (world_opening %s) %s) %s' % (count, p, p, p, before, tail)
    return name, declared, 'take %d (%s) ≡ %s' % (len(run['left']), counted, terms.nums(run['left']))


def turns_case(name, run, test):
    """The test is true of the whole turns of the tail."""
    p, declared, before, tail = tail_of(name, run)
    return name, declared, '%s %d %s (run_from %s (world_opening %s) %s) %s ≡ true' % (test, len(run['left']), p, p, p, before, tail)


def premise_case(name, run):
    """What is left may rise in the tail."""
    p, declared, before, _ = tail_of(name, run)
    return name, declared, 'may_not_rise %s (run_from %s (world_opening %s) %s) ≡ false' % (p, p, p, before)


def early_case(name, run):
    """What is left does not rise, counted also between the sender's tick and the delivery of what it gave."""
    p, declared, before, tail = tail_of(name, run)
    return name, declared, 'none_rises (lefts_early %s (run_from %s (world_opening %s) %s) %s) ≡ true' % (p, p, p, before, tail)


def takes_late(events):
    """The events with each receiver's hand-ups taken after its tick."""
    out = []
    for e in events:
        at = len(out)
        while 'tick' in e and at and out[at - 1].get('take') == e['tick']:
            at -= 1
        out.insert(at, e)
    return out


def late_case(name, run):
    """A tail is lawful if hand-ups are taken after the tick."""
    p, declared = terms.profile_of(name, run)
    return name, declared, 'is_lawful %s %s ≡ true' % (p, terms.lst([terms.event(e) for e in [*run['before'], *takes_late(run['tail'])]]))


def by_turns(name, run, test):
    """The test is true of each turn of the tail."""
    p, declared, before, tail = tail_of(name, run)
    return name, declared, 'turns_fail %s %s (run_from %s (world_opening %s) %s) %s ≡ []' % (test, p, p, p, before, tail)


def by_phases(name, run, test, counts='counts_late'):
    """The test is true at the end of each turn of the tail, by the phase that lasts then."""
    p, declared, before, tail = tail_of(name, run)
    return name, declared, 'phases_fail %s %s %s %d (run_from %s (world_opening %s) %s) %s ≡ []' % (counts, test, p, run['last'], p, p, before, tail)


def recovers_case(name, run):
    """The tail satisfies the watermark that is the oldest as it begins."""
    p, declared, before, tail = tail_of(name, run)
    return name, declared, 'satisfies_oldest %s (run_from %s (world_opening %s) %s) %s ≡ true' % (p, p, p, before, tail)


def sender_last(run):
    """The tail with each NACK delivered to the sender after all others."""
    out, late = [], None
    for e in run['tail']:
        if late and e.get('bytes') != late['bytes']:
            out, late = out + [late], None
        if e.get('deliver') == run['profile']['sender'] and int(e['bytes'][:2], 16) & 15 == 4:
            late = e
        else:
            out.append(e)
    return dict(run, tail=out + ([late] if late else []))


def look(space, runs):
    """Says in which tail a law is false, in which with a flush none had to go, and which wrong statement no tail refuses."""
    whole = {'%s, laws' % name: (run, 'recovers') for name, run in runs}
    flushed = {'%s, flushed' % name: (run, 'no_flush') for name, run in runs if has_flush(run)}
    wrong = {'%s, %s' % (name, w): (run, test % run['last'] if '%' in test else test) for name, run in runs for w, test in WRONG.items()}
    members = {'%s, members' % name: (run, 'members_keep') for name, run in runs if run['lawful']}
    astray = {'%s, %s' % (name, ASTRAY[name]): (run, ASTRAY[name]) for name, run in runs if name in ASTRAY}
    asking = {'%s, %s' % (name, w): (run, w) for name, run in runs for w, tail in ASKING.items() if name == tail}
    astray.update({'%s, %s' % FAR: (run, FAR[1]) for name, run in runs if name == FAR[0]})
    astray.update({'%s, sender last' % LAST: (sender_last(run), 'clean_each') for name, run in runs if name == LAST})
    late = [late_case('%s, takes after ticks' % name, run) for name, run in sorted(runs, key=lambda r: len(r[1]['before'] + r[1]['tail']))
            if run['lawful'] and takes_late(run['tail']) != run['tail']][:1]
    far = ('32,769 objects', '', 'is_near most_objects 0 ≡ true')
    counted = [left_case('%s, left' % name, run, 'left') for name, run in runs if run['lawful']]
    amiss = [left_case('%s, %s' % (name, count), run, count) for count, tail in COUNTS.items() for name, run in runs if name == tail]
    turns = [turns_case('%s, never rises' % name, run, 'never_rises') for name, run in runs if run['lawful']]
    amiss += [turns_case('%s, never changes' % name, run, 'never_changes') for name, run in runs if name == FALLS]
    premises = [premise_case('%s, a turn after which no more is left' % name, run) for name, run in runs if run['lawful']]
    reached = [flush_case('%s, reached' % name, run, 'is_reached_by_flush') for name, run in runs if run['lawful']]
    at_once = [flush_case('%s, listed at once' % name, run, 'is_listed_at_once') for name, run in runs if name == LATER]
    marks = [marks_case('%s, marks' % name, run, 'marks_end') for name, run in runs if run['lawful']]
    further = [marks_case('%s, marks of all' % name, run, 'marks_end_all') for name, run in runs if name == FURTHER]
    met = [flush_case('%s, a turn with a flush' % name, run, 'is_never_flushed') for name, run in runs if run['lawful'] and has_flush(run)]
    clean = [by_turns('%s, clean' % name, run, 'turns_keep_clean') for name, run in runs if run['lawful']]
    clean += [by_phases('%s, watched' % name, run, 'is_watched') for name, run in runs if run['lawful']]
    clean += [by_phases('%s, waited for' % name, run, 'waits_on', 'counts_early') for name, run in runs if run['lawful']]
    astray_turns = [by_turns('%s, %s' % (name, w), run, w) for name, run in runs for w, tail in TURNS.items() if name == tail]
    astray_turns += [by_phases('%s, %s' % (name, w), run, w) for name, run in runs for w, tail in PHASES.items() if name == tail]
    astray_turns += [by_phases('%s, %s' % (name, w), run, w, 'counts_early') for name, run in runs for w, tail in EARLY_FLUSH.items() if name == tail]
    amiss += [early_case('%s, early' % name, run) for name, run in runs if name == EARLY]
    recovered = [recovers_case('%s, recovers' % name, run) for name, run in runs if run['lawful'] and name != EXPIRES]
    amiss += [recovers_case('%s, recovers' % name, run) for name, run in runs if name == EXPIRES]
    said = space.evaluate([*(case(name, *of) for name, of in [*whole.items(), *flushed.items(), *wrong.items(), *members.items(), *astray.items(), *asking.items()]),
                           *late, far, *counted, *turns, *premises, *amiss, *reached, *at_once, *marks, *further, *met, *clean, *astray_turns, *recovered])
    false = [name for name in [*whole, *members, *(name for name, _, _ in [*counted, *turns, *reached, *marks, *clean, *recovered])] if said[name]]
    empty = [name for name in [*flushed, *(name for name, _, _ in met)] if not is_refused(said[name])]
    empty += [name for name, _, _ in premises if not laws.is_refused(said[name])]
    missed = [w for w in WRONG if not any(is_refused(said['%s, %s' % (name, w)]) for name, _ in runs)]
    missed += [name for name in [*astray, *asking, *(name for name, _, _ in astray_turns)] if not is_refused(said[name])] + [name for name, _, _ in [*late, far, *amiss, *at_once, *further] if not laws.is_refused(said[name])]
    for name in false:
        print('%s: a law is false: %s' % (name, said[name][:1500]))
    for name in empty:
        print('%s: its premises are false' % name)
    for w in missed:
        print('%s: no tail refuses it' % w)
    return 'laws of recovery along %d tails' % len(runs), len(false + empty + missed)
