"""Recorded relays (checks/runs/relays) and hand-made lists of calls against the definitions of one (crates/norm_relay/specs): each answer; that each
member below handed up what is acknowledged above; that the lower order is what was enqueued; and whether both sessions are lawful."""
import glob, json, os, re, shutil

from evaluate import evaluating, terms
from evaluate.evaluating import found_in, put
from evaluate.laws import is_refused

HERE = os.path.dirname(os.path.abspath(__file__))
RELAYS = open(os.path.join(HERE, 'Relays.txt'), encoding='utf-8').read()
DEFINITIONS = ('Flat', 'Sides', 'RelayState', 'Pumping', 'RelayStep', 'Handing')
USES = '''use Rattle.norm_safety.specs.Fronts.{same_kind}
use Rattle.std.specs.Prelude.{nat_eq}
use Rattle.std.specs.Option.{option_eq}
use Rattle.norm_ext.specs.Message.{AckMessage}
use Rattle.norm_send_rules.specs.Watermarks.{members}
use Rattle.norm_safety.specs.AcknowledgesHanded.{acknowledged, upto_in}
use Rattle.norm_safety.specs.Said.{About}
use Rattle.norm_relay.specs.Flat.{Item, Thing, Begins, Octet, Ends, flat, order_items}
use Rattle.norm_relay.specs.Pumping.{pumped}
use Rattle.norm_relay.specs.RelayState.{Relaying, relay_opening, can_relay}
use Rattle.norm_relay.specs.RelayStep.{RelayEvent, UpDelivered, DownDelivered, PumpAsked, UpTicked, DownTicked, DownNews, DownStruck, Above, Below, RelayAnswer, relay_step}
use Rattle.norm_relay.specs.RelayStep as relay
use Rattle.norm_relay.specs.Handing.{ack_of, handed_below, history_of}
'''


class Relays(evaluating.Workspace):
    """The definitions of `norm_relay` alone, over those of `norm_safety`: what its code keeps is not evaluated."""

    def __init__(self, work):
        shared = open(os.path.join(HERE, 'Shown.txt'), encoding='utf-8').read() + RELAYS
        super().__init__(work, 'norm_relay', terms.USES + USES, shared)
        self.public = [n for n in self.public if n not in ('Do', 'Pass', 'Look')]

    def read_crates(self):
        out = super().read_crates()
        out['norm_relay'] = [d for d in out['norm_relay'] if d in ('norm_safety', *out['norm_safety'])]
        return out

    def copy(self):
        super().copy()
        crate = os.path.join(self.work, 'crates', 'norm_relay')
        kept = {m: open('%s/specs/%s.antt' % (crate, m), encoding='utf-8').read() for m in DEFINITIONS}
        shutil.rmtree(crate)
        for part in ('specs', 'src'):
            os.makedirs('%s/%s' % (crate, part))
        for m in DEFINITIONS:
            put('%s/specs/%s.antt' % (crate, m), kept[m])
        put(crate + '/specs/Lib.antt', ''.join('pub mod %s\n' % m for m in DEFINITIONS))
        put(crate + '/src/lib.rt', '//! The definitions of a relay.\n#![tactic(auto)]\n')


# ---------------------------------------------------------------- events as terms
def event(kind, v):
    if kind in ('above', 'below'):
        return '(%s %s)' % (kind.capitalize(), terms.event(v))
    if kind == 'up':
        return '(UpDelivered %s %d %d)' % (terms.octets(v['bytes']), v['now'], v['draw'])
    if kind == 'down':
        return '(DownDelivered %s %d)' % (terms.octets(v['bytes']), v['now'])
    if kind == 'strike':
        return '(DownStruck %d %d)' % (v['node'], v['now'])
    return '(%s %d)' % ({'pump': 'PumpAsked', 'tick_up': 'UpTicked', 'tick_down': 'DownTicked'}[kind], v['now'])


def expected(e):
    """What the event answers, if the record says: of other nodes' events it says nothing."""
    return 'None' if e[2] is None or e[0] in ('above', 'below') else '(Some %s)' % terms.nums(e[2])


def profiles(name, run):
    up, down = ('%s_%s' % (side, re.sub(r'\W', '_', name)) for side in ('up', 'down'))
    return up, down, '\n'.join('abbrev %s : Settings\n%s = %s' % (n, n, terms.settings(run[side])) for n, side in ((up, 'up'), (down, 'down')))


def case(name, run, compare='relay_difference'):
    up, down, declared = profiles(name, run)
    events = terms.lst(['(%s, %s)' % (event(*e[:2]), expected(e)) for e in run['events']])
    return name, declared, '%s 0 (relay_opening %s %d %s) %s ≡ None' % (compare, up, run['node'], down, events)


# ---------------------------------------------------------------- calls made by hand
DEFAULTS = dict(instance=1, first=0, sender=1, receivers=1, producers=1, e=64, b=4, max_n=6, auto=0, window=256, octets=16777216, blocks=16, gap=1000,
                grtt=10000, grtt_code=64, gsize_code=1, k=4, step=1000, turns=1000000, chance=0, loss=0, repeat=0, late=0, port=40000, mode='hold',
                fabric='direct')
UP, DOWN = dict(DEFAULTS, instance=7), dict(DEFAULTS, sender=10, instance=3)
DATA, SECOND = '120800000000000100074041000500000000000040030000000000050040040668656c6c6f', '120800010000000100074041000500010000000040030000000000010040040602'
FLUSH, AGAIN = '130500010000000100074041010500000000000000000002', '130500020000000100074041010500000000000000000002'
ACK, NEXT_ACK = ('1506000%d00000002000000010007020000000000000000000500000000000000' % n for n in (0, 1))
ACK_BELOW = '150600000000000b0000000a0003020000000000000000000500000000000000'
DATA_BELOW, FLUSH_BELOW = '120800000000000a00034041000500000000000040030000000000050040040668656c6c6f', '130500010000000a0003404101050000000000000000000b'
SECOND_BELOW = '120800020000000a0003404100050001000000004003000000000001004004060' + '2'
FLUSH_TWO = '130500010000000a0003404101050000000000000000000b0000000c'


def lines(given):
    """The calls of a relay that reads lines: (what comes, what is printed of it), at a moment of its own each."""
    events = []
    for n, (line, printed) in enumerate(given, 1):
        now, said = n * 1000, dict(p.split() if ' ' in p else (p, '') for p in printed)
        word, _, octets = line.partition(' ')
        if word == 'up':
            events.append(('up', dict(bytes=octets, now=now, draw=0), [51] if 'busy' in said else [50]))
        elif word == 'down':
            events.append(('down', dict(bytes=octets, now=now), []))
        elif word == 'strike':
            events.append(('strike', dict(node=int(octets), now=now), [int(n) for n in said['struck'].split(',')]))
        for kind in ('up', 'down'):
            events.append(('tick_' + kind, dict(now=now), [31, *bytes.fromhex(said[kind])] if kind in said else [30]))
            if kind == 'up':
                events.append(('pump', dict(now=now), [52, int(said['enqueued'])] if 'enqueued' in said else [52, 0]))
    return events


FIRST = [('up ' + DATA, ['enqueued 1', 'down ' + DATA_BELOW]), ('up ' + FLUSH, ['down ' + FLUSH_BELOW])]
HAND_MADE = {
    'an acknowledgement waits for the member below': dict(up=UP, down=DOWN, events=lines(FIRST + [('down ' + ACK_BELOW, ['up ' + ACK])])),
    'an acknowledgement is held back': dict(up=UP, down=DOWN, events=lines(FIRST + [('tick', [])])),
    'a mark for room': dict(up=UP, down=dict(DOWN, window=1), events=lines(
        [('up ' + DATA, ['enqueued 1', 'down ' + DATA_BELOW]), ('up ' + SECOND, ['down ' + FLUSH_BELOW]), ('down ' + ACK_BELOW, ['enqueued 1', 'down ' + SECOND_BELOW])])),
    'two acknowledgements are held back': dict(up=UP, down=DOWN, events=lines(
        FIRST + [('up ' + AGAIN, []), ('down ' + ACK_BELOW, ['up ' + ACK]), ('tick', ['up ' + NEXT_ACK])])),
    'what comes while something waits is lost': dict(up=UP, down=dict(DOWN, window=1), events=lines(
        [('up ' + DATA, ['enqueued 1', 'down ' + DATA_BELOW]), ('up ' + SECOND, ['down ' + FLUSH_BELOW]), ('up ' + FLUSH, ['busy'])])),
    'a member that is struck is waited for no more': dict(up=UP, down=dict(DOWN, receivers=2), events=lines(
        [('up ' + DATA, ['enqueued 1', 'down ' + DATA_BELOW]), ('up ' + FLUSH, ['down ' + FLUSH_TWO]), ('down ' + ACK_BELOW, []), ('strike 12', ['struck 8,12', 'up ' + ACK])])),
    'the last member is not struck': dict(up=UP, down=DOWN, events=lines(FIRST + [('strike 11', ['struck 7,15,11'])])),
}


def runs_of(folder, names=()):
    """The recorded relays."""
    paths = sorted(glob.glob(os.path.join(folder, 'relays', '*.json')))
    return [(os.path.basename(p)[:-5], json.load(open(p, encoding='utf-8'))) for p in paths if not names or any(n in os.path.basename(p) for n in names)]


def others():
    """Cases of their own: which sessions can be relayed, and a mark that is refused."""
    for n, (change, can) in enumerate([({}, 'true'), (dict(e=128), 'false'), (dict(b=2), 'false'), (dict(blocks=8), 'false'), (dict(octets=4096), 'false'),
                                       (dict(mode='drop'), 'false'), (dict(sender=2), 'false'), (dict(sender=3), 'true')]):
        up, down, declared = profiles('fit%d' % n, dict(up=UP, down=dict(DOWN, **change)))
        yield 'sessions that fit, %s' % (change or 'all'), declared, 'can_relay %s 2 %s ≡ %s' % (up, down, can)
    ack = 'message.Ack (record { source = 2; sequence = 0; sender = 1; instance = 7; ack_type = 3; ack_id = 0; extensions = []; content = message.Unread [] })'
    for n, (what, statement) in enumerate([('a mark that is refused is told', 'shown_relay (relay_step %s (PumpAsked 0)).1 ≡ 53 ∷ 10 ∷ []'),
                                           ('then the acknowledgement stays', 'shown_option (λ (w : Written). w.octets) ((pumped 0 %s).0.unmarked) ≡ 1 ∷ []')]):
        up, down, declared = profiles('refused%d' % n, dict(up=UP, down=DOWN))
        early = 'early%d' % n
        declared += '\nabbrev %s : Relaying\n%s = holds_early %s 2 %s (record { message = %s; octets = 1 ∷ []; indices = [] })' % (early, early, up, down, ack)
        yield what, declared, statement % early


def damages(run):
    """(what was damaged, the record so damaged): each has to be refused. The first acknowledgement comes a tick early, or is left out."""
    events = run['events']
    at = next(i for i, e in enumerate(events) if e[0] == 'tick_up' and len(e[2]) > 2)
    yield 'left out', dict(run, events=events[:at] + [(*events[at][:2], [30])] + events[at + 1:])
    yield 'no draw taken', dict(run, events=[(*e[:2], [51]) if e[0] == 'up' else e for e in events])


def look(space, runs):
    """Says which list of calls parts from its record, and which damage is not noticed."""
    by_hand = {name: dict(run, node=2) for name, run in HAND_MADE.items()}
    damaged = {'%s, %s' % (name, what): wrong for name, run in list(by_hand.items())[:1] for what, wrong in damages(run)}
    cases = [case(name, run) for name, run in runs] + [case(name, run, 'answers_differ') for name, run in [*by_hand.items(), *damaged.items()]] + list(others())
    said = space.evaluate(cases, per_batch=4)
    missed = [name for name in damaged if not is_refused(said[name])]
    wrong = [name for name in said if said[name] and name not in damaged]
    for name in wrong:
        print('%s: %s' % (name, found_in(said[name]) or said[name][:1500]))
    for name in missed:
        print('%s: this damage is not noticed' % name)
    return '%d relays of %d events, %d cases, %d damages' % (len(runs), sum(len(r['events']) for _, r in runs), len(cases) - len(runs) - len(damaged), len(damaged)), len(wrong + missed)
