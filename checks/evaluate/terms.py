"""Recorded runs as terms of antt, and what their answers are as lists of numbers (see Shown.txt)."""
import os, re

NONE = 4294967295
USES = open(os.path.join(os.path.dirname(os.path.abspath(__file__)), 'Uses.txt'), encoding='utf-8').read()
# a list of so many octets from one numeral, which is read several times faster than a list
NUMERALS = '''
abbrev pub octets_onto : ℕ → ℕ → List ℕ → List ℕ
octets_onto zero n more = more
octets_onto (suc k) n more = octets_onto k (n / 256) (n % 256 ∷ more)

abbrev pub hx : ℕ → ℕ → List ℕ
hx len n = octets_onto len n []

'''
REASONS = {'empty': 1, 'too-big': 2, 'info-too-big': 3, 'stream-open': 4, 'no-stream': 5, 'ids-spent': 6, 'spent': 7,
           'stream-full': 8, 'window-full': 9, 'nothing-enqueued': 10, 'too-many': 11, 'id-used': 12, 'quorum': 13, 'not-member': 14, 'last-member': 15}
OUTCOMES = {'open': 0, 'satisfied': 1, 'expired': 2, 'cut': 3}


def lst(items):
    return '(%s)' % ' ∷ '.join([*items, '[]']) if items else '[]'


def nums(numbers):
    """A list of numbers. Many octets in a row are one numeral."""
    i = next((i for i in range(min(len(numbers), 9)) if len(numbers) - i > 16 and max(numbers[i:]) < 256), None)
    if i is None:
        return lst([str(n) for n in numbers])
    tail = '(hx %d 0x%s)' % (len(numbers) - i, bytes(numbers[i:]).hex())
    return '(%s)' % ' ∷ '.join([*map(str, numbers[:i]), tail]) if i else tail


def octets(text):
    return nums(list(bytes.fromhex(text)))


def opt(x):
    return 'None' if x is None else '(Some %s)' % x


def settings(profile):
    fields = dict(profile, mode='mode.' + profile['mode'].capitalize(), fabric='fabric.' + profile['fabric'].capitalize())
    return 'record { %s }' % '; '.join('%s = %s' % kv for kv in fields.items())


def job(j):
    info = None if j.get('info') is None else octets(j['info'])
    return {'data': lambda: '(job.Data %s %s)' % (opt(info), octets(j['bytes'])), 'file': lambda: '(job.File %s %s)' % (info, octets(j['bytes'])),
            'write': lambda: '(job.Write %s)' % octets(j['bytes']), 'restart': lambda: '(job.Restart %d)' % j['instance'],
            'mark': lambda: '(job.Mark %s)' % opt(j.get('quorum')), 'strike': lambda: '(job.Strike %d)' % j['node'],
            }.get(j['verb'], lambda: 'job.' + j['verb'].capitalize())()


def event(e):
    if 'job' in e:
        return '(Commanded (record { producer = %d; number = %d }) %s %d)' % (*e['job']['by'], job(e['job']), e['now'])
    if 'tick' in e:
        return '(Ticked %d %d)' % (e['tick'], e['now'])
    if 'offer' in e:
        return '(Offered %d %s)' % (e['offer'], octets(e['bytes']))
    if 'deliver' in e:
        return '(Delivered %d %s %d %d)' % (e['deliver'], octets(e['bytes']), e['now'], e['draw'])
    return '(UpTaken %d)' % e['take'] if 'take' in e else 'NewsAsked'


def gave(g):
    (word, v), = g.items()
    return {'object': lambda: [1, v['index'], v['len']], 'opened': lambda: [2, v['index']], 'wrote': lambda: [3, v['index'], v['offset'], v['len']],
            'closed': lambda: [4, v['index']], 'mark': lambda: [5, v['mark'], *v['at']], 'restarted': lambda: [6, v['instance']], 'struck': lambda: [8, v['node']],
            'refused': lambda: [7, REASONS[v['reason']], *v['args']]}[word]()


def told(n):
    if n is None:
        return [20]
    if 'past' in n:
        return [21, n['past']['node'], *n['past']['at']]
    d = n['done']
    return [22, d['mark'], OUTCOMES[d['outcome']], *([len(d['left'])] if d['outcome'] == 'expired' else [])]


def took(u):
    if u is None:
        return [40]
    (word, v), = u.items()
    if word == 'object':
        info = [0] if v['info'] is None else [1, len(v['info']) // 2, *bytes.fromhex(v['info'])]
        return [41, v['index'], int(v['kind'] == 'file'), *info, *bytes.fromhex(v['bytes'])]
    if word == 'bytes':
        return [43, v['index'], v['offset'], *bytes.fromhex(v['bytes'])]
    return [{'open': 42, 'end': 44, 'lost': 45}[word], v['index']]


def up(u):
    (word, v), = u.items()
    if word == 'object':
        info = None if v['info'] is None else octets(v['info'])
        return '(up.Object %d kind.%s %s %s)' % (v['index'], v['kind'].capitalize(), opt(info), octets(v['bytes']))
    if word == 'bytes':
        return '(up.StreamBytes %d %d %s)' % (v['index'], v['offset'], octets(v['bytes']))
    return '(up.%s %d)' % ({'open': 'StreamOpen', 'end': 'StreamEnd', 'lost': 'Lost'}[word], v['index'])


def answer(e):
    if 'job' in e:
        return gave(e['gave'])
    if 'tick' in e:
        return [30] if e['sent'] is None else [31, *bytes.fromhex(e['sent'])]
    if 'news' in e:
        return told(e['news'])
    return took(e['up']) if 'take' in e else []


def some(x):
    return [NONE] if x is None else x if isinstance(x, list) else [x]


def rows(run):
    """(name, numbers) of each row of the end state."""
    s = run['after']['sender']
    wants = [n for x in s['wants'] for n in ([x[0], NONE] if x[1] < 0 else x)]
    listed = [n for node, at in sorted((int(k), v) for k, v in s['listed'].items()) if at for n in (node, *at)]
    marks = [n for q in s['requests'] for n in (q['mark'], OUTCOMES[q['outcome']], *some(q.get('quorum')), *q['at'])]
    out = [('instance', [s['instance']]), ('drop point', s['drop']), ('next index', [s['next_index']]), ('wants', wants),
           ('squelch due', [int(s['squelch_due'])]), ('round', some(s['round_closes'])), ('listings', listed), ('watermarks', marks), ('struck', s.get('struck', [])),
           ('flushes', [s['flushes']]), ('last flush', some(s['last_flush'])), ('next send', [s['next_send']]), ('sequence', [s['sequence']])]
    out = [('sender: ' + name, row) for name, row in out]
    for node, r in sorted((int(k), v) for k, v in run['after']['receivers'].items()):
        held = [n for i, b, ids in r['held'] for x in ids for n in (i, b, x)]
        mine = [('instance', some(r['instance'])), ('known', [r['known']]), ('hand-up point', r['hand_up']), ('lost', r['lost']),
                ('farthest', some(r['farthest'])), ('flush', some(r['flush'])), ('back-off', some(r['backoff'])), ('hold-off', some(r['holdoff'])),
                ('due acknowledgement', some(r['due_ack'])), ('sequence', [r['sequence']]), ('held', held), ('infos', r['infos']), ('untaken', [r['untaken']])]
        out += [('node %d: %s' % (node, name), row) for name, row in mine]
    return out


def profile_of(name, run):
    p = 'profile_' + re.sub(r'\W', '_', name)
    return p, 'abbrev %s : Settings\n%s = %s' % (p, p, settings(run['profile']))


def run_case(name, run):
    p, declared = profile_of(name, run)
    events = lst(['(%s, %s)' % (event(e), nums(answer(e))) for e in run['events']])
    return declared, 'first_difference %s 0 (world_opening %s) %s (end_state %s) ≡ None' % (p, p, events, lst([nums(r) for _, r in rows(run)]))


def safe_case(name, run, most=12):
    """The run is lawful and safe, at its end and at up to so many places where the sender heard, or something was taken."""
    p, declared = profile_of(name, run)
    places = [i + 1 for i, e in enumerate(run['events']) if e.get('deliver') == run['profile']['sender'] or e.get('up') or 'job' in e]
    places = places[::max(1, len(places) // most)]
    return declared, 'safe_along %s %s %s ≡ true' % (p, lst([event(e) for e in run['events']]), lst([str(i) for i in places]))


def read_numbers(text):
    return [int(x) for x in re.findall(r'\d+', text)] if '…' not in text else text[:300]
