"""Recorded journals as terms of antt."""
from evaluate import terms


def origin(by):
    return '(record { producer = %d; number = %d })' % tuple(by)


def octets(text):
    return terms.octets(text) if text else '[]'


def receipt(word, v):
    fields = {'object': 'Object', 'opened': 'Opened', 'wrote': 'Wrote', 'closed': 'Closed', 'restarted': 'Restarted', 'struck': 'Struck'}
    if word == 'mark':
        return '(receipt.Mark %d (position %d %d %d))' % (v['mark'], *v['at'])
    named = {'object': ['index', 'len'], 'wrote': ['index', 'offset', 'len'], 'restarted': ['instance'], 'struck': ['node']}.get(word, ['index'])
    return '(receipt.%s %s)' % (fields[word], ' '.join(str(v[n]) for n in named))


FAULTS = {'empty': 'send.Enqueue enqueue.Empty', 'too-big': 'send.Enqueue (enqueue.TooBig %d)', 'info-too-big': 'send.Enqueue (enqueue.InfoTooBig %d)',
          'stream-open': 'send.Enqueue (enqueue.StreamOpen %d)', 'no-stream': 'send.Enqueue enqueue.NoStream', 'ids-spent': 'send.Enqueue enqueue.IdsSpent',
          'spent': 'send.Enqueue (enqueue.Stream (stream.Spent %d))', 'stream-full': 'send.Enqueue (enqueue.Stream (stream.Full %d))',
          'window-full': 'send.Enqueue (enqueue.WindowFull %d)', 'nothing-enqueued': 'send.Mark mark.NothingEnqueued',
          'too-many': 'send.Mark (mark.TooMany %d)', 'quorum': 'send.Mark (mark.Quorum %d)', 'id-used': 'send.IdUsed %d',
          'not-member': 'send.Strike (strike.NotMember %d)', 'last-member': 'send.Strike (strike.LastMember %d)'}


def fault(v):
    return '(%s)' % (FAULTS[v['reason']] % tuple(v['args']))


def gave(g):
    (word, v), = g.items()
    if word == 'refused':
        return '(Err %s)' % fault(v)
    return '(Ok %s)' % receipt(word, v)


def news(n):
    (word, v), = n.items()
    if word == 'past':
        return '(news.Past %d (position %d %d %d))' % (v['node'], *v['at'])
    outcome = 'outcome.' + v['outcome'].capitalize()
    return '(news.Done %d %s)' % (v['mark'], '(%s %d)' % (outcome, v['left']) if v['outcome'] == 'expired' else outcome)


def event(e):
    """An event as a term."""
    (word, v), = (e.items() if isinstance(e, dict) else [(e, None)])
    return {'start': lambda: 'journal.Start', 'empty': lambda: 'journal.Empty', 'end': lambda: 'journal.End',
            'turn': lambda: '(journal.Turn %d %d)' % (v['t'], v['now']),
            'pull': lambda: '(journal.Pull %s)' % origin(v),
            'job': lambda: '(journal.Job %s %s %s)' % (origin(v['by']), terms.opt(v['job'] and terms.job(v['job'])), gave(v['gave'])),
            'length': lambda: '(journal.Length %s %s %d %s)' % (origin(v['by']), octets(v['name']), v['len'], fault(v['fault'])),
            'tick': lambda: '(journal.Tick %d sent.%s)' % (v['node'], 'Datagram' if v['sent'] else 'Nothing'),
            'offer': lambda: '(journal.Offer %d %s)' % (v['from'], octets(v['bytes'])),
            'took': lambda: '(journal.Took %d %s)' % (v['to'], octets(v['bytes'])),
            'up': lambda: '(journal.Up %d %d %s)' % (v['node'], v['instance'], terms.up(v['up'])),
            'news': lambda: '(journal.News %s)' % news(v)}[word]()


def jobs_of(script, files):
    """Each command's job, by its producer and number."""
    counts, jobs = {}, {}
    for line in script.split('\n'):
        words = line.split(' ')
        if not line or line.startswith('#') or words[0] == 'set':
            continue
        producer = int(words[0])
        counts[producer] = counts.get(producer, 0) + 1
        verb, more = words[1], words[2:]
        made = {'verb': verb}
        if verb in ('data', 'write'):
            made['bytes'] = more[0].lower()
            made['info'] = more[1].lower() if len(more) > 1 else None
        elif verb == 'file':
            made.update(info=more[0].encode().hex(), bytes=files.get(more[0]))
        elif verb == 'restart':
            made['instance'] = int(more[0])
        elif verb == 'mark':
            made['quorum'] = int(more[0]) if more else None
        elif verb == 'strike':
            made['node'] = int(more[0])
        jobs[producer, counts[producer]] = made
    return jobs


def offered(e, job):
    """An offer of a command. A file that is refused is told by its name and its length; the one that is accepted has the octets."""
    refused = e['gave'].get('refused')
    if job['verb'] == 'file' and refused:
        return {'length': {'by': e['job'], 'name': job['info'], 'len': len(job['bytes']) // 2, 'fault': refused}}
    return {'job': {'by': e['job'], 'job': job if e['first'] or job['verb'] == 'file' else None, 'gave': e['gave']}}


def journal_of(run):
    """The events of a recorded journal, each as one word with its data, and the summary at the end."""
    jobs, out = jobs_of(run['script'], run['files']), []
    for e in run['events']:
        if isinstance(e, str):
            out.append(e)
            continue
        word = next(iter(e))
        out.append(offered(e, jobs[tuple(e['job'])]) if word == 'job' else {word: {
            'turn': lambda: {'t': e['turn'], 'now': e['now']},
            'pull': lambda: e['pull'],
            'tick': lambda: {'node': e['tick'], 'sent': e['sent']},
            'offer': lambda: {'from': e['offer'], 'bytes': e['bytes']},
            'took': lambda: {'to': e['took'], 'bytes': e['bytes']},
            'up': lambda: {'node': e['node'], 'instance': e['instance'], 'up': e['up']},
            'news': lambda: {w: dict(v, left=len(v['left'])) if w == 'done' else v for w, v in e['news'].items()},
        }[word]()})
    return out if 'absent' in run['ended'] else out + ['end']
