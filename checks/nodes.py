#!/usr/bin/env python3
"""Drives the nodes through recorded runs, by the program `replay`, and compares what each call gives with the record.

    checks/nodes.py [--traces DIR] [--unproved] [--program FILE] [--receivers | --senders] [NAME ..]

For each recorded run (checks/README.md says what one is) and each of its nodes a new node is handed the events that were its own, in
their order: commands, datagrams, ticks, takes of hand-ups and of news. Each answer has to be the recorded one, a datagram octet for
octet, and at the end what the node tells of itself has to be as recorded. Each difference is printed with its event, and their number
is printed last.

NAME is a part of a run's name. The program is crates/replay/out/replay, which `rt ci` leaves there, or FILE; with `--unproved` the tool `rt`
runs it before anything is proved. Exit status: 0 where nothing differs, 1 where something does, 2 where the program failed."""
import argparse, collections, glob, json, os, subprocess, sys

HERE = os.path.dirname(os.path.abspath(__file__))
CRATE = os.path.join(HERE, '..', 'crates', 'replay')
PROGRAM = os.path.join(CRATE, 'out', 'replay')
MOST = 200000                                   # octets of events that are handed to one run of the program


class Failed(Exception):
    pass


def dash(octets):
    return octets or '-'


def command(e):
    """A command's line."""
    job = e['job']
    words = {'data': lambda: [dash(job['bytes']), *([] if job['info'] is None else [dash(job['info'])])],
             'file': lambda: [dash(job['info']), dash(job['bytes'])], 'write': lambda: [dash(job['bytes'])],
             'mark': lambda: [] if job.get('quorum') is None else [job['quorum']],
             'restart': lambda: [job['instance']], 'strike': lambda: [job['node']]}.get(job['verb'], lambda: [])()
    return ' '.join(map(str, ['command', *job['by'], e['now'], job['verb'], *words]))


def receipt(gave):
    (word, v), = gave.items()
    if word == 'refused':
        return ' '.join(['refused', v['reason'], *map(str, v['args'])])
    numbers = {'object': lambda: [v['index'], v['len']], 'opened': lambda: [v['index']], 'wrote': lambda: [v['index'], v['offset'], v['len']],
               'closed': lambda: [v['index']], 'mark': lambda: [v['mark'], *v['at']], 'restarted': lambda: [v['instance']],
               'struck': lambda: [v['node']]}[word]()
    return ' '.join([word, *map(str, numbers)])


def told(news):
    if news is None:
        return 'none'
    if 'past' in news:
        return ' '.join(map(str, ['past', news['past']['node'], *news['past']['at']]))
    done = news['done']
    return ' '.join(map(str, ['done', done['mark'], done['outcome'], *([len(done['left'])] if done['outcome'] == 'expired' else [])]))


def taken(up):
    if up is None:
        return 'none'
    (word, v), = up.items()
    if word == 'object':
        return ' '.join(['object', str(v['index']), v['kind'], '-' if v['info'] is None else v['info'], v['bytes']])
    if word == 'bytes':
        return 'bytes %d %d %s' % (v['index'], v['offset'], v['bytes'])
    return '%s %d' % (word, v['index'])


def steps(run, node):
    """The lines of a node's events, each with its wanted answer and the event's place; a place of None is none of the record."""
    sender = node == run['profile']['sender']
    yield from (('set %s %s' % kv, 'set', None) for kv in run['profile'].items())
    yield ('sender %d' % run['profile']['instance'] if sender else 'receiver %d' % node), 'begun', None
    for place, e in enumerate(run['events']):
        if 'job' in e and sender:
            yield command(e), receipt(e['gave']), place
        elif e.get('tick') == node:
            yield 'tick %d' % e['now'], 'nothing' if e['sent'] is None else 'sent ' + e['sent'], place
        elif e.get('deliver') == node:
            yield 'deliver %d %d %s' % (e['now'], e['draw'], dash(e['bytes'])), 'done', place
        elif e.get('take') == node:
            yield 'take', taken(e['up']), place
        elif 'news' in e and sender:
            yield 'news', told(e['news']), place
    yield 'tell', at_end(run, node, sender), None


def at_end(run, node, sender):
    """What a node tells of itself. Whether a sender is idle, and how many news are left, no record says."""
    if sender:
        s = run['after']['sender']
        return 'sender %d %d' % (s['instance'], sum(q['outcome'] == 'open' for q in s['requests']))
    r = run['after']['receivers'][str(node)]
    due = '-' if r['due_ack'] is None else '%d %d %d' % tuple(r['due_ack'])
    return 'receiver %s %d %s %s' % ('-' if r['instance'] is None else r['instance'], r['untaken'], 'yes' if r['lost'] else 'no', due)


def answers(a, lines):
    """What the program gives for these lines."""
    call = dict(args=['rt', 'try', '--steps', '1'], cwd=CRATE) if a.unproved else dict(args=[a.program])
    done = subprocess.run(**call, input='\n'.join(lines) + '\n', capture_output=True, text=True)
    out = done.stdout.split('\n')[:-1]
    if len(out) != len(lines):
        at = len(out)
        raise Failed('the program ended at event %d of %d, %s: %s' % (at, len(lines), lines[at][:100] if at < len(lines) else '-', done.stderr[-1500:]))
    return out


def chunks(nodes):
    """Nodes with their events, so many that the program is called seldom."""
    chunk, size = [], 0
    for name, node, events in nodes:
        chunk.append((name, node, events))
        size += sum(len(line) + len(want) for line, want, _ in events)
        if size > MOST:
            yield chunk
            chunk, size = [], 0
    if chunk:
        yield chunk


def is_wanted(line, want, gave):
    """Whether an answer is the wanted one. Of what a node tells at the end only the front is known of a sender."""
    return gave.split(' ')[:len(want.split(' '))] == want.split(' ') if line == 'tell' else gave == want


def compare(tally, name, node, events, came):
    """Compares one node's answers with the record, and prints where they differ."""
    for (line, want, place), gave in zip(events, came):
        tally['events'] += place is not None
        if not is_wanted(line, want, gave):
            tally['differ'] += 1
            print('%s: node %d: %s: %s\n    recorded %s\n    came     %s'
                  % (name, node, 'event %d' % place if place is not None else 'at its end', line[:160], want[:400], gave[:400]))
    tally['nodes'] += 1


def main():
    p = argparse.ArgumentParser(description=__doc__, formatter_class=argparse.RawDescriptionHelpFormatter)
    p.add_argument('names', nargs='*')
    p.add_argument('--traces', default=os.path.join(HERE, 'runs'))
    p.add_argument('--program', default=PROGRAM)
    for flag in ('unproved', 'receivers', 'senders'):
        p.add_argument('--' + flag, action='store_true')
    a = p.parse_args()
    nodes, runs = [], 0
    for path in sorted(glob.glob(os.path.join(a.traces, '*.json'))):
        name = os.path.basename(path)[:-5]
        run = json.load(open(path, encoding='utf-8'))
        if 'after' not in run or (a.names and not any(n in name for n in a.names)):
            continue
        runs += 1
        sender = run['profile']['sender']
        for node in [sender, *sorted(map(int, run['after']['receivers']))]:
            if not (a.receivers and node == sender or a.senders and node != sender):
                nodes.append((name, node, list(steps(run, node))))
    tally = collections.Counter()
    try:
        for chunk in chunks(nodes):
            came = answers(a, [line for _, _, events in chunk for line, _, _ in events])
            for name, node, events in chunk:
                compare(tally, name, node, events, came[:len(events)])
                came = came[len(events):]
    except (Failed, OSError) as e:
        print('nodes: ' + str(e))
        return 2
    print('nodes: %d runs; %d nodes at their end; %d events driven; %d differ' % (runs, tally['nodes'], tally['events'], tally['differ']))
    return 1 if tally['differ'] else 0


if __name__ == '__main__':
    sys.exit(main())
