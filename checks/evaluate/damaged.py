"""Recorded runs with one thing damaged in what happened: the test of the part of safety that this breaks answers false."""
from evaluate import terms

PARTS = ['once each', 'in order', 'listed after', 'satisfied exactly']


def taken(run, node=None):
    """(place, node, hand-up) of each hand-up that was taken."""
    return [(i, e['take'], e['up']) for i, e in enumerate(run['events']) if e.get('up') and node in (None, e['take'])]


def two_objects(run):
    """The places of two hand-ups of different objects of one node."""
    for node in sorted({n for _, n, _ in taken(run)}):
        mine = [(i, u) for i, _, u in taken(run, node) if 'object' in u]
        for (i, u), (j, v) in zip(mine, mine[1:]):
            if v['object']['index'] == u['object']['index'] + 1:
                return i, u, j, v


def repeated(run):
    pair = two_objects(run)
    return pair and ('with_happened (twice_at %d)' % pair[0], 1)


def swapped(run):
    pair = two_objects(run)
    return pair and ('with_happened (λ x. answered_at %d (Took (Some %s)) (answered_at %d (Took (Some %s)) x))'
                     % (pair[0], terms.up(pair[3]), pair[2], terms.up(pair[1])), 1)


def of_another_entry(run):
    pair = two_objects(run)
    if pair and pair[1]['object']['bytes'] != pair[3]['object']['bytes']:
        other = {'object': dict(pair[1]['object'], bytes=pair[3]['object']['bytes'])}
        return 'with_happened (answered_at %d (Took (Some %s)))' % (pair[0], terms.up(other)), 1


def padded(run):
    for i, _, u in taken(run):
        if 'bytes' in u:
            longer = {'bytes': dict(u['bytes'], bytes=u['bytes']['bytes'] + '00')}
            return 'with_happened (answered_at %d (Took (Some %s)))' % (i, terms.up(longer)), 1


def lost_above_the_drop_point(run):
    for i, _, u in taken(run):
        if 'object' in u and u['object']['index'] > run['after']['sender']['drop'][0] and not any('job' in e and e['job']['verb'] == 'restart' for e in run['events']):
            return 'with_happened (answered_at %d (Took (Some (up.Lost %d))))' % (i, u['object']['index']), 1


def listed_too_early(run):
    first = next((i for i, e in enumerate(run['events']) if e.get('gave', {}).get('object', {}).get('len', 65) <= 64), None)
    if first is not None and run['events'][first]['gave']['object']['index'] == 0 and not any(i <= first for i, _, _ in taken(run)):
        return 'with_sender (all_listed (position 0 0 0))', 2, first + 1


def satisfied_by_the_first(run):
    """Cut behind the first of several listings that a request waits for."""
    open_at = None
    for i, e in enumerate(run['events']):
        if 'mark' in e.get('gave', {}):
            open_at = i
        if open_at and 'past' in (e.get('news') or {}) and run['profile']['receivers'] > 1:
            following = run['events'][i + 1]
            return ('with_sender all_satisfied', 3, i + 1) if not following.get('news', True) else None


def used_id(run):
    return 'with_sender instance_twice', 0


def origin_twice(run):
    return ('with_sender entry_twice', 0) if run['after']['sender']['next_index'] else None


def after_the_instance_was_left(run):
    """A hand-up of an instance that the node left comes again at the end."""
    for node, r in sorted(run['after']['receivers'].items()):
        mine = taken(run, int(node))
        if r['instance'] not in (None, run['profile']['instance']) and mine and mine[0][0] < len(run['events']) // 2:
            return 'with_happened (again_at %d)' % mine[0][0], 1


def writes(run):
    """(place, receipt) of each write that was accepted, where no instance begins behind it."""
    events = run['events']
    return [(i, e['gave']['wrote']) for i, e in enumerate(events) if 'wrote' in e.get('gave', {})
            and not any('job' in x and x['job']['verb'] == 'restart' for x in events)]


def written_elsewhere(run):
    for i, w in writes(run):
        return 'with_happened (answered_at %d (Gave (Ok (receipt.Wrote %d %d %d))))' % (i, w['index'], w['offset'] + 1, w['len']), 0


def a_write_lost(run):
    return ('with_sender streams_emptied', 0) if writes(run) else None


def a_segment_left_out(run):
    for node in sorted({n for _, n, _ in taken(run)}):
        mine = [i for i, _, u in taken(run, node) if 'bytes' in u]
        if len(mine) > 2:
            return 'with_happened (changed_at %d (λ h. []))' % mine[1], 1


def lost_amid_a_stream(run):
    """A segment between two others is reported lost."""
    for node in sorted({n for _, n, _ in taken(run)}):
        mine = [(i, u) for i, _, u in taken(run, node) if 'bytes' in u]
        if len(mine) > 2:
            return 'with_happened (answered_at %d (Took (Some (up.Lost %d))))' % (mine[1][0], mine[1][1]['bytes']['index']), 1


def dropped_nothing(run, place):
    """Whether all that was accepted before a place fits into the window and its octets, and all segments into a stream's blocks."""
    p, gave = run['profile'], [e.get('gave', {}) for e in run['events'][:place]]
    entries = [g['object']['len'] for g in gave if 'object' in g] + [p['blocks'] * p['b'] * p['e'] for g in gave if 'opened' in g]
    writes = [g['wrote']['len'] for g in gave if 'wrote' in g]
    cuts = sum('mark' in g or 'closed' in g for g in gave) + 1
    return (len(entries) <= p['window'] and sum(entries) <= p['octets'] and not any('restarted' in g for g in gave)
            and sum(writes) // p['e'] + len(writes) + cuts <= p['blocks'] * p['b'])


def lost_though_its_blocks_stand(run):
    """Cut behind a segment that is handed up: it is a loss of its stream, of which the sender dropped nothing."""
    for i, _, u in taken(run):
        if 'bytes' in u and dropped_nothing(run, i):
            return 'with_happened (answered_at %d (Took (Some (up.Lost %d))))' % (i, u['bytes']['index']), 1, i + 1


def with_another_info(run):
    for i, _, u in taken(run):
        if 'object' in u and u['object']['info']:
            other = {'object': dict(u['object'], info=u['object']['info'] + '00')}
            return 'with_happened (answered_at %d (Took (Some %s)))' % (i, terms.up(other)), 1


def of_another_kind(run):
    for i, _, u in taken(run):
        if 'object' in u and u['object']['kind'] == 'data' and not u['object']['info']:
            other = {'object': dict(u['object'], kind='file')}
            return 'with_happened (answered_at %d (Took (Some %s)))' % (i, terms.up(other)), 1


def listed_before_a_later_hand_up(run):
    """Cut before an object of one symbol is handed up that is not the first: all are listed past it."""
    for i, _, u in taken(run):
        if any('job' in e and e['job']['verb'] == 'restart' for e in run['events'][:i]):
            return None
        if 'object' in u and u['object']['index'] and len(u['object']['bytes']) <= 128:
            return 'with_sender (all_listed (position %d 0 0))' % u['object']['index'], 2, i


def satisfied_by_one_that_was_struck(run):
    """Cut as above: the one that is listed is struck, and what waits for the others is satisfied."""
    found = satisfied_by_the_first(run)
    return found and ('with_sender (all_satisfied_without %d)' % run['events'][found[2] - 1]['news']['past']['node'], *found[1:])


def open_though_its_quorum_stands(run):
    """Cut behind a watermark's satisfaction: it is open."""
    for i, e in enumerate(run['events']):
        if ((e.get('news') or {}).get('done') or {}).get('outcome') == 'satisfied':
            return 'with_sender all_open', 3, i + 1


DAMAGES = [repeated, swapped, of_another_entry, padded, with_another_info, lost_above_the_drop_point, lost_amid_a_stream, lost_though_its_blocks_stand,
           a_segment_left_out, after_the_instance_was_left, of_another_kind, listed_too_early, listed_before_a_later_hand_up,
           satisfied_by_the_first, satisfied_by_one_that_was_struck, open_though_its_quorum_stands, used_id, origin_twice, written_elsewhere, a_write_lost]


def cases(runs):
    """Of each damage the first short run that it fits: whole it is safe, and damaged the test of one part says false."""
    out = []
    for damage in DAMAGES:
        for name, run in sorted(runs, key=lambda x: (len(x[1]['events']), x[0])):
            found = damage(run)
            if found:
                change, part, length = (*found, None)[:3]
                events = run['events'][:length] if length else run['events']
                p, declared = terms.profile_of(name + damage.__name__, dict(run))
                history = 'history %s %s' % (p, terms.lst([terms.event(e) for e in events]))
                statement = ('(λ (h : History). take 4 (parts_of_safety %s h) ++ take 1 (drop %d (parts_of_safety %s (%s h)))) (%s) ≡ '
                             'true ∷ true ∷ true ∷ true ∷ false ∷ []' % (p, part, p, change, history))
                out.append(('%s of %s, not %s' % (damage.__name__.replace('_', ' '), name, PARTS[part]), declared, statement))
                break
        else:
            raise SystemExit('no run fits: ' + damage.__name__)
    return out
