"""How small runs are written: steps of a world, what they list, and messages made by hand."""
import re

from evaluate.terms import lst, nums, opt, settings

DEFAULTS = dict(instance=7, first=0, sender=1, receivers=1, producers=1, e=64, b=4, max_n=6, auto=0, window=256, octets=16777216,
                blocks=16, mode='hold', gap=1000, grtt=10000, grtt_code=64, gsize_code=1, k=4, step=1000, turns=1000000,
                fabric='direct', chance=0, loss=0, repeat=0, late=0, port=40000)
NOTHING, NONE = [], 4294967295


def profile(**keys):
    b = keys.get('b', 4)
    return dict(DEFAULTS, **{'max_n': min(255, b + b // 2), **keys})


class Run:
    """The steps of a small run, and what it lists."""

    def __init__(self, **keys):
        self.profile, self.steps, self.lists, self.number = profile(**keys), [], [], 0

    def do(self, event, gives=NOTHING):
        self.steps.append('Do (%s)' % event)
        self.lists.append(gives)
        return self

    def job(self, job, now, gives):
        self.number += 1
        return self.do('Commanded (record { producer = 1; number = %d }) %s %d' % (self.number, job, now), gives)

    def data(self, count, now, gives, info='None'):
        return self.job('(job.Data %s (hx %d 0x%s))' % (info, count, '%02x' % self.number * count), now, gives)

    def mark(self, now, gives, quorum=None):
        return self.job('(job.Mark %s)' % opt(quorum), now, gives)

    def strike(self, node, now, gives):
        return self.job('(job.Strike %d)' % node, now, gives)

    def write(self, count, now, gives):
        return self.job('(job.Write (hx %d 0x%s))' % (count, '5a' * count), now, gives)

    def tick(self, node, now, gives=NOTHING):
        return self.do('Ticked %d %d' % (node, now), gives)

    def hears(self, node, datagram, now=0, draw=0):
        return self.do('Delivered %d (%s) %d %d' % (node, datagram, now, draw))

    def take(self, node, gives):
        return self.do('UpTaken %d' % node, gives)

    def news(self, gives):
        return self.do('NewsAsked', gives)

    def passes(self, source, to, now=0, draw=0):
        self.steps.append('Pass %d %d %d %d' % (source, to, now, draw))
        return self

    def look(self, function, gives):
        self.steps.append('Look (λ (w : World). %s)' % function)
        self.lists.append(gives)
        return self

    def wants(self, gives):
        return self.look('flat_map shown_want w.sender.wants', gives)

    def drop(self, gives):
        return self.look('w.sender.current.drop.index ∷ w.sender.current.drop.block ∷ []', gives)

    def case(self, name):
        p = 'case_of_' + re.sub(r'\W', '_', name)
        return (name, 'abbrev %s : Settings\n%s = %s' % (p, p, settings(self.profile)),
                'first_unlike 0 (played %s (world_opening %s) %s) %s ≡ None' % (p, p, lst(self.steps).replace('PROFILE', p), lst([nums(x) for x in self.lists])))


def item(index, block, symbol):
    return 'record { reserved = 0; item = record { object = %d; id = record { block = %d; symbol = %d } } }' % (index, block, symbol)


def request(form, flags, *items):
    return 'record { form = form.%s; flags = %d; items = %s }' % (form, flags, lst([item(*i) for i in items]))


def nack(source, *requests, instance=7, sender=1):
    return ('octets_of (message.Nack (record { source = %d; sequence = 0; sender = %d; instance = %d; extensions = []; requests = %s }))'
            % (source, sender, instance, lst(requests)))


def ack(source, index, block, symbol, instance=7):
    return ('octets_of (message.Ack (record { source = %d; sequence = 0; sender = 1; instance = %d; ack_type = 2; ack_id = 0; extensions = []; '
            'content = message.Mark (record { object = %d; id = record { block = %d; symbol = %d } }) }))' % (source, instance, index, block, symbol))


def head(kind, instance=7, flags=None, index=0):
    shared = 'source = 1; sequence = 0; instance = %d; grtt = 64; backoff = 4; gsize = 1' % instance
    return 'record { %s }' % shared if flags is None else 'record { %s; flags = %d; object = %d }' % (shared, flags, index)


def data(index, block, symbol, payload, l=None, flags=0, instance=7, e=64, b=4, max_n=6):
    extensions = '[]' if l is None else '(fti_extension (record { l = %d; e = %d; b = %d; max_n = %d }) ∷ [])' % (l, e, b, max_n)
    return ('octets_of (message.Data (record { head = %s; id = record { block = %d; symbol = %d }; extensions = %s; payload = %s }))'
            % (head('data', instance, flags, index), block, symbol, extensions, payload))


def info(index, payload, l=None, flags=4, instance=7, b=4, max_n=6):
    extensions = '[]' if l is None else '(fti_extension (record { l = %d; e = 64; b = %d; max_n = %d }) ∷ [])' % (l, b, max_n)
    return 'octets_of (message.Info (record { head = %s; extensions = %s; info = %s }))' % (head('info', instance, flags, index), extensions, payload)


def segment(offset, count):
    return '(%s ++ hx %d 0x%s)' % (nums([count // 256, count % 256, 0, 0, 0, 0, offset // 256, offset % 256]), count, '5a' * count) if count \
        else nums([0, 0, 0, 0, 0, 0, offset // 256, offset % 256])


def command(word, index, block, symbol, instance=7, nodes=()):
    tail = {'Flush': 'nodes', 'Squelch': 'invalid'}[word]
    return ('octets_of (message.%s (record { head = %s; object = %d; id = record { block = %d; symbol = %d }; extensions = []; %s = %s }))'
            % (word, head('command', instance), index, block, symbol, tail, nums(list(nodes))))


def stream_data(block, offset, count, b=1):
    return data(0, block, 0, segment(offset, count), l=64 * 16 * b, flags=32, b=b, max_n=b)


STREAM = dict(b=1, max_n=1)


SMALL = {}


def small(make):
    """Names a small run by its function."""
    SMALL[make.__name__] = make
    return make
