"""The table of what a request asks a sender for, row by row."""
from cases.shared import many_objects
from evaluate.steps import NONE, nack, request

OBJECT_0 = [0, 0, 0, 0, 0, 1, 0, 1, 0, 0, 1, 1]
# the table of what a request asks for: form, flags, items, and what becomes a want
ASKED = [
    ('Items', 1, [(0, 1, 3)], [0, 1, 3]), ('Items', 1, [(0, 0, 1)], [0, 0, 1]), ('Items', 1, [(0, 1, 4)], []), ('Items', 1, [(3, 0, 0)], []),
    ('Items', 2, [(0, 1, 9)], [0, 1, 0, 0, 1, 1]), ('Items', 2, [(0, 2, 0)], []), ('Items', 8, [(0, 7, 7)], OBJECT_0),
    ('Items', 4, [(0, 0, 0)], [0, NONE]), ('Items', 4, [(2, 0, 0)], []), ('Items', 12, [(1, 0, 0)], [1, NONE, 1, 0, 0]),
    ('Items', 1, [(1, 0, 1), (0, 0, 0), (1, 0, 1)], [0, 0, 0, 1, 0, 1]),
    ('Ranges', 1, [(0, 1, 1), (1, 0, 0)], [0, 1, 1, 1, 0, 0]), ('Ranges', 1, [(0, 1, 2), (0, 1, 3)], []),
    ('Ranges', 2, [(0, 1, 1), (2, 0, 0)], [0, 1, 0, 0, 1, 1, 1, 0, 0, 2, 0, 0, 2, 0, 1]),
    ('Ranges', 8, [(1, 5, 5), (2, 9, 9)], [1, 0, 0, 2, 0, 0, 2, 0, 1, 2, 1, 0]), ('Ranges', 4, [(0, 0, 0), (2, 0, 0)], [0, NONE, 1, NONE]),
    ('Ranges', 8, [(1, 0, 1), (1, 0, 0)], []), ('Ranges', 15, [(2, 0, 0), (1, 0, 0)], []),
    ('Erasures', 1, [(0, 1, 1)], [0, 1, 2]), ('Erasures', 2, [(0, 1, 1)], [0, 1, 2]), ('Erasures', 12, [(0, 1, 1)], []),
    ('Erasures', 1, [(0, 1, 0)], []), ('Erasures', 1, [(0, 1, 3)], [0, 1, 2, 0, 1, 3]), ('Erasures', 1, [(2, 1, 2)], [2, 1, 1]),
    ('Erasures', 1, [(0, 2, 1)], []), ('Erasures', 3, [(0, 1, 1), (0, 0, 2)], [0, 0, 2, 0, 0, 3, 0, 1, 2]),
]


def case(form, flags, items, wants):
    r = many_objects().hears(1, nack(2, request(form, flags, *items)), 10).tick(1, 12).wants(wants)
    return r.case('%s %d %s' % (form, flags, ' '.join('%d-%d-%d' % i for i in items)))
