"""Which needs were heard, so that a receiver is silent."""
from cases.shared import UNKNOWN, heard_by
from evaluate.steps import data, request, segment

LACKS = [data(0, 0, 0, 'hx 64 0x%s' % ('41' * 64), l=256, b=2, max_n=3), data(0, 1, 0, 'hx 64 0x%s' % ('41' * 64), b=2, max_n=3)]     # one of block 0
OPEN_END = [data(0, 1, 0, segment(128, 64), l=2048, flags=32, b=2, max_n=3), data(0, 0, 0, segment(0, 64), flags=32), data(0, 0, 1, segment(64, 64), flags=32),
            data(0, 1, 1, segment(192, 64), flags=32), data(1, 0, 0, 'hx 1 0x41', l=1, b=2, max_n=3)]                                # from block 2 on
LACKS_TWO = [data(0, 1, 0, 'hx 64 0x%s' % ('41' * 64), l=256, b=2, max_n=3)]                                                 # both of block 0
heard_by('heard all of an object', UNKNOWN, [request('Items', 12, (0, 0, 0))], True)
heard_by('heard without the info', UNKNOWN, [request('Items', 8, (0, 0, 0))], False)
heard_by('heard without the symbols', UNKNOWN, [request('Items', 4, (0, 0, 0))], False)
heard_by('heard all blocks of an object', UNKNOWN, [request('Ranges', 6, (0, 0, 0), (0, 16777215, 0))], True)
heard_by('heard all blocks but the last', UNKNOWN, [request('Ranges', 6, (0, 0, 0), (0, 16777214, 0))], False)
heard_by('heard all symbols in two ranges', UNKNOWN, [request('Ranges', 5, (0, 0, 0), (0, 5, 255), (0, 6, 0), (0, 16777215, 255))], True)
heard_by('heard all symbols but one', UNKNOWN, [request('Ranges', 5, (0, 0, 0), (0, 5, 254), (0, 6, 0), (0, 16777215, 255))], False)
heard_by('heard all symbols, the last ones first', UNKNOWN, [request('Ranges', 5, (0, 6, 0), (0, 16777215, 255), (0, 0, 0), (0, 5, 255))], True)
heard_by('heard another object', UNKNOWN, [request('Items', 12, (1, 0, 0))], False)
heard_by('heard a range of objects', UNKNOWN, [request('Ranges', 12, (0, 0, 0), (3, 0, 0))], True)
heard_by('heard an equal count', LACKS, [request('Erasures', 1, (0, 0, 1))], True)
heard_by('heard a lesser count last', LACKS_TWO, [request('Erasures', 1, (0, 0, 2), (0, 0, 1))], True)
heard_by('heard a count of another block', LACKS, [request('Erasures', 1, (0, 1, 1))], False)
heard_by('heard a count of 0', LACKS, [request('Erasures', 1, (0, 0, 0))], False)
heard_by('heard the sources of the block', LACKS, [request('Items', 1, (0, 0, 0)), request('Items', 1, (0, 0, 1))], True)
heard_by('heard one source of the block', LACKS, [request('Items', 1, (0, 0, 1))], False)
heard_by('heard the block', LACKS, [request('Items', 2, (0, 0, 0))], True)
heard_by('heard the rest of a stream', OPEN_END, [request('Ranges', 2, (0, 2, 0), (0, 16777215, 0))], True)
heard_by('heard more than the rest', OPEN_END, [request('Ranges', 2, (0, 0, 0), (0, 3, 0), (0, 4, 0), (0, 16777215, 0))], True)
heard_by('heard less than the rest', OPEN_END, [request('Ranges', 2, (0, 3, 0), (0, 16777215, 0))], False)
heard_by('heard the rest but the last block', OPEN_END, [request('Ranges', 2, (0, 2, 0), (0, 16777214, 0))], False)
heard_by('heard what fits', [data(9, 0, 0, 'hx 1 0x41')], [request('Ranges', 12, (0, 0, 0), (6, 0, 0))], True)           # seven needs of nine
heard_by('heard less than what fits', [data(9, 0, 0, 'hx 1 0x41')], [request('Ranges', 12, (0, 0, 0), (5, 0, 0))], False)
heard_by('heard nothing', UNKNOWN, [], False)
