"""A stream: its segments, its parity and its buffer."""
from cases.shared import sent
from evaluate.steps import Run, small


@small
def a_stream_has_its_buffer():
    r = Run(octets=511, blocks=2).job('job.Open', 0, [7, 2, 512])
    return r


@small
def parity_of_a_stream():
    """A block of two segments has its parity symbol when both are closed; a cut and the end close what is not full."""
    r = Run(b=2, max_n=3, auto=1).job('job.Open', 0, [2, 0]).write(65, 0, [3, 0, 0, 65])
    sent(r, (0, 0, 0), flags=32).mark(2000, [5, 1, 0, 0, 1])
    sent_by_mark = [(0, 0, 1), (0, 0, 2)]
    for i, at in enumerate(sent_by_mark):
        r.tick(1, 2000 + 1000 * i, [2, 32, *at])
    r.write(2, 4000, [3, 0, 65, 2]).job('job.Close', 4000, [4, 0])
    for i, at in enumerate([(0, 1, 0), (0, 1, 1), (0, 1, 2)]):
        r.tick(1, 4000 + 1000 * i, [2, 32, *at])
    return r.tick(1, 7000, [31, 0, 0, 1, 2])


@small
def a_stream_from_end_to_end():
    """What was written is handed up, each segment at its offset: one of an octet that a mark cut, a full one, and the end."""
    r = Run(b=2, max_n=2).job('job.Open', 0, [2, 0]).write(1, 0, [3, 0, 0, 1]).mark(0, [5, 1, 0, 0, 0]).write(64, 0, [3, 0, 1, 64])
    r.tick(1, 0, [2, 32, 0, 0, 0]).passes(1, 2).take(2, [42, 0]).take(2, [43, 0, 0, 0x5a])
    r.tick(1, 1000, [2, 32, 0, 0, 1]).passes(1, 2).take(2, [43, 0, 1, *[0x5a] * 64]).job('job.Close', 1000, [4, 0])
    return r.tick(1, 2000, [2, 32, 0, 1, 0]).passes(1, 2).take(2, [44, 0]).take(2, [40])
