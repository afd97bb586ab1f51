"""What a mark makes, cuts and refuses."""
from evaluate.steps import Run, ack, small


@small
def a_mark_without_a_segment():
    """The position is the last closed source symbol of the whole order."""
    r = Run().mark(0, [7, 10]).data(1, 0, [1, 0, 1]).job('job.Open', 0, [2, 1]).mark(0, [5, 1, 0, 0, 0])
    return r.write(3, 0, [3, 1, 0, 3]).mark(0, [5, 2, 1, 0, 0]).mark(0, [5, 3, 1, 0, 0])


@small
def a_watermark_that_is_satisfied_as_it_is_made():
    """Every receiver is listed past its position already; the one behind it waits, and its flush is the first that counts."""
    r = Run(receivers=2).data(1, 0, [1, 0, 1]).tick(1, 0, [2, 0, 0, 0, 0]).hears(1, ack(2, 0, 0, 0)).hears(1, ack(3, 0, 0, 0))
    r.mark(0, [5, 1, 0, 0, 0]).news([21, 2, 0, 0, 0]).news([21, 3, 0, 0, 0]).news([22, 1, 1]).news([20]).tick(1, 1000)
    r.data(1, 1000, [1, 1, 1]).mark(1000, [5, 2, 1, 0, 0]).tick(1, 1000, [2, 0, 1, 0, 0]).tick(1, 2000, [31, 1, 0, 0, 2, 3])
    return r.hears(1, ack(3, 1, 0, 0)).tick(1, 22000, [31, 1, 0, 0, 2]).news([21, 3, 1, 0, 0]).news([20])


@small
def a_refused_mark_leaves_its_cut():
    r = Run().job('job.Open', 0, [2, 0]).write(64, 0, [3, 0, 0, 64])
    for i in range(16):
        r.mark(0, [5, i + 1, 0, 0, 0])
    r.write(3, 0, [3, 0, 64, 3]).mark(0, [7, 11, 16]).tick(1, 0, [2, 32, 0, 0, 0]).tick(1, 1000, [2, 32, 0, 0, 1])
    return r.job('(job.Write [])', 1000, [7, 1]).job('(job.Data None [])', 1000, [7, 1]).tick(1, 2000, [31, 0, 0, 0, 2])


@small
def a_quorum():
    """It is from 1 to the number of receivers; a refused one cuts nothing, and is told before anything else."""
    r = Run(receivers=2).mark(0, [7, 13, 0], quorum=0).mark(0, [7, 13, 3], quorum=3).mark(0, [7, 10], quorum=2).job('job.Open', 0, [2, 0])
    r.write(3, 0, [3, 0, 0, 3]).mark(0, [7, 13, 0], quorum=0).mark(0, [7, 13, 3], quorum=3).tick(1, 0)
    r.mark(0, [5, 1, 0, 0, 0], quorum=1).tick(1, 0, [2, 32, 0, 0, 0]).hears(1, ack(3, 0, 0, 0)).news([21, 3, 0, 0, 0]).news([22, 1, 1])
    return r.news([20]).mark(0, [5, 2, 0, 0, 0], quorum=1).news([22, 2, 1]).mark(0, [5, 3, 0, 0, 0], quorum=2).news([20])
