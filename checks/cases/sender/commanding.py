"""How commands are refused, and a file from end to end."""
from evaluate.steps import Run, small


@small
def refusals_of_commands():
    r = Run(octets=4096, blocks=2, window=2).job('job.Close', 0, [7, 5]).write(1, 0, [7, 5]).data(4097, 0, [7, 2, 4097])
    r.data(1, 0, [7, 3, 65], info='(Some (hx 65 0x%s))' % ('00' * 65)).write(257, 0, [7, 2, 257]).job('job.Open', 0, [2, 0])
    r.data(1, 0, [7, 4, 0]).job('job.Open', 0, [7, 4, 0]).write(256, 0, [3, 0, 0, 256]).write(256, 0, [3, 0, 256, 256]).write(1, 0, [7, 8, 0])
    return r.job('job.Close', 0, [7, 8, 0])


@small
def a_file_from_end_to_end():
    """Its info is its name."""
    r = Run().job('(job.File (97 ∷ []) (65 ∷ []))', 0, [1, 0, 1]).tick(1, 0, [1, 20, 0]).passes(1, 2).take(2, [40])
    return r.tick(1, 1000, [2, 20, 0, 0, 0]).passes(1, 2).take(2, [41, 0, 1, 1, 1, 97, 65])
