"""What a request asks for by name, as it comes, and which counts are kept."""
from cases.shared import many_objects
from evaluate.steps import Run, nack, request, small


@small
def asked_before_it_was_there():
    """What a NACK asks for is decided by what stood as it came."""
    r = many_objects().hears(1, nack(2, request('Items', 12, (3, 0, 0)), request('Ranges', 8, (2, 1, 0), (4, 0, 0))), 10)
    return r.data(1, 11, [1, 3, 1], info='(Some (9 ∷ []))').tick(1, 12).wants([2, 0, 0, 2, 0, 1, 2, 1, 0])


@small
def asked_of_a_stream():
    """Only segments that were closed as the NACK came; but a count, where one was, is answered by all that are at the end."""
    def begun():
        r = Run(b=3, max_n=4, k=0, grtt=1, gap=1000000).job('job.Open', 0, [2, 0]).write(65, 0, [3, 0, 0, 65])
        return r.tick(1, 0, [2, 32, 0, 0, 0])
    r = begun().hears(1, nack(2, request('Items', 8, (0, 0, 0)), request('Erasures', 1, (0, 1, 1))), 10).write(64, 11, [3, 0, 65, 64])
    r.tick(1, 12).wants([0, 0, 0]).hears(1, nack(2, request('Erasures', 1, (0, 0, 1))), 20).write(3, 21, [3, 0, 129, 3])
    r.job('job.Close', 21, [4, 0]).tick(1, 22).wants([0, 0, 0, 0, 0, 3])
    return r.hears(1, nack(2, request('Erasures', 1, (0, 1, 1)), request('Erasures', 1, (0, 0, 0))), 30).tick(1, 32).wants([0, 0, 0, 0, 0, 3, 0, 1, 0])


@small
def a_count_of_a_block_without_a_segment():
    """It is not kept where nothing of the block was closed as it came, though something is as the round closes."""
    r = Run(b=3, max_n=4, k=0, grtt=1, gap=1000000).job('job.Open', 0, [2, 0]).write(63, 0, [3, 0, 0, 63]).tick(1, 0)
    r.hears(1, nack(2, request('Erasures', 1, (0, 0, 1))), 10).write(1, 10, [3, 0, 63, 1]).tick(1, 10, [2, 32, 0, 0, 0]).tick(1, 12).wants([])
    return r.hears(1, nack(2, request('Erasures', 1, (0, 0, 1))), 20).tick(1, 22).wants([0, 0, 0])
