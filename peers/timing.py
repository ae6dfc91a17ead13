"""Nanoseconds for each offset: the best of some lots, each reader in turn, in one run and one thread. Ours is that of a run."""
import time

from uppinalo import Axis

from others import NotTaken

LOTS = 25


def _seconds(work):
    start = time.perf_counter()
    work()
    return time.perf_counter() - start


def _best_start(work):
    """Makes the work once. None where it is not taken."""
    try:
        work()
    except (NotTaken, NotImplementedError):
        return None
    return float("inf")


def measure(case, calendar, readers, counts):
    """The best time of ours and of each reader for one offset of so many; None where a reader does not take the axis, and for ours
    where the shared object has no runs yet."""
    axis = Axis(case.units, calendar=calendar)

    def repeated(count):
        return case.offsets.repeat(-(-count // len(case.offsets)))[:count]

    def read(reader, offsets):
        return lambda: reader.read(case.units, calendar, offsets)

    def ours(offsets):
        return lambda: axis.read_run(offsets)

    works = [ours(repeated(counts[None])), *(read(reader, repeated(counts[reader.name])) for reader in readers)]
    return best_of(works, [counts[None], *(counts[reader.name] for reader in readers)])


def best_of(works, sizes):
    """The best time of each work for one of its elements; None where it is not taken."""
    best = [_best_start(work) for work in works]
    for _ in range(LOTS):
        for place, work in enumerate(works):
            if best[place] is not None:
                best[place] = min(best[place], _seconds(work) / sizes[place] * 1e9)
    return best
