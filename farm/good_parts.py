"""Into how many parts a grade is good to be cut: some seconds each, and no processor without one."""
import os
import resource
from work import DONE, MOST_PARTS, answer

# how many seconds of a processor a part should take, and how many it takes until it tells how long others take
WANTED, ENOUGH = 5, 0.5
# an array of jobs has at most so many parts, where Slurm's configuration doesn't say otherwise
MOST = 1000


def used() -> float:
    """How many seconds of a processor the programs took that have ended."""
    spent = resource.getrusage(resource.RUSAGE_CHILDREN)
    return spent.ru_utime + spent.ru_stime


def good_parts(lots: str, program: str, plan: str, processors: int | None = None) -> int:
    """The number of parts, by the first part of ever fewer until one takes long enough to tell."""
    least = processors or os.cpu_count() or 1
    parts = MOST_PARTS
    while parts > least:
        before = used()
        status, _ = answer([lots, "grade", program, plan, "1", str(parts)])
        took = used() - before
        if status != DONE:
            # (the parts tell why)
            return least
        if took >= ENOUGH:
            return max(least, min(MOST, round(parts * took / WANTED)))
        parts //= 8
    return least
