"""What a run was about: which features of programs and dies its lines come from, so that it can be said how often each was tried."""

from collections.abc import Iterator

from stilfloor.testbench.bench import Job

LOOPED = 2


def _played(job: Job) -> Iterator[tuple[int, list[tuple[int, str]]]]:
    """The waves that some cycle of the program has, with their signals."""
    runs = {(int(table), int(row)) for kind, table, row, _, _ in job.steps.fields if kind == 0}
    pairs = {(table, signal, letter) for table, row in runs for signal, letter in enumerate(job.code.rows[row]) if letter}
    for table, signal, letter in sorted(pairs):
        yield signal, job.code.tables[table].waves[signal, chr(letter)]


def _of_acts(job: Job) -> set[str]:
    """Features of the waves that are played on signals that have nets."""
    found = set()
    names = {"P": "P", "Z": "Z", "N": "N", "T": "T", "l": "window", "h": "window", "t": "window"}
    for signal, events in _played(job):
        driven, seen = job.binding.driven >> signal & 1, job.binding.seen >> signal & 1
        acts = [act for _, act in events]
        found |= {names[act] for act in acts if act in names and (driven if act in "PZN" else seen)}
        if signal == job.binding.clock and not {"Z", "N"}.isdisjoint(acts):
            found.add("X clock")
        looks = [at for at, act in events if act not in "DUZNP"]
        if seen and len(set(looks)) < len(looks):
            found.add("several looks at one instant")
    return found


def _has_race(job: Job) -> bool:
    """Whether the clock rises at an instant at which an input is driven, in one cycle."""
    clock = job.binding.clock
    if clock is None:
        return False
    runs = {(int(table), int(row)) for kind, table, row, _, _ in job.steps.fields if kind == 0}
    return any(_races(job, clock, table, row) for table, row in runs)


def _races(job: Job, clock: int, table: int, row: int) -> bool:
    waves = {signal: job.code.tables[table].waves[signal, chr(letter)] for signal, letter in enumerate(job.code.rows[row]) if letter}
    rises = {at + job.skews[clock] for at, act in waves.get(clock, []) if act == "U"}
    drives = {at + job.skews[signal] for signal, events in waves.items() if signal != clock and job.binding.driven >> signal & 1
              for at, act in events if act in "DUZN"}
    return not rises.isdisjoint(drives)


def features_of(job: Job, lines: list[str]) -> set[str]:
    """The features of a die's run, by what it is made of and what it printed."""
    tries = [line for line in lines if line.startswith("try ")]
    ends = [line for line in lines if line.startswith("verdict ")]
    has = {
        "fails": any(line.startswith("verdict fail") for line in ends),
        "passes": ends[-1] == "verdict pass",
        "fails and then passes": ends[-1] == "verdict pass" and len(ends) > 1,
        "edge and data at one instant": _has_race(job),
        "skew": any(amount for signal, amount in enumerate(job.skews) if job.binding.seen >> signal & 1),
        "stop": any(line.startswith("verdict stopped") for line in ends),
        "second executive": len(job.code.executives) > 1 and any(line not in ("verdict fail 0",) and "stopped" not in line for line in ends),
        "second try": len(tries) > 1,
        "fault": bool(job.die.faults),
        "fault of first tries": any(tries_of < job.tries for _, _, tries_of in job.die.faults) and len(tries) > 1,
        "scan cell": any(line.startswith("fail ") and len(line.split()) > 6 for line in lines),
        "two chains": any(len(executive.chains) > 1 for executive in job.code.executives),
        "loop": any(kind == 1 for kind, *_ in job.steps.fields),
        "two tables": len(job.tables) > 1,
        "clock that drives an input": job.binding.clock is not None and job.binding.binds[job.binding.clock] is not None,
        "more fails than are kept": any(int(line.rpartition(" ")[2]) > job.lot.keep for line in tries),
        "no clock": job.binding.clock is None,
    }
    return {name for name, is_so in has.items() if is_so} | _of_acts(job)
