"""Which signals could be moved at a site, and by how much, so that a try would differ. Times are in femtoseconds."""

from stilfloor.saved import Code

Moved = tuple[str, int]
MOST_STEPS = 4
DRIVES = "DUZNP"


def moved_signals(code: Code, known: list[str]) -> list[Moved]:
    """For each signal whose skew isn't known the smallest moves, in each direction, by which its events pass those of others.

    A move keeps all events inside their cycles, as a plan asks. A look matters to drives alone.
    """
    drives: dict[int, set[int]] = {}
    looks: dict[int, set[int]] = {}
    room: dict[int, tuple[int, int]] = {}
    for table in code.tables:
        for (signal, _), events in table.waves.items():
            for at, act in events:
                (drives if act in DRIVES else looks).setdefault(signal, set()).add(at)
                least, most = room.get(signal, (at, 1 << 62))
                room[signal] = min(least, at), min(most, table.period - 1 - at)
    moved: list[Moved] = []
    for signal in sorted(room):
        name = code.signals[signal][1]
        own = drives.get(signal, set())
        others = {at for other, times in drives.items() if other != signal for at in times}
        passed = {at for other, times in looks.items() if other != signal for at in times} if own else set()
        if name not in known:
            moved += [(name, amount) for amount in _amounts(own | looks.get(signal, set()), others | passed, *room[signal])]
    return moved


def _amounts(times: set[int], others: set[int], least: int, most: int) -> list[int]:
    """Amounts by which an event just passes another signal's, the smallest first, some in each direction."""
    later = sorted({other - at + 1 for at in times for other in others if other >= at})
    earlier = sorted({at - other + 1 for at in times for other in others if other <= at})
    return [amount for amount in later if amount <= most][:MOST_STEPS] + [-amount for amount in earlier if amount <= least][:MOST_STEPS]
