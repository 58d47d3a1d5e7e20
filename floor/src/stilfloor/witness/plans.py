"""Random plans: stuck nets, some in the first tries alone, stops, bins, and skews."""

import random

from stilfloor.plans import write_rows
from stilfloor.witness.nets import Net
from stilfloor.witness.texts import Program, Signal


def random_plan(net: Net, program: Program, file: str, chance: random.Random, heals: bool) -> str:
    """A plan of one die at some site; one that heals has nets that are stuck in its first try alone."""
    site, name = str(chance.choice((0, 0, 1, 3, 15))), chance.choice(("d", "die-1", "\"q\"", "x%d", "$&;"))
    tries = chance.choice((2, 3) if heals else (1, 1, 2, 3))
    rows = [["lot", str(chance.choice((1, 2, 3, 7, 256))), str(tries), str(chance.choice((0, 3, 40, 1024, 1024)))]]
    rows += _binding(program, chance)
    rows.append(["die", site, name, file])
    for stuck in chance.sample(net.nets, min(len(net.nets), 4 if heals else chance.choice((0, 0, 1, 1, 2, 4)))):
        rows.append(["fault", site, name, stuck, chance.choice("01"), "1" if heals else chance.choice(("", "", "1", "2"))])
    if chance.random() < (0.02 if heals else 0.25):
        rows.append(["stop", site, name, str(chance.randint(1, tries)), str(chance.choice((0, 1, 2, 5, 9)))])
    rows += [["bin", ending, "", str(chance.randint(1, 99))] for ending in ("pass", "stopped") if chance.random() < 0.3]
    rows += [["bin", "fail", str(number), str(chance.randint(1, 99))] for number in range(program.executives) if chance.random() < 0.3]
    if chance.random() < 0.5:
        rows += [["skew", site, signal.bare, str(_amount(program, signal, chance))] for signal in program.movable if chance.random() < 0.5]
    return write_rows(rows)


def _binding(program: Program, chance: random.Random) -> list[list[str]]:
    """The rows that say how signals are bound."""
    rows = [["clock", program.clock.bare]] if program.clock else []
    for signal in program.signals:
        if signal.net is not None and signal.net != signal.bare:
            rows.append(["bind", signal.bare, signal.net])
        elif signal.net is None and (signal is not program.clock or chance.random() < 0.3):
            rows.append(["bind", signal.bare, "-"])
    return rows


def _amount(program: Program, signal: Signal, chance: random.Random) -> int:
    """A skew that keeps the signal's events in their cycles: mostly a small one, by which it passes others."""
    least, most = program.rooms[signal.name]
    wish = chance.choice((1, -1, 1, 2, chance.randint(least, most)))
    return min(max(wish, least), most)
