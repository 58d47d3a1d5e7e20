"""Broken scan chains: what leaves a chain in a try, and the cell from which on all of it is one value."""

from collections import Counter
from dataclasses import dataclass, field

import numpy

from stilfloor import records, saved
from stilfloor.faults import Fault

LEAST_CELLS = 2
MOST_LOOKS = 1 << 22
UNKNOWN = 2


@dataclass(slots=True, frozen=True)
class Broken:
    """A chain of which all that the cells before a place show is one value; what stands at the place has shown both."""

    chain: str
    before: str
    value: int

    def __str__(self) -> str:
        return f"chain {self.chain} at or before {self.before}"


@dataclass(slots=True)
class Looks:
    """The looks at what leaves a chain, by rising cycle: the cycles of a try, the cells by their number from scan-in, and what is wanted."""

    chain: saved.Chain
    out: str
    cycles: numpy.ndarray
    cells: numpy.ndarray
    wanted: numpy.ndarray

    def broken(self, attempt: records.Try) -> Broken | None:
        """How the chain is broken as far as a try tells; none where it isn't, or where fewer than two cells tell."""
        left, known = self.wanted.copy(), len(self.cycles)
        fails = [fail for fail in attempt.kept if fail.signal == self.out and fail.chain == self.chain.name]
        places = numpy.searchsorted(self.cycles, [fail.cycle for fail in fails])
        for place, fail in zip(places, fails):
            if place < known and self.cycles[place] == fail.cycle:
                left[place] = "01".index(fail.seen) if fail.seen in "01" else UNKNOWN
        if attempt.fails > len(attempt.kept):
            known = int(numpy.searchsorted(self.cycles, attempt.kept[-1].cycle if attempt.kept else 0))
        return self._judge(left[:known], known)

    def _judge(self, left: numpy.ndarray, known: int) -> Broken | None:
        """The same by what left the chain at the looks that are known."""
        cells, wanted = self.cells[:known], self.wanted[:known]
        for value in (0, 1):
            others = cells[left != value]
            place = int(others.min()) if len(others) else len(self.chain.cells)
            wrong = numpy.unique(cells[(wanted != left) & (cells < place)])
            if len(wrong) >= LEAST_CELLS:
                return Broken(self.chain.name, self.chain.cells[place] if place < len(self.chain.cells) else self.out, value)
        return None


def looks_of(code: saved.Code) -> list[Looks]:
    """The looks at each chain of a program; none of a program with too many steps, or too many such looks, to list them."""
    found: list[Looks] = []
    offset = count = 0
    try:
        for executive in code.executives:
            shifts = Shifts([(offset + step.start, step.table, step.row, step.mark) for step in saved.steps(executive) if step.mark])
            for chain in executive.chains if len(shifts.marks) else []:
                found.append(_looks(code, chain, shifts))
                count += len(found[-1].cycles)
                if count > MOST_LOOKS:
                    return []
            offset += executive.cycles
    except Fault:
        return []
    return [looks for looks in found if len(looks.cycles)]


class Shifts:
    """The steps of an executive's Shifts: their cycles and marks, and which pair of a table and a row each has."""

    def __init__(self, steps: list[tuple[int, int, int, int]]) -> None:
        every = numpy.array(steps, dtype=numpy.int64).reshape(-1, 4)
        self.cycles, self.marks = every[:, 0], every[:, 3]
        self.pairs, numbers = numpy.unique(every[:, 1:3], axis=0, return_inverse=True)
        self.numbers = numbers.reshape(-1)


def _looks(code: saved.Code, chain: saved.Chain, shifts: Shifts) -> Looks:
    """The looks at a chain in the steps of Shifts."""
    wants = numpy.array([_want(code, int(table), int(row), chain.out) for table, row in shifts.pairs], dtype=numpy.int8)[shifts.numbers]
    cells = chain.length - shifts.marks
    chosen = (wants >= 0) & (cells >= 0) & (cells < len(chain.cells))
    return Looks(chain, code.signals[chain.out][1], shifts.cycles[chosen], cells[chosen].astype(numpy.int32), wants[chosen])


def _want(code: saved.Code, table: int, row: int, signal: int) -> int:
    """The value that a row wants of a signal, and -1 where it wants none or several."""
    looks = [act for _, act in code.tables[table].waves.get((signal, chr(code.rows[row][signal])), []) if act in "LHTlht"]
    return {"L": 0, "H": 1}.get(looks[0].upper(), -1) if len(looks) == 1 else -1


@dataclass(slots=True)
class Chains:
    """The chains of a program, by which tries are judged."""

    looks: list[Looks]
    counted: Counter[Broken] = field(default_factory=Counter)

    def broken(self, attempt: records.Try) -> list[Broken]:
        """The chains that are broken as far as a try tells."""
        found = [looks.broken(attempt) for looks in self.looks]
        return [broken for broken in dict.fromkeys(found) if broken]
