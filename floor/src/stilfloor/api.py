"""What the program says, as plain data for Python: `check`, `cycles`, `lot` and `grade`.

    from stilfloor import api

    print(api.check("scan.stil").cycles)
    for die in api.lot("scan.stil", "lot.csv").dies:
        print(die.name, die.bin)

Each asks the program once. What it refuses raises `stilfloor.faults.Fault`, whose text says why, with its file and line. A plan's netlists are
found from `folder`, or from where one stands. `frame()` answers a table of pandas, which is needed for nothing else.
"""

import io
import os
from dataclasses import dataclass, field
from typing import TYPE_CHECKING, Any

from stilfloor import records, tester
from stilfloor.faults import TOOL, Fault
from stilfloor.records import WORD, Die, StuckNet, bare
from stilfloor.sentences import refusal

if TYPE_CHECKING:
    from pandas import DataFrame

File = str | os.PathLike[str]


@dataclass(frozen=True, slots=True)
class Checked:
    """How large the code of a program is: executives, cycles, distinct rows of characters, instructions, pages."""

    executives: int
    cycles: int
    rows: int
    instructions: int
    pages: int


@dataclass(frozen=True, slots=True)
class Cycle:
    """A cycle: its executive (from 0) and number, its start in femtoseconds, its table, and a character for each signal."""

    executive: int
    number: int
    start: int
    table: str
    characters: str


@dataclass(slots=True)
class Cycles:
    """The cycles of a program, the names of its executives, and when it ends, in femtoseconds."""

    executives: list[str] = field(default_factory=list)
    cycles: list[Cycle] = field(default_factory=list)
    end: int = 0

    def frame(self) -> "DataFrame":
        """A row a cycle."""
        return _frame([[cycle.executive, cycle.number, cycle.start, cycle.table, cycle.characters] for cycle in self.cycles],
                      ["executive", "number", "start", "table", "characters"])


@dataclass(slots=True)
class Lot:
    """The dies of a lot with their tries, and how many fell into each bin."""

    dies: list[Die]
    totals: dict[int, int]

    def frame(self) -> "DataFrame":
        """A row a die: its site, name, bin, tries, the cycles of its last try, how many looks failed there, and its verdict."""
        rows = [[die.site, die.name, die.bin, len(die.tries), die.tries[-1].cycles, die.tries[-1].fails, die.verdict.kind] for die in self.dies]
        return _frame(rows, ["site", "die", "bin", "tries", "cycles", "fails", "verdict"])

    def fails(self) -> "DataFrame":
        """A row a fail that is kept."""
        rows = [[die.site, die.name, one.number, fail.cycle, fail.at, fail.signal, fail.want, fail.seen, fail.chain, fail.cell]
                for die in self.dies for one in die.tries for fail in one.kept]
        return _frame(rows, ["site", "die", "try", "cycle", "at", "signal", "want", "seen", "chain", "cell"])


@dataclass(slots=True)
class Grade:
    """The stuck-at faults of the plan's first die, each with the first cycle that finds it, and the good die's first failing cycle."""

    good: int | None
    faults: list[StuckNet]

    @property
    def found(self) -> int:
        """How many faults are found."""
        return sum(fault.cycle is not None for fault in self.faults)

    @property
    def coverage(self) -> float:
        """The part of the faults that is found."""
        return self.found / len(self.faults) if self.faults else 1.0

    def frame(self) -> "DataFrame":
        """A row a fault; its cycle is missing where nothing finds it."""
        return _frame([[fault.net, fault.value, fault.cycle] for fault in self.faults], ["net", "value", "cycle"], {"cycle": "Int64"})


def _frame(rows: list[list[Any]], columns: list[str], kinds: dict[str, str] | None = None) -> "DataFrame":
    try:
        import pandas
    except ImportError:
        raise Fault(TOOL, "a frame needs pandas (Debian's python3-pandas)") from None
    return pandas.DataFrame(rows, columns=columns).astype(kinds or {})


def _answer(words: list[File], folder: File | None) -> str:
    """What the program prints for these words; what it refuses is raised."""
    names = [os.fspath(word) for word in words]
    status, output = tester.run(names, None if folder is None else os.fspath(folder))
    text = output.decode("latin-1")
    if status:
        raise refusal(text, status, names[1], names[2] if len(names) > 2 else "")
    return text


def check(program: File, folder: File | None = None) -> Checked:
    """Compiles a text, and says how large its code is."""
    words = _answer(["check", program], folder).split()
    return Checked(*map(int, words[2::2]))


def cycles(program: File, folder: File | None = None) -> Cycles:
    """The cycles of a text, at most 65,536."""
    found = Cycles()
    for line in _answer(["cycles", program], folder).splitlines():
        words = WORD.findall(line)
        if words[0] == "exec":
            found.executives.append(bare(words[2]))
        elif words[0] == "end":
            found.end = int(words[2])
        else:
            found.cycles.append(Cycle(len(found.executives) - 1, int(words[0]), int(words[1]), bare(words[2]), words[3]))
    return found


def lot(program: File, plan: File, folder: File | None = None) -> Lot:
    """Tests the dies of a plan."""
    dies = records.Datalog(io.StringIO(_answer(["lot", program, plan], folder), newline="\n"), "datalog")
    found = list(dies)
    return Lot(found, dies.totals)


def grade(program: File, plan: File, folder: File | None = None) -> Grade:
    """Tries each net of the plan's first die stuck at 0 and at 1."""
    faults = records.Grade(io.StringIO(_answer(["grade", program, plan], folder), newline="\n"), "grade")
    found = list(faults)
    return Grade(faults.good, found)
