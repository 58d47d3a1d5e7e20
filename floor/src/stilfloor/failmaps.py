"""Where fails lie: by load or cycle, and by scan cell or output."""

import io
from collections import Counter
from dataclasses import dataclass, field

import numpy

from stilfloor import records
from stilfloor.faults import Fault, shown
from stilfloor.plans import MOST_KEPT
from stilfloor.saved import Code, Loads

MOST_ROWS = 256
MOST_COLUMNS = 512
MOST_PLACES = 1 << 19
MOST_SIDE = 2048
GREY = 190


@dataclass(slots=True)
class Axes:
    """The columns of fail maps (the cells of each chain from scan-in to scan-out, then outputs) and their rows.

    Rows are loads where the program has scan chains, else cycles; `rows` is their number.
    """

    columns: dict[tuple[str, str], int]
    loads: Loads | None
    rows: int

    @property
    def by_load(self) -> bool:
        """Whether rows are loads."""
        return self.loads is not None

    def row(self, cycle: int) -> int:
        """The row of a cycle."""
        return self.loads.of(cycle) if self.loads else cycle

    def column(self, fail: records.Fail) -> int:
        """The column of a fail; one that isn't known yet becomes the next one."""
        key = key_of(fail)
        place = self.columns.get(key)
        if place is None:
            place = self.columns[key] = len(self.columns)
        return place


def key_of(fail: records.Fail) -> tuple[str, str]:
    """What a fail is told by: its chain and cell where it has them, else nothing and its signal."""
    return (fail.chain, fail.cell) if fail.chain and fail.cell else ("", fail.signal)


def name_of(key: tuple[str, str]) -> str:
    """A column's name."""
    return shown(f"{key[0]} {key[1]}" if key[0] else key[1])


def axes_of(code: Code | None) -> Axes:
    """The axes of a program's fail maps; without a program columns come as fails show them, and rows are cycles."""
    if code is None:
        return Axes({}, None, 0)
    keys: list[tuple[str, str]] = []
    ends = set()
    for executive in code.executives:
        for chain in executive.chains:
            keys += [(chain.name, cell) for cell in chain.cells]
            ends.add(code.signals[chain.out][1])
    keys += [("", name) for direction, name in code.signals if direction in ("Out", "InOut") and name not in ends]
    columns = {key: place for place, key in enumerate(dict.fromkeys(keys))}
    try:
        loads = Loads(code)
    except Fault:
        return Axes(columns, None, 0)
    return Axes(columns, loads if loads.starts else None, len(loads.starts) + 1 if loads.starts else loads.cycles)


@dataclass(slots=True)
class Cut:
    """The dies with more fails than are kept: how many by the row of their last kept fail, how many are kept, and the most that one has."""

    rows: Counter[int] = field(default_factory=Counter)
    kept: int = 0
    most: int = 0

    def add(self, attempt: records.Try, row: int) -> None:
        """Counts a die by its try, and the row of its last kept fail."""
        self.rows[row] += 1
        self.kept = max(self.kept, len(attempt.kept))
        self.most = max(self.most, attempt.fails)

    @property
    def count(self) -> int:
        """How many dies there are."""
        return self.rows.total()

    def note(self, failing: int) -> str:
        """What is told of them, where there are some, with what to set."""
        if not self.count:
            return ""
        wanted = f"to {self.most}" if self.most <= MOST_KEPT else f"to {MOST_KEPT}, which is the most"
        return (f"{self.count} of {failing} failing dies have more fails than the {self.kept} that the plan keeps: what lies behind the last kept "
                f"fail of each of them isn't known (grey); raise the plan's number of kept fails, which is the F of its row lot,B,TRIES,F,,, {wanted}")


class Gathered:
    """Fails of many dies: how many dies fail at each place, and at each column.

    Of a die with more fails than are kept the rows up to that of its last kept fail are known. Where there would be more than `most` places,
    neighbours are gathered: `down` rows and `right` columns are one place then. Where that is known only while dies are counted, places
    are added up, and `is_sum` says so: a die counts at each of them.
    """

    def __init__(self, axes: Axes, most: int = MOST_PLACES) -> None:
        self.axes = axes
        self.most = most
        self.is_sum = False
        self.places: Counter[tuple[int, int]] = Counter()
        self.columns: Counter[int] = Counter()
        self.whole: Counter[int] = Counter()
        self.firsts: Counter[tuple[int, int]] = Counter()
        self.failing = 0
        self.cut = Cut()
        self.down = self.right = 1
        self.last_row = 0
        while self._height() * self._width() > most or max(self._height(), self._width()) > MOST_SIDE:
            down, right = self._longer()
            self.down, self.right = self.down * down, self.right * right

    def _height(self) -> int:
        return -(-self.rows() // self.down)

    def _width(self) -> int:
        return -(-len(self.axes.columns) // self.right)

    def _longer(self) -> tuple[int, int]:
        """The direction in which neighbours become one place next."""
        return (2, 1) if self._height() >= self._width() else (1, 2)

    def add(self, die: records.Die) -> set[tuple[int, int]]:
        """Counts a die by the kept fails of its last try; its places, as they are before any are gathered."""
        axes = self.axes
        kept = die.tries[-1].kept
        rows = {cycle: axes.row(cycle) for cycle in {fail.cycle for fail in kept}}
        places = {(rows[fail.cycle], axes.column(fail)) for fail in kept}
        self.last_row = max(self.last_row, max(rows.values(), default=0))
        whole = self.down == self.right == 1
        self.places.update(places if whole else {(row // self.down, column // self.right) for row, column in places})
        self._count(die.tries[-1], rows, places)
        while len(self.places) > self.most:
            self._gather()
        return places

    def _count(self, attempt: records.Try, rows: dict[int, int], places: set[tuple[int, int]]) -> None:
        """Counts a die at its columns, and by the first row in which it fails at each of them."""
        columns = {column for _, column in places}
        self.failing += attempt.fails > 0
        self.columns.update(columns)
        firsts: dict[int, int] = {}
        for row, column in places:
            firsts[column] = min(row, firsts.get(column, row))
        self.firsts.update((row, column) for column, row in firsts.items())
        if attempt.fails > len(attempt.kept):
            self.cut.add(attempt, max(rows.values(), default=-1))
        else:
            self.whole.update(columns)

    def reach(self, die: records.Die) -> int | None:
        """The row of the last kept fail of a die that has more fails; none where all are kept."""
        attempt = die.tries[-1]
        if attempt.fails == len(attempt.kept):
            return None
        return self.axes.row(attempt.kept[-1].cycle) if attempt.kept else -1

    def unknown(self, bands: int) -> numpy.ndarray:
        """For each of so many bands of rows the share of failing dies whose fails aren't known there."""
        missing = numpy.zeros(bands)
        for row, count in self.cut.rows.items():
            missing[(row + 1) * bands // max(self.rows(), 1) :] += count
        return missing / max(self.failing, 1)

    def _gather(self) -> None:
        """Makes two neighbours one place, in the longer direction."""
        self.is_sum = True
        down, right = self._longer()
        self.down, self.right = self.down * down, self.right * right
        fewer: Counter[tuple[int, int]] = Counter()
        for (row, column), count in self.places.items():
            fewer[row // down, column // right] += count
        self.places = fewer

    def rows(self) -> int:
        """How many rows the map has."""
        return max(self.axes.rows, 1 + self.last_row)

    def matrix(self) -> numpy.ndarray:
        """How many dies fail at each place, with rows and columns gathered where there are very many."""
        return spread(self.places, self._height(), self._width(), MOST_SIDE)

    def chains(self) -> list[tuple[str, int, int]]:
        """The runs of columns of one chain each, by its name, and of outputs, by none: from where, and up to where."""
        runs: list[tuple[str, int, int]] = []
        for place, (chain, _) in enumerate(self.axes.columns):
            if runs and runs[-1][0] == chain:
                runs[-1] = chain, runs[-1][1], place + 1
            else:
                runs.append((chain, place, place + 1))
        return runs

    def ranked(self) -> tuple[Counter[int], str]:
        """How many dies fail at each column, by what is known alike of all that are counted, and the words for what that is.

        Where dies are cut off it is either the rows that all dies reach or the dies of which all fails are kept: what tells more.
        """
        if not self.cut.count:
            return self.columns, ""
        reached = min(self.cut.rows)
        early: Counter[int] = Counter()
        for (row, column), count in self.firsts.items():
            if row < reached:
                early[column] += count
        if early.total() > self.whole.total():
            return early, f"{'loads' if self.axes.by_load else 'cycles'} up to {reached - 1}, which all dies reach"
        return self.whole, f"the {self.failing - self.cut.count} failing dies of which all fails are kept"

    def pareto(self, most: int) -> list[tuple[str, int]]:
        """The columns at which most dies fail, with their numbers."""
        names = [name_of(key) for key in self.axes.columns]
        ranked = sorted(self.ranked()[0].items(), key=lambda entry: (-entry[1], entry[0]))
        return [(names[column], count) for column, count in ranked[:most]]


def spread(places: "Counter[tuple[int, int]]", rows: int, columns: int, most: int) -> numpy.ndarray:
    """A matrix of counts, in which neighbours are gathered so that no side is longer than `most`."""
    down, right = -(-rows // most) or 1, -(-columns // most) or 1
    cells = numpy.zeros((-(-rows // down) or 1, -(-columns // right) or 1))
    for (row, column), count in places.items():
        cells[row // down, column // right] += count
    return cells


def picture(places: set[tuple[int, int]], rows: int, columns: int, reach: int | None = None) -> bytes:
    """A fail map as a small PNG, a black pixel for a place or for gathered neighbours; rows behind the one that is reached are grey."""
    from PIL import Image

    down, right = -(-rows // MOST_ROWS) or 1, -(-columns // MOST_COLUMNS) or 1
    cells = numpy.full((-(-rows // down) or 1, -(-columns // right) or 1), 255, dtype=numpy.uint8)
    if reach is not None:
        cells[-(-(reach + 1) // down) :] = GREY
    if places:
        found = numpy.array(list(places))
        cells[found[:, 0] // down, found[:, 1] // right] = 0
    out = io.BytesIO()
    Image.fromarray(cells).save(out, "PNG", optimize=True)
    return out.getvalue()
