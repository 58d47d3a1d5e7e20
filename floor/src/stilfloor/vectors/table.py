"""A table as cycles: a column each signal, a row each cycle, of CSV with a heading or of JSON, a list of objects."""

import csv
import io
import json
from collections.abc import Iterator

from stilfloor.faults import REFUSED, UNREADABLE, Fault
from stilfloor.plans import read_text
from stilfloor.vectors.text import Vectors
from stilfloor.vectors.vcd import Wish

DRIVEN = {"0": "0", "1": "1", "N": "N", "X": "N", "Z": "Z"}
LOOKED = {"L": "L", "H": "H", "T": "T", "X": "X", "0": "L", "1": "H", "Z": "T", "": "X"}
PERIOD = 100 * 10**6

# a row's line, or its number, and its cells
Rows = list[tuple[int, dict[str, str]]]


def _csv_rows(text: str, file: str) -> Rows:
    reader = csv.reader(io.StringIO(text.removeprefix("\ufeff"), newline=""))
    rows: Rows = []
    try:
        heading = [name.strip() for name in next(reader, [])]
        for cells in reader:
            if cells and len(cells) != len(heading):
                raise Fault(REFUSED, f"this row has {len(cells)} cells, and the heading {len(heading)}", file, reader.line_num)
            if cells:
                rows.append((reader.line_num, dict(zip(heading, (cell.strip().upper() for cell in cells)))))
    except csv.Error as error:
        raise Fault(UNREADABLE, f"this is no table: {error}", file, reader.line_num) from error
    twice = next((name for name in heading if heading.count(name) > 1 or not name), None)
    if twice is not None:
        raise Fault(REFUSED, f"the heading has `{twice}` twice" if twice else "the heading has an empty name", file, 1)
    return rows


def _json_rows(text: str, file: str) -> Rows:
    """Rows of objects; a signal that one doesn't name is as in the one before."""
    try:
        listed = json.loads(text.encode("latin-1"))
    except (ValueError, RecursionError) as error:
        raise Fault(UNREADABLE, f"this is no JSON: {error}", file) from error
    if not isinstance(listed, list) or not all(isinstance(row, dict) for row in listed):
        raise Fault(REFUSED, "this is no list of objects, one a cycle, each with signals and their characters", file)
    rows: Rows = []
    before: dict[str, str] = {}
    for number, row in enumerate(listed, 1):
        before = {**before, **{str(name): str(int(value) if isinstance(value, bool) else value).upper() for name, value in row.items()}}
        rows.append((number, before))
    return rows


def _columns(rows: Rows) -> Iterator[str]:
    yield from dict.fromkeys(name for _, row in rows for name in row)


class Table:
    """Makes cycles of a table."""

    def __init__(self, file: str, wish: Wish) -> None:
        self.file = file
        self.wish = wish
        self.is_json = file.lower().endswith(".json")
        self.rows = (_json_rows if self.is_json else _csv_rows)(read_text(file), file)
        self.columns = list(_columns(self.rows))

    def _where(self, number: int) -> int:
        return 0 if self.is_json else number

    def vectors(self) -> Vectors:
        """The cycles; the clock rises in the middle of each, or where its own column has P."""
        period = self.wish.period or PERIOD
        for name in [*self.wish.inputs, *self.wish.outputs]:
            if name not in self.columns:
                raise Fault(REFUSED, f"the table has no column `{name}`", self.file)
        others = [name for name in self.columns if name != self.wish.clock]
        outputs = [name for name in others if self._is_output(name)]
        made = Vectors(self.file, period, self.wish.clock, period // 2, period * 3 // 4, {name: 0 for name in others if name not in outputs}, outputs)
        made.strobe = period * 2 // 5 if self.wish.strobe is None else self.wish.strobe
        for number, row in self.rows:
            clock = self._cell(number, row, self.wish.clock, {"P": "P", "0": "0", "1": "1"}, "P")
            drives = "".join(self._cell(number, row, name, DRIVEN, "") for name in made.inputs)
            made.rows.append((clock, drives, "".join(self._cell(number, row, name, LOOKED, "X") for name in outputs)))
        return made

    def _is_output(self, name: str) -> bool:
        """A column is one of looks where it is named so, or where a cell of it is a look."""
        return name in self.wish.outputs or name not in self.wish.inputs and any(row.get(name, "") in ("L", "H", "T") for _, row in self.rows)

    def _cell(self, number: int, row: dict[str, str], name: str, letters: dict[str, str], missing: str) -> str:
        found = letters.get(row.get(name, missing) or missing)
        if not found:
            at = f" in object {number}" if self.is_json else ""
            text = f"`{row.get(name, '')}` at `{name}`{at} is none of {', '.join(letter for letter in letters if letter)}"
            raise Fault(REFUSED, text, self.file, self._where(number))
        return found
