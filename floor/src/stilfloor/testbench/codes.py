"""What a saved program must keep so that a testbench can be made of it (docs/formats/saved.md); what `stil save` writes keeps it."""

import numpy

from stilfloor import saved
from stilfloor.faults import REFUSED, Fault
from stilfloor.saved import Code, Executive

RUN, LOOP, END, DONE = 1, 2, 3, 4
MOST_OPEN = 64


def code_of(program: str) -> Code:
    """The code of a program; a saved one that breaks a condition is refused."""
    code = saved.code_of(program)
    broken = _broken_signals(code) or _broken_waves(code) or next(filter(None, (_broken_steps(code, some) for some in code.executives)), "")
    broken = broken or next(filter(None, (_broken_rows(code, table, rows) for table, rows in _rows_by_table(code).items())), "")
    if broken:
        raise Fault(REFUSED, f"the saved program breaks a condition: {broken}; write it again with `stil save`", program)
    return code


def _broken_signals(code: Code) -> str:
    names = [name for _, name in code.signals]
    if len(set(names)) < len(names) or "" in names:
        return "two signals have one name, or one has none"
    if not code.executives or any(len(row) != len(names) for row in code.rows):
        return "there is no executive, or a row hasn't a character for each signal"
    outs = [chain.out for executive in code.executives for chain in executive.chains]
    return "a chain ends at no signal" if any(out >= len(names) for out in outs) else ""


def _broken_waves(code: Code) -> str:
    for table in code.tables:
        for (signal, letter), events in table.waves.items():
            times = [at for at, _ in events]
            if signal >= len(code.signals) or not letter.isalnum() or not letter.isascii() or times != sorted(times):
                return "a wave has no signal or no character, or its times fall"
            if " " in {act for _, act in events} or times and times[-1] >= table.period:
                return "an event has no act, or isn't in its cycle"
    return ""


def _broken_steps(code: Code, executive: Executive) -> str:
    """The instructions of an executive: loops nest, and tables and rows are there."""
    opened = 0
    before = 0
    for place, (kind, table, row, _, times) in enumerate(executive.instructions, 1):
        if kind == RUN and (table >= len(code.tables) or row >= len(code.rows) or not times):
            return "an instruction has no table or row, or no cycles"
        opened += (kind == LOOP) - (kind == END)
        is_last = place == len(executive.instructions)
        if not RUN <= kind <= DONE or (kind == DONE) != is_last or opened < 0 or opened > MOST_OPEN or kind == END and before == LOOP:
            return "an instruction is none, or loops aren't closed or are empty"
        if kind == LOOP and not 1 <= times <= 1 << 48:
            return "a loop has no passes, or too many"
        before = kind
    return "" if executive.instructions and not opened else "an executive has no end, or a loop isn't closed"


def _rows_by_table(code: Code) -> dict[int, set[int]]:
    """The rows that run with each table."""
    found: dict[int, set[int]] = {}
    runs = ((table, row) for executive in code.executives for kind, table, row, _, _ in executive.instructions if kind == RUN)
    for table, row in runs:
        found.setdefault(table, set()).add(row)
    return found


def _broken_rows(code: Code, table: int, rows: set[int]) -> str:
    """Each character of these rows has a wave in the table."""
    if not code.signals:
        return ""
    known = numpy.zeros((len(code.signals), 256), dtype=bool)
    known[:, 0] = True
    for signal, letter in code.tables[table].waves:
        known[signal, ord(letter)] = True
    letters = numpy.frombuffer(b"".join(code.rows[row] for row in sorted(rows)), dtype=numpy.uint8).reshape(-1, len(code.signals))
    return "" if known[numpy.arange(len(code.signals)), letters].all() else "a row has a character for which its table has no wave"
