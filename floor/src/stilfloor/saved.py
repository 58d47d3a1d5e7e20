"""Saved programs: what the program `stil` has compiled, as plain data. Times are in femtoseconds.

This reads what `stil save` writes (docs/formats.md), so that signals, tables, rows, chains and cycles are those of the program.
"""

import os
import struct
from bisect import bisect_right
from collections.abc import Iterator
from dataclasses import dataclass, field

from stilfloor import tester
from stilfloor.faults import REFUSED, TOOL, UNREADABLE, Fault

MAGIC = b"\xd7STP"
ACTS = " DUZNPLHXTlht"
DIRECTIONS = ("In", "Out", "InOut", "Supply", "Pseudo")
MOST_STEPS = 1 << 20


@dataclass(slots=True)
class Table:
    """A waveform table: its period, and the events (time, act) of each signal and character."""

    name: str
    period: int
    waves: dict[tuple[int, str], list[tuple[int, str]]] = field(default_factory=dict)


@dataclass(slots=True)
class Chain:
    """A scan chain: its name, the signal at which it ends, its length, and its cells from scan-in to scan-out."""

    name: str
    out: int
    length: int
    cells: list[str]


@dataclass(slots=True)
class Step:
    """A cycle that runs `times` times from cycle `start` on, in a table, with a row of characters, and a mark."""

    start: int
    times: int
    table: int
    row: int
    mark: int


@dataclass(slots=True)
class Executive:
    """An executive: its name, its chains, its instructions as (op, table, row, mark, times), and its number of cycles."""

    name: str
    chains: list[Chain]
    instructions: list[tuple[int, int, int, int, int]]
    cycles: int = 0


@dataclass(slots=True)
class Code:
    """A compiled program. A signal is its direction and its name; a row has one character a signal, a zero byte for none."""

    signals: list[tuple[str, str]]
    tables: list[Table]
    rows: list[bytes]
    executives: list[Executive]


class Bytes:
    """The bytes of a saved program, read from left to right."""

    def __init__(self, data: bytes) -> None:
        self.data = data
        self.place = 0

    def take(self, form: str) -> tuple[int, ...]:
        """The fields of a struct's form at the place, little-endian."""
        try:
            fields = struct.unpack_from("<" + form, self.data, self.place)
        except struct.error:
            raise Fault(UNREADABLE, f"a saved program ends within a field at byte {self.place}") from None
        self.place += struct.calcsize("<" + form)
        return fields

    def number(self, form: str) -> int:
        """One number."""
        return self.take(form)[0]

    def text(self) -> str:
        """A text with its length in front."""
        length = self.number("H")
        self.place += length
        return self.data[self.place - length : self.place].decode("latin-1")


def load(data: bytes) -> Code:
    """The code that the bytes of a saved program stand for."""
    source = Bytes(data)
    if data[:4] != MAGIC:
        raise Fault(UNREADABLE, "this is no saved program")
    source.place = 4
    version, _ = source.take("HH")
    if version not in (1, 2):
        raise Fault(UNREADABLE, f"this is a saved program of version {version}, and 1 and 2 are known")
    signals = [(DIRECTIONS[source.number("B")], source.text()) for _ in range(source.number("H"))]
    tables = [_table(source) for _ in range(source.number("H"))]
    rows = _rows(source, version, len(signals))
    executives = [_executive(source) for _ in range(source.number("H"))]
    return Code(signals, tables, rows, executives)


def _table(source: Bytes) -> Table:
    name, period = source.text(), source.number("Q")
    table = Table(name, period)
    for _ in range(source.number("I")):
        signal, letter, count = source.take("HBB")
        pairs = [source.take("QB") for _ in range(count)]
        table.waves[signal, chr(letter)] = [(at, ACTS[act]) for at, act in pairs]
    return table


def _rows(source: Bytes, version: int, width: int) -> list[bytes]:
    rows: list[bytes] = []
    for _ in range(source.number("I")):
        if version == 1 or source.number("B") == 0:
            rows.append(source.data[source.place : source.place + width])
            source.place += width
            continue
        row = bytearray(rows[-1])
        for _ in range(source.number("H")):
            signal, character = source.take("HB")
            row[signal] = character
        rows.append(bytes(row))
    return rows


def _executive(source: Bytes) -> Executive:
    name = source.text()
    chains = []
    for _ in range(source.number("H")):
        title = source.text()
        out, length, count = source.take("HII")
        chains.append(Chain(title, out, length, [source.text() for _ in range(count)]))
    instructions = []
    for _ in range(source.number("I")):
        op, _, table, row, mark, times = source.take("BBHIII")
        if op == 2:
            times = mark + (times << 32)
        instructions.append((op, table, row, mark, times))
    executive = Executive(name, chains, instructions)
    executive.cycles = _pass_cycles(instructions, 0)[0]
    return executive


def _pass_cycles(instructions: list[tuple[int, int, int, int, int]], place: int) -> tuple[int, int]:
    """How many cycles the instructions up to the next End or Done make, and the place behind it."""
    opened: list[tuple[int, int]] = []
    cycles = 0
    while place < len(instructions):
        op, _, _, _, times = instructions[place]
        place += 1
        if op == 1:
            cycles += times
        elif op == 2:
            opened.append((cycles, times))
            cycles = 0
        elif op == 3 and opened:
            before, passes = opened.pop()
            cycles = before + passes * cycles
        else:
            break
    return cycles, place


def steps(executive: Executive) -> Iterator[Step]:
    """The cycles of an executive in their order, loops unrolled; a program of more than 1,048,576 steps is refused."""
    opened: list[tuple[int, int]] = []
    place = start = count = 0
    instructions = executive.instructions
    while place < len(instructions):
        op, table, row, mark, times = instructions[place]
        place += 1
        if op == 1:
            count += 1
            if count > MOST_STEPS:
                raise Fault(REFUSED, f"the program has more than {MOST_STEPS} steps where its loops are unrolled")
            yield Step(start, times, table, row, mark)
            start += times
        elif op == 2:
            opened.append((place, times))
        elif op == 3:
            begin, left = opened.pop()
            if left > 1:
                opened.append((begin, left - 1))
                place = begin


class Loads:
    """Which load of the scan chains a cycle of a try belongs to: its number from 1, and 0 before the first one."""

    def __init__(self, code: Code) -> None:
        self.starts: list[int] = []
        offset = 0
        for executive in code.executives:
            self._add(executive, offset)
            offset += executive.cycles
        self.cycles = offset

    def _add(self, executive: Executive, offset: int) -> None:
        before = 0
        for step in steps(executive):
            if step.mark and step.mark <= before or step.mark and not before:
                self.starts.append(offset + step.start)
            before = step.mark

    def of(self, cycle: int) -> int:
        """The number of the load in which the cycle lies, or behind which it comes."""
        return bisect_right(self.starts, cycle)


def _judge(program: str) -> None:
    """Refuses a saved program that the program refuses: behind one that it takes it refuses a plan without rows."""
    status, output = tester.run(["lot", program, os.devnull])
    if not output.startswith(b"refused plan "):
        from stilfloor.sentences import refusal

        raise refusal(output.decode("latin-1"), status, program)


def bytes_of(program: str) -> bytes:
    """The saved form of a program: of a STIL text as `stil save` writes it, of a saved program itself."""
    try:
        with open(program, "rb") as stream:
            data = stream.read()
    except OSError as error:
        raise Fault(UNREADABLE, f"{error.strerror}", program) from error
    if data[:4] == MAGIC:
        _judge(program)
        return data
    status, output = tester.run(["save", program])
    if status:
        from stilfloor.sentences import refusal

        raise refusal(output.decode("latin-1"), status, program)
    return output


def code_of(program: str) -> Code:
    """The code of a program, which is a STIL text or a saved program."""
    try:
        return load(bytes_of(program))
    except (IndexError, ValueError) as error:
        raise Fault(TOOL, f"what the program saved can't be read: {error}", program) from error
