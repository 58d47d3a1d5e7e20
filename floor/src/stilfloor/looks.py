"""Where looks are written in a STIL text, and which cycles each of them stands for.

The second is found by the program alone: the text is compiled with the looks written otherwise, in as many turns as the number of
looks has binary digits, and the cells of the cycles whose character changes tell the number of their look.
"""

import os
import tempfile
from collections.abc import Iterator
from dataclasses import dataclass, field

import numpy

from stilfloor import saved, tester
from stilfloor.faults import REFUSED, Fault
from stilfloor.outline import Statement, data_of, outline
from stilfloor.sentences import refusal

BODIES = {"V": "V", "Vector": "V", "C": "C", "Condition": "C", "Call": "Call", "Macro": "Macro"}
INSIDE = ("Loop", "Shift")
MOST_CELLS = 1 << 20


@dataclass(slots=True)
class Cell:
    """Cycles of a try, from `start` on, in which a signal has the character of a look; `table` is that of these cycles."""

    start: int
    times: int
    signal: int
    table: int


@dataclass(slots=True)
class Look:
    """A character in the data of a pattern: its place in the text, its line, and what stands around it.

    `around` is empty for a Pattern's own V and the arguments of its Call and Macro, and says otherwise where the look is.
    """

    place: int
    line: int
    letter: str
    around: str
    cells: list[Cell] = field(default_factory=list)


def written(text: str, letters: str) -> list[Look]:
    """The looks of these letters that are written in the data of patterns, macros and procedures, in text order."""
    found: list[Look] = []
    for statement in outline(text):
        if statement.keyword == "Pattern":
            found.extend(_in_body(statement.block or [], letters, ""))
        elif statement.keyword in ("MacroDefs", "Procedures"):
            for body in statement.block or []:
                kind = "macro" if statement.keyword == "MacroDefs" else "procedure"
                found.extend(_in_body(body.block or [], letters, f"the {kind} `{body.keyword}`"))
    return sorted(found, key=lambda look: look.place)


def _in_body(statements: list[Statement], letters: str, around: str) -> Iterator[Look]:
    for statement in statements:
        kind = BODIES.get(statement.keyword)
        if kind:
            inside = around or ("a C, which the vectors behind it keep" if kind == "C" else "")
            for assignment in statement.block or []:
                yield from _in_data(assignment, letters, inside)
        elif statement.keyword in INSIDE:
            yield from _in_body(statement.block or [], letters, around or f"a {statement.keyword}")


def _in_data(assignment: Statement, letters: str, around: str) -> Iterator[Look]:
    data = data_of(assignment)
    for number, token in enumerate(data):
        repeats = number > 0 and data[number - 1].text == "\\"
        if token.kind == "word" and not repeats:
            for place, letter in enumerate(token.text):
                if letter in letters:
                    yield Look(token.start + place, token.line, letter, around)


def spelled_out(text: str, letter: str) -> str:
    """The text with each repeat of this letter, as `\\r4 L`, written out, so that each character can be edited."""
    edits: list[tuple[int, int, str]] = []

    def walk(statements: list[Statement]) -> None:
        for statement in statements:
            data = data_of(statement)
            for number in range(2, len(data)):
                sign, count, unit = data[number - 2 : number + 1]
                if sign.text == "\\" and unit.text == letter and count.text[:1] == "r" and count.text[1:].isdigit():
                    edits.append((sign.start, unit.start + 1, letter * int(count.text[1:])))
            walk(statement.block or [])

    walk([statement for statement in outline(text) if statement.keyword == "Pattern"])
    for start, end, instead in sorted(edits, reverse=True):
        text = text[:start] + instead + text[end:]
    return text


def replaced(text: str, letters: dict[int, str]) -> str:
    """The text with other characters at these places."""
    characters = list(text)
    for place, letter in letters.items():
        characters[place] = letter
    return "".join(characters)


def compiled(text: str, file: str) -> saved.Code:
    """The code of a text, which stands in a file of its own; refusals are told of `file`."""
    with tempfile.TemporaryDirectory() as room:
        path = os.path.join(room, "program.stil")
        with open(path, "w", encoding="latin-1", newline="") as out:
            out.write(text)
        status, output = tester.run(["save", path])
    if status:
        raise refusal(output.decode("latin-1"), status, file)
    return saved.load(output)


@dataclass(slots=True)
class Listing:
    """The steps of a program as arrays: where they start in the try, how long they are, their tables and rows of characters."""

    starts: numpy.ndarray
    ends: numpy.ndarray
    tables: numpy.ndarray
    numbers: numpy.ndarray
    rows: numpy.ndarray


def _listed(code: saved.Code) -> Listing:
    steps: list[tuple[int, int, int, int]] = []
    offset = 0
    for executive in code.executives:
        steps.extend((offset + step.start, step.times, step.table, step.row) for step in saved.steps(executive))
        offset += executive.cycles
    columns = numpy.array(steps, dtype=numpy.int64).reshape(-1, 4)
    rows = numpy.frombuffer(b"".join(code.rows), dtype=numpy.uint8).reshape(len(code.rows), len(code.signals))
    return Listing(columns[:, 0], columns[:, 0] + columns[:, 1], columns[:, 2], columns[:, 3], rows)


def trace(text: str, file: str, looks: list[Look], instead: dict[str, str]) -> saved.Code:
    """Finds the cells of each look, and answers the code of the text.

    `instead` says for each letter which other one is written in its place to find it; it must have a wave wherever the letter has.
    """
    code = compiled(text, file)
    base = _listed(code)
    turns = [base]
    for digit in range(len(looks).bit_length()):
        chosen = [look for number, look in enumerate(looks, 1) if number >> digit & 1]
        turns.append(_listed(compiled(replaced(text, {look.place: instead[look.letter] for look in chosen}), file)))
    if len(base.starts) and looks:
        _put_cells(turns, looks)
    return code


def _put_cells(turns: list[Listing], looks: list[Look]) -> None:
    """Compares the turns with the first one, some thousand steps at a time, and hands each cell that changes to its look."""
    base = turns[0]
    starts = numpy.unique(numpy.concatenate([turn.starts for turn in turns]))
    ends = numpy.append(starts[1:], base.ends[-1])
    for front in range(0, len(starts), 4096):
        some = starts[front : front + 4096]
        found = [numpy.searchsorted(turn.starts, some, side="right") - 1 for turn in turns]
        own = base.rows[base.numbers[found[0]]]
        codes = numpy.zeros(own.shape, dtype=numpy.int64)
        for digit, turn in enumerate(turns[1:]):
            codes |= (turn.rows[turn.numbers[found[digit + 1]]] != own).astype(numpy.int64) << digit
        tables = base.tables[found[0]]
        for step, signal in zip(*numpy.nonzero(codes)):
            number = int(codes[step, signal])
            if number > len(looks):
                raise Fault(REFUSED, "looks stand for each other in this text, and can't be told apart")
            times = int(ends[front + step] - some[step])
            looks[number - 1].cells.append(Cell(int(some[step]), times, int(signal), int(tables[step])))
